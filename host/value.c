/* A small reader of coerced values. */
#include "value.h"

#include "gateway.h"

#include <string.h>

enum { HEAD = 3 }; /* the tag byte and two length bytes */

static const struct value none;

/* The field at `at` of some bytes. */
static struct value field_in(const uint8_t *bytes, size_t length, size_t at) {
    if (at > length || length - at < HEAD)
        return none;
    size_t content = (size_t)bytes[at + 1] * 256 + bytes[at + 2];
    return content <= length - at - HEAD ? (struct value){bytes[at], bytes + at + HEAD, content} : none;
}

struct value whole_value(const uint8_t *bytes, size_t length) {
    return field_in(bytes, length, 0);
}

static int holds_fields(int tag) {
    return tag >= GW_VALUE_LIST && tag <= GW_VALUE_ENTRY;
}

struct value first_in(struct value holder) {
    return holds_fields(holder.tag) ? field_in(holder.bytes, holder.length, 0) : none;
}

struct value next_in(struct value holder, struct value behind) {
    return field_in(holder.bytes, holder.length, (size_t)(behind.bytes + behind.length - holder.bytes));
}

size_t count_in(struct value holder) {
    size_t count = 0;
    for (struct value v = first_in(holder); v.tag; v = next_in(holder, v))
        count++;
    return count;
}

struct value entry_name(struct value entry) {
    return entry.tag == GW_VALUE_ENTRY ? first_in(entry) : none;
}

struct value entry_value(struct value entry) {
    struct value name = entry_name(entry);
    return name.tag ? next_in(entry, name) : none;
}

struct value entry_named(struct value object, const char *name) {
    for (struct value e = first_in(object); e.tag; e = next_in(object, e)) {
        struct value own = entry_name(e);
        if (own.tag && own.length == strlen(name) && memcmp(own.bytes, name, own.length) == 0)
            return entry_value(e);
    }
    return none;
}

int32_t value_number(struct value v) {
    if (v.tag != GW_VALUE_INT || v.length != 4)
        return 0;
    uint32_t bits = (uint32_t)v.bytes[0] << 24 | (uint32_t)v.bytes[1] << 16 | (uint32_t)v.bytes[2] << 8 | v.bytes[3];
    return bits <= INT32_MAX ? (int32_t)bits : -1 - (int32_t)(UINT32_MAX - bits);
}

int value_truth(struct value v) {
    return v.tag == GW_VALUE_BOOLEAN && v.length == 1 && v.bytes[0] == 1;
}
