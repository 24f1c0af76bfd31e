/* A small reader of coerced values, to copy: value.h, value.c and gateway.h are all that it takes.

     struct value all = whole_value(bytes, report[1]);
     printf("%d\n", value_number(entry_named(all, "no")));
     for (struct value e = first_in(all); e.tag; e = next_in(all, e))
         printf("%.*s\n", (int)entry_name(e).length, (const char *)entry_name(e).bytes);

   What is cut short is none: whatever the bytes are, nothing beside them is read. */
#ifndef VALUE_H
#define VALUE_H

#include <stddef.h>
#include <stdint.h>

/* A field: its tag (GW_VALUE_.., GW_TAG_NAME) and its content; tag 0 for none. */
struct value {
    int tag;
    const uint8_t *bytes;
    size_t length;
};

/* The value that a call left, of report[1] bytes. */
struct value whole_value(const uint8_t *bytes, size_t length);

/* The items of a list, the entries of an object: the first one, and the next one behind another. */
struct value first_in(struct value holder);
struct value next_in(struct value holder, struct value behind);
size_t count_in(struct value holder);

/* An entry's name and value, and the value of an object's entry with this name. */
struct value entry_name(struct value entry);
struct value entry_value(struct value entry);
struct value entry_named(struct value object, const char *name);

/* An Int as a number; whether a boolean is true. 0 of anything else. */
int32_t value_number(struct value v);
int value_truth(struct value v);

#endif
