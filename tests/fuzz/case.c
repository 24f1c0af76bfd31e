/* A case of the fuzzer as bytes. */
#include "case.h"

#include "gateway.h"

#include <string.h>

_Static_assert(NUMBERS_MOST == 1 + 2 * BLOCKS_MOST + 2 * GW_PLAN_SIZE, "room for a plan");

static uint16_t two(const uint8_t *bytes) {
    return (uint16_t)(bytes[0] << 8 | bytes[1]);
}

static void put_two(uint8_t *bytes, size_t number) {
    bytes[0] = (uint8_t)(number >> 8);
    bytes[1] = (uint8_t)number;
}

struct fuzz_case cut_case(const uint8_t *bytes, size_t length) {
    struct fuzz_case c = {0};
    uint8_t head[CASE_HEAD] = {0};
    if (length)
        memcpy(head, bytes, length < CASE_HEAD ? length : CASE_HEAD);
    c.what = head[0];
    c.lies = head[1];
    c.number = two(head + 10);
    size_t at = length < CASE_HEAD ? length : CASE_HEAD;
    for (int s = 0; s < SECTIONS; s++) {
        size_t left = length - at, due = s == NUMBERS ? left : two(head + 2 + 2 * s);
        c.sections[s] = (struct section){left ? bytes + at : NULL, due < left ? due : left};
        at += c.sections[s].length;
    }
    return c;
}

size_t join_case(const struct fuzz_case *c, uint8_t *bytes, size_t room) {
    size_t length = CASE_HEAD;
    for (int s = 0; s < SECTIONS; s++)
        length += c->sections[s].length;
    if (length > room)
        return 0;
    bytes[0] = c->what;
    bytes[1] = c->lies;
    put_two(bytes + 10, c->number);
    uint8_t *to = bytes + CASE_HEAD;
    for (int s = 0; s < SECTIONS; s++) {
        struct section from = c->sections[s];
        if (s != NUMBERS)
            put_two(bytes + 2 + 2 * s, from.length);
        if (from.length)
            memcpy(to, from.bytes, from.length);
        to += from.length;
    }
    return length;
}

uint32_t widened(uint16_t number) {
    if (number < 0xFF00)
        return number;
    return (number & 0x80 ? 0xFFFFFF80 : 0x80000000) | (number & 0x7F);
}

uint16_t narrowed(uint32_t number) {
    if (number < 0xFF00)
        return (uint16_t)number;
    return (uint16_t)(0xFF00 | (number >= 0xC0000000 ? 0x80 : 0) | (number & 0x7F));
}

/* The next number of a section, 0 where it has ended. */
static uint32_t next_number(struct section *s) {
    if (s->length < 2)
        return 0;
    uint32_t number = widened(two(s->bytes));
    s->bytes += 2;
    s->length -= 2;
    return number;
}

static uint32_t least(uint32_t a, uint32_t b) {
    return a < b ? a : b;
}

size_t cut_numbers(struct section s, uint32_t *blocks, uint32_t *plan) {
    size_t count = s.length ? s.bytes[0] : 0;
    if (s.length) {
        s.bytes++;
        s.length--;
    }
    for (size_t i = 0; i < count; i++)
        blocks[i] = next_number(&s);
    memset(plan, 0, GW_PLAN_SIZE * sizeof *plan);
    plan[GW_PLAN_BLOCKS] = next_number(&s);
    plan[GW_PLAN_STEPS] = next_number(&s);
    uint32_t firsts = least(plan[GW_PLAN_BLOCKS], GW_MOST_BLOCKS);
    for (uint32_t b = 0; b < firsts; b++)
        plan[GW_PLAN_FIRSTS + b] = next_number(&s);
    for (size_t at = GW_PLAN_STEP_0; at < GW_PLAN_SIZE && s.length >= 2; at++)
        plan[at] = next_number(&s);
    return count;
}

size_t join_numbers(const uint32_t *blocks, size_t count, const uint32_t *plan, uint8_t *bytes) {
    uint8_t *to = bytes;
    *to++ = (uint8_t)count;
    for (size_t i = 0; i < count; i++, to += 2)
        put_two(to, narrowed(blocks[i]));
    size_t end = GW_PLAN_SIZE;
    while (end > GW_PLAN_STEP_0 && plan[end - 1] == 0)
        end--;
    size_t firsts_end = GW_PLAN_FIRSTS + least(plan[GW_PLAN_BLOCKS], GW_MOST_BLOCKS);
    for (size_t at = 0; at < end; at++)
        if (at < firsts_end || at >= GW_PLAN_STEP_0) {
            put_two(to, narrowed(plan[at]));
            to += 2;
        }
    return (size_t)(to - bytes);
}
