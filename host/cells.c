/* A text cut into cells. Good UTF-8 is shown as it is; controls, marks that turn the direction of writing, and bad
   bytes are shown by number. */
#include "cells.h"

#include <stdio.h>
#include <string.h>

struct range {
    uint32_t first, last;
};

static int in_ranges(uint32_t c, const struct range *ranges, size_t count) {
    for (size_t i = 0; i < count; i++)
        if (c >= ranges[i].first && c <= ranges[i].last)
            return 1;
    return 0;
}

#define IN(c, ranges) in_ranges(c, ranges, sizeof(ranges) / sizeof *(ranges))

/* shown by number */
static const struct range hidden[] = {{0x00, 0x1F}, {0x7F, 0x9F}, {0x200B, 0x200F}, {0x2028, 0x202E}, {0x2060, 0x206F},
                                      {0xE000, 0xF8FF}, {0xFEFF, 0xFEFF}, {0xFFF0, 0xFFFF}, {0xE0000, 0x10FFFF}};
/* two columns wide (the common ones) */
static const struct range wide[] = {{0x1100, 0x115F}, {0x2E80, 0xA4CF}, {0xAC00, 0xD7A3}, {0xF900, 0xFAFF},
                                    {0xFE30, 0xFE6F}, {0xFF00, 0xFF60}, {0xFFE0, 0xFFE6}, {0x1F300, 0x1FAFF}, {0x20000, 0x3FFFF}};
/* written over the character before */
static const struct range combining[] = {{0x0300, 0x036F}, {0x1AB0, 0x1AFF}, {0x1DC0, 0x1DFF}, {0x20D0, 0x20FF}, {0xFE00, 0xFE0F}, {0xFE20, 0xFE2F}};

/* The bytes of the character at the beginning, 0 if it is no good UTF-8; its number in *c. */
static size_t character(const uint8_t *s, size_t length, uint32_t *c) {
    static const uint32_t least[] = {0, 0, 0x80, 0x800, 0x10000};
    size_t n = s[0] < 0x80 ? 1 : s[0] < 0xC0 ? 0 : s[0] < 0xE0 ? 2 : s[0] < 0xF0 ? 3 : s[0] < 0xF8 ? 4 : 0;
    if (n == 0 || n > length)
        return 0;
    *c = n == 1 ? s[0] : s[0] & (0x7Fu >> n);
    for (size_t i = 1; i < n; i++) {
        if ((s[i] & 0xC0) != 0x80)
            return 0;
        *c = *c << 6 | (s[i] & 0x3F);
    }
    int surrogate = *c >= 0xD800 && *c <= 0xDFFF;
    return *c < least[n] || surrogate || *c > 0x10FFFF ? 0 : n;
}

struct cell cell_at(const uint8_t *bytes, size_t length, size_t at, int column) {
    struct cell cell = {1, 0, ""};
    uint32_t c = 0;
    size_t n = character(bytes + at, length - at, &c);
    if (bytes[at] == '\t') {
        cell.width = TAB_STOP - column % TAB_STOP;
        return cell;
    }
    if (n == 0 || IN(c, hidden)) {
        cell.width = snprintf(cell.shown, sizeof cell.shown, n > 1 ? "<U+%04X>" : "<%02X>", n > 1 ? (unsigned)c : (unsigned)bytes[at]);
        cell.bytes = n ? n : 1;
        return cell;
    }
    memcpy(cell.shown, bytes + at, n);
    cell.bytes = n;
    cell.width = IN(c, combining) ? 0 : IN(c, wide) ? 2 : 1;
    return cell;
}

size_t character_at(const uint8_t *bytes, size_t length, size_t at) {
    uint32_t c;
    return character(bytes + at, length - at, &c);
}
