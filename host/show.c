/* How the host shows a text, its rows and a refusal to people. */
#include "show.h"

#include "cells.h"
#include "tell.h"

#include <inttypes.h>
#include <stdio.h>
#include <string.h>

enum {
    PIECE = 48,  /* columns of a value's text */
    BEFORE = 60, /* columns of a line shown before the caret */
    AFTER = 40,  /* and from it on */
    DUMPED = 16  /* bytes shown at a wrong offset of a table */
};

static void to_screen(const char *text, size_t length) {
    fwrite(text, 1, length, stdout);
}

struct out screen = {.put = to_screen};

void show_number(uint32_t count, const char *what) {
    printf("%" PRIu32 " %s%s", count, what, count == 1 ? "" : "s");
}

/* ---- rows */

static int depth_of(const uint32_t *rows, uint32_t i) {
    int depth = 0;
    while (rows[GW_ROW_SIZE * i + GW_ROW_PARENT] != GW_NO_PARENT) {
        i = rows[GW_ROW_SIZE * i + GW_ROW_PARENT];
        depth++;
    }
    return depth;
}

/* The response key, where it is an alias. */
static void show_alias(const struct text *text, const uint32_t *row) {
    size_t start = row[GW_ROW_START], end = start;
    if (row[GW_ROW_NAME_START] == start)
        return;
    while (end < row[GW_ROW_END] && is_name_byte(text->bytes[end]))
        end++;
    printf(", as ");
    say_piece(&screen, text->bytes + start, end - start, PIECE);
}

/* The wrappers in words, from outside in. */
static void show_wrappers(uint32_t extra) {
    if (extra)
        printf(" (extra %" PRIu32 ":", extra);
    for (uint32_t left = extra; left; left >>= 2)
        printf(" %s%s", (left & 3) == GW_WRAP_LIST ? "list" : "Non-Null", left >> 2 ? "," : ")");
}

static void show_extra(const struct text *text, const uint32_t *row) {
    uint32_t extra = row[GW_ROW_EXTRA];
    switch (row[GW_ROW_KIND]) {
    case GW_KIND_OPERATION: printf(", %s (extra %" PRIu32 ")", operation_words(extra), extra); break;
    case GW_KIND_BOOLEAN: printf(" (extra %" PRIu32 ")", extra); break;
    case GW_KIND_TYPE_REFERENCE: show_wrappers(extra); break;
    case GW_KIND_FIELD: show_alias(text, row);
    }
}

static void show_row(const struct text *text, const uint32_t *row, int depth) {
    uint32_t kind = row[GW_ROW_KIND];
    printf("%*s%s", 2 * depth, "", kind_words(kind));
    if (row[GW_ROW_NAME_LENGTH]) {
        putchar(' ');
        say_piece(&screen, text->bytes + row[GW_ROW_NAME_START], row[GW_ROW_NAME_LENGTH], PIECE);
    } else if (kind >= GW_KIND_INTEGER && kind <= GW_KIND_BOOLEAN) {
        putchar(' ');
        say_piece(&screen, text->bytes + row[GW_ROW_START], row[GW_ROW_END] - row[GW_ROW_START], PIECE);
    }
    show_extra(text, row);
    putchar('\n');
}

void show_rows(const struct text *text, const uint32_t *rows, uint32_t count) {
    size_t at;
    struct place place = first_place(text, &at);
    printf(" row  line:col  bytes        what\n");
    for (uint32_t i = 0; i < count; i++) {
        const uint32_t *row = rows + GW_ROW_SIZE * i;
        go_to(text, &at, &place, row[GW_ROW_START]);
        char bytes[24];
        snprintf(bytes, sizeof bytes, "%" PRIu32 "-%" PRIu32, row[GW_ROW_START], row[GW_ROW_END]);
        printf("%4" PRIu32 "  %4" PRIu32 ":%-4" PRIu32 " %-11s  ", i, place.line, place.column, bytes);
        show_row(text, row, depth_of(rows, i));
    }
    printf("%s: accepted, %" PRIu32 " rows\n", text->called, count);
}

/* ---- a line with a caret */

/* Where the part of the line begins that is shown, so that the caret is not too far to the right. */
static size_t shown_from(const struct text *text, size_t start, size_t offset) {
    int width = 0;
    for (size_t at = start; at < offset; at += cell_at(text->bytes, text->length, at, 0).bytes)
        width += cell_at(text->bytes, text->length, at, width).width;
    while (width > BEFORE && start < offset) {
        struct cell cell = cell_at(text->bytes, text->length, start, 0);
        width -= cell.width;
        start += cell.bytes;
    }
    return start;
}

/* Prints the line from `start` on and returns the caret's column. */
static int show_line(const struct text *text, size_t start, size_t offset) {
    int column = 0, caret = -1;
    for (size_t at = start; at < text->length && text->bytes[at] != '\n' && text->bytes[at] != '\r';) {
        struct cell cell = cell_at(text->bytes, text->length, at, column);
        if (at >= offset && caret < 0)
            caret = column;
        if (caret >= 0 && column + cell.width > caret + AFTER) {
            printf("...");
            break;
        }
        if (cell.shown[0])
            fputs(cell.shown, stdout);
        else
            printf("%*s", cell.width, "");
        column += cell.width;
        at += cell.bytes;
    }
    putchar('\n');
    return caret < 0 ? column : caret;
}

void show_caret(const struct text *text, size_t offset) {
    offset = told_offset(text, offset);
    struct place place = place_of(text, offset);
    size_t from = shown_from(text, place.line_start, offset);
    const char *dots = from > place.line_start ? "..." : "";
    printf("%5" PRIu32 " | %s", place.line, dots);
    int column = show_line(text, from, offset);
    printf("%5s | %*s^\n", "", column + (*dots ? 3 : 0), "");
}

/* ---- a refusal */

static void show_dump(const struct text *t, size_t offset) {
    size_t shown = t->length - offset < DUMPED ? t->length - offset : DUMPED;
    printf("    %6zu |", offset);
    for (size_t i = 0; i < shown; i++)
        printf(" %02x", t->bytes[offset + i]);
    printf("%*s  ", (int)(3 * (DUMPED - shown)), "");
    for (size_t i = 0; i < shown; i++)
        putchar(t->bytes[offset + i] >= ' ' && t->bytes[offset + i] < 127 ? t->bytes[offset + i] : '.');
    printf("\n");
}

/* "refusal 10, row 5, rule 5: " */
static void show_numbers(const struct gw_told *told) {
    printf("refusal %" PRIu32, told->number);
    if (told->has_row)
        printf(", row %" PRIu32, told->row);
    else if (told->has_offset)
        printf(", byte %zu", told->offset);
    if (told->number == GW_REFUSE_TOO_MANY) /* the only one that a table and a document share */
        printf(" of the %s", gw_input_text(told->input));
    if (told->rule)
        printf(", %s %" PRIu32, told->number == GW_REFUSE_VALUE ? "reason" : "rule", told->rule);
    printf(": ");
}

static void show_definition(const struct gw_told *told) {
    printf("    definition %" PRIu32, told->definition);
    if (told->member != GW_NO_PLACE)
        printf(", member %" PRIu32, told->member);
    if (told->part != GW_NO_PLACE)
        printf(", part %" PRIu32, told->part);
    if (told->argument != GW_NO_PLACE)
        printf(", argument %" PRIu32, told->argument);
    printf("\n");
}

/* Whether it is one of the kinds of things, "a field", and no token itself. */
static int is_kind(const char *expected) {
    return strncmp(expected, "a ", 2) == 0 || strncmp(expected, "an ", 3) == 0 || strncmp(expected, "the ", 4) == 0;
}

/* "    expected a field, "..." or "}"" */
static void show_expected(const struct gw_told *told) {
    for (uint32_t i = 0; i < told->expected_count; i++) {
        const char *before = i == 0 ? "    expected " : i + 1 == told->expected_count ? " or " : ", ";
        const char *quote = is_kind(told->expected[i]) ? "" : "\"";
        printf("%s%s%s%s", before, quote, told->expected[i], quote);
    }
    printf("%s", told->expected_count ? "\n" : "");
}

void show_told(const struct text *of, const struct gw_told *told, const char *hint) {
    printf("%s:", of->called);
    if (told->line)
        printf("%" PRIu32 ":%" PRIu32 ":", told->line, told->column);
    printf(" ");
    show_numbers(told);
    printf("%s\n", told->text);
    if (told->number == GW_REFUSE_SCHEMA)
        show_definition(told);
    if (told->detail[0])
        printf("    %s\n", told->detail);
    show_expected(told);
    if (told->line)
        show_caret(of, told->offset);
    else if (told->has_offset)
        show_dump(of, told->offset);
    if (hint)
        printf("    hint: %s\n", hint);
}
