/* Text put together piece by piece. */
#include "say.h"

#include "cells.h"

#include <stdarg.h>
#include <stdio.h>
#include <string.h>

/* A chunk is taken whole or not at all, so that no character is cut. */
static void take(struct out *o, const char *text, size_t length) {
    if (o->put) {
        o->put(text, length);
        return;
    }
    o->full |= length >= o->size - o->length;
    if (o->full)
        return;
    memcpy(o->room + o->length, text, length);
    o->length += length;
    o->room[o->length] = 0;
}

void say(struct out *o, const char *format, ...) {
    char chunk[256];
    va_list more;
    va_start(more, format);
    int length = vsnprintf(chunk, sizeof chunk, format, more);
    va_end(more);
    if (length > 0)
        take(o, chunk, (size_t)length < sizeof chunk ? (size_t)length : sizeof chunk - 1);
}

void say_bytes(struct out *o, struct words w) {
    take(o, (const char *)w.bytes, w.length);
}

void say_piece(struct out *o, const uint8_t *bytes, size_t length, int most) {
    int column = 0;
    for (size_t at = 0; at < length;) {
        struct cell cell = cell_at(bytes, length, at, column);
        if (column + cell.width > most) {
            take(o, "...", 3);
            return;
        }
        if (cell.shown[0])
            take(o, cell.shown, strlen(cell.shown));
        else
            say(o, "%*s", cell.width, "");
        column += cell.width;
        at += cell.bytes;
    }
}

void say_words(struct out *o, struct words w) {
    say_piece(o, w.bytes, w.length, NAME_COLUMNS);
    if (!o->names || o->name_count == o->most_names)
        return;
    struct out name = {.room = o->names[o->name_count++], .size = NAME_ROOM};
    name.room[0] = 0;
    say_piece(&name, w.bytes, w.length, NAME_COLUMNS);
}
