/* How the host shows a text, its rows and a refusal to people. */
#ifndef SHOW_H
#define SHOW_H

#include "host.h"

/* What is said goes to standard output. */
extern struct out screen;

/* The rows of a document, one a line, indented by what holds them. */
void show_rows(const struct text *text, const uint32_t *rows, uint32_t count);

/* The line of an offset with a caret under it. */
void show_caret(const struct text *text, size_t offset);

/* The refusal in words, with the line of the text and a caret under the place, or the bytes of the table; then a hint, or NULL. */
void show_told(const struct text *of, const struct gw_told *told, const char *hint);

/* "1 block", "2 blocks" */
void show_number(uint32_t count, const char *what);

#endif
