/* The errors of a response, and where in it they belong. */
#ifndef RESPONSE_H
#define RESPONSE_H

#include "../pieces.h"

#include <jansson.h>

/* A place in the response: the key of a field or the number of an item, within another place. */
struct path {
    const struct path *within;
    struct words key; /* none for an item */
    size_t item;
};

/* Some text as JSON; bytes that are no UTF-8 become question marks. */
json_t *json_words(const char *bytes, size_t length);

/* An error with its words and, where it belongs to a field, its path; and one more place in the document for it, by its offset or by its
   line and column. */
json_t *new_error(const char *words, const struct path *path);
void add_location(json_t *error, const struct text *document, size_t offset);
void add_line_column(json_t *error, int line, int column);

#endif
