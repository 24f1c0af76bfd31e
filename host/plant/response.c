/* The errors of a response. */
#include "response.h"

#include <stdlib.h>
#include <string.h>

json_t *json_words(const char *bytes, size_t length) {
    json_t *text = json_stringn(bytes, length);
    if (text)
        return text;
    char *plain = malloc(length + 1);
    if (!plain)
        return NULL;
    for (size_t i = 0; i < length; i++)
        plain[i] = (unsigned char)bytes[i] < 0x80 ? bytes[i] : '?';
    text = json_stringn(plain, length);
    free(plain);
    return text;
}

/* ---- places in the document */

void add_line_column(json_t *error, int line, int column) {
    json_t *locations = json_object_get(error, "locations");
    if (!locations) {
        locations = json_array();
        json_object_set_new(error, "locations", locations);
    }
    json_array_append_new(locations, json_pack("{s:i, s:i}", "line", line, "column", column));
}

void add_location(json_t *error, const struct text *document, size_t offset) {
    struct place place = place_of(document, offset);
    add_line_column(error, (int)place.line, (int)place.column);
}

/* ---- places in the response */

static void write_path(json_t *array, const struct path *path) {
    if (!path)
        return;
    write_path(array, path->within);
    json_array_append_new(array, path->key.bytes ? json_words((const char *)path->key.bytes, path->key.length) : json_integer((json_int_t)path->item));
}

json_t *new_error(const char *words, const struct path *path) {
    json_t *error = json_object();
    json_object_set_new(error, "message", json_words(words, strlen(words)));
    if (path) {
        json_t *keys = json_array();
        write_path(keys, path);
        json_object_set_new(error, "path", keys);
    }
    return error;
}
