/* How the host shows a coerced value. */
#ifndef SHOW_VALUE_H
#define SHOW_VALUE_H

#include <stddef.h>
#include <stdint.h>

/* The value as a tree, a line each, with its types. */
void show_value(const uint8_t *bytes, size_t length);

/* The value as JSON: an enum value as a string, a scalar of the table's own as its token is. */
void json_value(const uint8_t *bytes, size_t length);

#endif
