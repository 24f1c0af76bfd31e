/* The rows of a variables text that the library has accepted, for messages. */
#ifndef VARIABLES_H
#define VARIABLES_H

#include "text.h"

/* Writes the rows, as gw_parse would for a document, into GW_ROWS_SIZE numbers and returns how many there are. */
uint32_t read_variables(const struct text *text, uint32_t *rows);

#endif
