/* The variables of a walk from coerced variables, to copy: walk_variables.h and .c, value.h and .c and gateway.h are all that it takes.

     gw_check(.., rows, ..)                                     the rows of the document
     gw_coerce_variables(.., bytes, .., report, ..)             the coerced variables
     uint8_t variables[GW_VARIABLES_SIZE];
     walk_variables(document, rows, count, operation, whole_value(bytes, report[1]), variables);
     gw_walk(.., variables, GW_VARIABLES_SIZE, ..) */
#ifndef WALK_VARIABLES_H
#define WALK_VARIABLES_H

#include "gateway.h"
#include "value.h"

/* Writes the bytes that gw_walk takes: of variable number v, in the order of the definitions of the operation at a row, byte v is 1 if its
   coerced value is the boolean true, else 0; so are all that are left. */
void walk_variables(const uint8_t *document, const uint32_t *rows, uint32_t count, uint32_t operation, struct value coerced,
                    uint8_t variables[GW_VARIABLES_SIZE]);

#endif
