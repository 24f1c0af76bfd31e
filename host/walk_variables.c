/* The variables of a walk from coerced variables. Entries stand in the order of the definitions, and a definition may lack its entry, so one
   pass over both is enough. */
#include "walk_variables.h"

#include <string.h>

static int is_called(struct value entry, const uint8_t *document, const uint32_t *definition) {
    struct value name = entry_name(entry);
    return name.tag && name.length == definition[GW_ROW_NAME_LENGTH] &&
           memcmp(name.bytes, document + definition[GW_ROW_NAME_START], name.length) == 0;
}

void walk_variables(const uint8_t *document, const uint32_t *rows, uint32_t count, uint32_t operation, struct value coerced,
                    uint8_t variables[GW_VARIABLES_SIZE]) {
    struct value entry = first_in(coerced);
    uint32_t number = 0;
    memset(variables, 0, GW_VARIABLES_SIZE);
    for (uint32_t i = operation + 1; i < count && number < GW_VARIABLES_SIZE; i++) {
        const uint32_t *row = rows + GW_ROW_SIZE * i;
        if (row[GW_ROW_KIND] != GW_KIND_VARIABLE_DEFINITION || row[GW_ROW_PARENT] != operation)
            continue;
        if (is_called(entry, document, row)) {
            variables[number] = (uint8_t)value_truth(entry_value(entry));
            entry = next_in(coerced, entry);
        }
        number++;
    }
}
