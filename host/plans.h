/* The names that belong to a plan, and plans as bytes in a fixed order, so that one that was made on one machine can be walked on another.

   A saved plan has
     eight bytes that begin no document: 137 and "GWPLAN", then 1
     the counts of blocks and steps, the first step of each block, three numbers of each step
     the count of variables; of each its name
     the count of fields; of each its row, its block (0 for none), its response key and its name
   Numbers have four bytes, the high one first; names have two length bytes, the high one first, and their bytes. */
#ifndef PLANS_H
#define PLANS_H

#include "pair.h"

/* More bytes than a saved plan has. */
enum { MOST_SAVED = 192 * 1024 };

/* What the numbers of a plan mean. A row that is no field of the plan has no key. */
struct plan_names {
    struct words variables[GW_MOST_VARIABLES];
    uint32_t variable_count;
    struct field_names {
        struct words key, name;
        uint32_t block;
    } fields[GW_MOST_ROWS];
};

/* The numbers of a plan's step; a block's first step, and the one past its last. */
const uint32_t *step_at(const uint32_t *plan, uint32_t step);
uint32_t first_step(const uint32_t *plan, uint32_t block);
uint32_t past_steps(const uint32_t *plan, uint32_t block);

/* The operation of a name, or the only one for no name; NO_ROW for none. */
uint32_t operation_row(const struct pair *p, struct words name);

/* The rows of the blocks of an operation: the operation's own, then each field with selections that it reaches. Returns how many. */
uint32_t block_rows(const struct pair *p, uint32_t operation, uint32_t rows[GW_MOST_BLOCKS]);

/* The names that an operation of a document has. */
void names_of(const struct pair *p, uint32_t operation, struct plan_names *names);

/* A field's response key. */
struct words key_at(const struct pair *p, uint32_t row);

/* Writes a plan and its names; returns how many bytes. The room has MOST_SAVED. */
size_t save_plan(const uint32_t *plan, const struct plan_names *names, uint8_t *room);

/* Whether some bytes are a saved plan's. */
int is_saved_plan(const struct text *t);

/* Reads a plan into GW_PLAN_SIZE numbers, and its names; 0 if it is cut short or has too much. Counts that are too large are kept, for
   the library to refuse. */
int load_plan(const struct text *t, uint32_t *plan, struct plan_names *names);

#endif
