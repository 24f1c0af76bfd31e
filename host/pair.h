/* A document's rows beside a type table: what is around a row, what is due at its place, which operation reaches it. For messages:
   the library has judged both, and this only looks up. */
#ifndef PAIR_H
#define PAIR_H

#include "gateway.h"
#include "pieces.h"

struct pair {
    const struct text *table, *document;
    const uint32_t *rows;
    uint32_t count;
    const struct pair *of; /* of a variables text, which stands in the document's place: the document, and its operation's row */
    uint32_t operation;
};

enum { NO_ROW = GW_NO_PARENT };

uint32_t column(const struct pair *p, uint32_t row, int which);
uint32_t kind_at(const struct pair *p, uint32_t row);
uint32_t parent_of(const struct pair *p, uint32_t row);
struct words name_at(const struct pair *p, uint32_t row);

/* The next row of a kind in a holder behind a row, which may be the holder; NO_ROW for none. */
uint32_t next_held(const struct pair *p, uint32_t holder, uint32_t behind, uint32_t kind);

/* The first row of a kind in a holder, or among all definitions for NO_ROW, with the name of another one; NO_ROW for none. */
uint32_t first_called(const struct pair *p, uint32_t holder, uint32_t kind, uint32_t like);

/* The record of the object, interface or union around a selection, and a field's definition in it; tag 0 where none is known. */
struct piece around(const struct pair *p, uint32_t row);
struct piece field_at(const struct pair *p, uint32_t row);

/* The first row of a kind in a holder with a name of its own or of another text; NO_ROW for none. */
uint32_t first_named(const struct pair *p, uint32_t holder, uint32_t kind, struct words name);

/* The type of a variable definition, with nothing ignored in it; it stands until the next one is asked for. */
struct words declared_type(const struct pair *p, uint32_t definition);

/* The type due at an argument's, an object field's or a value's place; NULL where none is known. */
struct words due_at(const struct pair *p, uint32_t row);

/* Whether a type reference in the document is the same type but for Non-Null outside. */
int is_type_due(const struct pair *p, uint32_t reference, struct words due);

/* Whether a definition reaches a fragment through spreads; before[f] is then the definition that brought fragment f. */
int reaches(const struct pair *p, uint32_t from, uint32_t to, uint32_t before[GW_MOST_ROWS]);

/* The next operation from a row on that reaches a row; NO_ROW for none. */
uint32_t next_reaching(const struct pair *p, uint32_t from, uint32_t row);

#endif
