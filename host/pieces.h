/* The house fields of a type table, found and named for messages. The library judges the table; this only reads it. */
#ifndef PIECES_H
#define PIECES_H

#include "say.h"

/* A field: its tag byte's offset, its tag and where its content lies; tag 0 for none. */
struct piece {
    size_t at, start, end;
    int tag;
};

/* The field at `at` in a holder that ends at `end`; none if it is cut short. */
struct piece piece_at(const struct text *t, size_t at, size_t end);

/* The table as what holds the records. */
struct piece whole(const struct text *t);

struct words text_of(const struct text *t, struct piece p);

/* Sorts of fields, by their tags. A member is a field, argument, union member, enum value or root. */
typedef int sort(int tag);
sort is_record, is_type, is_directive, is_member, is_implemented, is_argument, is_name_tag, is_reference_tag;

/* The n-th field of a sort in a holder, from 0; tag 0 for none. */
struct piece nth(const struct text *t, struct piece holder, sort *wanted, uint32_t n);

/* How many fields of a sort stand in a holder before an offset. */
uint32_t count_before(const struct text *t, struct piece holder, sort *wanted, size_t before);

/* The text that names a field: its name's, or its own where it holds nothing but a name. */
struct piece name_of(const struct text *t, struct piece p);

/* The first field of a sort with this name, or with that of another field; tag 0 for none. */
struct piece named(const struct text *t, struct piece holder, sort *wanted, struct words name);
struct piece named_as(const struct text *t, struct piece holder, sort *wanted, struct piece like);

/* The text of the type reference that a field or argument holds, and the base of a type reference. */
struct words reference_of(const struct text *t, struct piece holder);
struct words base_of(struct words reference);

/* The kind of the type that a name means: "an object", "a built-in scalar", "no type". */
const char *meaning_words(const struct text *t, struct words name);

const char *tag_words(int tag);
void say_name(struct out *o, const struct text *t, struct piece p);

/* "object Fan", "argument id": what it is and its name. In an input object 19 is an input field. */
void say_called(struct out *o, const struct text *t, struct piece p, int in);

#endif
