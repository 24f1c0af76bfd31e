/* The low part of the reader of types: tokens, what is wrong, and the table as it is written. */
#ifndef TYPES_READER_H
#define TYPES_READER_H

#include "types.h"

struct reader {
    const struct text *text;
    size_t start, end; /* the token at hand; at the end of the text it is empty */
    struct made_table *made;
    struct out *fault;
    size_t wrong;
    int failed, has_schema;
};

/* Goes to the next token. */
void next_token(struct reader *r);

/* The token's bytes; whether it is this word or mark, or a name. From a failure on it is nothing. */
struct words token_words(const struct reader *r);
int is_token(const struct reader *r, const char *word);
int is_name_token(const struct reader *r);

/* Says what is wrong, or that something was expected, unless something was said before. */
void fault_at(struct reader *r, size_t offset, const char *words);
void fault_here(struct reader *r, const char *expected);

/* Goes past a mark, or fails. */
void take_mark(struct reader *r, const char *mark, const char *expected);

/* Writes a byte of the table, made of what stands at `from`. */
void put_byte(struct reader *r, uint8_t byte, size_t from);

/* Begins a field, made of what stands at `from`, and returns where it begins; ends it. */
size_t begin_field(struct reader *r, int tag, size_t from);
void end_field(struct reader *r, size_t at);

/* A field that is a piece of the text; of the name at hand, or fails. */
void put_text(struct reader *r, int tag, struct words w);
void take_name_as(struct reader *r, int tag, const char *expected);

#endif
