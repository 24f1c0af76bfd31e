/* The parts of gw_tell, each for some refusals: what is wrong goes into `text`, the names concerned into `detail`. */
#ifndef TELL_H
#define TELL_H

#include "pair.h"
#include "refusal.h"

struct telling {
    const struct gw_given *given;
    const uint32_t *report;
    struct gw_told *told;
    struct text table, document, variables;
    struct out text, detail;
};

/* 7, and 8 of a table, at told->offset. */
void tell_framing(struct telling *t);
void tell_table_count(struct telling *t);

/* 9 */
void tell_schema(struct telling *t);

/* The table's field that a 9 is about, as near as it can be told. */
struct piece schema_piece(const struct text *table, const uint32_t *report);

/* 10, with the document's rows. */
void tell_query(struct telling *t, const struct pair *p);

/* 11, 12 and 16, with the document's rows. */
void tell_value(struct telling *t, const struct pair *p);
void tell_no_operation(struct telling *t, const struct pair *p);

/* 14 */
void tell_walk(struct telling *t);

/* What could stand where a 4 is. */
void tell_expected(struct telling *t);

/* Puts line and column of an offset of the document or the variables text into what is told; and a row's offset. */
void tell_offset(struct telling *t, const struct text *text, size_t offset);
void tell_row(struct telling *t, const struct pair *p, uint32_t row);

/* "a" or "an", as a word needs it. */
const char *article(const char *word);

/* A row's kind in words. */
const char *kind_words(uint32_t kind);

/* "query", "mutation" or "subscription", of an operation's extra. */
const char *operation_words(uint32_t extra);

/* "query A", or "the query at 1:1" where it has no name; the line and column of a row, "1:1". */
void say_operation(struct out *o, const struct pair *p, uint32_t row);
void say_place(struct out *o, const struct pair *p, uint32_t row);

#endif
