/* A text with what it is called, some bytes of one, and places in a text as people count them. */
#ifndef TEXT_H
#define TEXT_H

#include <stddef.h>
#include <stdint.h>

/* A text with what it is called in messages. */
struct text {
    const char *called;
    const uint8_t *bytes;
    size_t length;
};

/* Some bytes, of a table or of a document; NULL for none. */
struct words {
    const uint8_t *bytes;
    size_t length;
};

int same_words(struct words a, struct words b);
int is_word(struct words a, const char *word);

/* Whether a byte can stand in a name: a letter, a digit or _. */
int is_name_byte(uint8_t b);

/* Lines and columns from 1, a column for each character or bad byte. A byte order mark at the beginning has no column. */
struct place {
    uint32_t line, column;
    size_t line_start;
};

/* The place of the text's first character, whose offset is put into *at. */
struct place first_place(const struct text *text, size_t *at);

/* The place of an offset, going on from an earlier one. */
void go_to(const struct text *text, size_t *at, struct place *place, size_t offset);

struct place place_of(const struct text *text, size_t offset);

/* The offset itself, but at the end of the text the one behind what was last written, so that no empty line is told. */
size_t told_offset(const struct text *text, size_t offset);

#endif
