/* The tokens of a text that is to be changed: words, strings, runs of dots and single marks, roughly the draft's. */
#ifndef TOKENS_H
#define TOKENS_H

#include "random.h"

enum { MOST_TOKENS = 4000, MOST_COPIED = 600 };

struct token {
    uint32_t at, past;
};

/* Those of the text that find_tokens was last given. */
extern struct token tokens[MOST_TOKENS];
extern uint32_t token_count;

void find_tokens(const struct text *t);

uint8_t first_byte(const struct text *t, uint32_t token);
int is_token(const struct text *t, uint32_t i, const char *word);
int is_word(uint8_t b);
int opens(uint8_t b);
int closes(uint8_t b);

/* One past the group that token i begins: itself, or up to the mark that closes it. */
uint32_t group_past(const struct text *t, uint32_t i);

/* A token by chance; a word, where a few tries find one; one that is this word, token_count for none. */
uint32_t any_token(void);
uint32_t any_word(const struct text *t);
uint32_t any_like(const struct text *t, const char *word);

/* A token or a group of them, of at most MOST_COPIED bytes: from the first byte to one past the last. */
struct token any_group(const struct text *t);

/* Puts bytes with a blank on both sides in the place of those from `from` to `to`. Nothing where there is no room. */
void replace(struct text *t, size_t from, size_t to, const void *with, size_t n);

#endif
