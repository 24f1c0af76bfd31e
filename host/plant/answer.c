/* What a plant answers for a field. */
#include "answer.h"

#include <stdarg.h>
#include <stdio.h>
#include <stdlib.h>

struct answer answer_null(void) {
    return (struct answer){.kind = ANSWER_NULL};
}

struct answer answer_number(int64_t number) {
    return (struct answer){.kind = ANSWER_NUMBER, .number = number};
}

struct answer answer_real(double real) {
    return (struct answer){.kind = ANSWER_REAL, .real = real};
}

struct answer answer_truth(int truth) {
    return (struct answer){.kind = ANSWER_TRUTH, .number = truth != 0};
}

struct answer answer_thing(struct thing thing) {
    return (struct answer){.kind = ANSWER_THING, .thing = thing};
}

struct answer answer_text(const char *text) {
    struct answer a = {.kind = ANSWER_TEXT};
    snprintf(a.text, sizeof a.text, "%s", text);
    return a;
}

struct answer answer_trouble(const char *format, ...) {
    struct answer a = {.kind = ANSWER_TROUBLE};
    va_list words;
    va_start(words, format);
    vsnprintf(a.text, sizeof a.text, format, words);
    va_end(words);
    return a;
}

struct answer answer_list(size_t most) {
    struct answer *items = calloc(most ? most : 1, sizeof *items);
    return items ? (struct answer){.kind = ANSWER_LIST, .items = items} : answer_trouble("there is no memory for a list of %zu", most);
}

void add_item(struct answer *list, struct answer item) {
    if (list->kind == ANSWER_LIST)
        list->items[list->count++] = item;
}

void drop_answer(struct answer *answer) {
    for (size_t i = 0; i < answer->count; i++)
        drop_answer(&answer->items[i]);
    free(answer->items);
    *answer = answer_null();
}
