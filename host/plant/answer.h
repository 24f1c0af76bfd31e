/* What a plant answers for a field: a value without its type, or words that say why there is none. The execution completes it by the type
   that the table gives the field. */
#ifndef ANSWER_H
#define ANSWER_H

#include "drive.h"
#include "../pieces.h"
#include "../value.h"
#include "gateway.h"

#include <stddef.h>
#include <stdint.h>

/* An object of the plant: the name of its type, and what it is known by. */
struct thing {
    const char *type;
    int drive, step, code; /* the drive's number, a ramp's step, a fault's code, as far as the type has them */
};

enum answer_kind { ANSWER_NULL, ANSWER_NUMBER, ANSWER_REAL, ANSWER_TEXT, ANSWER_TRUTH, ANSWER_THING, ANSWER_LIST, ANSWER_TROUBLE };

struct answer {
    enum answer_kind kind;
    int64_t number; /* also a truth */
    double real;
    char text[TROUBLE_LENGTH]; /* also the words of a trouble */
    struct thing thing;
    struct answer *items; /* of a list; to be freed */
    size_t count;
};

struct answer answer_null(void);
struct answer answer_number(int64_t number);
struct answer answer_real(double real);
struct answer answer_truth(int truth);
struct answer answer_thing(struct thing thing);
struct answer answer_text(const char *text);
struct answer answer_trouble(const char *format, ...) __attribute__((format(printf, 1, 2)));

/* A list with room for some items, none of them there yet; and one more item in it, for which there is room. */
struct answer answer_list(size_t most);
void add_item(struct answer *list, struct answer item);

/* Frees what an answer holds. */
void drop_answer(struct answer *answer);

/* The operation's own object: the thing of a root type. */
struct thing root_thing(const char *type);

/* What the plant answers for a field of a thing, with its coerced arguments. */
struct answer ask_plant(struct plant *plant, struct thing of, struct words field, struct value arguments);

#endif
