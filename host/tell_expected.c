/* What could stand where a text cannot go on: the text is cut there, a token is put behind it, and the library is asked whether the
   text can go on with that. So no grammar is told here. */
#include "tell.h"

#include <string.h>

struct trial {
    struct telling *t;
    const struct text *text;
    size_t cut;
};

/* The offset at which the library refuses a text; SIZE_MAX where it does not. */
static size_t refused_at(struct trial *r, size_t length) {
    struct gw_told *told = r->t->told;
    const struct gw_given *g = r->t->given;
    uint32_t report[GW_REPORT_SIZE];
    if (told->input == GW_INPUT_DOCUMENT) {
        gw_parse(told->tried, length, told->rows, GW_ROWS_SIZE, report, GW_REPORT_SIZE);
        return report[0] == GW_ACCEPTED ? SIZE_MAX : report[1];
    }
    gw_coerce_variables(g->table, g->table_len, g->document, g->document_len, g->operation, g->operation_len, told->tried, length, told->value,
                        GW_MOST_COERCED, report, GW_REPORT_SIZE);
    return report[0] >= GW_REFUSE_NO_TOKEN && report[0] <= GW_REFUSE_TOO_MANY_ROWS ? report[1] : SIZE_MAX;
}

/* Whether the text can go on with some tokens. They stand on a line of their own: a comment may come before. */
static int can(struct trial *r, const char *tokens) {
    size_t length = strlen(tokens), from = r->cut + 1;
    if (from + length > GW_MOST_TEXT)
        return 0;
    r->t->told->tried[r->cut] = '\n';
    memcpy(r->t->told->tried + from, tokens, length);
    return refused_at(r, from + length) >= from + length;
}

static void expect(struct trial *r, int can_be, const char *words) {
    struct gw_told *told = r->t->told;
    if (can_be && told->expected_count < GW_TOLD_EXPECTED)
        told->expected[told->expected_count++] = words;
}

/* What a name would be here. */
static const char *name_words(struct trial *r, int selection) {
    if (selection)
        return "a field";
    if (can(r, "["))
        return "a type";
    if (can(r, "x:1)"))
        return "an argument";
    return can(r, "x:1}") ? "an object field" : "a name";
}

void tell_expected(struct telling *t) {
    static const char *const keywords[] = {"query", "mutation", "subscription", "fragment", "on"};
    static const char *const marks[] = {"!", "(", ")", "...", ":", "=", "@", "[", "]", "{", "}"};
    struct trial r = {t, t->told->input == GW_INPUT_VARIABLES ? &t->variables : &t->document, t->told->offset};
    if (r.cut >= GW_MOST_TEXT)
        return;
    if (r.cut)
        memcpy(t->told->tried, r.text->bytes, r.cut);
    int selection = can(&r, "..."), value = can(&r, "1"), name = can(&r, "x"), type = name && !value && can(&r, "[");
    expect(&r, value, "a value");
    expect(&r, can(&r, "$"), "a variable");
    if (name && !value)
        expect(&r, 1, name_words(&r, selection));
    for (size_t i = 0; i < sizeof keywords / sizeof *keywords; i++)
        expect(&r, !name && can(&r, keywords[i]), keywords[i]);
    expect(&r, name && !selection && !value && can(&r, "{") && can(&r, "on x {"), "on");
    for (size_t i = 0; i < sizeof marks / sizeof *marks; i++) {
        int told = (value || type) && (marks[i][0] == '[' || (value && marks[i][0] == '{')); /* a value or type says it */
        expect(&r, !told && can(&r, marks[i]), marks[i]);
    }
    expect(&r, refused_at(&r, r.cut) == SIZE_MAX, "the end of the text");
}
