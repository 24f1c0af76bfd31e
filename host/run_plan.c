/* The commands that make and walk plans. */
#include "commands.h"

#include "json.h"
#include "show.h"
#include "show_plan.h"

#include <inttypes.h>
#include <stdio.h>
#include <string.h>

enum { MOST_ASKED = 1000 }; /* blocks on the command line; the library refuses more than 64 */

/* One byte more than a table may have: the library refuses what is longer. A document's place can hold a saved plan. */
static uint8_t table_bytes[GW_MOST_TABLE + 1], source_bytes[MOST_SAVED], saved_bytes[MOST_SAVED];
static uint32_t rows[GW_ROWS_SIZE], plan[GW_PLAN_SIZE], pairs[GW_PAIRS_SIZE];
static struct plan_names names;

static struct words words_of(const char *word) {
    return (struct words){(const uint8_t *)word, word ? strlen(word) : 0};
}

/* ---- plans */

static int read_both(char **words, int json, struct input *table, struct input *source) {
    return read_input(words[0], table_bytes, sizeof table_bytes, json, table) &&
           read_input(words[1], source_bytes, sizeof source_bytes, json, source);
}

/* Plans an operation of a document, with its names; or tells why it cannot be. */
static int make_plan(struct job *job, const char *operation, struct pair *p) {
    uint32_t report[GW_REPORT_SIZE], other[GW_REPORT_SIZE];
    const struct text *table = &job->table->text, *document = &job->document->text;
    struct words name = words_of(operation);
    job->given.operation = name.bytes;
    job->given.operation_len = name.length;
    set_given(job);
    if (gw_plan(table->bytes, table->length, document->bytes, document->length, name.bytes, name.length, plan, GW_PLAN_SIZE, report,
                GW_REPORT_SIZE) != GW_ACCEPTED)
        return refuse(job, report);
    gw_parse(document->bytes, document->length, rows, GW_ROWS_SIZE, other, GW_REPORT_SIZE);
    *p = (struct pair){.table = table, .document = document, .rows = rows, .count = other[1]};
    names_of(p, operation_row(p, name), &names);
    return ACCEPTED;
}

static void json_planned(const struct job *job) {
    json_begin(job->document->text.called, 1);
    json_key("table"), json_text(job->table->text.called);
    json_plan(plan, &names);
    json_finish();
}

static void show_planned(const struct job *job, const struct made_plan *made) {
    show_plan(made);
    printf("%s: planned by %s, ", job->document->text.called, job->table->text.called);
    show_number(plan[GW_PLAN_BLOCKS], "block");
    printf(", ");
    show_number(plan[GW_PLAN_STEPS], "step");
    printf("\n");
}

int run_plan(char **words, const char *usage) {
    const char *operation = NULL, *dot = NULL, *path = NULL, *json = NULL;
    const struct option options[] = {{"--operation", 1, &operation}, {"--dot", 0, &dot}, {"--save", 1, &path}, {"--json", 0, &json}, {NULL, 0, NULL}};
    struct input table, document;
    struct pair p;
    if (!take_options(words, options, 2, 2, usage) || is_standard_twice(words, NULL) || !read_both(words, json != NULL, &table, &document))
        return TROUBLE;
    struct job job = {.table = &table, .document = &document, .json = json != NULL};
    int status = make_plan(&job, operation, &p);
    if (status != ACCEPTED)
        return status;
    if (path && !write_file(path, saved_bytes, save_plan(plan, &names, saved_bytes), job.json))
        return TROUBLE;
    struct made_plan made = {&p, operation_row(&p, words_of(operation)), plan, &names};
    if (json)
        json_planned(&job);
    else if (dot)
        show_dot(&made);
    else
        show_planned(&job, &made);
    return ACCEPTED;
}

/* ---- walks */

/* The next of some words with commas between them; length 0 for none. */
static struct words next_word(const char **list) {
    size_t length = strcspn(*list, ",");
    struct words found = {(const uint8_t *)*list, length};
    *list += length + ((*list)[length] == ',');
    return found;
}

/* The record of a type's name; one that no table has for none. */
static uint32_t record_of(const struct text *table, const char *type) {
    struct piece found = named(table, whole(table), is_type, words_of(type));
    return found.tag ? count_before(table, whole(table), is_record, found.at) : GW_MOST_RECORDS;
}

static int read_blocks(const char *list, uint32_t *blocks, size_t *count) {
    for (*count = 0; *list && *count < MOST_ASKED; ++*count) {
        struct words word = next_word(&list);
        char number[16];
        snprintf(number, sizeof number, "%.*s", (int)word.length, (const char *)word.bytes);
        if (!read_count(number, "block", blocks + *count))
            return 0;
    }
    return 1;
}

static int no_variable(const struct job *job, struct words word) {
    char said[256];
    struct out o = {.room = said, .size = sizeof said};
    say_words(&o, word);
    say(&o, " is no variable of the operation");
    return unusable(job->document->text.called, said, job->json);
}

/* Marks the variables that are named as true. */
static int read_true(const char *list, uint8_t *variables, const struct job *job) {
    while (*list) {
        struct words word = next_word(&list);
        uint32_t i = 0;
        while (i < names.variable_count && !same_words(names.variables[i], word))
            i++;
        if (i == names.variable_count)
            return no_variable(job, word);
        variables[i] = 1;
    }
    return 1;
}

/* Gets the plan: loads it, or makes it of the document. */
static int get_plan(struct job *job, const char *operation) {
    const struct text *source = &job->document->text;
    struct pair p;
    if (!is_saved_plan(source))
        return make_plan(job, operation, &p);
    if (operation) {
        unusable(source->called, "a saved plan is of one operation only", job->json);
        return TROUBLE;
    }
    if (load_plan(source, plan, &names))
        return ACCEPTED;
    unusable(source->called, "a saved plan that is cut short or has too much", job->json);
    return TROUBLE;
}

static void json_walked(const struct job *job, uint32_t count) {
    json_begin(job->document->text.called, 1);
    json_key("table"), json_text(job->table->text.called);
    json_key("type"), json_text(job->given.type);
    json_pairs(pairs, count, &names);
    json_finish();
}

static void show_walked(const struct job *job, uint32_t count) {
    const struct gw_given *g = &job->given;
    show_pairs(pairs, count, &names);
    printf("%s: ", job->document->text.called);
    show_number(count, "pair");
    printf(" for %s, of %s", g->type, g->blocks_len == 0 ? "no blocks" : g->blocks_len == 1 ? "block" : "blocks");
    for (size_t i = 0; i < g->blocks_len; i++)
        printf("%s %" PRIu32, i ? "," : "", g->blocks[i]);
    printf("\n");
}

static int walk(struct job *job, const uint8_t *variables) {
    uint32_t report[GW_REPORT_SIZE];
    const struct text *table = &job->table->text;
    struct gw_given *g = &job->given;
    g->plan = plan;
    g->object = record_of(table, g->type);
    set_given(job);
    if (gw_walk(table->bytes, table->length, plan, GW_PLAN_SIZE, g->object, g->blocks, g->blocks_len, variables, GW_VARIABLES_SIZE, pairs,
                GW_PAIRS_SIZE, report, GW_REPORT_SIZE) != GW_ACCEPTED)
        return refuse(job, report);
    if (job->json)
        json_walked(job, report[1]);
    else
        show_walked(job, report[1]);
    return ACCEPTED;
}

int run_walk(char **words, const char *usage) {
    static uint32_t blocks[MOST_ASKED];
    uint8_t variables[GW_VARIABLES_SIZE] = {0};
    const char *type = NULL, *operation = NULL, *given = "0", *true_ones = "", *json = NULL;
    const struct option options[] = {{"--type", 1, &type}, {"--operation", 1, &operation}, {"--blocks", 1, &given},
                                     {"--true", 1, &true_ones}, {"--json", 0, &json}, {NULL, 0, NULL}};
    struct input table, source;
    struct job job = {.table = &table, .document = &source};
    if (!take_options(words, options, 2, 2, usage) || !read_blocks(given, blocks, &job.given.blocks_len) || is_standard_twice(words, NULL))
        return TROUBLE;
    if (!type) {
        fprintf(stderr, "a walk lacks its --type\nusage: gateway %s\n", usage);
        return TROUBLE;
    }
    if (!read_both(words, json != NULL, &table, &source))
        return TROUBLE;
    job.json = json != NULL;
    job.given.type = type;
    job.given.blocks = blocks;
    int status = get_plan(&job, operation);
    if (status != ACCEPTED)
        return status;
    return read_true(true_ones, variables, &job) ? walk(&job, variables) : TROUBLE;
}
