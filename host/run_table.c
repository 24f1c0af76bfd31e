/* The commands that make a type table of a text of types, and a text of a table. */
#include "commands.h"

#include "json.h"
#include "show.h"
#include "tell.h"
#include "types.h"

#include <inttypes.h>
#include <stdio.h>
#include <unistd.h>

/* One byte more than a text or table may have. */
static uint8_t types_bytes[MOST_TYPES + 1], table_bytes[GW_MOST_TABLE + 1];
static struct made_table made;

/* ---- table */

static void json_fault(const struct text *types, const char *words, size_t offset) {
    struct place place = place_of(types, told_offset(types, offset));
    json_begin(types->called, 0);
    json_key("text"), json_text(words);
    json_key("input"), json_text("types");
    json_key("offset"), json_number(offset);
    json_key("line"), json_number(place.line);
    json_key("column"), json_number(place.column);
    json_finish();
}

/* What is wrong with the text itself. */
static int tell_fault(const struct text *types, const char *words, size_t offset, int json) {
    struct place place = place_of(types, told_offset(types, offset));
    if (json) {
        json_fault(types, words, offset);
        return REFUSED_TABLE;
    }
    printf("%s:%" PRIu32 ":%" PRIu32 ": %s\n", types->called, place.line, place.column, words);
    show_caret(types, offset);
    return REFUSED_TABLE;
}

static int tell_too_long(const struct input *types, int json) {
    char words[96];
    snprintf(words, sizeof words, "the text of types has %zu bytes; at most %d are allowed", types->size, MOST_TYPES);
    if (json)
        json_fault(&types->text, words, 0);
    else
        printf("%s: %s\n", types->text.called, words);
    return REFUSED_TABLE;
}

/* What is wrong with the table that was made, at its place in the text. */
static int tell_refused(const struct input *types, const uint32_t *report, int json) {
    const struct text table = {types->text.called, made.bytes, made.length};
    struct job job = {.table = types, .given = {.table = made.bytes, .table_len = made.length}, .json = json};
    struct piece wrong = report[0] == GW_REFUSE_SCHEMA ? schema_piece(&table, report) : (struct piece){report[1], 0, 0, 1};
    return refuse_in(&job, report, wrong.tag ? made.from[wrong.at] : types->text.length);
}

static int write_table(const struct input *types, const char *path, int json) {
    if (!path) {
        fwrite(made.bytes, 1, made.length, stdout);
        return ACCEPTED;
    }
    if (!write_file(path, made.bytes, made.length, json))
        return TROUBLE;
    if (!json) {
        printf("%s: a table of %zu bytes, written to %s\n", types->text.called, made.length, path);
        return ACCEPTED;
    }
    json_begin(types->text.called, 1);
    json_key("table"), json_text(path);
    json_key("bytes"), json_number(made.length);
    json_finish();
    return ACCEPTED;
}

int run_table(char **words, const char *usage) {
    const char *path = NULL, *json = NULL, *unchecked = NULL;
    const struct option options[] = {{"-o", 1, &path}, {"--output", 1, &path}, {"--unchecked", 0, &unchecked}, {"--json", 0, &json}, {NULL, 0, NULL}};
    char words_of_fault[192];
    struct out fault = {.room = words_of_fault, .size = sizeof words_of_fault};
    struct input types;
    uint32_t report[GW_REPORT_SIZE];
    size_t offset;
    if (!take_options(words, options, 1, 1, usage))
        return TROUBLE;
    if (!path && (json || isatty(STDOUT_FILENO))) {
        fprintf(stderr, "a table is bytes: -o FILE says where they go\n");
        return TROUBLE;
    }
    if (!read_input(words[0], types_bytes, sizeof types_bytes, json != NULL, &types))
        return TROUBLE;
    if (types.size > MOST_TYPES)
        return tell_too_long(&types, json != NULL);
    if (!make_table(&types.text, &made, &fault, &offset))
        return tell_fault(&types.text, words_of_fault, offset, json != NULL);
    if (!unchecked && gw_check_table(made.bytes, made.length, report, GW_REPORT_SIZE) != GW_ACCEPTED)
        return tell_refused(&types, report, json != NULL);
    return write_table(&types, path, json != NULL);
}

/* ---- show-table */

static void tell_types(const struct text *table, int json) {
    static char room[MOST_SHOWN];
    struct out o = {.room = room, .size = sizeof room};
    say_types(&o, table);
    if (!json) {
        fputs(room, stdout);
        return;
    }
    json_begin(table->called, 1);
    json_key("types"), json_text(room);
    json_finish();
}

int run_show_table(char **words, const char *usage) {
    const char *json = NULL, *unchecked = NULL;
    const struct option options[] = {{"--unchecked", 0, &unchecked}, {"--json", 0, &json}, {NULL, 0, NULL}};
    struct input table;
    uint32_t report[GW_REPORT_SIZE];
    if (!take_options(words, options, 1, 1, usage) || !read_input(words[0], table_bytes, sizeof table_bytes, json != NULL, &table))
        return TROUBLE;
    struct job job = {.table = &table, .json = json != NULL};
    set_given(&job);
    uint32_t answer = gw_check_table(table.text.bytes, table.text.length, report, GW_REPORT_SIZE);
    int is_framed = answer == GW_ACCEPTED || answer == GW_REFUSE_TOO_MANY || answer == GW_REFUSE_SCHEMA;
    if (answer != GW_ACCEPTED && !(unchecked && is_framed))
        return refuse(&job, report);
    tell_types(&table.text, job.json);
    return ACCEPTED;
}
