/* The command that runs a request on a plant. */
#include "run_command.h"

#include "execute.h"
#include "refusals.h"

#include <stdio.h>
#include <stdlib.h>
#include <string.h>

enum { DEFAULT_TIMEOUT = 500, SOONEST = 1, LATEST = 60000 };

/* One byte more than a text or table may have: the library refuses what is longer. */
static uint8_t table_bytes[GW_MOST_TABLE + 1], document_bytes[GW_MOST_TEXT + 1], variables_bytes[GW_MOST_TEXT + 1];
static struct request request;
static struct plant plant = {.timeout = DEFAULT_TIMEOUT};

/* ---- words of the command line */

struct run_options {
    const char *operation, *variables, *drives, *addresses, *timeout, *json;
};

static int read_timeout(const char *word) {
    uint32_t number;
    if (!read_count(word, "timeout", &number))
        return 0;
    plant.timeout = number;
    if (number >= SOONEST && number <= LATEST)
        return 1;
    fprintf(stderr, "a timeout is from %d to %d milliseconds\n", SOONEST, LATEST);
    return 0;
}

/* The drives of a list with commas between their addresses. */
static int add_listed(const char *list) {
    char address[HOST_LENGTH + 16];
    for (;;) {
        size_t length = strcspn(list, ",");
        snprintf(address, sizeof address, "%.*s", (int)(length < sizeof address ? length : sizeof address - 1), list);
        if (!add_drive(&plant, NULL, address))
            return 0;
        if (!list[length])
            return 1;
        list += length + 1;
    }
}

static int read_files(char **words, const struct run_options *o) {
    struct input table, document, variables = {{"no variables", (const uint8_t *)"{}", 2}, 2};
    int json = o->json != NULL;
    if ((o->drives && !add_drives(&plant, o->drives, json)) || !read_input(words[0], table_bytes, sizeof table_bytes, json, &table) ||
        !read_input(words[1], document_bytes, sizeof document_bytes, json, &document) ||
        (o->variables && !read_input(o->variables, variables_bytes, sizeof variables_bytes, json, &variables)))
        return 0;
    request.table = table.text;
    request.document = document.text;
    request.variables = variables.text;
    request.operation_name = (struct words){(const uint8_t *)o->operation, o->operation ? strlen(o->operation) : 0};
    request.given = (struct gw_given){.table = table.text.bytes, .table_len = table.size, .document = document.text.bytes, .document_len = document.size,
                                      .variables = variables.text.bytes, .variables_len = variables.size, .operation = request.operation_name.bytes,
                                      .operation_len = request.operation_name.length};
    return 1;
}

/* ---- the response */

/* Memory that is there; without any the program ends, before a drive is told half of something. */
static void *sure_memory(size_t size) {
    void *memory = malloc(size);
    if (!memory)
        abort();
    return memory;
}

static json_t *respond(int *status) {
    struct running running = {&request, &plant, json_array()};
    json_t *response = json_object();
    *status = ACCEPTED;
    if (prepare_request(&request))
        json_object_set_new(response, "data", execute_operation(&running));
    else
        json_array_append_new(running.errors, refusal_error(&request, &request.given, request.report, NO_ROW, NULL, status));
    if (json_array_size(running.errors) > 0) {
        json_object_set(response, "errors", running.errors);
        *status = *status == ACCEPTED ? WITH_ERRORS : *status;
    }
    json_decref(running.errors);
    return response;
}

int run_command(char **words, const char *usage) {
    enum { INDENT = 2, DIGITS = 15 };
    struct run_options o = {NULL, NULL, NULL, NULL, NULL, NULL};
    const struct option options[] = {{"--operation", 1, &o.operation}, {"--variables", 1, &o.variables}, {"--drives", 1, &o.drives},
                                     {"--drive", 1, &o.addresses}, {"--timeout", 1, &o.timeout}, {"--json", 0, &o.json}, {NULL, 0, NULL}};
    int status;
    if (!take_options(words, options, 2, 2, usage) || is_standard_twice(words, o.variables) || (o.timeout && !read_timeout(o.timeout)) ||
        !read_files(words, &o) || (o.addresses && !add_listed(o.addresses)))
        return TROUBLE;
    json_set_alloc_funcs(sure_memory, free);
    json_t *response = respond(&status);
    json_dumpf(response, stdout, (o.json ? 0 : JSON_INDENT(INDENT)) | JSON_REAL_PRECISION(DIGITS));
    putchar('\n');
    json_decref(response);
    leave_plant(&plant);
    drop_request(&request);
    return status;
}
