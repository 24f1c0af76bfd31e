/* Words for what the gateway core refuses, for C programs that call it: link libgatewayhost.a, or compile the sources that `make install`
   puts into share/gateway/host (for all but gw_tell refusal.c alone).

     static struct gw_told told;
     struct gw_given given = {.table = table, .table_len = table_len, .document = text, .document_len = text_len};
     if (gw_check(table, table_len, text, text_len, rows, GW_ROWS_SIZE, report, GW_REPORT_SIZE) != GW_ACCEPTED) {
         gw_tell(&given, report, &told);
         printf("%u:%u: refusal %u: %s\n    %s\n", told.line, told.column, told.number, told.text, told.detail);
     }

   No heap, nothing that threads share, of stdio snprintf alone. */
#ifndef GATEWAY_REFUSAL_H
#define GATEWAY_REFUSAL_H

#include "gateway.h"

#ifdef __cplusplus
extern "C" {
#endif

/* A number's name in gateway.h, "GW_REFUSE_NO_TOKEN", and what it means in words; "unknown .." for none. */
const char *gw_refusal_name(uint32_t number);
const char *gw_refusal_text(uint32_t number);

/* The same of a schema rule (report[2] of a 9), of a query rule (report[2] of a 10) and of a reason (report[3] of an 11). */
const char *gw_rule_name(uint32_t rule);
const char *gw_rule_text(uint32_t rule);
const char *gw_query_rule_name(uint32_t rule);
const char *gw_query_rule_text(uint32_t rule);
const char *gw_reason_name(uint32_t reason);
const char *gw_reason_text(uint32_t reason);

/* "document", "variables text", "table" of GW_INPUT_..; "plan" of GW_INPUT_NONE. */
const char *gw_input_text(uint32_t input);

/* What a call was given; NULL and 0 for what it does not take. */
struct gw_given {
    const uint8_t *table, *document, *operation, *variables;
    size_t table_len, document_len, operation_len, variables_len;
    int of_arguments; /* of gw_coerce_arguments; else its row is not looked at */
    uint32_t row;
    const uint32_t *plan; /* of gw_walk: at least GW_PLAN_SIZE numbers */
    uint32_t object;
    const uint32_t *blocks;
    size_t blocks_len;
    const char *type; /* what the object type is called, if its record was looked up by name; or NULL */
};

enum {
    GW_INPUT_NONE = 3,   /* no input: a walk that cannot be */
    GW_TOLD_NAMES = 12,
    GW_TOLD_NAME = 64,
    GW_TOLD_EXPECTED = 24
};

/* A refusal in words. Some 150 KB: let it be static. */
struct gw_told {
    uint32_t number, input;         /* which refusal, of which input (GW_INPUT_..) */
    uint32_t rule;                  /* schema rule, query rule or reason; 0 for none */
    const char *name, *rule_name;   /* GW_REFUSE_..; GW_RULE_.., GW_QUERY_RULE_.. or GW_REASON_.., NULL for none */
    char text[192];                 /* what is wrong */
    char detail[1024];              /* the names concerned; "" for none */
    char names[GW_TOLD_NAMES][GW_TOLD_NAME]; /* these names alone, each cut at 60 columns */
    uint32_t name_count;
    int has_offset, has_row;        /* whether the next ones are told */
    size_t offset;                  /* of the input's bytes, as the library tells it */
    uint32_t line, column;          /* of a text, from 1; at its end those behind what was last written; 0 of a table */
    uint32_t row;
    uint32_t definition, member, part, argument; /* of a 9; GW_NO_PLACE for none */
    size_t size, limit;             /* of a 2: the bytes given and the most that may be */
    const char *expected[GW_TOLD_EXPECTED]; /* of a 4: what could stand there */
    uint32_t expected_count;
    uint32_t rows[GW_ROWS_SIZE], variable_rows[GW_ROWS_SIZE]; /* room to work in */
    uint8_t tried[GW_MOST_TEXT], value[GW_MOST_COERCED];
};

/* Tells the refusal of a report in words, with its place and the names concerned. The report is that of a call which was given just this
   and which answered a refusal. */
void gw_tell(const struct gw_given *given, const uint32_t *report, struct gw_told *told);

#ifdef __cplusplus
}
#endif

#endif
