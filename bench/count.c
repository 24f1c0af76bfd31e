/* Makes one call, so that its instructions can be counted (bench/instructions).

     count parse|table|check|plan TABLE DOCUMENT      prints the answer */
#include "gateway.h"
#include "timing.h"

#include <stdio.h>
#include <string.h>

static uint8_t table[GW_MOST_TABLE + 1], document[GW_MOST_TEXT + 1];
static uint32_t rows[GW_ROWS_SIZE], plan[GW_PLAN_SIZE], report[GW_REPORT_SIZE];

int main(int count, char **words) {
    if (count != 4) {
        fprintf(stderr, "usage: count parse|table|check|plan TABLE DOCUMENT\n");
        return 2;
    }
    size_t t = read_file(words[2], table, sizeof table), d = read_file(words[3], document, sizeof document);
    uint32_t answer;
    if (strcmp(words[1], "parse") == 0)
        answer = gw_parse(document, d, rows, GW_ROWS_SIZE, report, GW_REPORT_SIZE);
    else if (strcmp(words[1], "table") == 0)
        answer = gw_check_table(table, t, report, GW_REPORT_SIZE);
    else if (strcmp(words[1], "check") == 0)
        answer = gw_check(table, t, document, d, rows, GW_ROWS_SIZE, report, GW_REPORT_SIZE);
    else
        answer = gw_plan(table, t, document, d, NULL, 0, plan, GW_PLAN_SIZE, report, GW_REPORT_SIZE);
    printf("%u\n", answer);
    return 0;
}
