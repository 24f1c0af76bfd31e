/* Whether the instrumented library would be caught: calls with a buffer or input that is one byte or number shorter than it is told, each
   in a process of its own, must end in a report of the address sanitizer. */
#define _GNU_SOURCE
#include "case.h"
#include "gateway.h"

#include <fcntl.h>
#include <stdio.h>
#include <stdlib.h>
#include <string.h>
#include <sys/wait.h>
#include <unistd.h>

enum { OUT = SECTIONS, REPORT, LENT };

/* type Query { a(x: Int): Int }; its last byte is read, as are those of the texts */
static const uint8_t table[] = "\x02\x00\x22\x10\x00\x05Query\x12\x00\x17\x10\x00\x01"
                               "a\x14\x00\x03Int\x13\x00\x0A\x10\x00\x01x\x14\x00\x03Int";
static const uint8_t document[] = "query Ramp{a(x:1)}", name[] = "Ramp", variables[] = "{x:1}";

static void *copy_of(const void *from, size_t bytes, size_t unit, int lies) {
    uint8_t *copy = malloc(bytes - (lies ? unit : 0));
    memcpy(copy, from, bytes - (lies ? unit : 0));
    return copy;
}

/* A call with everything right, or shorter where it lies. */
static uint32_t call(int which, int lie) {
    static const uint32_t plan[GW_PLAN_SIZE] = {1}, blocks[] = {0}, zeros[GW_PLAN_SIZE];
    static const uint8_t truths[GW_VARIABLES_SIZE];
    static const size_t outs[CALLS] = {GW_ROWS_SIZE, 1, GW_ROWS_SIZE, GW_MOST_COERCED, GW_MOST_COERCED, GW_PLAN_SIZE, GW_PAIRS_SIZE};
    size_t t = sizeof table - 1, d = sizeof document - 1, n = sizeof name - 1, v = sizeof variables - 1;
    const uint8_t *ta = copy_of(table, t, 1, lie == TABLE), *doc = copy_of(document, d, 1, lie == DOCUMENT);
    const uint8_t *op = copy_of(name, n, 1, lie == OPERATION), *var = copy_of(variables, v, 1, lie == VARIABLES);
    size_t unit = which == CALL_VARIABLES || which == CALL_ARGUMENTS ? 1 : 4;
    void *out = copy_of(zeros, outs[which] * unit, unit, lie == OUT);
    uint32_t *report = copy_of(zeros, GW_REPORT_SIZE * 4, 4, lie == REPORT);
    switch (which) {
    case CALL_PARSE: return gw_parse(doc, d, out, GW_ROWS_SIZE, report, GW_REPORT_SIZE);
    case CALL_TABLE: return gw_check_table(ta, t, report, GW_REPORT_SIZE);
    case CALL_CHECK: return gw_check(ta, t, doc, d, out, GW_ROWS_SIZE, report, GW_REPORT_SIZE);
    case CALL_VARIABLES: return gw_coerce_variables(ta, t, doc, d, op, n, var, v, out, GW_MOST_COERCED, report, GW_REPORT_SIZE);
    case CALL_ARGUMENTS: return gw_coerce_arguments(ta, t, doc, d, op, n, var, v, 1, out, GW_MOST_COERCED, report, GW_REPORT_SIZE);
    case CALL_PLAN: return gw_plan(ta, t, doc, d, op, n, out, GW_PLAN_SIZE, report, GW_REPORT_SIZE);
    default: {
        const uint32_t *walked = copy_of(blocks, sizeof blocks, 4, lie == NUMBERS);
        const uint8_t *bytes = truths;
        return gw_walk(ta, t, plan, GW_PLAN_SIZE, 0, walked, 1, bytes, GW_VARIABLES_SIZE, out, GW_PAIRS_SIZE, report, GW_REPORT_SIZE);
    }
    }
}

/* How a call ends in a process of its own: 0 if it is accepted. */
static int ending(int which, int lie) {
    fflush(NULL);
    pid_t child = fork();
    if (child == 0) {
        int none = open("/dev/null", O_WRONLY);
        dup2(none, 2);
        _exit(call(which, lie) == GW_ACCEPTED ? 0 : 3);
    }
    int status = 0;
    waitpid(child, &status, 0);
    return status;
}

int main(void) {
    static const int lent[CALLS][LENT] = {
        [CALL_PARSE] = {[DOCUMENT] = 1, [OUT] = 1, [REPORT] = 1},
        [CALL_TABLE] = {[TABLE] = 1, [REPORT] = 1},
        [CALL_CHECK] = {[TABLE] = 1, [DOCUMENT] = 1, [OUT] = 1, [REPORT] = 1},
        [CALL_VARIABLES] = {[TABLE] = 1, [DOCUMENT] = 1, [OPERATION] = 1, [VARIABLES] = 1, [OUT] = 1, [REPORT] = 1},
        [CALL_ARGUMENTS] = {[TABLE] = 1, [DOCUMENT] = 1, [OPERATION] = 1, [VARIABLES] = 1, [OUT] = 1, [REPORT] = 1},
        [CALL_PLAN] = {[TABLE] = 1, [DOCUMENT] = 1, [OPERATION] = 1, [OUT] = 1, [REPORT] = 1},
        [CALL_WALK] = {[TABLE] = 1, [NUMBERS] = 1, [OUT] = 1, [REPORT] = 1},
    };
    int lies = 0, caught = 0;
    for (int which = 0; which < CALLS; which++) {
        if (ending(which, LENT) != 0) {
            fprintf(stderr, "lies: call %d is not accepted without a lie\n", which);
            return 1;
        }
        for (int lie = 0; lie < LENT; lie++)
            if (lent[which][lie]) {
                int status = ending(which, lie), seen = status != 0 && !(WIFEXITED(status) && WEXITSTATUS(status) == 3);
                lies++;
                caught += seen;
                if (!seen)
                    fprintf(stderr, "lies: call %d with %d too short was not caught\n", which, lie);
            }
    }
    printf("lies: %d of %d calls with something too short were caught by the address sanitizer\n", caught, lies);
    return caught == lies ? 0 : 1;
}
