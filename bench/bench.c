/* Times gw_parse beside two plain things over the same bytes, in one run: memset of the rows, and a loop that finds the
   borders of names, numbers and marks by a class table. CPU time, medians of batches.

     bench FILE..      (bench/run builds it and gives the files of bench/inputs) */
#include "gateway.h"
#include "timing.h"

#include <inttypes.h>
#include <stdio.h>
#include <stdlib.h>
#include <string.h>

static uint32_t rows[GW_ROWS_SIZE], report[GW_REPORT_SIZE];
static uint32_t other[GW_ROWS_SIZE]; /* what memset clears */

struct document {
    const char *name;
    uint8_t bytes[GW_MOST_TEXT + 1];
    size_t length;
};

/* ---- the three things that are timed */

static void parse(const void *of) {
    const struct document *d = of;
    gw_parse(d->bytes, d->length, rows, GW_ROWS_SIZE, report, GW_REPORT_SIZE);
}

static void clear(const void *of) {
    (void)of;
    memset(other, 0, sizeof other);
    __asm__ volatile("" : : "r"(other) : "memory");
}

static void classes(const void *of) {
    const struct document *d = of;
    class_loop(d->bytes, d->length);
}

/* ---- documents */

static struct document *new_document(const char *name) {
    struct document *d = calloc(1, sizeof *d);
    d->name = name;
    return d;
}

static struct document *read_document(const char *path) {
    struct document *d = new_document(file_name(path));
    d->length = read_file(path, d->bytes, sizeof d->bytes);
    return d;
}

static void add(struct document *d, const char *s) {
    size_t n = strlen(s);
    if (n > GW_MOST_TEXT - d->length)
        n = GW_MOST_TEXT - d->length;
    memcpy(d->bytes + d->length, s, n);
    d->length += n;
}

/* An accepted document of just this length: many pieces between an opening and a closing, then blanks. */
static struct document *made_of(const char *name, const char *opening, const char *piece, const char *closing, size_t length) {
    struct document *d = new_document(name);
    add(d, opening);
    while (d->length + strlen(piece) + strlen(closing) <= length)
        add(d, piece);
    add(d, closing);
    while (d->length < length)
        add(d, " ");
    return d;
}

static struct document *usual(size_t length) {
    return made_of("fields", "query Q($n: Int = 3) {\n", "  item12: product(id: $n, first: true) {\n    name\n  }\n", "}", length);
}

/* ---- the tables */

static void print_document(const struct document *d) {
    struct timed works[] = {{.work = parse, .of = d}, {.work = classes, .of = d}, {.work = clear}};
    measure(works, 3);
    parse(d);
    printf("%-22s %6zu %5" PRIu32 " %5" PRIu32 " %9.0f %7.0f %9.0f %6.2f %9.0f %6.2f\n", d->name, d->length, report[0], report[1], works[0].ns,
           (double)d->length / works[0].ns * 1e3, works[1].ns, works[1].times, works[2].ns, works[2].times);
}

static void print_inputs(int count, char **paths) {
    printf("%-22s %6s %5s %5s %9s %7s %9s %6s %9s %6s\n", "document", "bytes", "says", "shows", "ns/call", "MB/s", "class ns",
           "times", "memset ns", "times");
    for (int i = 0; i < count; i++) {
        struct document *d = read_document(paths[i]);
        print_document(d);
        free(d);
    }
    struct document *one = made_of("(one byte)", "{", "x", "", 1);
    print_document(one);
    free(one);
}

static void print_growth(void) {
    printf("\ngrowth, one kind of text\n%8s %9s %8s\n", "bytes", "ns/call", "ns/byte");
    for (size_t n = 2048; n <= GW_MOST_TEXT; n *= 2) {
        struct document *d = usual(n);
        struct timed works[] = {{.work = parse, .of = d}};
        measure(works, 1);
        printf("%8zu %9.0f %8.2f\n", n, works[0].ns, works[0].ns / (double)n);
        free(d);
    }
}

/* A refused document beside the accepted one that it was made of. */
static void print_refused(struct document *accepted, const char *what, const char *wrong, size_t at) {
    struct document *refused = new_document(what);
    *refused = *accepted;
    memcpy(refused->bytes + at, wrong, strlen(wrong));
    struct timed works[] = {{.work = parse, .of = refused}, {.work = parse, .of = accepted}};
    measure(works, 2);
    parse(accepted);
    uint32_t good = report[0];
    parse(refused);
    printf("%-34s %6zu %4" PRIu32 " %6" PRIu32 " %9.0f %9.0f %6.2f%s\n", what, refused->length, report[0], report[1], works[0].ns, works[1].ns,
           works[1].times, good == GW_ACCEPTED ? "" : "  (the other is refused too)");
    free(refused);
    free(accepted);
}

static struct document *usual_end(size_t *at) {
    struct document *d = usual(GW_MOST_TEXT);
    for (*at = d->length - 1; d->bytes[*at] != '}'; --*at)
        ;
    return d;
}

static void print_refusals(void) {
    /* a field of 32 levels, one in the other */
    static const char nest[] = "a{a{a{a{a{a{a{a{a{a{a{a{a{a{a{a{a{a{a{a{a{a{a{a{a{a{a{a{a{a{a{a"
                               "}}}}}}}}}}}}}}}}}}}}}}}}}}}}}}}";
    size_t end;
    struct document *d = usual_end(&end);
    printf("\n%-34s %6s %4s %6s %9s %9s %6s\n", "refused, beside an accepted one", "bytes", "says", "shows", "ns/call", "accepted", "times");
    print_refused(made_of("", "{a}", "x", "", 3), "4, three bytes", ")", 2);
    print_refused(made_of("", "{a}", "x", "", 3), "3, three bytes", "%", 2);
    print_refused(d, "4 at the last token", ")", end);
    print_refused(usual_end(&end), "4 at the end of the text", " ", end);
    print_refused(usual_end(&end), "3 at the last token", "%", end);
    print_refused(usual_end(&end), "3, a string without end", "\"", end);
    print_refused(usual(GW_MOST_TEXT), "4 at the first token", ")", 0);
    print_refused(made_of("", "{a(x:\"", "z", "\")}", GW_MOST_TEXT), "3, a long string without end", " ", GW_MOST_TEXT - 3);
    print_refused(made_of("", "{a}#", "z", "", GW_MOST_TEXT), "3, a long comment's last byte", "\x01", GW_MOST_TEXT - 1);
    print_refused(made_of("", "{a(x:\"", "\\u00e9", "\")}", GW_MOST_TEXT), "3, a long string's last escape", "\\x", GW_MOST_TEXT - 10);
    print_refused(made_of("", "{", "abcdefg ", "}", GW_MOST_TEXT), "6 at row 2,049", "a b", GW_MOST_TEXT - 10);
    print_refused(made_of("", "{", nest, "}", 6000), "5 at level 33, early", "a{b{", 63);
    print_refused(made_of("", "{", "...F ", "}", 5 * 2000), "3 behind 1,999 spreads", "%", 5 * 2000 - 4);
}

int main(int argc, char **argv) {
    print_inputs(argc - 1, argv + 1);
    print_growth();
    print_refusals();
    return 0;
}
