/* Every call from eight threads at once, on the same inputs, each thread with buffers of its own: what each leaves is what one thread
   alone left before.
     threads ROUNDS EVERY FOLDER   so many rounds, on every so many-th of the fuzzer's seeds for all calls (tests/fuzz/seeds.py)
     threads race FOLDER           two threads that lend one buffer, which the thread sanitizer must report */
#define _GNU_SOURCE
#include "fuzz/case.h"
#include "gateway.h"
#include "plain_walk.h"

#include <dirent.h>
#include <pthread.h>
#include <stdio.h>
#include <stdlib.h>
#include <string.h>

enum { THREADS = 8, MOST_INPUTS = 2000 };

/* What the calls read, which all threads share, and the digest of what each call left. */
struct input {
    uint8_t *bytes;
    struct fuzz_case c;
    uint32_t plan[GW_PLAN_SIZE], blocks[GW_MOST_WALKED], object;
    uint8_t truths[GW_VARIABLES_SIZE];
    uint64_t due[CALLS];
};

static struct input *inputs[MOST_INPUTS];
static uint32_t input_count;
static int rounds;
static pthread_barrier_t all_ready;

/* What a thread lends. */
struct lent {
    uint32_t rows[GW_ROWS_SIZE], plan[GW_PLAN_SIZE], pairs[GW_PAIRS_SIZE], report[GW_REPORT_SIZE];
    uint8_t value[GW_MOST_COERCED];
    uint64_t calls[GW_REFUSE_TOO_LONG + 1];
};

/* The kit's clang calls these for copies and fills in the library; where a runtime is too old to have them, its own memcpy and so on are
   watched all the same. */
void *__tsan_memcpy(void *to, const void *from, size_t bytes);
void *__tsan_memmove(void *to, const void *from, size_t bytes);
void *__tsan_memset(void *to, int byte, size_t bytes);
__attribute__((weak)) void *__tsan_memcpy(void *to, const void *from, size_t bytes) {
    return memcpy(to, from, bytes);
}
__attribute__((weak)) void *__tsan_memmove(void *to, const void *from, size_t bytes) {
    return memmove(to, from, bytes);
}
__attribute__((weak)) void *__tsan_memset(void *to, int byte, size_t bytes) {
    return memset(to, byte, bytes);
}

/* Of a thread's own bytes, so that the thread sanitizer need not follow. */
__attribute__((no_sanitize_thread)) static uint64_t digest(uint64_t d, const void *from, size_t bytes) {
    const uint32_t *words = from;
    for (size_t i = 0; i < bytes / 4; i++)
        d = (d ^ words[i]) * 0x100000001B3;
    return d;
}

static uint32_t call(const struct input *in, int which, struct lent *l) {
    const struct section *s = in->c.sections;
    const uint8_t *table = s[TABLE].bytes, *document = s[DOCUMENT].bytes, *name = s[OPERATION].bytes, *variables = s[VARIABLES].bytes;
    size_t table_len = s[TABLE].length, document_len = s[DOCUMENT].length, name_len = s[OPERATION].length;
    size_t variables_len = s[VARIABLES].length;
    switch (which) {
    case CALL_PARSE: return gw_parse(document, document_len, l->rows, GW_ROWS_SIZE, l->report, GW_REPORT_SIZE);
    case CALL_TABLE: return gw_check_table(table, table_len, l->report, GW_REPORT_SIZE);
    case CALL_CHECK: return gw_check(table, table_len, document, document_len, l->rows, GW_ROWS_SIZE, l->report, GW_REPORT_SIZE);
    case CALL_VARIABLES:
        return gw_coerce_variables(table, table_len, document, document_len, name, name_len, variables, variables_len, l->value,
                                   GW_MOST_COERCED, l->report, GW_REPORT_SIZE);
    case CALL_ARGUMENTS:
        return gw_coerce_arguments(table, table_len, document, document_len, name, name_len, variables, variables_len, in->c.number, l->value,
                                   GW_MOST_COERCED, l->report, GW_REPORT_SIZE);
    case CALL_PLAN:
        return gw_plan(table, table_len, document, document_len, name, name_len, l->plan, GW_PLAN_SIZE, l->report, GW_REPORT_SIZE);
    default:
        return gw_walk(table, table_len, in->plan, GW_PLAN_SIZE, in->object, in->blocks, GW_MOST_WALKED, in->truths, GW_VARIABLES_SIZE,
                       l->pairs, GW_PAIRS_SIZE, l->report, GW_REPORT_SIZE);
    }
}

static uint64_t called(const struct input *in, int which, struct lent *l) {
    uint32_t answer = call(in, which, l);
    l->calls[answer <= GW_REFUSE_TOO_LONG ? answer : 0]++;
    uint64_t d = digest(answer + 1, l->report, sizeof l->report);
    switch (which) {
    case CALL_PARSE: case CALL_CHECK: return digest(d, l->rows, sizeof l->rows);
    case CALL_VARIABLES: case CALL_ARGUMENTS: return digest(d, l->value, sizeof l->value);
    case CALL_PLAN: return digest(d, l->plan, sizeof l->plan);
    case CALL_WALK: return digest(d, l->pairs, sizeof l->pairs);
    default: return d;
    }
}

/* ---- the inputs, and what one thread leaves */

static void prepare(struct input *in, struct lent *l) {
    for (int which = 0; which < CALLS; which++) {
        if (which == CALL_WALK) {
            memcpy(in->plan, l->plan, sizeof in->plan);
            for (uint32_t i = 0; i < GW_MOST_WALKED; i++) {
                in->blocks[i] = in->plan[GW_PLAN_BLOCKS] ? i % in->plan[GW_PLAN_BLOCKS] : 0;
                in->truths[i] = i & 1;
            }
            const struct section *table = &in->c.sections[TABLE];
            while (record_tag(table->bytes, table->length, in->object) > 0 &&
                   record_tag(table->bytes, table->length, in->object) != GW_TAG_OBJECT)
                in->object++;
        }
        in->due[which] = called(in, which, l);
    }
}

static void read_inputs(const char *folder, int every, struct lent *l) {
    struct dirent **found;
    static uint8_t room[CASE_MOST];
    char path[4096];
    int count = scandir(folder, &found, NULL, alphasort), of_all = 0;
    for (int i = 0; i < count; i++) {
        snprintf(path, sizeof path, "%s/%s", folder, found[i]->d_name);
        FILE *file = found[i]->d_name[0] == '.' ? NULL : fopen(path, "rb");
        free(found[i]);
        if (!file)
            continue;
        size_t length = fread(room, 1, sizeof room, file);
        fclose(file);
        if (length == 0 || (room[0] & 7) != CALL_ALL || of_all++ % every != 0 || input_count == MOST_INPUTS)
            continue;
        struct input *in = calloc(1, sizeof *in);
        in->bytes = malloc(length);
        memcpy(in->bytes, room, length);
        in->c = cut_case(in->bytes, length);
        prepare(in, l);
        inputs[input_count++] = in;
    }
    if (count >= 0)
        free(found);
}

/* ---- the threads */

struct thread {
    pthread_t id;
    int number;
    uint32_t wrong;
    struct lent *lent;
};

/* Half of the threads take the inputs in the same order, the others begin elsewhere. */
static void *run_thread(void *given) {
    struct thread *t = given;
    uint32_t start = t->number % 2 ? (uint32_t)t->number * input_count / THREADS : 0;
    pthread_barrier_wait(&all_ready);
    for (int round = 0; round < rounds; round++)
        for (uint32_t i = 0; i < input_count; i++) {
            const struct input *in = inputs[(start + i) % input_count];
            for (int which = 0; which < CALLS; which++)
                t->wrong += called(in, which, t->lent) != in->due[which];
        }
    return NULL;
}

/* The threads, with buffers of their own or all with those of the first. */
static uint32_t run_threads(int count, int shared, struct thread *threads) {
    uint32_t wrong = 0;
    pthread_barrier_init(&all_ready, NULL, (unsigned)count);
    for (int i = 0; i < count; i++) {
        threads[i] = (struct thread){.number = shared ? 0 : i, .lent = shared && i ? threads[0].lent : calloc(1, sizeof(struct lent))};
        if (pthread_create(&threads[i].id, NULL, run_thread, &threads[i]) != 0)
            exit(2);
    }
    for (int i = 0; i < count; i++) {
        pthread_join(threads[i].id, NULL);
        wrong += threads[i].wrong;
    }
    return wrong;
}

static void free_all(struct thread *threads, int count) {
    for (int i = 0; i < count; i++)
        if (i == 0 || threads[i].lent != threads[0].lent)
            free(threads[i].lent);
    for (uint32_t i = 0; i < input_count; i++) {
        free(inputs[i]->bytes);
        free(inputs[i]);
    }
}

int main(int argc, char **argv) {
    static struct lent alone;
    struct thread threads[THREADS];
    int race = argc == 3 && strcmp(argv[1], "race") == 0;
    if (!race && argc != 4) {
        fprintf(stderr, "usage: threads ROUNDS EVERY FOLDER | threads race FOLDER\n");
        return 2;
    }
    rounds = race ? 1 : atoi(argv[1]);
    read_inputs(argv[argc - 1], race ? 100 : atoi(argv[2]), &alone);
    int count = race ? 2 : THREADS;
    uint32_t wrong = run_threads(count, race, threads);
    unsigned long long calls = (unsigned long long)count * (unsigned)rounds * input_count * CALLS;
    uint64_t accepted = 0;
    for (int i = 0; i < count; i++)
        accepted += threads[i].lent->calls[GW_ACCEPTED];
    free_all(threads, count);
    printf("threads: %llu calls from %d threads on %u shared inputs, %llu accepted: %u differ from one thread's\n", calls, count, input_count,
           (unsigned long long)accepted, wrong);
    return race || (input_count && wrong == 0) ? 0 : 1;
}
