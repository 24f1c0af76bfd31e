/* A driver for the harness where no libFuzzer is at hand: cases that reach something new of the library are kept and changed further,
   where the library counts what is reached (its 8-bit counters).
     plain COUNT SEED FOLDER    COUNT cases, from the seeds in a folder; a case that fails is left in build/fuzz/failed */
#define _GNU_SOURCE
#include "case.h"

#include "random.h"

#include <dirent.h>
#include <signal.h>
#include <stdio.h>
#include <stdlib.h>
#include <string.h>
#include <unistd.h>

struct kept {
    size_t length;
    uint8_t *bytes;
};

static struct kept *kept;
static uint32_t kept_count;

static uint8_t now[CASE_MOST];
static size_t now_len;

/* ---- what is reached */

enum { MOST_COUNTERS = 1 << 20 };
static uint8_t *counters;
static size_t counter_count, reached_count;
static uint8_t reached[MOST_COUNTERS];

void __sanitizer_cov_8bit_counters_init(uint8_t *start, uint8_t *stop);
void __sanitizer_cov_8bit_counters_init(uint8_t *start, uint8_t *stop) {
    counters = start;
    counter_count = (size_t)(stop - start) < MOST_COUNTERS ? (size_t)(stop - start) : MOST_COUNTERS;
}

void __sanitizer_cov_pcs_init(const uintptr_t *start, const uintptr_t *stop);
void __sanitizer_cov_pcs_init(const uintptr_t *start, const uintptr_t *stop) {
    (void)start;
    (void)stop;
}

/* How often, in eight steps, a bit each. */
static uint8_t step_of(uint8_t count) {
    int steps = 0;
    for (; count > 1; count >>= 1)
        steps++;
    return (uint8_t)(1 << steps);
}

static int is_new(void) {
    int found = 0;
    for (size_t i = 0; i < counter_count; i++)
        if (counters[i] && !(reached[i] & step_of(counters[i]))) {
            reached_count += reached[i] == 0;
            reached[i] |= step_of(counters[i]);
            found = 1;
        }
    return found;
}

/* ---- cases */

size_t change_bytes(uint8_t *bytes, size_t length, size_t room) {
    size_t at = length ? random_below((uint32_t)length) : 0, n = 1 + random_below(4);
    switch (random_below(6)) {
    case 0: if (length) bytes[at] ^= (uint8_t)(1u << random_below(8)); break;
    case 1: if (length) bytes[at] = (uint8_t)random_below(256); break;
    case 2: if (length) bytes[at] = (uint8_t)(bytes[at] + (random_below(2) ? 1 : 255)); break;
    case 3: /* less */
        n = n < length - at ? n : length - at;
        memmove(bytes + at, bytes + at + n, length - at - n);
        return length - n;
    case 4: /* more */
        if (length + n > room)
            break;
        memmove(bytes + at + n, bytes + at, length - at);
        for (size_t i = 0; i < n; i++)
            bytes[at + i] = (uint8_t)random_below(256);
        return length + n;
    default: /* a part in another place */
        if (length) {
            size_t from = random_below((uint32_t)length), end = from > at ? from : at;
            n = random_below(32) < length - end ? n : length - end;
            memmove(bytes + at, bytes + from, n);
        }
    }
    return length;
}

static void keep_now(void) {
    if ((kept_count & (kept_count - 1)) == 0) /* room for twice as many */
        kept = realloc(kept, (2 * (size_t)kept_count + 1) * sizeof *kept);
    kept[kept_count] = (struct kept){now_len, malloc(now_len + 1)};
    memcpy(kept[kept_count++].bytes, now, now_len);
}

static void call_one(int is_seed) {
    if (counters)
        memset(counters, 0, counter_count);
    call_case(now, now_len);
    if (is_new() || is_seed)
        keep_now();
}

static void next_case(void) {
    static uint8_t crossed[CASE_MOST];
    const struct kept *from = &kept[random_below(kept_count)];
    now_len = from->length;
    memcpy(now, from->bytes, now_len);
    if (random_below(8) == 0) {
        const struct kept *other = &kept[random_below(kept_count)];
        size_t length = cross_cases(from->bytes, from->length, other->bytes, other->length, crossed, CASE_MOST);
        if (length) {
            now_len = length;
            memcpy(now, crossed, length);
        }
    }
    for (uint32_t changes = 1 + random_below(3); changes > 0; changes--)
        now_len = change_case(now, now_len, CASE_MOST);
}

static void read_seeds(const char *folder) {
    struct dirent **found;
    int count = scandir(folder, &found, NULL, alphasort);
    char path[4096];
    for (int i = 0; i < count; i++) {
        snprintf(path, sizeof path, "%s/%s", folder, found[i]->d_name);
        FILE *file = found[i]->d_name[0] == '.' ? NULL : fopen(path, "rb");
        free(found[i]);
        if (!file)
            continue;
        now_len = fread(now, 1, sizeof now, file);
        fclose(file);
        call_one(1);
    }
    if (count >= 0)
        free(found);
}

/* The case at hand is written out before the program ends. */
static void on_abort(int number) {
    FILE *file = fopen("build/fuzz/failed", "wb");
    if (file) {
        fwrite(now, 1, now_len, file);
        fclose(file);
    }
    signal(number, SIG_DFL);
    raise(number);
}

int main(int argc, char **argv) {
    if (argc != 4) {
        fprintf(stderr, "usage: plain COUNT SEED FOLDER\n");
        return 2;
    }
    signal(SIGABRT, on_abort);
    random_start((uint64_t)atoll(argv[2]) + 1);
    read_seeds(argv[3]);
    if (kept_count == 0)
        return 2;
    uint32_t seeds = kept_count;
    for (long long left = atoll(argv[1]); left > 0; left--) {
        next_case();
        call_one(0);
    }
    printf("fuzz: %u seeds, %u cases kept for something new; %zu of %zu places of the library reached\n", seeds, kept_count - seeds,
           reached_count, counter_count);
    print_calls();
    while (kept_count)
        free(kept[--kept_count].bytes);
    free(kept);
    return 0;
}
