/* Times of works beside each other. */
#define _GNU_SOURCE
#include "timing.h"

#include <stdio.h>
#include <stdlib.h>
#include <string.h>
#include <time.h>

enum { BATCHES = 21, BATCH_NS = 2000000, WARMING = 5 };

static double cpu_ns(void) {
    struct timespec t;
    clock_gettime(CLOCK_PROCESS_CPUTIME_ID, &t);
    return (double)t.tv_sec * 1e9 + (double)t.tv_nsec;
}

static double batch(const struct timed *w, long calls) {
    double start = cpu_ns();
    for (long i = 0; i < calls; i++)
        w->work(w->of);
    return (cpu_ns() - start) / (double)calls;
}

static int by_value(const void *a, const void *b) {
    double x = *(const double *)a, y = *(const double *)b;
    return (x > y) - (x < y);
}

static double median(double *some) {
    qsort(some, BATCHES, sizeof *some, by_value);
    return some[BATCHES / 2];
}

void measure(struct timed *works, int count) {
    double took[MOST_WORKS][BATCHES], ratios[BATCHES];
    long calls[MOST_WORKS];
    for (int k = 0; k < count; k++) {
        batch(&works[k], WARMING);
        calls[k] = 1 + (long)(BATCH_NS / batch(&works[k], WARMING));
    }
    for (int b = 0; b < BATCHES; b++)
        for (int k = 0; k < count; k++)
            took[k][b] = batch(&works[k], calls[k]);
    for (int k = 0; k < count; k++) {
        for (int b = 0; b < BATCHES; b++)
            ratios[b] = took[0][b] / took[k][b];
        works[k].times = median(ratios);
    }
    for (int k = 0; k < count; k++)
        works[k].ns = median(took[k]);
}

/* ---- the plain loops */

enum { OTHER, BLANK, MARK, DIGIT, LETTER };
static uint8_t class_of[256];

static void make_classes(void) {
    for (const char *s = " \t\n\r,"; *s; s++)
        class_of[(uint8_t)*s] = BLANK;
    for (const char *s = "!$().:=@[]{|}\""; *s; s++)
        class_of[(uint8_t)*s] = MARK;
    for (int c = '0'; c <= '9'; c++)
        class_of[c] = DIGIT;
    for (int c = 'a'; c <= 'z'; c++)
        class_of[c] = class_of[c - 'a' + 'A'] = LETTER;
    class_of['_'] = LETTER;
}

void class_loop(const uint8_t *s, size_t n) {
    size_t i = 0, tokens = 0;
    if (!class_of['_'])
        make_classes();
    while (i < n) {
        uint8_t c = class_of[s[i++]];
        if (c >= DIGIT) {
            while (i < n && class_of[s[i]] >= DIGIT)
                i++;
            tokens++;
        } else if (c == MARK) {
            tokens++;
        }
    }
    __asm__ volatile("" : : "r"(tokens) : "memory");
}

void byte_loop(const uint8_t *bytes, size_t length) {
    uint32_t sum = 0;
    for (size_t i = 0; i < length; i++) {
        sum += bytes[i];
        __asm__ volatile("" : "+r"(sum));
    }
    __asm__ volatile("" : : "r"(sum) : "memory");
}

/* ---- files */

size_t read_file(const char *path, uint8_t *room, size_t size) {
    FILE *file = fopen(path, "rb");
    if (!file) {
        perror(path);
        exit(2);
    }
    size_t length = fread(room, 1, size, file);
    fclose(file);
    return length;
}

const char *file_name(const char *path) {
    return strrchr(path, '/') ? strrchr(path, '/') + 1 : path;
}
