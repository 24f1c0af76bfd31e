/* JSON on standard output. */
#include "json.h"

#include "cells.h"

#include <inttypes.h>
#include <stdio.h>
#include <string.h>

static int behind; /* whether a comma is due before the next value or key */

static void separate(void) {
    if (behind)
        putchar(',');
    behind = 0;
}

void json_open(char bracket) {
    separate();
    putchar(bracket);
}

void json_close(char bracket) {
    putchar(bracket);
    behind = 1;
}

/* A byte of ASCII in a string. */
static void put_plain(uint8_t b) {
    if (b == '"' || b == '\\')
        printf("\\%c", b);
    else if (b == '\n')
        fputs("\\n", stdout);
    else if (b < ' ' || b == 127)
        printf("\\u%04x", b);
    else
        putchar(b);
}

void json_bytes(const uint8_t *bytes, size_t length) {
    separate();
    putchar('"');
    for (size_t at = 0; at < length;) {
        size_t step = character_at(bytes, length, at);
        if (step == 0)
            printf("\\ufffd");
        else if (step == 1)
            put_plain(bytes[at]);
        else
            fwrite(bytes + at, 1, step, stdout);
        at += step ? step : 1;
    }
    putchar('"');
    behind = 1;
}

void json_text(const char *text) {
    json_bytes((const uint8_t *)text, strlen(text));
}

void json_member(const uint8_t *name, size_t length) {
    json_bytes(name, length);
    putchar(':');
    behind = 0;
}

void json_key(const char *key) {
    json_member((const uint8_t *)key, strlen(key));
}

void json_number(uint64_t number) {
    separate();
    printf("%" PRIu64, number);
    behind = 1;
}

void json_signed(int64_t number) {
    separate();
    printf("%" PRId64, number);
    behind = 1;
}

void json_truth(int truth) {
    separate();
    fputs(truth ? "true" : "false", stdout);
    behind = 1;
}

void json_nothing(void) {
    separate();
    fputs("null", stdout);
    behind = 1;
}

/* GraphQL's tokens are JSON's, but that a string may hold a tab as it is. */
void json_as_written(const uint8_t *bytes, size_t length) {
    separate();
    for (size_t i = 0; i < length; i++)
        if (bytes[i] == '\t')
            fputs("\\t", stdout);
        else
            putchar(bytes[i]);
    behind = 1;
}

void json_begin(const char *file, int accepted) {
    json_open('{');
    json_key("file"), json_text(file);
    json_key("accepted"), json_truth(accepted);
}

void json_finish(void) {
    json_close('}');
    putchar('\n');
    behind = 0;
}
