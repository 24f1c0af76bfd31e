/* The lines of cases. */
#include "lines.h"

#include <inttypes.h>
#include <stdlib.h>
#include <string.h>

FILE *opened(const char *path) {
    FILE *file = strcmp(path, "-") == 0 ? stdin : fopen(path, "rb");
    if (!file) {
        perror(path);
        exit(2);
    }
    return file;
}

static void no_case(void) {
    fprintf(stderr, "a line of the cases is no case\n");
    exit(2);
}

int has_line(FILE *file) {
    int c = fgetc(file);
    ungetc(c, file);
    return c != EOF;
}

static int digit(int c) {
    if (!(c >= '0' && c <= '9') && !(c >= 'a' && c <= 'f'))
        no_case();
    return c >= 'a' ? c - 'a' + 10 : c - '0';
}

size_t read_hex(FILE *file, uint8_t *bytes, size_t room) {
    size_t length = 0;
    int c = fgetc(file);
    if (c == '-')
        c = fgetc(file);
    for (; c != ' '; c = fgetc(file)) {
        int byte = digit(c) * 16;
        byte += digit(fgetc(file));
        if (length < room)
            bytes[length++] = (uint8_t)byte;
    }
    return length;
}

void read_numbers(FILE *file, uint32_t *numbers, size_t count) {
    for (size_t i = 0; i < count; i++)
        if (fscanf(file, "%" SCNu32, &numbers[i]) != 1)
            no_case();
}

void read_end(FILE *file) {
    if (fgetc(file) != '\n')
        no_case();
}

void print_hex(const uint8_t *bytes, size_t length) {
    static const char digits[] = "0123456789abcdef";
    char some[1024];
    size_t n = 0;
    for (size_t i = 0; i < length; i++) {
        if (n == sizeof some)
            n -= fwrite(some, 1, n, stdout);
        some[n++] = digits[bytes[i] >> 4];
        some[n++] = digits[bytes[i] & 15];
    }
    fwrite(length ? some : "-", 1, length ? n : 1, stdout);
}

void print_numbers(const uint32_t *numbers, size_t count) {
    for (size_t i = 0; i < count; i++)
        printf(" %" PRIu32, numbers[i]);
}
