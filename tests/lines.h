/* The lines of cases, as the independent readers print and read them: words of hex (- for no bytes), then numbers. */
#ifndef LINES_H
#define LINES_H

#include <stddef.h>
#include <stdint.h>
#include <stdio.h>

/* A file for reading, - for standard input; ends the program if there is none. */
FILE *opened(const char *path);

int has_line(FILE *file);

/* Reads a word of hex and the blank behind it. Returns its bytes, those beyond the room left out. */
size_t read_hex(FILE *file, uint8_t *bytes, size_t room);

/* Read numbers, and the end of the line; end the program if there are none. */
void read_numbers(FILE *file, uint32_t *numbers, size_t count);
void read_end(FILE *file);

void print_hex(const uint8_t *bytes, size_t length);
void print_numbers(const uint32_t *numbers, size_t count);

#endif
