/* A text cut into cells: what stands at one place of a terminal. Whatever the bytes are, only harmless text is printed. */
#ifndef CELLS_H
#define CELLS_H

#include <stddef.h>
#include <stdint.h>

enum { TAB_STOP = 4 };

struct cell {
    size_t bytes;   /* of the text that it takes */
    int width;      /* columns on the terminal */
    char shown[12]; /* what is printed; for a tab nothing, its width in blanks */
};

/* The cell at `at`; `column` is where it begins on the terminal. There is a byte at `at`. */
struct cell cell_at(const uint8_t *bytes, size_t length, size_t at, int column);

/* The bytes of the character at `at`; 0 if it is no good UTF-8. */
size_t character_at(const uint8_t *bytes, size_t length, size_t at);

#endif
