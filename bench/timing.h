/* Times of works beside each other: CPU time, medians of batches that are taken by turns. */
#ifndef TIMING_H
#define TIMING_H

#include <stddef.h>
#include <stdint.h>

enum { MOST_WORKS = 4 };

struct timed {
    void (*work)(const void *of);
    const void *of;
    double ns;    /* a call */
    double times; /* how often the first work takes the time of this one */
};

/* Fills in ns and times. */
void measure(struct timed *works, int count);

/* Two plain loops to compare with: the borders of names, numbers and marks by a table of 256 classes; a sum of the bytes, one at a
   time. */
void class_loop(const uint8_t *bytes, size_t length);
void byte_loop(const uint8_t *bytes, size_t length);

/* The beginning of a file, as far as there is room; ends the program if there is none. */
size_t read_file(const char *path, uint8_t *room, size_t size);

/* A path's last part. */
const char *file_name(const char *path);

#endif
