/* Random type tables: given ones with a few changes in their fields, names, type references or bytes. Deterministic. */
#ifndef RANDOM_TABLES_H
#define RANDOM_TABLES_H

#include <stddef.h>
#include <stdint.h>

enum { TABLE_ROOM = 40000 };

struct table {
    size_t length;
    uint8_t bytes[TABLE_ROOM];
};

struct tables {
    struct table **all;
    size_t count;
};

/* The next table, after random_start. Most are small. */
void random_table(struct table *t, const struct tables *given);

/* One change, for which a part of another table may be taken. */
void change_table(struct table *t, const struct tables *given);

#endif
