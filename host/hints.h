/* What may have gone wrong with the files themselves, where the library refused one of them. */
#ifndef HINTS_H
#define HINTS_H

#include "refusal.h"
#include "text.h"

/* What was given, as far as there was room; NULL for what was not. */
struct files {
    const struct text *table, *document, *variables;
};

/* A hint for people: files in each other's place, a file of another kind, JSON as a variables text. NULL for none. */
const char *hint_of(const struct files *files, const struct gw_told *told);

#endif
