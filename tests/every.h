/* Short documents, all of a kind: every token at every place, every pair of bytes in a string, every short number. */
#ifndef EVERY_H
#define EVERY_H

#include "random.h"

void every_document(void (*use)(const struct text *));

#endif
