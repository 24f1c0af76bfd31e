/* JSON on standard output, piece by piece. Whatever the bytes of a text are, what is written is JSON in UTF-8. */
#ifndef JSON_H
#define JSON_H

#include <stddef.h>
#include <stdint.h>

void json_open(char bracket);  /* { or [ */
void json_close(char bracket); /* } or ] */

/* Begins the object of a file on a line of its own, with whether it is accepted; ends it. */
void json_begin(const char *file, int accepted);
void json_finish(void);

void json_key(const char *key);
void json_member(const uint8_t *name, size_t length); /* a key of some bytes */
void json_text(const char *text);
void json_bytes(const uint8_t *bytes, size_t length); /* as a string */
void json_number(uint64_t number);
void json_signed(int64_t number);
void json_truth(int truth);
void json_nothing(void); /* null */
void json_as_written(const uint8_t *bytes, size_t length); /* a number, true, false or a string token of GraphQL */

#endif
