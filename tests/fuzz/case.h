/* A case of the fuzzer as bytes: one call of the library, or all seven on the same inputs, with everything that is lent to it. Any bytes
   are a case.

     byte 0        bits 0 to 2  the call, CALL_..
                   bits 3, 4    the report's length, bits 5, 6 that of the output: 0, 1 its fixed size, 2 longer, 3 shorter
                   bit 7        where inputs and outputs lie: right above a page that traps, or right below one
     byte 1        bits 0 to 2  the table, the document, the variables text told longer than it may be, with nothing there;
                                of a walk bits 1 and 2: a plan with more numbers, with fewer
                   bit 3        inputs of no bytes are NULL
                   bits 4 to 7  how much shorter
     bytes 2 to 9  the lengths of table, document, operation's name and variables, two bytes each, high first
     10, 11        the row of gw_coerce_arguments, the object of gw_walk
     then          table, document, name, variables, and for a walk: a byte with the count of blocks, the blocks, the plan (its counts,
                   as many first steps as it has blocks, its steps), two bytes a number; what is missing is 0 */
#ifndef CASE_H
#define CASE_H

#include <stddef.h>
#include <stdint.h>

enum { CALL_PARSE, CALL_TABLE, CALL_CHECK, CALL_VARIABLES, CALL_ARGUMENTS, CALL_PLAN, CALL_WALK, CALLS, CALL_ALL = CALLS };

enum { TABLE, DOCUMENT, OPERATION, VARIABLES, NUMBERS, SECTIONS }; /* the sections of a case */

enum { CASE_HEAD = 12, SECTION_MOST = 65535, CASE_MOST = 131072 };

struct section {
    const uint8_t *bytes;
    size_t length;
};

struct fuzz_case {
    uint8_t what, lies;
    uint16_t number;
    struct section sections[SECTIONS];
};

/* Cuts bytes into a case: the sections lie in them. */
struct fuzz_case cut_case(const uint8_t *bytes, size_t length);

/* The bytes of a case, or none if there is no room for them; they may overlap with nothing of the case. */
size_t join_case(const struct fuzz_case *c, uint8_t *bytes, size_t room);

/* A number of two bytes as one of four: the highest 256 stand for numbers about the middle and the end of all. */
uint32_t widened(uint16_t number);
uint16_t narrowed(uint32_t number);

/* The walk's numbers out of their section, and back; the plan has GW_PLAN_SIZE numbers. */
enum { BLOCKS_MOST = 255 };
size_t cut_numbers(struct section s, uint32_t *blocks, uint32_t *plan);
size_t join_numbers(const uint32_t *blocks, size_t count, const uint32_t *plan, uint8_t *bytes);
enum { NUMBERS_MOST = 1 + 2 * BLOCKS_MOST + 2 * 14338 };

/* Makes a case's calls and checks all that must hold; ends the program with abort() where something does not. */
void call_case(const uint8_t *bytes, size_t length);

/* Prints how many calls were made, by call and answer. */
void print_calls(void);

/* A change of a case, by random_below; the new length, at most the room. */
size_t change_case(uint8_t *bytes, size_t length, size_t room);

/* Sections of another case in the place of this one's. */
size_t cross_cases(const uint8_t *one, size_t one_len, const uint8_t *other, size_t other_len, uint8_t *bytes, size_t room);

/* Changes bytes by a driver's own means: the new length, at most the room. */
size_t change_bytes(uint8_t *bytes, size_t length, size_t room);

#endif
