/* The harness for libFuzzer. */
#include "case.h"

#include "random.h"

#include <stdlib.h>

size_t LLVMFuzzerMutate(uint8_t *bytes, size_t length, size_t room);
int LLVMFuzzerInitialize(int *argc, char ***argv);
int LLVMFuzzerTestOneInput(const uint8_t *bytes, size_t length);
size_t LLVMFuzzerCustomMutator(uint8_t *bytes, size_t length, size_t room, unsigned int seed);
size_t LLVMFuzzerCustomCrossOver(const uint8_t *one, size_t one_len, const uint8_t *other, size_t other_len, uint8_t *bytes, size_t room,
                                 unsigned int seed);

int LLVMFuzzerInitialize(int *argc, char ***argv) {
    (void)argc;
    (void)argv;
    return atexit(print_calls);
}

int LLVMFuzzerTestOneInput(const uint8_t *bytes, size_t length) {
    call_case(bytes, length);
    return 0;
}

size_t change_bytes(uint8_t *bytes, size_t length, size_t room) {
    return LLVMFuzzerMutate(bytes, length, room);
}

size_t LLVMFuzzerCustomMutator(uint8_t *bytes, size_t length, size_t room, unsigned int seed) {
    random_start(seed + 1);
    return change_case(bytes, length, room);
}

size_t LLVMFuzzerCustomCrossOver(const uint8_t *one, size_t one_len, const uint8_t *other, size_t other_len, uint8_t *bytes, size_t room,
                                 unsigned int seed) {
    random_start(seed + 1);
    return cross_cases(one, one_len, other, other_len, bytes, room);
}
