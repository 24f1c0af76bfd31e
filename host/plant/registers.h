/* The registers of a drive: holding registers of 16 bits, counted from 0 as Modbus sends them. What takes two registers has its high
   half in the first. A drive of another make has another map: this file and the functions of tower.c that read it are all that changes. */
#ifndef REGISTERS_H
#define REGISTERS_H

#include <stdint.h>

enum {
    REGISTER_KIND = 0,   /* KIND_.. */
    REGISTER_STATE = 1,  /* STATE_.. */
    REGISTER_SPEED = 2,  /* revolutions per minute, as they are */
    REGISTER_TARGET = 3, /* revolutions per minute, as they are asked for */
    REGISTER_FAULT = 4,  /* the fault word, FAULT_..; FAULT_NONE is written to reset it */
    REGISTER_SIZE = 5,   /* of a fan its blades, of a pump its flow in tenths of a litre per second */
    REGISTER_HOURS = 6,  /* running hours, without sign, two registers */
    REGISTER_TAG = 16,   /* the tag's characters, two in a register, the first one high, filled up with 0 */
    REGISTER_RAMPS = 32, /* the ramp table: of each step its time in milliseconds, with sign, two registers */

    /* Of the simulation only. */
    REGISTER_ANSWERS = 8, /* the Modbus exception that answers every request but a write of this register; 0 none; ANSWER_SILENCE */
    REGISTER_BROKEN = 9,  /* a register that no request can touch: exception 4 answers; 0 none */

    TAG_REGISTERS = 8,
    TAG_LENGTH = 2 * TAG_REGISTERS,
    RAMP_STEPS = 4,
    REGISTERS = REGISTER_RAMPS + 2 * RAMP_STEPS
};

enum { KIND_FAN = 1, KIND_PUMP = 2 };
enum { STATE_STOPPED = 0, STATE_RUNNING = 1, STATE_TRIPPED = 2 };
enum { FAULT_NONE = 0, FAULT_SHEARED = 1, FAULT_OVERHEATED = 2 };
enum { ANSWER_SILENCE = 255 };

/* Two registers as a number without sign, and with sign. */
static inline uint32_t pair_of_registers(const uint16_t *high) {
    return (uint32_t)high[0] << 16 | high[1];
}

static inline int32_t signed_pair(const uint16_t *high) {
    uint32_t bits = pair_of_registers(high);
    return bits <= INT32_MAX ? (int32_t)bits : -1 - (int32_t)(UINT32_MAX - bits);
}

/* A number with sign into two registers. */
static inline void put_pair(uint16_t *high, int32_t number) {
    high[0] = (uint16_t)((uint32_t)number >> 16);
    high[1] = (uint16_t)(uint32_t)number;
}

#endif
