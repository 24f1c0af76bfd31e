/* The simulated drives of a cooling tower. They do not wait for a ramp to end: the speed is there at once. What a ramp time below 0 does
   to a turning drive is what it did that night: it jumps, and the coupling shears. */
#include "simulated.h"

#include "registers.h"

#include <errno.h>
#include <string.h>

static const struct start {
    const char *tag;
    uint16_t kind, speed, size;
    uint32_t hours;
    int32_t ramps[RAMP_STEPS];
} starts[SIMULATED_DRIVES] = {
    {"FAN-1", KIND_FAN, 900, 6, 41200, {4000, 6000, 8000, 12000}},
    {"FAN-2", KIND_FAN, 850, 6, 39875, {4000, 6000, 8000, 12000}},
    {"PUMP-1", KIND_PUMP, 1450, 185, 12044, {2500, 2500, 5000, 5000}},
    {"FAN-3", KIND_FAN, 0, 8, 310, {5000, 5000, 5000, 5000}},
};

static modbus_mapping_t *drives[SIMULATED_DRIVES];

/* ---- what a drive is like */

static int is_any_ramp_negative(const uint16_t *registers) {
    for (int i = 0; i < RAMP_STEPS; i++)
        if (signed_pair(registers + REGISTER_RAMPS + 2 * i) < 0)
            return 1;
    return 0;
}

/* Speed, state and fault after something was written. */
static void settle(uint16_t *registers) {
    if (registers[REGISTER_TARGET] > 0 && is_any_ramp_negative(registers))
        registers[REGISTER_FAULT] = FAULT_SHEARED;
    int tripped = registers[REGISTER_FAULT] != FAULT_NONE;
    registers[REGISTER_SPEED] = tripped ? 0 : registers[REGISTER_TARGET];
    registers[REGISTER_STATE] = tripped ? STATE_TRIPPED : registers[REGISTER_TARGET] ? STATE_RUNNING : STATE_STOPPED;
}

static void start_drive(uint16_t *registers, const struct start *start) {
    size_t length = strlen(start->tag);
    registers[REGISTER_KIND] = start->kind;
    registers[REGISTER_TARGET] = start->speed;
    registers[REGISTER_SIZE] = start->size;
    put_pair(registers + REGISTER_HOURS, (int32_t)start->hours);
    for (size_t i = 0; i < length && i < TAG_LENGTH; i++)
        registers[REGISTER_TAG + i / 2] |= (uint16_t)((uint8_t)start->tag[i] << (i % 2 ? 0 : 8));
    for (int i = 0; i < RAMP_STEPS; i++)
        put_pair(registers + REGISTER_RAMPS + 2 * i, start->ramps[i]);
    settle(registers);
}

int start_drives(void) {
    for (int i = 0; i < SIMULATED_DRIVES; i++) {
        drives[i] = modbus_mapping_new(0, 0, REGISTERS, 0);
        if (!drives[i])
            return 0;
        start_drive(drives[i]->tab_registers, &starts[i]);
    }
    return 1;
}

void stop_drives(void) {
    for (int i = 0; i < SIMULATED_DRIVES; i++)
        modbus_mapping_free(drives[i]);
}

int set_register(const char *words) {
    unsigned unit, number, value;
    int end = 0;
    if (sscanf(words, "%u:%u=%u%n", &unit, &number, &value, &end) != 3 || words[end] != 0 || unit < 1 || unit > SIMULATED_DRIVES ||
        number >= REGISTERS || value > UINT16_MAX)
        return 0;
    drives[unit - 1]->tab_registers[number] = (uint16_t)value;
    return 1;
}

/* ---- requests */

/* The parts of a request: unit, function, the first register and how many. */
struct request {
    int unit, function, first, count;
};

enum { READ = 3, WRITE_ONE = 6, WRITE_MANY = 16 }; /* the functions that concern holding registers */

static struct request request_of(modbus_t *line, const uint8_t *bytes, int length) {
    int head = modbus_get_header_length(line);
    struct request r = {length > head - 1 ? bytes[head - 1] : 0, 0, 0, 0};
    if (length < head + 5)
        return r;
    r.function = bytes[head];
    r.first = bytes[head + 1] * 256 + bytes[head + 2];
    r.count = r.function == WRITE_ONE ? 1 : bytes[head + 3] * 256 + bytes[head + 4];
    return r;
}

static int is_write(const struct request *r) {
    return r->function == WRITE_ONE || r->function == WRITE_MANY;
}

/* The exception that a drive answers with, before the request is looked at any closer; 0 for none. */
static int exception_of(const struct request *r, const uint16_t *registers) {
    int broken = registers[REGISTER_BROKEN], is_told = is_write(r) && r->first == REGISTER_ANSWERS && r->count == 1;
    if (registers[REGISTER_ANSWERS] && !is_told)
        return registers[REGISTER_ANSWERS];
    return broken && broken >= r->first && broken < r->first + r->count ? MODBUS_EXCEPTION_SLAVE_OR_SERVER_FAILURE : 0;
}

static void tell_write(FILE *log, const struct request *r, const uint16_t *registers) {
    fprintf(log, "drive %d takes register %d:", r->unit, r->first);
    for (int i = 0; i < r->count && r->first + i < REGISTERS; i++)
        fprintf(log, " %d", registers[r->first + i]);
    fprintf(log, "%s\n", registers[REGISTER_FAULT] == FAULT_SHEARED ? " - coupling sheared" : "");
    fflush(log);
}

void answer_request(modbus_t *line, const uint8_t *request, int length, FILE *log) {
    struct request r = request_of(line, request, length);
    if (r.unit < 1 || r.unit > SIMULATED_DRIVES) {
        modbus_reply_exception(line, request, MODBUS_EXCEPTION_GATEWAY_TARGET);
        return;
    }
    modbus_mapping_t *drive = drives[r.unit - 1];
    int exception = exception_of(&r, drive->tab_registers);
    if (exception == ANSWER_SILENCE)
        return;
    if (exception) {
        modbus_reply_exception(line, request, (unsigned)exception);
        return;
    }
    int sent = modbus_reply(line, request, length, drive);
    if (sent < 0 || !is_write(&r) || r.first + r.count > REGISTERS)
        return;
    settle(drive->tab_registers);
    if (log)
        tell_write(log, &r, drive->tab_registers);
}
