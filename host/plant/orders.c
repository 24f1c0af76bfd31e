/* What a cooling tower is told to do. The core has seen to it that an Int has 32 bits; what a drive may be told beyond that is said here. */
#include "orders.h"

#include "registers.h"

#include <inttypes.h>
#include <stdio.h>

enum { MOST_RPM = 3000 };

/* A number that must be from `least` to `most`; otherwise words for it. */
static int is_within(const char *what, int32_t number, int32_t least, int32_t most, char trouble[TROUBLE_LENGTH]) {
    if (number >= least && number <= most)
        return 1;
    snprintf(trouble, TROUBLE_LENGTH, "%s %" PRId32 " is not from %" PRId32 " to %" PRId32, what, number, least, most);
    return 0;
}

/* The drive that an argument names; -1 for none, with words for it. */
static int told_drive(struct plant *plant, struct value arguments, char trouble[TROUBLE_LENGTH]) {
    struct value id = entry_named(arguments, "machine");
    int drive = drive_called(plant, id.bytes, id.length);
    if (drive < 0)
        snprintf(trouble, TROUBLE_LENGTH, "no machine has the id %.*s", (int)(id.length < ID_LENGTH ? id.length : ID_LENGTH), (const char *)id.bytes);
    return drive;
}

struct answer set_ramp(struct plant *plant, struct thing of, struct value arguments) {
    char trouble[TROUBLE_LENGTH];
    int32_t step = value_number(entry_named(arguments, "step")), time = value_number(entry_named(arguments, "time"));
    int drive = told_drive(plant, arguments, trouble);
    uint16_t pair[2];
    put_pair(pair, time);
    (void)of;
    if (drive >= 0 && is_within("step", step, 1, RAMP_STEPS, trouble) && is_within("time", time, 0, INT32_MAX, trouble) &&
        write_registers(plant, drive, REGISTER_RAMPS + 2 * (step - 1), 2, pair, trouble))
        return machine_of(plant, drive);
    return answer_trouble("%s", trouble);
}

/* Tells a drive its speed, which must be within what it can turn; it is narrowed to the register's 16 bits only then. */
static int write_speed(struct plant *plant, int drive, int32_t rpm, char trouble[TROUBLE_LENGTH]) {
    if (!is_within("rpm", rpm, 0, MOST_RPM, trouble))
        return 0;
    uint16_t target = (uint16_t)rpm;
    return write_registers(plant, drive, REGISTER_TARGET, 1, &target, trouble);
}

struct answer set_speed(struct plant *plant, struct thing of, struct value arguments) {
    char trouble[TROUBLE_LENGTH];
    int drive = told_drive(plant, arguments, trouble);
    (void)of;
    if (drive >= 0 && write_speed(plant, drive, value_number(entry_named(arguments, "rpm")), trouble))
        return machine_of(plant, drive);
    return answer_trouble("%s", trouble);
}

/* The ramp times of a profile into registers; how many there are, -1 if one of them is not to be, with words for it. */
static int read_times(struct value times, uint16_t registers[2 * RAMP_STEPS], char trouble[TROUBLE_LENGTH]) {
    int count = 0;
    for (struct value time = first_in(times); time.tag; time = next_in(times, time), count++) {
        if (count == RAMP_STEPS) {
            snprintf(trouble, TROUBLE_LENGTH, "a ramp table has %d times at most", RAMP_STEPS);
            return -1;
        }
        if (!is_within("time", value_number(time), 0, INT32_MAX, trouble))
            return -1;
        put_pair(registers + 2 * count, value_number(time));
    }
    return count;
}

struct answer set_profile(struct plant *plant, struct thing of, struct value arguments) {
    char trouble[TROUBLE_LENGTH];
    uint16_t registers[2 * RAMP_STEPS];
    struct value profile = entry_named(arguments, "profile"), rpm = entry_named(profile, "rpm");
    int drive = told_drive(plant, arguments, trouble);
    (void)of;
    if (drive < 0)
        return answer_trouble("%s", trouble);
    int times = read_times(entry_named(profile, "times"), registers, trouble);
    if (times < 0 || !is_within("rpm", value_number(rpm), 0, MOST_RPM, trouble))
        return answer_trouble("%s", trouble);
    if (times > 0 && !write_registers(plant, drive, REGISTER_RAMPS, 2 * times, registers, trouble))
        return answer_trouble("%s", trouble);
    if (rpm.tag == GW_VALUE_INT && !write_speed(plant, drive, value_number(rpm), trouble))
        return answer_trouble("%s", trouble);
    return machine_of(plant, drive);
}

struct answer reset_drive(struct plant *plant, struct thing of, struct value arguments) {
    char trouble[TROUBLE_LENGTH];
    uint16_t none = FAULT_NONE;
    int drive = told_drive(plant, arguments, trouble);
    (void)of;
    if (drive >= 0 && write_registers(plant, drive, REGISTER_FAULT, 1, &none, trouble))
        return machine_of(plant, drive);
    return answer_trouble("%s", trouble);
}
