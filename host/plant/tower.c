/* The cooling tower: what it answers for each field of host/plant/tower.types, from the registers of its drives. */
#include "answer.h"
#include "orders.h"
#include "registers.h"

#include <inttypes.h>
#include <stdio.h>
#include <string.h>

static const char tower_name[] = "Tower A";

struct thing root_thing(const char *type) {
    return (struct thing){.type = type, .drive = -1};
}

/* ---- machines */

struct answer machine_of(struct plant *plant, int drive) {
    uint16_t kind;
    char trouble[TROUBLE_LENGTH];
    if (!read_registers(plant, drive, REGISTER_KIND, 1, &kind, trouble))
        return answer_trouble("%s", trouble);
    if (kind != KIND_FAN && kind != KIND_PUMP)
        return answer_trouble("drive %s is of kind %d, which is neither a fan's nor a pump's", plant->drives[drive].id, kind);
    return answer_thing((struct thing){.type = kind == KIND_FAN ? "Fan" : "Pump", .drive = drive});
}

static int is_of(const struct answer *machine, const char *type) {
    return machine->kind == ANSWER_THING && strcmp(machine->thing.type, type) == 0;
}

/* All machines of a type, or all for none; one that does not say what it is is among them, with its trouble. */
static struct answer machines_of(struct plant *plant, const char *type, int most) {
    struct answer list = answer_list((size_t)plant->count);
    for (int i = 0; i < plant->count && list.count < (size_t)most; i++) {
        struct answer machine = machine_of(plant, i);
        if (!type || is_of(&machine, type) || machine.kind == ANSWER_TROUBLE)
            add_item(&list, machine);
    }
    return list;
}

/* How many are asked for by an argument; all without it, or if it is null. */
static int first_of(struct value arguments, int all) {
    struct value first = entry_named(arguments, "first");
    return first.tag == GW_VALUE_INT ? value_number(first) : all;
}

static struct answer ask_machines(struct plant *plant, struct thing of, struct value arguments) {
    struct value kind = entry_named(arguments, "kind");
    int first = first_of(arguments, plant->count);
    (void)of;
    if (first < 0)
        return answer_trouble("first: %d is below 0", first);
    return machines_of(plant, kind.tag != GW_VALUE_ENUM ? NULL : kind.length == strlen("FAN") ? "Fan" : "Pump", first);
}

static struct answer ask_fans(struct plant *plant, struct thing of, struct value arguments) {
    (void)of, (void)arguments;
    return machines_of(plant, "Fan", plant->count);
}

static struct answer ask_pumps(struct plant *plant, struct thing of, struct value arguments) {
    (void)of, (void)arguments;
    return machines_of(plant, "Pump", plant->count);
}

static struct answer ask_name(struct plant *plant, struct thing of, struct value arguments) {
    (void)plant, (void)of, (void)arguments;
    return answer_text(tower_name);
}

static struct answer ask_tower(struct plant *plant, struct thing of, struct value arguments) {
    (void)plant, (void)of, (void)arguments;
    return answer_thing(root_thing("Tower"));
}

static struct answer ask_machine(struct plant *plant, struct thing of, struct value arguments) {
    struct value id = entry_named(arguments, "id");
    int drive = drive_called(plant, id.bytes, id.length);
    (void)of;
    return drive < 0 ? answer_null() : machine_of(plant, drive);
}

static struct answer ask_fan(struct plant *plant, struct thing of, struct value arguments) {
    char id[16];
    int length = snprintf(id, sizeof id, "%" PRId32, value_number(entry_named(arguments, "no")));
    int drive = drive_called(plant, (const uint8_t *)id, (size_t)length);
    (void)of;
    struct answer machine = drive < 0 ? answer_null() : machine_of(plant, drive);
    return is_of(&machine, "Pump") ? answer_null() : machine;
}

/* ---- what a machine's registers say */

static struct answer ask_id(struct plant *plant, struct thing of, struct value arguments) {
    (void)arguments;
    return answer_text(plant->drives[of.drive].id);
}

static struct answer ask_tag(struct plant *plant, struct thing of, struct value arguments) {
    uint16_t registers[TAG_REGISTERS];
    char tag[TAG_LENGTH + 1] = {0}, trouble[TROUBLE_LENGTH];
    (void)arguments;
    if (!read_registers(plant, of.drive, REGISTER_TAG, TAG_REGISTERS, registers, trouble))
        return answer_trouble("%s", trouble);
    for (int i = 0; i < TAG_LENGTH; i++)
        tag[i] = (char)(registers[i / 2] >> (i % 2 ? 0 : 8) & 0xFF);
    return answer_text(tag);
}

static struct answer ask_part(struct plant *plant, struct thing of, struct value arguments) {
    struct value wanted = entry_named(arguments, "tag");
    (void)of;
    for (int i = 0; i < plant->count; i++) {
        struct answer tag = ask_tag(plant, (struct thing){.drive = i}, arguments);
        if (tag.kind != ANSWER_TEXT)
            return tag;
        if (strlen(tag.text) == wanted.length && memcmp(tag.text, wanted.bytes, wanted.length) == 0)
            return machine_of(plant, i);
    }
    return answer_null();
}

static struct answer ask_kind(struct plant *plant, struct thing of, struct value arguments) {
    (void)plant, (void)arguments;
    return answer_text(strcmp(of.type, "Fan") == 0 ? "FAN" : "PUMP");
}

static struct answer ask_drive(struct plant *plant, struct thing of, struct value arguments) {
    (void)plant, (void)arguments;
    return answer_thing((struct thing){.type = "Drive", .drive = of.drive});
}

static struct answer ask_own_machine(struct plant *plant, struct thing of, struct value arguments) {
    (void)arguments;
    return machine_of(plant, of.drive);
}

/* A register as a number. */
static struct answer ask_register(struct plant *plant, struct thing of, int which) {
    uint16_t number;
    char trouble[TROUBLE_LENGTH];
    return read_registers(plant, of.drive, which, 1, &number, trouble) ? answer_number(number) : answer_trouble("%s", trouble);
}

static struct answer ask_blades(struct plant *plant, struct thing of, struct value arguments) {
    (void)arguments;
    return ask_register(plant, of, REGISTER_SIZE);
}

static struct answer ask_flow(struct plant *plant, struct thing of, struct value arguments) {
    struct answer tenths = ask_register(plant, of, REGISTER_SIZE);
    (void)arguments;
    return tenths.kind == ANSWER_NUMBER ? answer_real((double)tenths.number / 10) : tenths;
}

static struct answer ask_speed(struct plant *plant, struct thing of, struct value arguments) {
    (void)arguments;
    return ask_register(plant, of, REGISTER_SPEED);
}

static struct answer ask_target(struct plant *plant, struct thing of, struct value arguments) {
    (void)arguments;
    return ask_register(plant, of, REGISTER_TARGET);
}

/* A state that the enum does not have is refused where the answer is completed. */
static struct answer ask_state(struct plant *plant, struct thing of, struct value arguments) {
    static const char *const states[] = {[STATE_STOPPED] = "STOPPED", [STATE_RUNNING] = "RUNNING", [STATE_TRIPPED] = "TRIPPED"};
    struct answer state = ask_register(plant, of, REGISTER_STATE);
    (void)arguments;
    return state.kind == ANSWER_NUMBER && state.number <= STATE_TRIPPED ? answer_text(states[state.number]) : state;
}

static struct answer ask_running(struct plant *plant, struct thing of, struct value arguments) {
    struct answer state = ask_register(plant, of, REGISTER_STATE);
    (void)arguments;
    return state.kind == ANSWER_NUMBER ? answer_truth(state.number == STATE_RUNNING) : state;
}

static struct answer ask_hours(struct plant *plant, struct thing of, struct value arguments) {
    uint16_t pair[2];
    char trouble[TROUBLE_LENGTH];
    (void)arguments;
    if (!read_registers(plant, of.drive, REGISTER_HOURS, 2, pair, trouble))
        return answer_trouble("%s", trouble);
    return answer_number(pair_of_registers(pair));
}

/* ---- ramps */

static struct answer ramp_of(struct thing of, int step) {
    return answer_thing((struct thing){.type = "Ramp", .drive = of.drive, .step = step});
}

static struct answer ask_ramp(struct plant *plant, struct thing of, struct value arguments) {
    int step = value_number(entry_named(arguments, "step"));
    (void)plant;
    return step >= 1 && step <= RAMP_STEPS ? ramp_of(of, step) : answer_null();
}

static struct answer ask_ramps(struct plant *plant, struct thing of, struct value arguments) {
    int first = first_of(arguments, RAMP_STEPS);
    (void)plant;
    if (first < 0)
        return answer_trouble("first: %d is below 0", first);
    struct answer list = answer_list(RAMP_STEPS);
    for (int step = 1; step <= RAMP_STEPS && step <= first; step++)
        add_item(&list, ramp_of(of, step));
    return list;
}

static struct answer ask_times(struct plant *plant, struct thing of, struct value arguments) {
    uint16_t registers[2 * RAMP_STEPS];
    char trouble[TROUBLE_LENGTH];
    (void)arguments;
    if (!read_registers(plant, of.drive, REGISTER_RAMPS, 2 * RAMP_STEPS, registers, trouble))
        return answer_trouble("%s", trouble);
    struct answer list = answer_list(RAMP_STEPS);
    for (int i = 0; i < RAMP_STEPS; i++)
        add_item(&list, answer_number(signed_pair(registers + 2 * i)));
    return list;
}

static struct answer ask_step(struct plant *plant, struct thing of, struct value arguments) {
    (void)plant, (void)arguments;
    return answer_number(of.step);
}

static struct answer ask_time(struct plant *plant, struct thing of, struct value arguments) {
    uint16_t pair[2];
    char trouble[TROUBLE_LENGTH];
    (void)arguments;
    if (!read_registers(plant, of.drive, REGISTER_RAMPS + 2 * (of.step - 1), 2, pair, trouble))
        return answer_trouble("%s", trouble);
    return answer_number(signed_pair(pair));
}

static struct answer ask_seconds(struct plant *plant, struct thing of, struct value arguments) {
    struct answer time = ask_time(plant, of, arguments);
    return time.kind == ANSWER_NUMBER ? answer_real((double)time.number / 1000) : time;
}

/* ---- faults */

static struct answer ask_fault(struct plant *plant, struct thing of, struct value arguments) {
    struct answer fault = ask_register(plant, of, REGISTER_FAULT);
    (void)arguments;
    if (fault.kind != ANSWER_NUMBER)
        return fault;
    switch (fault.number) {
    case FAULT_NONE: return answer_null();
    case FAULT_SHEARED: return answer_thing((struct thing){"Sheared", of.drive, 0, FAULT_SHEARED});
    case FAULT_OVERHEATED: return answer_thing((struct thing){"Overheated", of.drive, 0, FAULT_OVERHEATED});
    default: return answer_trouble("drive %s reports fault %" PRId64 ", which is not known", plant->drives[of.drive].id, fault.number);
    }
}

static struct answer ask_code(struct plant *plant, struct thing of, struct value arguments) {
    (void)plant, (void)arguments;
    return answer_number(of.code);
}

static struct answer ask_text(struct plant *plant, struct thing of, struct value arguments) {
    (void)plant, (void)arguments;
    return answer_text(of.code == FAULT_SHEARED ? "coupling sheared" : "motor overheated");
}

/* The ramp that sheared the coupling: the first one with a time below 0. */
static struct answer ask_sheared_ramp(struct plant *plant, struct thing of, struct value arguments) {
    struct answer times = ask_times(plant, of, arguments), found = times.kind == ANSWER_LIST ? answer_null() : times;
    for (size_t i = times.count; i > 0; i--)
        if (times.items[i - 1].number < 0)
            found = ramp_of(of, (int)i);
    drop_answer(&times);
    return found;
}

/* ---- all fields */

static const struct {
    const char *type, *field;
    struct answer (*ask)(struct plant *plant, struct thing of, struct value arguments);
} fields[] = {
    {"Query", "tower", ask_tower},
    {"Query", "machine", ask_machine},
    {"Query", "fan", ask_fan},
    {"Query", "part", ask_part},
    {"Mutation", "setRamp", set_ramp},
    {"Mutation", "setSpeed", set_speed},
    {"Mutation", "setProfile", set_profile},
    {"Mutation", "reset", reset_drive},
    {"Tower", "name", ask_name},
    {"Tower", "machines", ask_machines},
    {"Tower", "fans", ask_fans},
    {"Tower", "pumps", ask_pumps},
    {"Fan", "blades", ask_blades},
    {"Pump", "flow", ask_flow},
    {"Drive", "speed", ask_speed},
    {"Drive", "target", ask_target},
    {"Drive", "hours", ask_hours},
    {"Drive", "running", ask_running},
    {"Drive", "ramp", ask_ramp},
    {"Drive", "ramps", ask_ramps},
    {"Drive", "times", ask_times},
    {"Drive", "fault", ask_fault},
    {"Drive", "machine", ask_own_machine},
    {"Ramp", "step", ask_step},
    {"Ramp", "time", ask_time},
    {"Ramp", "seconds", ask_seconds},
    {"Ramp", "drive", ask_drive},
    {"Sheared", "code", ask_code},
    {"Sheared", "text", ask_text},
    {"Sheared", "ramp", ask_sheared_ramp},
    {"Overheated", "code", ask_code},
    {"Overheated", "text", ask_text},
    {"Fan", "id", ask_id}, {"Pump", "id", ask_id},
    {"Fan", "tag", ask_tag}, {"Pump", "tag", ask_tag},
    {"Fan", "kind", ask_kind}, {"Pump", "kind", ask_kind},
    {"Fan", "state", ask_state}, {"Pump", "state", ask_state},
    {"Fan", "drive", ask_drive}, {"Pump", "drive", ask_drive},
};

struct answer ask_plant(struct plant *plant, struct thing of, struct words field, struct value arguments) {
    for (size_t i = 0; i < sizeof fields / sizeof *fields; i++)
        if (strcmp(fields[i].type, of.type) == 0 && is_word(field, fields[i].field))
            return fields[i].ask(plant, of, arguments);
    return answer_trouble("this plant has nothing to answer for %s.%.*s", of.type, (int)(field.length < 60 ? field.length : 60), (const char *)field.bytes);
}
