/* Drives that a host reaches by Modbus/TCP. A drive has one line, which is opened when it is first asked. */
#include "drive.h"

#include <errno.h>
#include <stdio.h>

enum { MILLISECONDS = 1000 };

/* Whether the drive has answered, if only with an error of its own. */
static int is_answer(int error) {
    return error >= EMBXILFUN && error <= EMBXGTAR;
}

/* What is said of the request that has just failed. A drive that has not answered is not asked again: the next request would wait as long. */
static int tell_trouble(struct drive *d, const char *behind, char trouble[TROUBLE_LENGTH]) {
    int error = d->gone ? d->gone : errno;
    if (!is_answer(error)) {
        d->gone = error ? error : EIO;
        snprintf(trouble, TROUBLE_LENGTH, "drive %s does not answer (%s)%s", d->id, modbus_strerror(d->gone), behind);
    } else {
        snprintf(trouble, TROUBLE_LENGTH, "drive %s answers with an error (%s)", d->id, modbus_strerror(error));
    }
    return 0;
}

/* Opens the line; 0 with errno if it cannot be. */
static int open_line(const struct plant *plant, struct drive *d) {
    if (d->gone)
        return 0;
    if (d->line)
        return 1;
    modbus_t *line = modbus_new_tcp_pi(d->host, d->port);
    if (line && modbus_set_slave(line, d->unit) == 0 &&
        modbus_set_response_timeout(line, plant->timeout / MILLISECONDS, plant->timeout % MILLISECONDS * MILLISECONDS) == 0 &&
        modbus_connect(line) == 0) {
        d->line = line;
        return 1;
    }
    int error = errno;
    modbus_free(line);
    errno = error;
    return 0;
}

int read_registers(struct plant *plant, int drive, int first, int count, uint16_t *registers, char trouble[TROUBLE_LENGTH]) {
    struct drive *d = &plant->drives[drive];
    errno = 0;
    if (open_line(plant, d) && modbus_read_registers(d->line, first, count, registers) == count)
        return 1;
    return tell_trouble(d, "", trouble);
}

int write_registers(struct plant *plant, int drive, int first, int count, const uint16_t *registers, char trouble[TROUBLE_LENGTH]) {
    struct drive *d = &plant->drives[drive];
    errno = 0;
    if (!open_line(plant, d))
        return tell_trouble(d, "", trouble);
    return modbus_write_registers(d->line, first, count, registers) == count || tell_trouble(d, "; it may have taken the value or not", trouble);
}

void leave_plant(struct plant *plant) {
    for (int i = 0; i < plant->count; i++)
        if (plant->drives[i].line) {
            modbus_close(plant->drives[i].line);
            modbus_free(plant->drives[i].line);
            plant->drives[i].line = NULL;
        }
}
