/* What a host without the core does: it reads a ramp time as a number of the machine, narrows it to the 32 bits that the drive takes, and
   writes it. That 2147483648 is no such number is noticed by nobody but the coupling.

     naive HOST PORT UNIT STEP TIME */
#include "registers.h"

#include <errno.h>
#include <modbus.h>
#include <stdio.h>
#include <stdlib.h>

static int trouble(modbus_t *line) {
    fprintf(stderr, "naive: %s\n", modbus_strerror(errno));
    modbus_free(line);
    return 1;
}

int main(int argc, char **argv) {
    if (argc != 6) {
        fprintf(stderr, "usage: naive HOST PORT UNIT STEP TIME\n");
        return 2;
    }
    modbus_t *line = modbus_new_tcp_pi(argv[1], argv[2]);
    if (!line || modbus_set_slave(line, atoi(argv[3])) != 0 || modbus_connect(line) != 0)
        return trouble(line);
    int first = REGISTER_RAMPS + 2 * (atoi(argv[4]) - 1);
    int32_t time = (int32_t)strtol(argv[5], NULL, 10); /* here it goes wrong */
    uint16_t ramp[2], fault;
    put_pair(ramp, time);
    if (modbus_write_registers(line, first, 2, ramp) != 2 || modbus_read_registers(line, first, 2, ramp) != 2 ||
        modbus_read_registers(line, REGISTER_FAULT, 1, &fault) != 1)
        return trouble(line);
    printf("naive: asked for %s ms, the drive now has %d ms\n", argv[5], signed_pair(ramp));
    printf("naive: the drive's fault word is %d%s\n", fault, fault == FAULT_SHEARED ? ": coupling sheared" : "");
    modbus_close(line);
    modbus_free(line);
    return 0;
}
