/* The simulated drives of a cooling tower: their registers, and what becomes of a request. */
#ifndef SIMULATED_H
#define SIMULATED_H

#include <modbus.h>
#include <stdio.h>

enum { SIMULATED_DRIVES = 4 };

/* Fills the registers of all drives; 0 if there is no memory. Units are 1 to SIMULATED_DRIVES. */
int start_drives(void);
void stop_drives(void);

/* Sets a register by "UNIT:REGISTER=VALUE"; 0 if that is none. */
int set_register(const char *words);

/* Answers a request that came in, or stays silent; what is written is told in the log, if there is one. */
void answer_request(modbus_t *line, const uint8_t *request, int length, FILE *log);

#endif
