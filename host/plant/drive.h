/* Drives that a host reaches by Modbus/TCP: their addresses, their registers, and what is said when they do not answer. */
#ifndef DRIVE_H
#define DRIVE_H

#include <modbus.h>
#include <stddef.h>
#include <stdint.h>

enum { MOST_DRIVES = 247, ID_LENGTH = 31, HOST_LENGTH = 255, PORT_LENGTH = 5, TROUBLE_LENGTH = 256 };

struct drive {
    char id[ID_LENGTH + 1], host[HOST_LENGTH + 1], port[PORT_LENGTH + 1];
    int unit;
    modbus_t *line; /* NULL until it is first asked */
    int gone;       /* the errno of the first request that it left without an answer; it is not asked again */
};

struct plant {
    struct drive drives[MOST_DRIVES];
    int count;
    unsigned timeout; /* milliseconds that a drive has to answer */
};

/* Adds a drive by its address, HOST:PORT/UNIT, the host perhaps [::1]; without a port it is 502, without a unit 1. Without an id it is the
   count of drives. 0 if that is no address, if there are too many or the id is taken, which is told. */
int add_drive(struct plant *plant, const char *id, const char *address);

/* Adds the drives of a file, an id and an address in each line, # before a comment; 0 if something is wrong, which is told, with --json also
   as an object. */
int add_drives(struct plant *plant, const char *path, int json);

/* The drive of an id, by its number; -1 for none. */
int drive_called(const struct plant *plant, const uint8_t *id, size_t length);

/* Reads registers, writes them in one request. 0 if the drive does not do so, with the words for it. */
int read_registers(struct plant *plant, int drive, int first, int count, uint16_t *registers, char trouble[TROUBLE_LENGTH]);
int write_registers(struct plant *plant, int drive, int first, int count, const uint16_t *registers, char trouble[TROUBLE_LENGTH]);

/* Lets all drives go. */
void leave_plant(struct plant *plant);

#endif
