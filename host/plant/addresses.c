/* The addresses of drives. */
#include "drive.h"

#include "../host.h"

#include <errno.h>
#include <stdio.h>
#include <stdlib.h>
#include <string.h>

enum { LINE_LENGTH = 512, LEAST_UNIT = 1, MOST_UNIT = 247, MOST_PORT = 65535 };

/* Copies a part of a text that must fit and must not be empty. */
static int copy_part(char *to, size_t room, const char *from, size_t length) {
    if (length == 0 || length > room)
        return 0;
    memcpy(to, from, length);
    to[length] = 0;
    return 1;
}

/* A whole number that takes a whole text; -1 for none. */
static long number_of(const char *text, long most) {
    char *end;
    errno = 0;
    long number = strtol(text, &end, 10);
    return *text >= '0' && *text <= '9' && !*end && !errno && number <= most ? number : -1;
}

/* HOST, HOST:PORT, HOST/UNIT or HOST:PORT/UNIT. */
static int read_address(const char *address, struct drive *d) {
    const char *unit = strchr(address, '/'), *end = unit ? unit : address + strlen(address);
    int bracketed = *address == '[';
    const char *host_end = address + strcspn(address, bracketed ? "]" : ":/");
    if ((bracketed && *host_end != ']') || !copy_part(d->host, HOST_LENGTH, address + bracketed, (size_t)(host_end - address - bracketed)))
        return 0;
    const char *port = host_end + bracketed;
    if (*port == ':' ? !copy_part(d->port, PORT_LENGTH, port + 1, (size_t)(end - port - 1)) : port != end)
        return 0;
    if (port == end)
        strcpy(d->port, "502");
    d->unit = unit ? (int)number_of(unit + 1, MOST_UNIT) : LEAST_UNIT;
    return d->unit >= LEAST_UNIT && number_of(d->port, MOST_PORT) > 0;
}

int add_drive(struct plant *plant, const char *id, const char *address) {
    if (plant->count == MOST_DRIVES) {
        fprintf(stderr, "there are more than %d drives\n", MOST_DRIVES);
        return 0;
    }
    struct drive *d = &plant->drives[plant->count];
    char number[16];
    memset(d, 0, sizeof *d);
    snprintf(number, sizeof number, "%d", plant->count + 1);
    id = id ? id : number;
    if (!copy_part(d->id, ID_LENGTH, id, strlen(id)) || !read_address(address, d)) {
        fprintf(stderr, "%s is no address of a drive: HOST:PORT/UNIT is due, an id of at most %d bytes, a unit from %d to %d\n", address, ID_LENGTH,
                LEAST_UNIT, MOST_UNIT);
        return 0;
    }
    if (drive_called(plant, (const uint8_t *)d->id, strlen(d->id)) >= 0) {
        fprintf(stderr, "two drives have the id %s\n", d->id);
        return 0;
    }
    plant->count++;
    return 1;
}

/* A line's drive; a line may have none. */
static int add_line(struct plant *plant, char *line) {
    line[strcspn(line, "#\r\n")] = 0;
    char *rest, *id = strtok_r(line, " \t", &rest), *address = id ? strtok_r(NULL, " \t", &rest) : NULL;
    return !id || (address && !strtok_r(NULL, " \t", &rest) && add_drive(plant, id, address));
}

int add_drives(struct plant *plant, const char *path, int json) {
    char line[LINE_LENGTH], why[128] = "";
    FILE *file = fopen(path, "r");
    if (!file)
        return unusable(path, strerror(errno), json);
    for (int number = 1; !why[0] && fgets(line, sizeof line, file); number++)
        if (!add_line(plant, line))
            snprintf(why, sizeof why, "line %d: an id and an address are due, as in: 4 192.0.2.17:502/1", number);
    if (ferror(file))
        snprintf(why, sizeof why, "%s", strerror(errno));
    fclose(file);
    return why[0] ? unusable(path, why, json) : 1;
}

int drive_called(const struct plant *plant, const uint8_t *id, size_t length) {
    for (int i = 0; i < plant->count; i++)
        if (strlen(plant->drives[i].id) == length && memcmp(plant->drives[i].id, id, length) == 0)
            return i;
    return -1;
}
