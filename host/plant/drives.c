/* The simulated drives of a cooling tower, behind Modbus/TCP on the loopback.

     drives [--port N] [--addresses FILE] [--log FILE] [--set UNIT:REGISTER=VALUE].. [--seconds N]

   Without a port it is a free one. The addresses of the drives are written to a file as the host reads them, once they can be reached. The
   log has a line for each write that a drive takes. A register can be set before the drives start (host/plant/registers.h), so that one
   of them answers with an error (--set 2:8=4), stays silent (--set 2:8=255), or has a broken register (--set 2:9=6). The drives
   run until they are killed, or for some seconds. */
#include "simulated.h"

#include <arpa/inet.h>
#include <errno.h>
#include <poll.h>
#include <signal.h>
#include <stdlib.h>
#include <string.h>
#include <unistd.h>

enum { MOST_LINES = 32, PART_OF_REQUEST_MICROSECONDS = 500000 };

struct options {
    int port;
    unsigned seconds;
    const char *addresses;
    FILE *log;
};

static int usage(void) {
    fprintf(stderr, "usage: drives [--port N] [--addresses FILE] [--log FILE] [--set UNIT:REGISTER=VALUE].. [--seconds N]\n");
    return 2;
}

/* A whole number of the command line, up to some number; -1 for none. */
static long number_of(const char *word, long most) {
    char *end;
    errno = 0;
    long number = strtol(word, &end, 10);
    return *word >= '0' && *word <= '9' && !*end && !errno && number <= most ? number : -1;
}

static int take_option(struct options *o, const char *word, const char *value) {
    if (strcmp(word, "--set") == 0)
        return set_register(value);
    if (strcmp(word, "--addresses") == 0)
        o->addresses = value;
    else if (strcmp(word, "--log") == 0)
        return (o->log = fopen(value, "w")) != NULL;
    else if (strcmp(word, "--port") == 0)
        return (o->port = (int)number_of(value, 65535)) >= 0;
    else if (strcmp(word, "--seconds") == 0)
        return (o->seconds = (unsigned)number_of(value, 86400)) <= 86400;
    else
        return 0;
    return 1;
}

/* Writes the addresses beside the file and then moves them there, so that nobody reads half of them. */
static int write_addresses(const char *path, int port) {
    char beside[4096];
    if (snprintf(beside, sizeof beside, "%s.new", path) >= (int)sizeof beside)
        return 0;
    FILE *file = fopen(beside, "w");
    if (!file)
        return 0;
    fprintf(file, "# the drives of the simulated tower: id, address\n");
    for (int unit = 1; unit <= SIMULATED_DRIVES; unit++)
        fprintf(file, "%d 127.0.0.1:%d/%d\n", unit, port, unit);
    return fclose(file) == 0 && rename(beside, path) == 0;
}

static int port_of(int listening) {
    struct sockaddr_in own;
    socklen_t length = sizeof own;
    return getsockname(listening, (struct sockaddr *)&own, &length) == 0 ? ntohs(own.sin_port) : -1;
}

/* Takes up a line of a host that calls; when too many are open it is let go. */
static void take_line(modbus_t *modbus, int listening, struct pollfd *lines, int *count) {
    int caller = modbus_tcp_accept(modbus, &listening);
    if (caller < 0)
        return;
    if (*count == MOST_LINES)
        close(caller);
    else
        lines[(*count)++] = (struct pollfd){caller, POLLIN, 0};
}

static void serve(modbus_t *modbus, int listening, FILE *log) {
    struct pollfd lines[MOST_LINES] = {{listening, POLLIN, 0}};
    int count = 1;
    while (poll(lines, (nfds_t)count, -1) >= 0 || errno == EINTR) {
        for (int i = count - 1; i > 0; i--) {
            if (!lines[i].revents)
                continue;
            uint8_t request[MODBUS_TCP_MAX_ADU_LENGTH];
            modbus_set_socket(modbus, lines[i].fd);
            int length = modbus_receive(modbus, request);
            if (length > 0) {
                answer_request(modbus, request, length, log);
            } else if (length < 0) {
                close(lines[i].fd);
                lines[i] = lines[--count];
            }
        }
        if (lines[0].revents)
            take_line(modbus, listening, lines, &count);
    }
}

int main(int argc, char **argv) {
    struct options o = {0, 0, NULL, NULL};
    if (!start_drives())
        return 1;
    for (int i = 1; i < argc; i += 2)
        if (i + 1 == argc || !take_option(&o, argv[i], argv[i + 1]))
            return usage();
    signal(SIGPIPE, SIG_IGN);
    modbus_t *modbus = modbus_new_tcp("127.0.0.1", o.port);
    int listening = modbus ? modbus_tcp_listen(modbus, MOST_LINES) : -1;
    if (listening < 0 || modbus_set_indication_timeout(modbus, 0, PART_OF_REQUEST_MICROSECONDS) != 0 ||
        (o.addresses && !write_addresses(o.addresses, port_of(listening)))) {
        fprintf(stderr, "drives: %s\n", modbus_strerror(errno));
        return 1;
    }
    alarm(o.seconds);
    serve(modbus, listening, o.log);
    modbus_free(modbus);
    stop_drives();
    return 1;
}
