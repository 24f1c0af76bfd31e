/* The command that runs a request on a plant:

     gateway run TABLE DOCUMENT [--operation NAME] [--variables FILE] [--drives FILE] [--drive HOST:PORT/UNIT,..] [--timeout MS] [--json]

   It prints the response as JSON, with --json in one line. Of a file of drives each line has an id and an address; those of the command line
   have their number from 1 for an id. A drive has 500 milliseconds to answer if nothing else is said. Status: 0 answered; WITH_ERRORS answered
   with errors at fields; else that of what was refused, or TROUBLE.

   It takes libmodbus and libjansson. A gateway that is built without them (without GATEWAY_PLANT) says where there is one. */
#ifndef RUN_COMMAND_H
#define RUN_COMMAND_H

#include "../host.h"

#ifdef GATEWAY_PLANT
/* The words of the command line behind the command's own. */
int run_command(char **words, const char *usage);
#else
#include <stdio.h>

static inline int run_command(char **words, const char *usage) {
    (void)usage;
    for (; *words; words++)
        if (wants(*words))
            return ACCEPTED;
    fprintf(stderr, "this gateway is built without drives; with libmodbus-dev, libjansson-dev and pkg-config `bash host/plant/build` makes one that has them\n");
    return TROUBLE;
}
#endif

#endif
