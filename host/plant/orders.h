/* What a cooling tower is told to do: the fields of the type Mutation. Each checks all of what it is given before a drive hears of any. */
#ifndef ORDERS_H
#define ORDERS_H

#include "answer.h"

/* The machine behind a drive, or the trouble with it. */
struct answer machine_of(struct plant *plant, int drive);

struct answer set_ramp(struct plant *plant, struct thing of, struct value arguments);
struct answer set_speed(struct plant *plant, struct thing of, struct value arguments);
struct answer set_profile(struct plant *plant, struct thing of, struct value arguments);
struct answer reset_drive(struct plant *plant, struct thing of, struct value arguments);

#endif
