/* What the core refuses, as errors of a response. */
#ifndef REFUSALS_H
#define REFUSALS_H

#include "request.h"
#include "response.h"

/* The error of a refusal, from what the call was given and its report: of the whole request (NO_ROW), or at the field of a row and with its
   path. What is told beside the words stands in "extensions": the refusal's number and name, rule or reason, the input, the place in
   it, and a hint where a file is of another kind. The status to end with goes to *status, if that is not NULL. */
json_t *refusal_error(const struct request *r, const struct gw_given *given, const uint32_t *report, uint32_t row, const struct path *path,
                      int *status);

#endif
