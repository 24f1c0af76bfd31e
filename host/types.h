/* The readable text of types, and the type table that it means.

     scalar Time
     type Fan implements Machine, Named { tag: String! label(language: String, short: Boolean): String }
     interface Machine { tag: String! }
     union Part = Fan | Pump
     enum Kind { FAN PUMP }
     input Window { from: Time! to: Time! }
     directive @cached(seconds: Int!)
     schema { query: Query mutation: Mutation }

   Blanks, line ends, commas and comments (# up to the end of the line) separate and mean nothing else. A table keeps no default values,
   no descriptions and no places of directives; these last may stand there (on FIELD | QUERY) and are passed over. */
#ifndef TYPES_H
#define TYPES_H

#include "gateway.h"
#include "say.h"

enum { MOST_TYPES = 262144 }; /* bytes of such a text */

struct made_table {
    uint8_t bytes[GW_MOST_TABLE];
    size_t length;
    uint32_t from[GW_MOST_TABLE]; /* of each byte the offset in the text of what it was made of */
};

/* Makes the table of a text; or returns 0, says what is wrong and tells its offset. */
int make_table(const struct text *types, struct made_table *made, struct out *fault, size_t *offset);

/* Whether a table can be made of a text that is not empty. */
int is_type_text(const struct text *t);

/* Says the text of a table whose framing is right. MOST_SHOWN bytes are room enough: seven bytes of a table give at most seventeen. */
enum { MOST_SHOWN = 131072 };
void say_types(struct out *o, const struct text *table);

#endif
