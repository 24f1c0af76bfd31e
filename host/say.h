/* Text put together piece by piece: into lent room, which keeps what fits, or through a function. Of bytes from outside only harmless
   text is said. Nothing of stdio is needed but snprintf. */
#ifndef SAY_H
#define SAY_H

#include "text.h"

enum { NAME_ROOM = 64, NAME_COLUMNS = 60 }; /* of a name that is kept; of a name or type that is said */

struct out {
    char *room; /* what fits, ended by 0 */
    size_t size, length;
    int full; /* something did not fit: nothing more is taken */
    void (*put)(const char *text, size_t length); /* where it goes instead; NULL for the room */
    char (*names)[NAME_ROOM]; /* where names are kept apart; NULL for nowhere */
    uint32_t name_count, most_names;
};

/* As printf, at most 255 bytes a call. */
#if defined(__GNUC__)
__attribute__((format(printf, 2, 3)))
#endif
void say(struct out *o, const char *format, ...);

/* Some bytes as they are. */
void say_bytes(struct out *o, struct words w);

/* Some bytes, as many columns at most, with ... where they are cut. */
void say_piece(struct out *o, const uint8_t *bytes, size_t length, int most);

/* A name, type or token, which is also kept among the names. */
void say_words(struct out *o, struct words w);

#endif
