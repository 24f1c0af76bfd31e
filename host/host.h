/* What the commands of the host share: how they end, their words and files, and how they tell a refusal. */
#ifndef HOST_H
#define HOST_H

#include "refusal.h"
#include "say.h"

/* How the program ends. Of several documents: 2 if one cannot be read, else the largest. */
enum {
    ACCEPTED = 0,
    REFUSED_DOCUMENT = 1, /* a document's text or rules */
    TROUBLE = 2,          /* bad usage, a file that cannot be read or written */
    REFUSED_TABLE = 3,    /* a table, or a text of types */
    REFUSED_VALUE = 4,    /* variables, or a value that cannot be coerced */
    REFUSED_OTHER = 5,    /* no such operation or field, a plan or walk that cannot be */
    WITH_ERRORS = 6       /* a response that has errors */
};

int worse(int status, int other);

/* ---- words of the command line */

/* An option, whether a word follows it (or stands behind =), and where that is kept; the last one has no name. A kept "" means that the
   option was there. */
struct option {
    const char *name;
    int takes;
    const char **place;
};

/* What a word of the command line wants in place of the command. */
enum wanted { NOTHING, HELP, VERSION };
extern enum wanted wanted;

/* Whether a word wants help or the version, which is then kept in `wanted`. */
int wants(const char *word);

/* Takes the options out of a command's words and leaves the others, which are files: `least` of them, and at most `most`. What is wrong is
   told with the command's usage, and 0 returned, else their count. 0 also where a word wants help or the version. */
int take_options(char **words, const struct option *options, int least, int most, const char *usage);

/* A number below 2^32; 0 if it is none, which is told. */
int read_count(const char *word, const char *what, uint32_t *number);

/* ---- files */

/* The beginning of a file, as far as there was room, and how many bytes it has. */
struct input {
    struct text text;
    size_t size;
};

/* Whether a path means standard input. */
int is_standard(const char *path);

/* Whether standard input is meant more than once, which is told. */
int is_standard_twice(char **paths, const char *other);

/* Tells why a file cannot be used, with --json also as an object; returns 0. The words of a command that are wrong are told to people
   alone. */
int unusable(const char *called, const char *why, int json);

/* Reads a file; 0 if that cannot be done, which is told so. */
int read_input(const char *path, uint8_t *room, size_t size, int json, struct input *input);

/* Writes a file; 0 if that cannot be done, which is told so. */
int write_file(const char *path, const uint8_t *bytes, size_t length, int json);

/* ---- refusals */

/* What a command is given, and what the library was. */
struct job {
    const struct input *table, *document, *variables;
    struct gw_given given;
    int json;
};

/* The texts of the files, and what else was given, as what the library was given. */
void set_given(struct job *job);

/* The status to end with for a refusal. */
int status_of(const struct gw_told *told);

/* Tells what a call of the library refused, to people or as JSON; returns the status to end with. */
int refuse(const struct job *job, const uint32_t *report);

/* The same of a table that was made of a text, which stands in its place: the refusal is shown at this offset of the text. */
int refuse_in(const struct job *job, const uint32_t *report, size_t offset);

#endif
