/* The words of the command line. */
#include "host.h"

#include <errno.h>
#include <inttypes.h>
#include <stdio.h>
#include <stdlib.h>
#include <string.h>

int worse(int status, int other) {
    if (status == TROUBLE || other == TROUBLE)
        return TROUBLE;
    return status > other ? status : other;
}

enum wanted wanted;

int wants(const char *word) {
    if (strcmp(word, "--help") == 0 || strcmp(word, "-h") == 0)
        wanted = HELP;
    else if (strcmp(word, "--version") == 0)
        wanted = VERSION;
    return wanted != NOTHING;
}

static int misused(const char *usage, const char *said, const char *word) {
    fprintf(stderr, said, word);
    fprintf(stderr, "\nusage: gateway %s\n", usage);
    return 0;
}

/* The option that a word names, up to a =. */
static const struct option *option_of(const char *word, const struct option *options) {
    size_t length = strcspn(word, "=");
    const struct option *o = options;
    while (o->name && (strlen(o->name) != length || memcmp(o->name, word, length) != 0))
        o++;
    return o->name ? o : NULL;
}

/* Whether a word wants help or the version: one before -- that is not what an option is to be. */
static int is_wanted(char **words, const struct option *options) {
    for (; *words && strcmp(*words, "--") != 0; words++) {
        const struct option *o = option_of(*words, options);
        if (wants(*words))
            return 1;
        if (o && o->takes && !strchr(*words, '=') && words[1])
            words++;
    }
    return 0;
}

int take_options(char **words, const struct option *options, int least, int most, const char *usage) {
    int files = 0, ended = 0;
    if (is_wanted(words, options))
        return 0;
    for (char **word = words; *word; word++) {
        const char *equal = strchr(*word, '=');
        if (ended || **word != '-' || (*word)[1] == 0) {
            words[files++] = *word;
            continue;
        }
        if (strcmp(*word, "--") == 0) {
            ended = 1;
            continue;
        }
        const struct option *o = option_of(*word, options);
        if (!o || (equal && !o->takes))
            return misused(usage, o ? "%s: this option takes no word" : "%s is no option of this command", *word);
        if (o->takes && !equal && !word[1])
            return misused(usage, "%s lacks what it is to be", *word);
        *o->place = !o->takes ? "" : equal ? equal + 1 : *++word;
    }
    words[files] = NULL;
    if (files < least)
        return misused(usage, "%s", least - files == 1 ? "a file is missing" : "files are missing");
    if (files > most)
        return misused(usage, "%s is one file too many", words[most]);
    return files;
}

int read_count(const char *word, const char *what, uint32_t *number) {
    char *end;
    errno = 0;
    unsigned long long read = strtoull(word, &end, 10);
    if (*word < '0' || *word > '9' || *end || errno || read > UINT32_MAX) {
        fprintf(stderr, "%s is no %s\n", word, what);
        return 0;
    }
    *number = (uint32_t)read;
    return 1;
}
