/* The files of the command line. */
#include "host.h"
#include "json.h"

#include <errno.h>
#include <stdio.h>
#include <string.h>

int is_standard(const char *path) {
    return strcmp(path, "-") == 0;
}

int is_standard_twice(char **paths, const char *other) {
    int count = other && is_standard(other);
    for (; *paths; paths++)
        count += is_standard(*paths);
    if (count > 1)
        fprintf(stderr, "standard input cannot be two files at once\n");
    return count > 1;
}

int unusable(const char *called, const char *why, int json) {
    fprintf(stderr, "%s: %s\n", called, why);
    if (json) {
        json_begin(called, 0);
        json_key("error"), json_text(why);
        json_finish();
    }
    return 0;
}

enum { MOST_COUNTED = 1 << 30 }; /* so that a file without an end ends */

/* How many bytes follow where the room has ended. */
static size_t rest_of(FILE *file) {
    static char skipped[4096];
    size_t count = 0;
    for (size_t more; count < MOST_COUNTED && (more = fread(skipped, 1, sizeof skipped, file)) > 0;)
        count += more;
    return count;
}

int read_input(const char *path, uint8_t *room, size_t size, int json, struct input *input) {
    int standard = is_standard(path);
    const char *called = standard ? "standard input" : path;
    FILE *file = standard ? stdin : fopen(path, "rb");
    if (!file)
        return unusable(called, strerror(errno), json);
    input->text = (struct text){called, room, fread(room, 1, size, file)};
    input->size = input->text.length + (input->text.length == size ? rest_of(file) : 0);
    int good = !ferror(file);
    if (!good)
        unusable(called, strerror(errno), json);
    if (!standard)
        fclose(file);
    return good;
}

int write_file(const char *path, const uint8_t *bytes, size_t length, int json) {
    FILE *file = fopen(path, "wb");
    int good = file && fwrite(bytes, 1, length, file) == length;
    if (file && fclose(file) != 0)
        good = 0;
    return good ? 1 : unusable(path, strerror(errno), json);
}
