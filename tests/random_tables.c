/* Random type tables. Most changes keep the lengths of what holds them right, so that more than the framing is tried. */
#include "random_tables.h"

#include "gateway.h"
#include "random.h"

#include <string.h>

enum { MOST_NODES = 12000, SMALL = 500 };

/* The fields of a table, each with what holds it; -1: the table. */
struct node {
    uint32_t at, past;
    int parent;
};

static struct node nodes[MOST_NODES];
static int node_count;

static int holds_fields(uint8_t tag) {
    return (tag >= GW_TAG_SCALAR && tag <= GW_TAG_ROOTS) || tag == GW_TAG_FIELD || tag == GW_TAG_ARGUMENT;
}

static void collect(const struct table *t, size_t at, size_t end, int parent, int depth) {
    while (end - at >= 3 && node_count < MOST_NODES) {
        size_t past = at + 3 + (size_t)t->bytes[at + 1] * 256 + t->bytes[at + 2];
        if (past > end)
            return;
        int me = node_count++;
        nodes[me] = (struct node){(uint32_t)at, (uint32_t)past, parent};
        if (holds_fields(t->bytes[at]) && depth < 3)
            collect(t, at + 3, past, me, depth + 1);
        at = past;
    }
}

static int any_node(const struct table *t) {
    node_count = 0;
    collect(t, 0, t->length, -1, 0);
    return node_count ? (int)random_below((uint32_t)node_count) : -1;
}

/* One that is no name and no type reference, mostly: without these a holder is wrong. */
static int any_part(const struct table *t) {
    int i = any_node(t);
    for (int tries = random_below(8) ? 6 : 0; i >= 0 && tries > 0; tries--)
        if (t->bytes[nodes[i].at] == GW_TAG_NAME || t->bytes[nodes[i].at] == GW_TAG_REFERENCE)
            i = (int)random_below((uint32_t)node_count);
    return i;
}

/* Puts bytes in the place of those from `from` to `to` and sets right the lengths of all that hold them. */
static void replace(struct table *t, size_t from, size_t to, const uint8_t *with, size_t n, int holder) {
    if (t->length - (to - from) + n > TABLE_ROOM)
        return;
    for (; holder >= 0; holder = nodes[holder].parent) {
        uint8_t *field = t->bytes + nodes[holder].at;
        size_t length = (size_t)field[1] * 256 + field[2] - (to - from) + n;
        field[1] = (uint8_t)(length >> 8);
        field[2] = (uint8_t)length;
    }
    memmove(t->bytes + from + n, t->bytes + to, t->length - to);
    if (n)
        memcpy(t->bytes + from, with, n);
    t->length = t->length - (to - from) + n;
}

static const struct table *any_table(const struct tables *given) {
    const struct table *t = given->all[random_below((uint32_t)given->count)];
    for (int tries = 0; t->length > SMALL && tries < 6 && random_below(40); tries++)
        t = given->all[random_below((uint32_t)given->count)];
    return t;
}

/* A field with a tag, taken by chance out of a table; its bytes go into `piece`. */
static size_t like(const struct table *t, int tag, uint8_t *piece, size_t room) {
    for (int tries = 0; tries < 12; tries++) {
        int i = any_node(t);
        if (i < 0)
            return 0;
        size_t n = nodes[i].past - nodes[i].at;
        if ((tag < 0 || t->bytes[nodes[i].at] == tag) && n <= room) {
            memcpy(piece, t->bytes + nodes[i].at, n);
            return n;
        }
    }
    return 0;
}

/* Another field of the same tag in its place, of this table or another one. */
static void exchange(struct table *t, const struct tables *given) {
    static uint8_t piece[4096];
    int i = any_node(t);
    if (i < 0)
        return;
    size_t n = like(random_below(3) ? t : any_table(given), t->bytes[nodes[i].at], piece, sizeof piece);
    node_count = 0;
    collect(t, 0, t->length, -1, 0);
    if (n)
        replace(t, nodes[i].at, nodes[i].past, piece, n, nodes[i].parent);
}

/* A field once more, or as often as a size allows or once beyond. */
static void repeat(struct table *t) {
    static const uint32_t often[] = {1, 1, 1, 1, 2, 15, 16, 17, 63, 64, 65, 255, 256};
    static uint8_t piece[1024];
    uint32_t times = often[random_below(random_below(8) ? 5 : 13)];
    int i = any_part(t);
    if (i < 0 || nodes[i].past - nodes[i].at > sizeof piece)
        return;
    size_t n = nodes[i].past - nodes[i].at, at = nodes[i].past;
    memcpy(piece, t->bytes + nodes[i].at, n);
    while (times-- && t->length < GW_MOST_TABLE)
        replace(t, at, at, piece, n, nodes[i].parent);
}

static void drop(struct table *t) {
    int i = any_part(t);
    if (i >= 0)
        replace(t, nodes[i].at, nodes[i].past, NULL, 0, nodes[i].parent);
}

/* Some field of some table, before a field. */
static void insert(struct table *t, const struct tables *given) {
    static uint8_t piece[2048];
    size_t n = like(random_below(2) ? t : any_table(given), -1, piece, sizeof piece);
    int i = any_node(t);
    if (i >= 0 && n)
        replace(t, nodes[i].at, nodes[i].at, piece, n, nodes[i].parent);
}

/* Two fields that stand beside each other change places. */
static void swap(struct table *t) {
    static uint8_t piece[TABLE_ROOM];
    int i = any_part(t), k = i + 1;
    while (i >= 0 && k < node_count && nodes[k].at < nodes[i].past)
        k++;
    if (i < 0 || k >= node_count || nodes[k].parent != nodes[i].parent)
        return;
    size_t n = nodes[i].past - nodes[i].at, m = nodes[k].past - nodes[k].at;
    memcpy(piece, t->bytes + nodes[i].at, n);
    memmove(t->bytes + nodes[i].at, t->bytes + nodes[k].at, m);
    memcpy(t->bytes + nodes[i].at + m, piece, n);
}

/* A name or reference gets something more or less, or becomes another word. */
static void reword(struct table *t) {
    static const char *const ends[] = {"!", "_", "1", "]", "a", "!!"}, *const starts[] = {"[", "__", "_", "a", "1"};
    static const char *const words[] = {"Int", "ID", "Query", "true", "null", "skip", "", "a", "[a]", "[[[[[[[a]]]]]]]", "a!", "__a"};
    uint8_t text[600];
    int i = any_node(t);
    while (i >= 0 && i + 1 < node_count && nodes[i + 1].parent == i)
        i++;
    if (i < 0 || nodes[i].past - nodes[i].at - 3 > 500)
        return;
    size_t start = nodes[i].at + 3, n = nodes[i].past - start;
    memcpy(text, t->bytes + start, n);
    const char *word = "";
    switch (random_below(6)) {
    case 0: word = ends[random_below(6)]; memcpy(text + n, word, strlen(word)); n += strlen(word); break;
    case 1: word = starts[random_below(5)]; memmove(text + strlen(word), text, n); memcpy(text, word, strlen(word)); n += strlen(word); break;
    case 2: n = n ? n - 1 : 0; break;
    case 3: memmove(text + 1, text, n); text[0] = '['; text[n + 1] = ']'; n += 2; break;
    case 4: if (n > 1) { n--; memmove(text, text + 1, n); } break;
    default: word = words[random_below(12)]; n = strlen(word); memcpy(text, word, n);
    }
    replace(t, start, nodes[i].past, text, n, i);
}

/* A change of bytes that heeds no length. */
static void rebyte(struct table *t) {
    static const uint8_t some[] = {0, 1, 2, 3, 4, 5, 6, 7, 8, 9, 15, 16, 17, 18, 19, 20, 21, 22, 23, 24, 25, 26, '[', '!', ']', '_', 'a', '9', 127, 128, 255};
    uint8_t byte = some[random_below(sizeof some)];
    size_t at = t->length ? random_below((uint32_t)t->length) : 0;
    switch (random_below(6)) {
    case 0: replace(t, at, at, &byte, 1, -1); break;
    case 1: if (t->length) replace(t, at, at + 1, NULL, 0, -1); break;
    case 2: t->length = at; break;
    case 3: if (t->length) t->bytes[at] ^= (uint8_t)(1u << random_below(8)); break;
    case 4: if (t->length) t->bytes[at] = byte; break;
    default: {
        int i = any_node(t);
        if (i >= 0)
            t->bytes[nodes[i].at + random_below(3)] += (uint8_t)(random_below(2) ? 1 : 255);
    }
    }
}

void change_table(struct table *t, const struct tables *given) {
    switch (random_below(24)) {
    case 0: case 1: case 2: case 3: case 4: case 5: case 6: case 7: exchange(t, given); break;
    case 8: case 9: case 10: repeat(t); break;
    case 11: case 12: case 13: drop(t); break;
    case 14: insert(t, given); break;
    case 15: case 16: case 17: swap(t); break;
    case 18: case 19: case 20: case 21: reword(t); break;
    default: rebyte(t);
    }
}

void random_table(struct table *t, const struct tables *given) {
    const struct table *from = any_table(given);
    t->length = from->length;
    memcpy(t->bytes, from->bytes, from->length);
    for (uint32_t changes = 1 + random_below(random_below(4) ? 2 : 6); changes > 0; changes--)
        change_table(t, given);
}
