/* That a table's framing is wrong or a count over its size: what holds the offset, what stands there. */
#include "tell.h"

enum { DEPTH = 4 }; /* table, record, field, argument */

/* The holders of an offset, from the table inward, then the field that stands there. */
struct path {
    struct piece holders[DEPTH];
    int count;
    struct piece here; /* tag 0: cut short */
};

static int holds_fields(int tag) {
    return is_record(tag) || tag == GW_TAG_FIELD || tag == GW_TAG_ARGUMENT;
}

static struct path path_to(const struct text *t, size_t offset) {
    struct path path = {.holders = {whole(t)}, .count = 1};
    size_t at = 0, end = t->length;
    while (at < end) {
        struct piece p = piece_at(t, at, end);
        path.here = p;
        if (at >= offset || !p.tag)
            break;
        if (offset < p.end && holds_fields(p.tag) && path.count < DEPTH) {
            path.holders[path.count++] = p;
            at = p.start;
            end = p.end;
        } else if (offset < p.end) {
            break;
        } else {
            at = p.end;
        }
    }
    return path;
}

/* The place of a tag among what a holder holds, from 1; 0 for none. */
static int rank_in(int holder, int tag) {
    switch (tag) {
    case GW_TAG_NAME: return holder != 0 && holder != GW_TAG_ROOTS;
    case GW_TAG_IMPLEMENTS: return holder == GW_TAG_OBJECT ? 2 : 0;
    case GW_TAG_FIELD: return holder == GW_TAG_OBJECT || holder == GW_TAG_INTERFACE ? 3 : 0;
    case GW_TAG_REFERENCE: return holder == GW_TAG_FIELD || holder == GW_TAG_ARGUMENT ? 2 : 0;
    case GW_TAG_ARGUMENT: return holder == GW_TAG_FIELD || holder == GW_TAG_INPUT_OBJECT || holder == GW_TAG_DIRECTIVE ? 3 : 0;
    case GW_TAG_UNION_MEMBER: return holder == GW_TAG_UNION ? 3 : 0;
    case GW_TAG_ENUM_VALUE: return holder == GW_TAG_ENUM ? 3 : 0;
    case GW_TAG_QUERY_ROOT: case GW_TAG_MUTATION_ROOT: case GW_TAG_SUBSCRIPTION_ROOT:
        return holder == GW_TAG_ROOTS ? tag - GW_TAG_QUERY_ROOT + 1 : 0;
    default: return holder == 0 && is_record(tag);
    }
}

static int comes_once(int tag) {
    return tag == GW_TAG_ROOTS || tag == GW_TAG_NAME || tag == GW_TAG_REFERENCE || tag >= GW_TAG_QUERY_ROOT;
}

/* Why a field has no place behind those before it; NULL if it has one. */
static const char *place_words(const struct text *t, struct piece holder, struct piece p) {
    for (size_t at = holder.start; at < p.at;) {
        struct piece before = piece_at(t, at, holder.end);
        if (!before.tag)
            break;
        if (rank_in(holder.tag, before.tag) > rank_in(holder.tag, p.tag))
            return "it stands behind one that is due later";
        if (before.tag == p.tag && comes_once(p.tag))
            return "it is there twice";
        at = before.end;
    }
    return NULL;
}

static const char *lack_words(const struct text *t, struct piece p) {
    if (p.tag == GW_TAG_ROOTS)
        return "it lacks the query root";
    if (!nth(t, p, is_name_tag, 0).tag)
        return "it lacks its name";
    return "it lacks its type reference";
}

static const char *framing_words(const struct text *t, const struct path *path) {
    struct piece holder = path->holders[path->count - 1], p = path->here;
    if (!p.tag && holder.end - p.at >= 3 && t->bytes[p.at] == 0)
        return "no field has tag 0";
    if (!p.tag)
        return holder.end - p.at < 3 ? "these bytes are fewer than a field has" : "its length goes past the end of what holds it";
    if (!rank_in(holder.tag, p.tag))
        return "such a field cannot stand here";
    if (place_words(t, holder, p))
        return place_words(t, holder, p);
    if (holds_fields(p.tag))
        return lack_words(t, p);
    return p.tag == GW_TAG_REFERENCE ? "its text is no type reference" : "its text is no name";
}

static int is_named(const struct text *t, struct piece p) {
    struct piece name = name_of(t, p);
    return p.tag == GW_TAG_ROOTS || (name.tag && name.start < name.end);
}

/* "in object Query, field a: ", for what is around an offset. */
static void say_holders(struct out *o, const struct text *t, const struct path *path) {
    for (int i = 1; i < path->count; i++) {
        struct piece p = path->holders[i];
        say(o, "%s", i > 1 ? ", " : "in ");
        if (is_named(t, p))
            say_called(o, t, p, path->holders[i - 1].tag);
        else
            say(o, "an unnamed %s", tag_words(p.tag));
    }
    say(o, "%s", path->count > 1 ? ": " : "");
}

void tell_framing(struct telling *t) {
    size_t offset = t->told->offset;
    const uint8_t *bytes = t->table.bytes + offset;
    struct path path = path_to(&t->table, offset);
    say(&t->text, "%s", framing_words(&t->table, &path));
    say_holders(&t->detail, &t->table, &path);
    if (offset == t->table.length)
        return;
    say(&t->detail, "tag %d (%s)", bytes[0], tag_words(bytes[0]));
    if (t->table.length - offset >= 3)
        say(&t->detail, ", length %d", bytes[1] * 256 + bytes[2]);
}

static void say_count(struct out *o, const struct path *path) {
    struct piece holder = path->holders[path->count - 1], p = path->here;
    if (p.tag == GW_TAG_REFERENCE)
        say(o, "this is the eighth wrapper of its type reference");
    else if (is_record(p.tag))
        say(o, "this is record %d", GW_MOST_RECORDS + 1);
    else if (p.tag == GW_TAG_IMPLEMENTS)
        say(o, "this is implemented name %d", GW_MOST_IMPLEMENTED + 1);
    else if (holder.tag == GW_TAG_FIELD)
        say(o, "this is argument %d of its field", GW_MOST_ARGUMENTS + 1);
    else
        say(o, "this is member %d", GW_MOST_MEMBERS + 1);
}

void tell_table_count(struct telling *t) {
    struct path path = path_to(&t->table, t->told->offset);
    say_count(&t->text, &path);
    say_holders(&t->detail, &t->table, &path);
    if (path.here.tag == GW_TAG_REFERENCE)
        say_words(&t->detail, text_of(&t->table, path.here));
    else
        say_called(&t->detail, &t->table, path.here, path.holders[path.count - 1].tag);
}
