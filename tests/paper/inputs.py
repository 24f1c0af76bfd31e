# Random input for compare.py: texts drawn from the grammar as data and then changed, tables and documents whose few names collide, and the
# generators of tests/ with changes on top. Most inputs are nearly right: a wrong one is wrong in few places.
import json

import check_reader
import coercions as coercion_cases
import pairs
import plans as plan_cases
import tables
from paper import text

# ---- texts

NAMES = [b"a", b"b", b"_", b"A1", b"on", b"query", b"mutation", b"subscription", b"fragment", b"true", b"false", b"null", b"input", b"F", b"x"]
CLASS_TEXT = {"bang": b"!", "dollar": b"$", "parenL": b"(", "parenR": b")", "spread": b"...", "colon": b":", "equals": b"=", "atSign": b"@",
              "bracketL": b"[", "bracketR": b"]", "braceL": b"{", "bar": b"|", "braceR": b"}"}
INTS = [b"0", b"-0", b"1", b"-12", b"2147483648", b"00", b"01", b"-", b"1a"]
FLOATS = [b"0.0", b"1e5", b"-1.5E+3", b"1E-0", b"0.", b"1e", b"1.e1", b"1.2e+", b"-.5", b"3.4.5"]
CHARACTERS = [b"a", b" ", b"#", b"\t", b"\x7f", b"\\n", b"\\\"", b"\\\\", b"\\/", b"\\u00e9", b"\\uD83D", b"\\uABcd", "é".encode(), "中".encode(), b"\xef\xbb\xbf",
              b"\xef\xbf\xbf", b"\xe0\xa0\x80", b"\xed\x9f\xbf", b"\xee\x80\x80", b"\xc2\x80", b"\xdf\xbf", b"'", b"{", b"!"]
BAD_CHARACTERS = [b"\n", b"\r", b"\x00", b"\x1f", b"\\x", b"\\u12g4", b"\\u", b"\xc0\x80", b"\xc1\xbf", b"\xe0\x9f\xbf", b"\xed\xa0\x80", b"\xf0\x9f\x98\x80", b"\x80",
                  b"\xe4\xb8", b"\xff", b"\\", b"\x08", b"\x0b", b"\xc3"]
IGNORED = [b" ", b" ", b" ", b" ", b"\n", b"\r\n", b"\r", b"\t", b",", b"\xef\xbb\xbf", b"#\n", b"#x\xc3\xa9 \"\r", b" , "]
NOISE = [b"&", b".", b"..", b"%", b"-", b"\x00", b"\xc3\xa9", b"\"", b"#", b"\xef\xbb", b"'", b"\\", b"\xe2\x80\xa8", b"\x0c", b"?", b"+", b"#\x01\n", b"#\xf0\x9f\x98\x80\n", b"....", b"\"\"\"b\"\"\""]


def string(chance):
    some = [chance.choice(CHARACTERS) for _ in range(chance.choice([0, 0, 1, 2, 5]))]
    if chance.randrange(25) == 0:
        some.insert(chance.randrange(len(some) + 1), chance.choice(BAD_CHARACTERS))
    return b'"' + b"".join(some) + (b'"' if chance.randrange(60) else b"")


def token(chance, terminal):
    if terminal in CLASS_TEXT:
        return CLASS_TEXT[terminal]
    if terminal.startswith("n-") and terminal != "n-other":
        return terminal[2:].encode()
    if terminal == "int":
        return chance.choice(INTS[:5]) if chance.randrange(20) else chance.choice(INTS)
    if terminal == "float":
        return chance.choice(FLOATS[:4]) if chance.randrange(20) else chance.choice(FLOATS)
    if terminal == "string":
        return string(chance)
    return chance.choice(NAMES)


least = {}


def size(part):
    """How many tokens a part has at least."""
    while not least:
        found = {p: 10**6 for p in text.language}
        while True:
            more = {p: min(sum(found[s] if k == "nt" else k == "tm" for k, s in a) for a in text.language[p]) for p in found}
            if more == found:
                break
            found = more
        least.update(found)
    return least[part]


def derived(chance, part, room):
    """The tokens of a text of a part, by chance; short ones where there is no room."""
    alternatives = text.language[part]
    if room <= 0:
        few = min(sum(size(s) if k == "nt" else k == "tm" for k, s in a) for a in alternatives)
        alternatives = [a for a in alternatives if sum(size(s) if k == "nt" else k == "tm" for k, s in a) == few]
    found = []
    for kind, s in chance.choice(alternatives):
        if kind == "tm":
            found.append(token(chance, s))
        elif kind == "nt":
            found += derived(chance, s, room - 1 - len(found) // 4)
    return found


def joined(chance, tokens):
    tight = chance.randrange(3) == 0
    found = []
    for t in tokens:
        if found and (tight or chance.randrange(6) == 0) and not (wordy(found[-1]) and wordy(t)) and chance.randrange(40):
            found.append(t)
            continue
        found += [chance.choice(IGNORED) for _ in range(1 if chance.randrange(8) else chance.randrange(4))] + [t]
    if chance.randrange(6) == 0:
        found.append(chance.choice(IGNORED + [b"#", b"#end"]))
    return b"".join(found)


def wordy(t):
    return t[:1].isalnum() or t[:1] in b"_-"


def changed_tokens(chance, tokens):
    tokens = list(tokens)
    for _ in range(chance.choice([1, 1, 1, 2, 3])):
        at = chance.randrange(len(tokens) + 1)
        way = chance.randrange(7)
        if way == 0:
            del tokens[at : at + 1]
        elif way == 1:
            tokens.insert(at, chance.choice(tokens or [b"a"]))
        elif way == 2 and len(tokens) > 1:
            i, j = chance.randrange(len(tokens)), chance.randrange(len(tokens))
            tokens[i], tokens[j] = tokens[j], tokens[i]
        elif way == 3:
            tokens.insert(at, chance.choice([*CLASS_TEXT.values(), *NAMES, b"1", b'"s"', b"1.5"]))
        elif way == 4:
            tokens.insert(at, chance.choice(NOISE))
        elif way == 5:
            tokens[at : at + 1] = [chance.choice([*CLASS_TEXT.values(), *NAMES, b"1", b'"s"', b"1.5"])]
        else:
            del tokens[at:]
    return tokens


def changed_bytes(chance, some):
    some = bytearray(some)
    for _ in range(chance.choice([1, 1, 2, 4])):
        at = chance.randrange(len(some) + 1)
        way = chance.randrange(4)
        if way == 0:
            del some[at : at + 1]
        elif way == 1:
            some[at:at] = chance.choice([*NOISE, *BAD_CHARACTERS, *IGNORED, *CLASS_TEXT.values(), b"0", b"e", b"\\"])
        elif way == 2 and at < len(some):
            some[at] = chance.choice([chance.randrange(256), some[at] ^ (1 << chance.randrange(8)), chance.choice(some)])
        else:
            some[at : at + 1] = chance.choice(NOISE)
    return bytes(some)


def changed(chance, tokens):
    way = chance.randrange(10)
    if way < 4:
        return joined(chance, tokens)
    if way < 7:
        return joined(chance, changed_tokens(chance, tokens))
    return changed_bytes(chance, joined(chance, tokens))


def soup(chance):
    """Bytes and tokens in no order."""
    return b"".join(
        chance.choice([*CLASS_TEXT.values(), *NAMES, *INTS, *FLOATS, *IGNORED, *IGNORED, *NOISE, string(chance)]) for _ in range(chance.randrange(1, 12))
    )


def document(chance):
    if chance.randrange(300) == 0:
        return lengthened_text(chance, changed(chance, derived(chance, "Document", 12)[:600]))
    way = chance.randrange(40)
    if way == 0:
        return soup(chance)
    if way in (1, 2):
        return near_limits(chance)
    if way == 3:
        return b"{a(x:[" + soup(chance) + b"])}"
    tokens = derived(chance, "Document", chance.choice([4, 8, 12, 16, 24]))
    return changed(chance, tokens[:600])


def lengthened_text(chance, some):
    return some + chance.choice([b" ", b",", b"#", b"{a}"]) * (chance.randrange(16382, 16388) - len(some))


def variables(chance):
    if chance.randrange(30) == 0:
        return around(chance, b"{a:", chance.randrange(28, 35), b"1", b"}")
    tokens = derived(chance, "VariablesText", chance.choice([2, 4, 8, 12]))
    return changed(chance, tokens[:400])


def around(chance, head, depth, core, tail):
    """Something in so many brackets and braces."""
    opened, closed = [], []
    for _ in range(depth):
        if chance.randrange(2):
            opened.append(b"[")
            closed.append(b"]")
        else:
            opened.append(b"{k:")
            closed.append(b"}")
    return head + b"".join(opened) + core + b"".join(reversed(closed)) + tail


def wrapped(chance, most=10):
    """A type reference with about as many wrappers as may be."""
    found, marks = b"I", 0
    while marks < most and chance.randrange(most):
        if found.endswith(b"!") or chance.randrange(2):
            found = b"[" + found + b"]"
        else:
            found += b"!"
        marks += 1
    return found


def near_limits(chance):
    """Levels, rows, fragments, variables and wrappers about their sizes, also two of them at once."""
    way = chance.randrange(6)
    some = [30, 31, 32, 33]
    if way == 0:
        deep = chance.randrange(0, 31)
        inner = around(chance, b"a(x:", chance.choice(some) - deep, chance.choice([b"1", b"%", b"", b"$v", b")"]), b")")
        made = b"{a " * deep + b"{" + inner + b"}" + b"}" * deep
    elif way == 1:
        filler = chance.choice([b"a ", b"a:b ", b"...F ", b"a@d ", b"...{a}", b"a(x:1)"])
        rows = {b"a ": 1, b"a:b ": 1, b"...F ": 1, b"a@d ": 2, b"...{a}": 2, b"a(x:1)": 3}[filler]
        left = 2048 - 1 - chance.randrange(0, 6)
        made = b"{" + filler * (left // rows) + b"".join(derived_text(chance, "Selection+")) + chance.choice([b"}", b"}", b"", b"%", b")"])
    elif way == 2:
        made = b"".join(b"fragment %s on Q{a}" % chance.choice([b"F", b"G"]) for _ in range(chance.randrange(62, 67)))
        made += chance.choice([b"", b"{a}", b"fragment on", b"fragment", b"query($a:I){a}", b"%"])
    elif way == 3:
        count = chance.randrange(62, 67)
        made = b"query(" + b"".join(b"$a:%s%s " % (wrapped(chance, 3), chance.choice([b"", b"=1", b"=[]"])) for _ in range(count))
        made += chance.choice([b"){a}", b"$", b"", b"){a} query($b:I){a}", b"$x:[[[[[[[[I]]]]]]]]){a}"])
    elif way == 4:
        made = b"query(" + b"".join(b"$a:%s " % wrapped(chance) for _ in range(chance.randrange(1, 4))) + b"){a}"
    else:
        deep = chance.randrange(20, 32)
        made = b"{a " * deep + b"...{" + b"b(x:[1])" + b"}" * (deep + 1)
        made = made + b" query($v:" + wrapped(chance) + b"){a}"
    return changed_bytes(chance, made) if chance.randrange(3) == 0 else made


def derived_text(chance, part):
    return [t + b" " for t in derived(chance, part, 6)]


# ---- type tables

TYPES = {b"Query": 2, b"O": 2, b"P": 2, b"I": 3, b"J": 3, b"U": 4, b"E": 5, b"In": 6, b"S": 1}
ALL = [*TYPES, b"Int", b"String", b"ID"]
OUTPUT = [n for n in ALL if TYPES.get(n) != 6]
INPUT = [b"In", b"E", b"S", b"Int", b"String", b"ID"]
MEMBERS = [b"a", b"b", b"c"]
BAD_NAMES = [b"Nope", b"__x", b"_", b"__", b"Int", b"skip", b"include", b"deprecated", b"d", b"true", b"null", b"on"]


def rarely(chance, one_in, other, usual):
    return other if chance.randrange(one_in) == 0 else usual


def reference(chance, names, rare):
    found = chance.choice(names) if chance.randrange(rare) else chance.choice(ALL + BAD_NAMES)
    for _ in range(chance.choice([0, 0, 0, 1, 1, 2, 3])):
        found = b"[" + found + b"]" if found.endswith(b"!") or chance.randrange(2) else found + b"!"
    return found


def narrowed(chance, some, rare):
    """A sub-type, mostly; or something near."""
    way = chance.randrange(8)
    if way == 0 and not some.endswith(b"!"):
        return some + b"!"
    if way == 1:
        for one, other in ((b"I", b"O"), (b"J", b"P"), (b"U", b"Query"), (b"O", b"I"), (b"I", b"J")):
            if some.strip(b"[]!") == one:
                return some.replace(one, other)
    if way == 2 and some.startswith(b"["):
        inner, _, rest = some[1:].rpartition(b"]")
        return b"[" + narrowed(chance, inner, rare) + b"]" + rest
    if way == 3 and chance.randrange(rare) == 0:
        return reference(chance, OUTPUT, rare)
    if way == 4 and chance.randrange(rare) == 0 and some.endswith(b"!"):
        return some[:-1]
    return some


def arguments(chance, rare):
    return [(chance.choice([b"x", b"y", b"z"]) if chance.randrange(rare) else b"__x", reference(chance, INPUT, rare)) for _ in range(chance.choice([0, 0, 0, 1, 2]))]


def without_repeats(chance, some, rare):
    seen, found = set(), []
    for one in some:
        if one[0] not in seen or chance.randrange(rare) == 0:
            found.append(one)
        seen.add(one[0])
    return found


def field_bytes(name, type, given):
    return tables.piece(18, tables.piece(16, name) + tables.piece(20, type) + b"".join(tables.piece(19, tables.piece(16, n) + tables.piece(20, t)) for n, t in given))


def dense(chance):
    """A table of few names, whose objects mostly keep what their interfaces promise."""
    rare = chance.choice([6, 20, 60, 400])
    fields = {}
    for name in (b"I", b"J"):
        made = [(n, reference(chance, OUTPUT, rare), without_repeats(chance, arguments(chance, rare), rare)) for n in MEMBERS[: chance.randrange(1, 4)]]
        fields[name] = without_repeats(chance, made, rare)
    found = []
    for name, tag in TYPES.items():
        if chance.randrange(3) == 0 and name != b"Query":
            continue
        own = name if chance.randrange(rare) else chance.choice(ALL + BAD_NAMES)
        content = tables.piece(16, own)
        if tag == 2:
            implemented = [n for n in (b"I", b"J", b"I") if chance.randrange(3) == 0]
            implemented = list(dict.fromkeys(implemented)) if chance.randrange(rare) else implemented
            made = []
            for one in implemented:
                for n, t, given in fields[one]:
                    if chance.randrange(rare) == 0:
                        continue
                    kept = [(an, at if chance.randrange(rare) else reference(chance, INPUT, rare)) for an, at in given if chance.randrange(rare)]
                    more = [(b"w", reference(chance, INPUT, rare))] if chance.randrange(4) == 0 else []
                    if more and more[0][1].endswith(b"!") and chance.randrange(rare):
                        more = []
                    chance.shuffle(kept)
                    kept = without_repeats(chance, kept + more, rare)
                    if kept and chance.randrange(rare) == 0:
                        kept.insert(chance.randrange(len(kept) + 1), (chance.choice(kept)[0], reference(chance, INPUT, rare)))
                    made.append((n, narrowed(chance, t, rare), kept))
            if not made or chance.randrange(2):
                made.append((chance.choice([*MEMBERS, b"d"]), reference(chance, OUTPUT, rare), without_repeats(chance, arguments(chance, rare), rare)))
            made = without_repeats(chance, made, rare)
            chance.shuffle(made)
            if chance.randrange(rare) == 0:
                implemented.append(chance.choice(ALL + BAD_NAMES))
            content += b"".join(tables.piece(17, n) for n in implemented) + b"".join(field_bytes(*f) for f in made)
        elif tag == 3:
            content += b"".join(field_bytes(*f) for f in fields[name])
        elif tag == 4:
            some = [n for n in (b"Query", b"O", b"P") if chance.randrange(2)] + rarely(chance, rare, [chance.choice(ALL + BAD_NAMES)], [])
            content += b"".join(tables.piece(21, n) for n in some)
        elif tag == 5:
            some = [n for n in (b"A", b"B", b"true", b"A") if chance.randrange(rare) == 0 or n in (b"A", b"B")]
            content += b"".join(tables.piece(22, n) for n in some[: rarely(chance, rare, 0, 9)])
        elif tag == 6:
            some = without_repeats(chance, [(n, reference(chance, INPUT, rare)) for n in [b"n", b"x", b"__y", b"n"][: chance.randrange(1, 5)]], rare)
            content += b"".join(tables.piece(19, tables.piece(16, n) + tables.piece(20, t)) for n, t in some)
        found.append(tables.piece(tag, content))
        if chance.randrange(rare) == 0:
            found.append(found[-1])
    if chance.randrange(3) == 0:
        some = without_repeats(chance, arguments(chance, rare), rare)
        name = chance.choice([b"d", b"Query"]) if chance.randrange(rare) else chance.choice(BAD_NAMES)
        found.append(tables.piece(7, tables.piece(16, name) + b"".join(tables.piece(19, tables.piece(16, n) + tables.piece(20, t)) for n, t in some)))
    if chance.randrange(3) == 0:
        some = [(23, b"Query")] + [(tag, chance.choice([b"Query", b"O", b"P"])) for tag in (24, 25) if chance.randrange(2)]
        some = [(tag, name if chance.randrange(rare) else chance.choice(ALL + BAD_NAMES)) for tag, name in some]
        found.append(tables.piece(8, b"".join(tables.piece(tag, name) for tag, name in some)))
    chance.shuffle(found)
    return b"".join(found)


def table(chance, seeds):
    way = chance.randrange(10)
    if way < 5:
        made = dense(chance)
        if chance.randrange(6) == 0:
            made = retabled(chance, made)
        return made
    if way < 8:
        return tables.random_case(chance)
    some = chance.choice(seeds)
    return retabled(chance, some) if len(some) < 4000 else some


def retabled(chance, some):
    """Fields moved, repeated, dropped, emptied, retagged or relabelled at any depth; or bytes changed."""
    if chance.randrange(3) == 0:
        for _ in range(chance.choice([1, 1, 2])):
            some = tables.rebyte(chance, some)
        return some
    holder = tables.tree(some, tables.HELD)
    for _ in range(chance.choice([1, 1, 2])):
        tables.reframe(chance, holder)
    return tables.tree_bytes(holder)


def tables_at_limits():
    yield from tables.size_tables()


def tables_given(chance, path):
    """Tables that are accepted: of the vectors, made by the generators of tests/, and dense ones."""
    with open(path) as file:
        found = {bytes.fromhex(json.loads(line)["table"]): True for line in file}
    for _ in range(150):
        found[tables.table(tables.valid(chance, chance.choice([1, 2, 2, 3])))] = True
    for _ in range(1500):
        found[dense(chance)] = True
    return [one for one in found if len(one) < pairs.MOST_TABLE and check_reader.schema_of(one)[1]]


# ---- documents against tables


def words_of(document):
    """The document's tokens, by the definitions."""
    return [document[t.start : t.stop] for t in text.Tokens(document).tokens]


def names_in(table):
    """All names that a table writes."""
    found, i = set(), 0
    while i + 3 <= len(table):
        n = 256 * table[i + 1] + table[i + 2]
        content = table[i + 3 : i + 3 + n]
        if table[i] in (16, 17, 21, 22, 23, 24, 25):
            found.add(content)
        elif table[i] == 20:
            found.add(content.strip(b"[]!"))
        elif content:
            found |= names_in(content)
        i += 3 + n
    return found


def renamed(chance, tokens, names):
    """Names for names, whole definitions and selections twice or elsewhere; the text mostly stays a document."""
    tokens = list(tokens)
    words = [i for i, t in enumerate(tokens) if t[:1].isalpha() or t[:1] == b"_"]
    for _ in range(chance.choice([1, 1, 1, 2, 4])):
        way = chance.randrange(8)
        if way < 3 and words:
            tokens[chance.choice(words)] = chance.choice([tokens[chance.choice(words)], *(chance.choice(names) for _ in range(2))])
        elif way == 3 and words:
            at = chance.choice(words)
            tokens[at:at] = chance.choice([[b"...", b"F0"], [b"__typename"], [b"...", b"on", chance.choice(names), b"{", b"__typename", b"}"], [tokens[at], b":"]])
            words = [i for i, t in enumerate(tokens) if t[:1].isalpha() or t[:1] == b"_"]
        elif way == 4 and words:
            at = chance.choice(words) + 1
            tokens[at:at] = chance.choice(
                [
                    [b"@", b"skip", b"(", b"if", b":", chance.choice([b"true", b"false", b"$", b"1"]), b")"],
                    [b"@", chance.choice([b"skip", b"include", b"d"]), b"(", b"if", b":", b"$", b"v0", b")"],
                    [b"(", b"x", b":", b"$", b"v0", b")"],
                    [b"{", b"__typename", b"}"],
                ]
            )
            words = [i for i, t in enumerate(tokens) if t[:1].isalpha() or t[:1] == b"_"]
        elif way == 5:
            at = chance.randrange(len(tokens) + 1)
            span = tokens[chance.randrange(len(tokens) + 1) :][: chance.randrange(1, 8)]
            tokens[at:at] = span
            words = [i for i, t in enumerate(tokens) if t[:1].isalpha() or t[:1] == b"_"]
        elif way == 6:
            tokens += chance.choice(
                [
                    [b"fragment", b"F0", b"on", chance.choice(names), b"{", b"...", b"F1", b"}"],
                    [b"fragment", b"F1", b"on", chance.choice(names), b"{", b"...", b"F0", b"__typename", b"}"],
                    [b"query", b"Op0", b"{", b"__typename", b"...", b"F0", b"}"],
                    [b"{", b"__typename", b"}"],
                    [b"mutation", b"M", b"(", b"$", b"v0", b":", chance.choice(names), b"!", b")", b"{", b"__typename", b"}"],
                    [b"subscription", b"{", b"__typename", b"}"],
                ]
            )
        else:
            tokens = changed_tokens(chance, tokens)
            words = [i for i, t in enumerate(tokens) if t[:1].isalpha() or t[:1] == b"_"]
    return tokens


def restructured(chance, made, names, edits):
    """A document whose rows are taken twice, away, or for each other, and whose names and values are exchanged: it stays a document, mostly."""
    for _ in range(edits):
        said = text.TextAnswer("Document", text.Tokens(made))
        if said[0] != "rows":
            return made
        rows = said[1]
        row = chance.choice(rows)
        whole = made[row.start : row.end]
        alike = [r for r in rows if r.kind == row.kind or (row.kind in SELECTIONS and r.kind in SELECTIONS) or (row.kind >= 20 and r.kind >= 20)]
        other = chance.choice(alike)
        way = chance.randrange(8)
        start, stop, put = row.start, row.end, made[other.start : other.end]
        if made[row.nameStart : row.nameStart + row.nameLength] == b"__typename" and chance.randrange(2):
            start, stop, put = row.nameStart, row.nameStart + row.nameLength, chance.choice(names)      # of a union too, whose members are types
        elif way < 3 and row.nameLength:
            named = [r for r in rows if r.nameLength]
            one = chance.choice(named)
            start, stop, put = row.nameStart, row.nameStart + row.nameLength, chance.choice([made[one.nameStart : one.nameStart + one.nameLength], chance.choice(names), chance.choice(names)])
        elif way == 3:
            put = whole + b" " + (whole if chance.randrange(2) else put)
        elif way == 4 and row.kind in (3, 4, 5, 6, 7, 8, 10) and chance.randrange(2):
            put = b""
        elif row.kind == 9 and way in (5, 6):
            put = reference(chance, names, 9) if rows[row.parent].kind == 8 else chance.choice(names)
        elif row.kind >= 20 and way in (4, 5):
            put = chance.choice([*VALUES, b"$v0", b"$v1", b"[" + whole + b"]", b"{x:" + whole + b"}", b"[]", b"{}"])
        elif row.kind == 3 and way == 5:
            put = whole + chance.choice([b" @skip(if:true)", b" @include(if:$v0)", b" @skip(if:$v0)", b"{__typename}", b" k:__typename", b" ...F0", b" ...{" + whole + b"}"])
        elif row.kind == 7 and way in (4, 5):
            put = chance.choice([b"@skip(if:true)", b"@include(if:$v0)", b"@skip", b"@d", b"@include(if:true if:true)", b"@skip(if:[$v0])", b"@skip(iff:true)"])
        elif row.kind in (1, 2) and way in (4, 5):
            put = whole + b" " + chance.choice(MORE)
        made = made[:start] + b" " + put + b" " + made[stop:]
    return made


SELECTIONS = (3, 4, 5)
MORE = [b"fragment F0 on Query{...F1}", b"fragment F1 on Query{...F0 __typename}", b"query Op0{__typename ...F0}", b"{__typename}", b"query Op1($v0:Boolean){...F0}",
        b"mutation M($v0:Int!){__typename}", b"subscription{__typename}", b"query Z($v0:[Int!] $v1:Nope){...F1}"]


def fitting(chance, table, maker=pairs.Maker, most=pairs.MOST_DOCUMENT):
    _, schema, roots = check_reader.schema_of(table)
    while True:
        made = maker(schema, roots, chance).document().encode()
        if len(made) < most:
            return made


def lengthened(chance, table, *texts):
    """Now and then inputs about as long as may be: a text with spaces behind it, a table with one more scalar of a long name."""
    if chance.randrange(120):
        return (table, *texts)
    texts = [some + b" " * (chance.randrange(16382, 16388) - len(some)) if chance.randrange(2) else some for some in texts]
    if chance.randrange(2):
        long = chance.randrange(32765, 32772) - len(table) - 6
        table += tables.piece(1, tables.piece(16, b"L" * long)) if long > 0 else b""
    return (table, *texts)


def pair(chance, given, seeds):
    return lengthened(chance, *pair_made(chance, given, seeds))


def chained(chance):
    """On the table of tests/plans: up to 64 fragments that spread each other, variables in them, operations that enter here and there."""
    count = chance.choice([3, 8, 20, 62, 64])
    leaf = [b"a", b"a", b"f(x:$v0){a}", b"f(on:$v1){a}", b"f(x:$v1){a}", b"a @skip(if:$v1)", b"a @include(if:$v0)", b"nope"]
    made = []
    for i in range(count):
        body = [chance.choice(leaf[: 8 if chance.randrange(20) == 0 else 2 if chance.randrange(3) else 7])]
        for _ in range(chance.choice([0, 1, 1, 1, 2])):
            to = i + 1 if chance.randrange(8) else chance.randrange(count)
            if to <= i and chance.randrange(12):
                continue
            body.append(chance.choice([b"...F%d", b"q{...F%d}", b"...{...F%d}", b"...F%d @skip(if:true)"]) % min(to, count - 1 if to < count else 999 if chance.randrange(40) == 0 else i))
        body = [b for b in body if b"F%d" % i not in b or chance.randrange(40) == 0]
        made.append(b"fragment F%d on Query{%s}" % (i if chance.randrange(60) else chance.randrange(count), b" ".join(body)))
    for k in range(chance.choice([1, 1, 2, 3])):
        given = [b"$%s:%s" % (chance.choice([b"v0", b"v1"]), chance.choice([b"Int", b"Int!", b"Boolean", b"Boolean!", b"[Int]"])) for _ in range(chance.randrange(3))]
        if chance.randrange(2):
            given = [b"$v0:Int", b"$v1:Boolean!"]
        declared = b"(" + b" ".join(given) + b")" if given else b""
        made.insert(chance.randrange(len(made) + 1), b"query O%d%s{...F%d a}" % (k, declared, chance.randrange(min(count, 5))))
    return tables.table(tables.written(plan_cases.WIDE)), b" ".join(made)


def pair_made(chance, given, seeds):
    if chance.randrange(30) == 0:
        return chained(chance)
    if chance.randrange(40) == 0:
        return dense(chance), document(chance)
    if chance.randrange(6) == 0:
        table, made = chance.choice(seeds)
    else:
        table = chance.choice(given)
        made = fitting(chance, table, chance.choice([pairs.Maker, plan_cases.Maker]))
    if chance.randrange(8) == 0:
        return table, made
    names = [*names_in(table), b"v0", b"v1", b"F0", b"F1", b"if", b"Int", b"Boolean", b"skip", b"include", b"__typename", b"__schema", b"Nope", b"on", b"true"]
    if chance.randrange(6) == 0:
        return table, b" ".join(renamed(chance, words_of(made), names))
    return table, restructured(chance, made, names, chance.choice([1, 1, 1, 2, 2, 3, 5]))


# ---- coercions


def coercions(chance, given, count):
    while count > 0:
        table = chance.choice(given)
        names = [*names_in(table), b"v0", b"v1", b"A", b"null", b"true"]
        for table, made, name, variables, row in coercion_cases.calls_of(table, chance):
            if chance.randrange(3) == 0:
                variables = b" ".join(revalued(chance, words_of(variables), names))
            if chance.randrange(8) == 0:
                made = b" ".join(revalued(chance, words_of(made), names))
            elif chance.randrange(3) == 0:
                made = restructured(chance, made, names, chance.choice([1, 1, 2]))
            if chance.randrange(100) == 0:
                variables = changed_bytes(chance, variables)
            long, made, variables = lengthened(chance, table, shuffled(chance, made), variables)
            yield long, made, name, variables, row
            count -= 1
    yield from coercion_cases.each()
    yield from coercion_cases.at_limits()


VALUES = [b"1", b"-0", b"2147483647", b"2147483648", b"-2147483648", b"-2147483649", b"9007199254740992", b"9007199254740993", b"-9007199254740993", b"1.0", b"1e9", b'"s"',
          b'"\\uD800"', b'"\\u0000\\u007f\\u0080\\uFFFF"', b'"\\t\\/"', b'""', b"true", b"false", b"null", b"A", b"Z", b"99999999999999999999999"]


def revalued(chance, tokens, names):
    """Values for values, a value in brackets or in an object, an entry twice."""
    tokens = list(tokens)
    for _ in range(chance.choice([1, 1, 2, 3])):
        if not tokens:
            return tokens
        at = chance.randrange(len(tokens))
        way = chance.randrange(6)
        if way < 2:
            spots = [i for i in range(1, len(tokens)) if tokens[i - 1] in (b":", b"[", b"=") and tokens[i] not in (b"[", b"{", b"$", b"]")]
            if spots:
                tokens[chance.choice(spots)] = chance.choice(VALUES)
        elif way == 2:
            tokens[at : at + 1] = chance.choice([[b"[", tokens[at], b"]"], [b"{", chance.choice(names), b":", tokens[at], b"}"], [b"[", tokens[at], b"null", b"]"]])
        elif way == 3:
            ends = [i for i, t in enumerate(tokens) if t in (b"}", b")")]
            if ends:
                at = chance.choice(ends)
                tokens[at:at] = [chance.choice(names), b":", chance.choice([*VALUES, b"[", b"{"])]
        elif way == 4:
            spots = [i for i, t in enumerate(tokens) if t[:1].isalpha()]
            if spots:
                tokens[chance.choice(spots)] = chance.choice(names)
        else:
            del tokens[at : at + chance.choice([1, 3])]
    return tokens


# ---- plans


def doubling(chance):
    """Fragments that each spread the next one or two times: plans of about 4,096 steps."""
    count = chance.randrange(4, 13)
    some = [b"a", b"b", b"k:a", b"a:b", b"q{a}", b"...{b}", b"a @skip(if:$v0)", b"b @include(if:$v1)", b"a @skip(if:true)", b"...on Node{a}", b"...on O{a}"]
    made = []
    for i in range(count):
        body = [chance.choice(some) for _ in range(chance.randrange(3))] + [b"...F%d" % (i + 1)] * chance.choice([1, 2, 2, 2, 3])
        chance.shuffle(body)
        made.append(b"fragment F%d on Query{%s}" % (i, b" ".join(body)))
    made.append(b"fragment F%d on Query{%s}" % (count, b" ".join(chance.choice(some) for _ in range(chance.randrange(1, 5)))))
    operation = b"query($v0:Boolean $v1:Boolean!){%s ...F0 q{...F%d}}" % (b" ".join([b"a"] * chance.randrange(12)), chance.randrange(count))
    made.insert(chance.randrange(len(made) + 1), operation)
    return b" ".join(made)


def shuffled(chance, made):
    """Each operation's variable definitions in an order of its own."""
    said = text.TextAnswer("Document", text.Tokens(made))
    if said[0] != "rows":
        return made
    rows = said[1]
    put = []
    for op, row in enumerate(rows):
        if row.kind == 1:
            own = [r for r in rows if r.kind == 8 and r.parent == op]
            put += zip(own, [made[r.start : r.end] for r in chance.sample(own, len(own))])
    for row, whole in sorted(put, key=lambda one: -one[0].start):
        made = made[: row.start] + whole + made[row.end :]
    return made


def planned(chance, given):
    table = chance.choice(given)
    if chance.randrange(40) == 0:
        return tables.table(tables.written(plan_cases.WIDE)), doubling(chance), b""
    table, made, name = plan_cases.plans_of(table, chance)
    made = shuffled(chance, made)
    if chance.randrange(3) == 0:
        names = [*names_in(table), b"F0", b"F1", b"F2", b"v0", b"v1", b"__typename", b"skip", b"include"]
        if chance.randrange(5) == 0:
            made = b" ".join(renamed(chance, words_of(made), names))
        else:
            made = restructured(chance, made, names, chance.choice([1, 1, 2, 3]))
    table, made = lengthened(chance, table, made)
    return table, made, name


def replanned(chance, plan, records):
    """The numbers of a plan with a few changed; mostly it stays a plan."""
    steps = plan[1]
    if chance.randrange(40) == 0:
        # as many steps, or blocks, as may be, or one over
        count = chance.choice([4095, 4096, 4096, 4097])
        plan[2050 + 3 * steps :] = [5, 1, 1] * (4096 - steps)
        plan[1] = count
        return plan
    if chance.randrange(40) == 0:
        count = chance.choice([2047, 2048, 2048, 2049])
        plan[2 + plan[0] : 2050] = [steps] * (2048 - plan[0])
        plan[0] = count
        return plan
    for _ in range(chance.choice([1, 1, 1, 2, 3])):
        way = chance.randrange(12)
        at = 2050 + 3 * chance.randrange(steps) if steps else 2050
        if way < 3:
            plan[at + 1] = chance.choice([plan[at + 1] + 1, 0, 63, 64, records, chance.randrange(records + 1), 2047, 2048])
        elif way < 6:
            plan[at + 2] = chance.choice([plan[at + 2] + 1, max(plan[at + 2] - 1, 0), steps, steps + 1, (at - 2050) // 3 + 1, (at - 2050) // 3, 2047, 2048, 2**32 - 1])
        elif way == 6:
            plan[at] = chance.choice([0, 1, 2, 3, 4, 5, 6, 2**32 - 1])
        elif way == 7:
            b = 2 + chance.randrange(min(plan[0], 2047) + 1)
            plan[b] = chance.choice([0, plan[b] + 1, max(plan[b] - 1, 0), steps, steps + 1, 4096])
        elif way == 8:
            plan[0] = chance.choice([0, 1, plan[0] + 1, max(plan[0] - 1, 0), 2048, 2049, 2**32 - 1])
        elif way == 9:
            plan[1] = chance.choice([0, steps + 1, max(steps - 1, 0), 4096, 4097])
        elif way == 10:
            plan[at : at + 3] = chance.choice([[1, 0, steps], [2, 1, steps], [4, 0, steps], [5, 1, 1], [3, chance.randrange(records + 1), steps], [4, 0, (at - 2050) // 3 + 2]])
        elif chance.randrange(4) == 0:
            return plan[: chance.choice([0, 1, 2050, len(plan) - 1])]
        else:
            plan += [9] * 3
        if len(plan) < 14338:
            break
        steps = min(plan[1], 4096)
    return plan
