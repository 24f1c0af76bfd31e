# The definitions of crates/paper_values/specs written out in Python, definition by definition, under the same names: numbers, characters,
# kinds, coercion as a function (Coercion.antt, Computed.antt) and as rules (CoercionRules.antt, CallRules.antt), encoding, and the two coercing calls.
# States nothing of its own. It was written from the definitions alone, before the library or the readers in tests/ were looked at.
# A value is a tuple that begins with its constructor's name and its place (text, row); an Out is ("Got", x) or ("No", place, reason);
# lists, entries and pairs are Python lists.
from collections import namedtuple

from paper.rules import Opened, Reaches, declared, extraOf, fieldAt, isValue, kindOf, nameOf, read, refuseNoOperation, rowOf
from paper.table import inputTable, isBuiltIn, isEnum, isInputObject, isNonNull, meant, mostTable, tableOf, tagName, tagScalar
from paper.text import (
    TextAnswer,
    Tokens,
    accepted,
    extraTrue,
    filled,
    hitsByte,
    inputDocument,
    inputVariables,
    kindArgument,
    kindBoolean,
    kindEnum,
    kindField,
    kindFloat,
    kindInteger,
    kindList,
    kindNull,
    kindObjectField,
    kindString,
    kindVariable,
    kindVariableDefinition,
    mostLevels,
    mostText,
    mostWrappers,
    refuseBuffer,
    refuseOverLength,
    reportSize,
    shownInText,
    wrapList,
)

# ---- ValueNumbers.antt

refuseValue = 11
refuseTooLong = 16
mostCoerced = 8192
tagNull, tagInt, tagFloat, tagString, tagBoolean, tagEnumName, tagList, tagInput, tagPair, tagOwn = range(32, 42)
reasonKind, reasonRange, reasonMissing, reasonNull, reasonUnknown, reasonRepeated, reasonEnum, reasonSurrogate = range(1, 9)

# ---- Written.antt


def houseFieldBytes(tag, bs):
    return bytes([tag]) + bytes([len(bs) // 256 & 255, len(bs) % 256]) + bs  # a length of 65,536 or more is never written: its value is refused


def fourBytes(x):
    return bytes([x // 16777216, x // 65536 % 256, x // 256 % 256, x % 256])


# ---- NumberTokens.antt


def valueOf(bs):
    v = 0
    for b in bs:
        v = 10 * v + max(b - 0x30, 0)
    return v


def intOf(bs):
    if not bs:
        return None
    if bs[0] == 0x2D:
        v = valueOf(bs[1:])
        return (0 if v == 0 else 4294967296 - v) if v <= 2147483648 else None
    return valueOf(bs) if valueOf(bs) <= 2147483647 else None


def digitsOf(bs):
    return bs[1:] if bs[:1] == b"-" else bs


def floatContent(whole, t):
    if not whole:
        return t
    return t + b".0" if valueOf(digitsOf(t)) <= 9007199254740992 else None


# ---- Signed.antt: a signed number is a Python integer


def numberWritten(bs):
    return 0 if not bs else -valueOf(bs[1:]) if bs[0] == 0x2D else valueOf(bs)


def numberHeld(x):
    return x if x <= 2147483647 else -(4294967296 - x)


def isInt(n):
    return -2147483648 <= n <= 2147483647


# ---- Characters.antt

shorts = {0x22: b'"', 0x5C: b"\\", 0x2F: b"/", 0x62: b"\x08", 0x66: b"\x0c", 0x6E: b"\n", 0x72: b"\r", 0x74: b"\t"}


def shortEscape(b):
    return shorts.get(b)


def hexValue(b):
    return b - 0x30 if b < 0x41 else b - 0x37 if b < 0x61 else b - 0x57


def unitOf(a, b, c, d):
    return 4096 * hexValue(a) + 256 * hexValue(b) + 16 * hexValue(c) + hexValue(d)


def isSurrogate(x):
    return 0xD800 <= x <= 0xDFFF


def utf8(x):
    if x < 0x80:
        return bytes([x])
    if x < 0x800:
        return bytes([192 + x // 64, 128 + x % 64])
    if isSurrogate(x) or x >= 0x10000:
        return None
    return bytes([224 + x // 4096, 128 + x // 64 % 64, 128 + x % 64])


# what stands in front: what it means (None for a surrogate), and how many more bytes write it
def written(bs, i):
    if bs[i] != 0x5C:
        return bs[i : i + 1], 0
    if i + 1 >= len(bs):
        return None, 0
    if bs[i + 1] != 0x75:
        return shortEscape(bs[i + 1]), 1
    if i + 5 >= len(bs):
        return None, 0
    return utf8(unitOf(*bs[i + 2 : i + 6])), 5


def charactersFrom(bs):
    found, i = b"", 0
    while i < len(bs):
        means, more = written(bs, i)
        found = None if found is None or means is None else found + means
        i += 1 + more
    return found


def between(t):
    return t[1:][: max(len(t) - 2, 0)]


def charactersOf(t):
    return charactersFrom(between(t))


# `Spells` as rules, from the back: all that the bytes between the quotes spell; a token's must spell exactly one thing
def Spells(bs):
    after = {len(bs): [b""]}
    for i in range(len(bs) - 1, -1, -1):
        found = []
        if bs[i] not in (0x5C, 0x22):  # itself
            found += [None if o is None else bs[i : i + 1] + o for o in after[i + 1]]
        if bs[i] == 0x5C and i + 1 < len(bs):
            cs = shortEscape(bs[i + 1])
            if cs is not None:  # escaped
                found += [None if o is None else cs + o for o in after[i + 2]]
            if bs[i + 1] == 0x75 and i + 5 < len(bs) and all(hitsByte("hex", b) for b in bs[i + 2 : i + 6]):
                x = unitOf(*bs[i + 2 : i + 6])
                if utf8(x) is not None:  # unicode
                    found += [None if o is None else utf8(x) + o for o in after[i + 6]]
                if isSurrogate(x):  # surrogate
                    found += [None for o in after[i + 6]]
        after[i] = found
    return after[0]


# ---- Values.antt

Due = namedtuple("Due", "name type default")


def Got(x):
    return ("Got", x)


def No(i, w):
    return ("No", i, w)


def andThen(o, f):
    return f(o[1]) if o[0] == "Got" else o


Null = ("Null",)

# ---- Kinds.antt: a Kind is (name,), ("Enum", names) or ("Input", dues)


def builtInKind(n):
    return {b"Int": ("Int",), b"Float": ("Float",), b"String": ("String",), b"Boolean": ("Boolean",)}.get(n, ("ID",))


def dueOf(m):
    return Due(m.name, m.type, None)


def dueArgument(a):
    return Due(a.name, a.type, None)


def kindOfDefinition(d):
    if d.tag == tagScalar:
        return ("Own",)
    if isEnum(d):
        return ("Enum", [m.name for m in d.members])
    if isInputObject(d):
        return ("Input", [dueOf(m) for m in d.members])
    return ("Other",)


def kindOfType(t):
    return lambda n: builtInKind(n) if isBuiltIn(n) else kindOfDefinition(meant(t, n))


# ---- Coercion.antt, and Computed.antt, which is held to the rules below


def nullAt(i, r):
    return No(i, reasonNull) if r[0] == "nonNull" else Got(Null)


def inRange(i, name, x):
    return No(i, reasonRange) if x is None else Got((name, x))


def textAt(i, cs):
    return No(i, reasonSurrogate) if cs is None else Got(("Text", cs))


def enumValueAt(i, n, ms):
    return Got(("Member", n)) if n in ms else No(i, reasonEnum)


def wrongKind(i):
    return No(i, reasonKind)


# the columns: Int, Float, String, Boolean, ID, Own, Enum, Input; Other and what is not named are reason 1
def byType(i, kind, **answers):
    answer = answers.get(kind[0])
    return wrongKind(i) if answer is None else answer(*kind[1:])


# the bits of an Int hold the number that the token writes, and there are some exactly where it is an Int (Signed.antt)
def bitsOf(s):
    bits = intOf(s)
    assert (bits is not None) == isInt(numberWritten(s)) and (bits is None or numberHeld(bits) == numberWritten(s))
    return bits


def integerAt(i, s, kind):
    return byType(
        i,
        kind,
        Int=lambda: inRange(i, "Bits", bitsOf(s)),
        Float=lambda: inRange(i, "Decimal", floatContent(True, s)),
        ID=lambda: Got(("Text", s)),
        Own=lambda: Got(("Token", s)),
    )


def floatAt(i, s, kind):
    return byType(i, kind, Float=lambda: inRange(i, "Decimal", floatContent(False, s)), Own=lambda: Got(("Token", s)))


def stringAt(i, s, cs, kind):
    return byType(i, kind, String=lambda: textAt(i, cs), ID=lambda: textAt(i, cs), Own=lambda: Got(("Token", s)))


def booleanAt(i, b, kind):
    return byType(i, kind, Boolean=lambda: Got(("Truth", b)), Own=lambda: Got(("Token", b"true" if b else b"false")))


def enumAt(i, n, kind):
    return byType(i, kind, Enum=lambda ms: enumValueAt(i, n, ms))


def objectAt(i, f, kind):
    return byType(i, kind, Input=f)


# heads are (place, name); givens are (name, left out, what it is at a type)


def repeatedEntry(es):
    seen = set()
    for i, n in es:
        if n in seen:
            return i
        seen.add(n)
    return None


def unknownEntry(ds, es):
    for i, n in es:
        if not any(n == d.name for d in ds):
            return i
    return None


def entryOf(n, gs):
    for name, out, at in gs:
        if name == n:
            return None if out else at
    return None


# `dueFields`, `dueField`, `pairFirst` and `missingDue`, from the first due to the last: what is refused first refuses all
def dueFields(lack, gs, ds):
    pairs = []
    for d in ds:
        f = entryOf(d.name, gs)
        if f is None:
            o = lack(d)
            if o is None:
                continue
        else:
            o = f(d.type)
        if o[0] == "No":
            return o
        pairs.append((d.name, o[1]))
    return Got(pairs)


# what is due and has no entry: reason 3, or None for nothing
def missingDue(i):
    return lambda d: No(i, reasonMissing) if isNonNull(d.type) else None


def inObject(lack, es, gs, ds):
    e = repeatedEntry(es)
    if e is not None:
        return No(e, reasonRepeated)
    e = unknownEntry(ds, es)
    if e is not None:
        return No(e, reasonUnknown)
    return andThen(dueFields(lack, gs, ds), lambda ps: Got(("Fields", ps)))


def heads(es):
    return [(i, n) for i, n, v in es]


def single(kinds, f, r):
    if r[0] == "named":
        return f(kinds(r[1]))
    if r[0] == "listOf":
        return andThen(single(kinds, f, r[1]), lambda t: Got(("Many", [t])))
    return single(kinds, f, r[1])


def several(i, items, r):
    if r[0] == "named":
        return wrongKind(i)
    if r[0] == "listOf":
        return andThen(items(r[1]), lambda ts: Got(("Many", ts)))
    return several(i, items, r[1])


def held(i, r, t):
    return nullAt(i, r) if t is None or t == Null else Got(t)


def leftOut(vars, v):
    return v[0] == "variable" and vars(v[2]) is None


def coerce(kinds, vars, v, r):
    c, i = v[0], v[1]
    if c == "variable":
        return held(i, r, vars(v[2]))
    if c == "integer":
        return single(kinds, lambda k: integerAt(i, v[2], k), r)
    if c == "float":
        return single(kinds, lambda k: floatAt(i, v[2], k), r)
    if c == "string":
        return single(kinds, lambda k: stringAt(i, v[2], v[3], k), r)
    if c == "boolean":
        return single(kinds, lambda k: booleanAt(i, v[2], k), r)
    if c == "null":
        return nullAt(i, r)
    if c == "enum":
        return single(kinds, lambda k: enumAt(i, v[2], k), r)
    if c == "list":
        return several(i, lambda q: coerceAll(kinds, vars, v[2], q), r)
    es = v[2]
    return single(kinds, lambda k: objectAt(i, lambda ds: inObject(missingDue(i), heads(es), givens(kinds, vars, es), ds), k), r)


def coerceAll(kinds, vars, vs, r):
    ts = []
    for v in vs:
        o = coerce(kinds, vars, v, r)
        if o[0] == "No":
            return o
        ts.append(o[1])
    return Got(ts)


def givens(kinds, vars, es):
    return [(n, leftOut(vars, v), lambda r, v=v: coerce(kinds, vars, v, r)) for i, n, v in es]


def valueIn(ps):
    found = {}
    for n, t in ps:
        found.setdefault(n, t)
    return found.get


def constant(kinds, v, r):
    return coerce(kinds, noVariables, v, r)


# without an entry: the default, or reason 3, or None for nothing
def orDefault(kinds, i):
    return lambda d: missingDue(i)(d) if d.default is None else constant(kinds, d.default, d.type)


def variablesOf(kinds, es, vs):
    e = repeatedEntry(heads(es))
    if e is not None:
        return No(e, reasonRepeated)
    places = {id(d): i for i, d in vs}
    return dueFields(lambda d: orDefault(kinds, places[id(d)])(d), givens(kinds, noVariables, es), [d for i, d in vs])


def argumentsOf(kinds, given, vs, i, es, ds):
    return andThen(
        variablesOf(kinds, given, vs),
        lambda ps: inObject(orDefault(kinds, i), heads(es), givens(kinds, valueIn(ps), es), ds),
    )


# ---- CoercionRules.antt: every result that some rule gives. Each rule is tried, whatever the others say; the callers ask for exactly one.


def plainValue(v):
    return v[0] not in ("variable", "null")


def oneValue(v):
    return v[0] not in ("variable", "null", "list")


def asInput(kind):
    return kind[1] if kind[0] == "Input" else None


def valueFor(vars, n, es):
    for i, m, v in es:
        if n == m:
            return None if leftOut(vars, v) else v
    return None


def Coerces(kinds, vars, v, r):
    c, i = v[0], v[1]
    found = []
    if c == "null":
        if not isNonNull(r):
            found.append(Got(Null))  # null-kept
        if isNonNull(r):
            found.append(No(i, reasonNull))  # null-refused
    if c == "variable":
        t = vars(v[2])
        if t is None:
            found += Coerces(kinds, vars, ("null", i), r)  # absent-variable
        if t == Null:
            found += Coerces(kinds, vars, ("null", i), r)  # null-variable
        if t is not None and t != Null:
            found.append(Got(t))  # held-variable
    if plainValue(v) and r[0] == "nonNull":
        found += Coerces(kinds, vars, v, r[1])  # at-non-null
    if c == "list" and r[0] == "listOf":
        found += [andThen(o, lambda ts: Got(("Many", ts))) for o in Items(kinds, vars, v[2], r[1])]  # a-list
    if oneValue(v) and r[0] == "listOf":
        found += [andThen(o, lambda t: Got(("Many", [t]))) for o in Coerces(kinds, vars, v, r[1])]  # list-of-one
    if r[0] == "named":
        k = kinds(r[1])
        if c == "list":
            found.append(No(i, reasonKind))  # no-list
        if c == "integer":
            found.append(integerAt(i, v[2], k))  # an-integer
        if c == "float":
            found.append(floatAt(i, v[2], k))  # a-float
        if c == "string":
            found.append(stringAt(i, v[2], v[3], k))  # a-string
        if c == "boolean":
            found.append(booleanAt(i, v[2], k))  # a-boolean
        if c == "enum":
            found.append(enumAt(i, v[2], k))  # an-enum
        if c == "object":
            es, ds = v[2], asInput(k)
            if ds is None:
                found.append(No(i, reasonKind))  # no-object
            else:
                again = repeatedEntry(heads(es))
                other = unknownEntry(ds, heads(es))
                if again is not None:
                    found.append(No(again, reasonRepeated))  # entry-repeated
                if again is None and other is not None:
                    found.append(No(other, reasonUnknown))  # entry-unknown
                if again is None and other is None:
                    found += [andThen(o, lambda ps: Got(("Fields", ps))) for o in InFields(kinds, vars, i, es, ds)]  # an-object
    return found


def Items(kinds, vars, vs, r):
    if not vs:
        return [Got([])]  # no-items
    found = []
    for o in Coerces(kinds, vars, vs[0], r):
        if o[0] == "No":
            found.append(o)  # item-refused
        else:
            found += [andThen(p, lambda ts: Got([o[1]] + ts)) for p in Items(kinds, vars, vs[1:], r)]  # item-got
    return found


def InFields(kinds, vars, i, es, ds):
    if not ds:
        return [Got([])]  # no-fields
    d, rest = ds[0], ds[1:]
    v = valueFor(vars, d.name, es)
    if v is None:
        if isNonNull(d.type):
            return [No(i, reasonMissing)]  # required-missing
        return InFields(kinds, vars, i, es, rest)  # left-out
    found = []
    for o in Coerces(kinds, vars, v, d.type):
        if o[0] == "No":
            found.append(o)  # field-refused
        else:
            found += [andThen(p, lambda ps: Got([(d.name, o[1])] + ps)) for p in InFields(kinds, vars, i, es, rest)]  # field-got
    return found


# ---- CallRules.antt


def noVariables(n):
    return None


def InDues(kinds, vars, es, ds):
    if not ds:
        return [Got([])]  # no-dues
    (i, d), rest = ds[0], ds[1:]
    v = valueFor(vars, d.name, es)
    if v is None and d.default is None:
        if isNonNull(d.type):
            return [No(i, reasonMissing)]  # due-missing
        return InDues(kinds, vars, es, rest)  # due-left-out
    outs = Coerces(kinds, vars, v, d.type) if v is not None else Coerces(kinds, noVariables, d.default, d.type)
    found = []
    for o in outs:
        if o[0] == "No":
            found.append(o)  # given-refused, default-refused
        else:
            found += [andThen(p, lambda ps: Got([(d.name, o[1])] + ps)) for p in InDues(kinds, vars, es, rest)]  # given-got, default-got
    return found


def CoercesVariables(kinds, es, vs):
    e = repeatedEntry(heads(es))
    return [No(e, reasonRepeated)] if e is not None else InDues(kinds, noVariables, es, vs)  # name-repeated, in-order


def CoercesArguments(kinds, given, vs, i, es, ds):
    found = []
    for o in CoercesVariables(kinds, given, vs):
        if o[0] == "No":
            found.append(o)  # variables-refused
            continue
        again, other = repeatedEntry(heads(es)), unknownEntry(ds, heads(es))
        if again is not None:
            found.append(No(again, reasonRepeated))  # argument-repeated
        elif other is not None:
            found.append(No(other, reasonUnknown))  # argument-unknown
        else:
            found += [andThen(p, lambda qs: Got(("Fields", qs))) for p in InDues(kinds, valueIn(o[1]), es, [(i, d) for d in ds])]  # arguments
    return found


# ---- Encoding.antt


def encode(t):
    c = t[0]
    if c == "Null":
        return houseFieldBytes(tagNull, b"")
    if c == "Bits":
        return houseFieldBytes(tagInt, fourBytes(t[1]))
    if c == "Truth":
        return houseFieldBytes(tagBoolean, bytes([1 if t[1] else 0]))
    if c == "Many":
        return houseFieldBytes(tagList, b"".join(encode(x) for x in t[1]))
    if c == "Fields":
        return houseFieldBytes(tagInput, b"".join(houseFieldBytes(tagPair, houseFieldBytes(tagName, n) + encode(x)) for n, x in t[1]))
    return houseFieldBytes({"Decimal": tagFloat, "Text": tagString, "Member": tagEnumName, "Token": tagOwn}[c], t[1])


# ---- RowValues.antt


def refOfWrappers(k, n, w):
    if k == 0 or w == 0:
        return ("named", n)
    return ("listOf" if w % 4 == wrapList else "nonNull", refOfWrappers(k - 1, n, w // 4))


def refIn(p):
    return refOfWrappers(mostWrappers, p[0], p[1])


def tokenAt(d, i):
    return d.bytes[rowOf(d, i).start : rowOf(d, i).end]


# the entries of a kind right below row h; each value is the next row's
def entriesFrom(text, d, read, k, h):
    return [((text, c), nameOf(d, c), read(c + 1)) for c in d.below(h) if kindOf(d, c) == k]


def valueAt(text, d, k, i):
    at = (text, i)
    if k == 0:
        return ("null", at)
    inner = lambda j: valueAt(text, d, k - 1, j)
    kind = kindOf(d, i)
    if kind == kindVariable:
        return ("variable", at, nameOf(d, i))
    if kind == kindInteger:
        return ("integer", at, tokenAt(d, i))
    if kind == kindFloat:
        return ("float", at, tokenAt(d, i))
    if kind == kindString:
        cs = charactersOf(tokenAt(d, i))
        assert Spells(between(tokenAt(d, i))) == [cs]
        return ("string", at, tokenAt(d, i), cs)
    if kind == kindBoolean:
        return ("boolean", at, extraOf(d, i) == extraTrue)
    if kind == kindNull:
        return ("null", at)
    if kind == kindEnum:
        return ("enum", at, nameOf(d, i))
    if kind == kindList:
        return ("list", at, [inner(c) for c in d.below(i)])
    return ("object", at, entriesFrom(text, d, inner, kindObjectField, i))


def valueOfRow(text, d, i):
    return valueAt(text, d, mostLevels + 1, i)


def argumentsAt(text, d, i):
    return entriesFrom(text, d, lambda j: valueOfRow(text, d, j), kindArgument, i)


# ---- DocumentDues.antt


def definitionsOf(d, op):
    return [i for i in d.below(op) if kindOf(d, i) == kindVariableDefinition]


def declaredRef(d, v):
    p = declared(d, v)
    return ("named", b"") if p is None else refIn(p)


def defaultRow(d, v):
    found = [i for i in d.below(v) if isValue(rowOf(d, i))]
    return found[0] if found else None


def dueVariable(d, v):
    i = defaultRow(d, v)
    return Due(nameOf(d, v), declaredRef(d, v), None if i is None else valueOfRow(inputDocument, d, i))


def variableDues(d, op):
    return [((inputDocument, v), dueVariable(d, v)) for v in definitionsOf(d, op)]


def givenIn(d):
    return entriesFrom(inputVariables, d, lambda j: valueOfRow(inputVariables, d, j), kindObjectField, 0)


def argumentDues(f):
    return [dueArgument(a) for a in f[1].arguments] if f[0] == "member" else []


def ReachedField(d, op, i):
    return kindOf(d, i) == kindField and i in Reaches(d, op)


# ---- ValueCalls.antt: an Ending is ("ends", number, shown) or ("yields", bytes)


# exactly one result by the rules, and it is the computed one
def theOne(outs, computed):
    assert len(outs) == 1 and outs[0] == computed, (outs, computed)
    return computed


def ended(o):
    if o[0] == "No":
        return ("ends", refuseValue, [o[1][0], o[1][1], o[2]])
    bs = encode(o[1])
    return ("yields", bs) if len(bs) <= mostCoerced else ("ends", refuseTooLong, [])


def asObject(o):
    return andThen(o, lambda ps: Got(("Fields", ps)))


def variablesRead(variables):
    return TextAnswer("VariablesText", Tokens(variables))


def VariablesEnd(table, document, name, variables):
    opened = Opened(table, document, name)
    if opened[0] == "stops":  # nothing-opened
        return ("ends", opened[1], opened[2])
    _, d, op = opened
    said = variablesRead(variables)
    if said[0] == "refuses":  # text-refused
        return ("ends", said[1], shownInText(inputVariables, said[1], said[2]))
    kinds, es, vs = kindOfType(tableOf(table)), givenIn(read(variables, said[1])), variableDues(d, op)
    return ended(asObject(theOne(CoercesVariables(kinds, es, vs), variablesOf(kinds, es, vs))))  # variables-coerced


def ArgumentsEnd(table, document, name, variables, row):
    opened = Opened(table, document, name)
    if opened[0] == "stops":  # no-operation-opened
        return ("ends", opened[1], opened[2])
    _, d, op = opened
    if not ReachedField(d, op, row):  # no-field-reached
        return ("ends", refuseNoOperation, [])
    said = variablesRead(variables)
    if said[0] == "refuses":  # variables-unread
        return ("ends", said[1], shownInText(inputVariables, said[1], said[2]))
    t = tableOf(table)
    call = (
        kindOfType(t),
        givenIn(read(variables, said[1])),
        variableDues(d, op),
        (inputDocument, row),
        argumentsAt(inputDocument, d, row),
        argumentDues(fieldAt(t, d, row)),
    )
    return ended(theOne(CoercesArguments(*call), argumentsOf(*call)))  # arguments-coerced


# either call, by its ending: the answer, the value and the report after
def Coerced(End, table, document, variables, value, report):
    if len(report) < reportSize:  # short-report
        return refuseBuffer, value, report
    if len(value) < mostCoerced:  # short-value
        return refuseBuffer, value, filled(reportSize, [refuseBuffer], report)
    if mostText < len(document):  # long-document
        return refuseOverLength, value, filled(reportSize, [refuseOverLength, inputDocument], report)
    if mostText < len(variables):  # long-variables
        return refuseOverLength, value, filled(reportSize, [refuseOverLength, inputVariables], report)
    if mostTable < len(table):  # long-table
        return refuseOverLength, value, filled(reportSize, [refuseOverLength, inputTable], report)
    end = End()
    if end[0] == "ends":  # refused
        return end[1], filled(mostCoerced, [], value), filled(reportSize, [end[1]] + end[2], report)
    return accepted, filled(mostCoerced, end[1], value), filled(reportSize, [accepted, len(end[1])], report)  # answered


def CoercedVariables(table, document, name, variables, value, report):
    return Coerced(lambda: VariablesEnd(table, document, name, variables), table, document, variables, value, report)


def CoercedArguments(table, document, name, variables, row, value, report):
    return Coerced(lambda: ArgumentsEnd(table, document, name, variables, row), table, document, variables, value, report)
