# The definitions of crates/paper_table/specs written out in Python, definition by definition, under the same names: framing, sizes, types,
# the sixteen schema rules, sub-types, the least break, and gw_check_table.
# States nothing of its own. It was written from the definitions alone, before the library or the readers in tests/ were looked at.
# A piece is ("piece", at, tag, content) or ("cut", at); a reference ("named", name), ("listOf", r) or ("nonNull", r).
from collections import namedtuple
from functools import lru_cache

from paper.text import accepted, filled, letter, letterOrDigit, mostWrappers, inSet, refuseBuffer, refuseOverLength, refuseTooMany, reportSize

# ---- TableNumbers.antt

mostTable = 32768
mostRecords = 256
mostMembers = 64
mostImplemented = 64
mostArguments = 16
refuseFraming = 7
refuseSchema = 9
inputTable = 2
noPlace = 65535
tagScalar, tagObject, tagInterface, tagUnion, tagEnum, tagInputObject, tagDirective, tagRoots = 1, 2, 3, 4, 5, 6, 7, 8
tagName, tagImplements, tagField, tagArgument, tagReference, tagUnionMember, tagEnumValue = 16, 17, 18, 19, 20, 21, 22
tagQueryRoot, tagMutationRoot, tagSubscriptionRoot = 23, 24, 25

# ---- Lists.antt


def firstAt(p, xs):
    for i, x in enumerate(xs):
        if p(x):
            return i
    return len(xs)


def find(p, xs):
    for x in xs:
        if p(x):
            return x
    return None


# ---- References.antt


def isName(s):
    return len(s) > 0 and inSet(letter, s[0]) and all(inSet(letterOrDigit, b) for b in s[1:])


def baseOf(r):
    return r[1] if r[0] == "named" else baseOf(r[1])


def isNonNull(r):
    return r[0] == "nonNull"


def sameRef(r, s):
    if r[0] != s[0]:
        return False
    return r[1] == s[1] if r[0] == "named" else sameRef(r[1], s[1])


byteBang, byteBracketL, byteBracketR = 0x21, 0x5B, 0x5D

# a ReadRef is None for bad, or (reference, the text behind it)


def marked(r, s):
    if s and s[0] == byteBang:
        return ("nonNull", r), s[1:]
    return r, s


def closed(read):
    if read is None:
        return None
    r, s = read
    if not s or s[0] != byteBracketR:
        return None
    return marked(("listOf", r), s[1:])


def nameSize(s):
    return firstAt(lambda b: not inSet(letterOrDigit, b), s)


def readName(s):
    n = nameSize(s)
    return marked(("named", bytes(s[:n])), s[n:]) if isName(s[:n]) else None


# the bound, the text's length, is enough; `[` by `[` from the outside, since a text may hold more of them than Python's stack
def refFrom(f, s):
    depth = firstAt(lambda b: b != byteBracketL, s)
    if depth >= f or depth >= len(s):
        return None
    read = readName(s[depth:])
    for _ in range(depth):
        read = closed(read)
        if read is None:
            return None
    return read


def refOf(s):
    read = refFrom(len(s), bytes(s))
    return read[0] if read is not None and not read[1] else None


def isReference(s):
    return refOf(s) is not None


# ---- House.antt


def houseFields(at, s):
    found = []
    i = 0
    while i < len(s):
        if len(s) - i < 3:
            found.append(("cut", at + i))
            break
        n = 256 * s[i + 1] + s[i + 2]
        if n > len(s) - i - 3:
            found.append(("cut", at + i))
            break
        found.append(("piece", at + i, s[i], s[i + 3 : i + 3 + n]))
        i += 3 + n
    return found


def houseFieldsIn(at, s):
    return houseFields(at + 3, s)


def one(k):
    return ("one", k)


def atMostOne(k):
    return ("atMostOne", k)


def many(k):
    return ("many", k)


def holds(*slots):
    return ("holds", list(slots))


aName, aReference, noTag = ("aName",), ("aReference",), ("noTag",)

contents = [
    (tagScalar, holds(one(tagName))),
    (tagObject, holds(one(tagName), many(tagImplements), many(tagField))),
    (tagInterface, holds(one(tagName), many(tagField))),
    (tagUnion, holds(one(tagName), many(tagUnionMember))),
    (tagEnum, holds(one(tagName), many(tagEnumValue))),
    (tagInputObject, holds(one(tagName), many(tagArgument))),
    (tagDirective, holds(one(tagName), many(tagArgument))),
    (tagRoots, holds(one(tagQueryRoot), atMostOne(tagMutationRoot), atMostOne(tagSubscriptionRoot))),
    (tagField, holds(one(tagName), one(tagReference), many(tagArgument))),
    (tagArgument, holds(one(tagName), one(tagReference))),
    (tagName, aName),
    (tagImplements, aName),
    (tagReference, aReference),
    (tagUnionMember, aName),
    (tagEnumValue, aName),
    (tagQueryRoot, aName),
    (tagMutationRoot, aName),
    (tagSubscriptionRoot, aName),
]


def contentOf(tag):
    found = find(lambda e: e[0] == tag, contents)
    return found[1] if found else noTag


def inPlace(tag, slots):
    return any(k == tag for _, k in slots)


def openAfter(tag, slots):
    for i, (how, k) in enumerate(slots):
        if k == tag:
            return slots[i:] if how == "many" else slots[i + 1 :]
    return []


def openBehind(tag, slots):
    return openAfter(tag, slots) if inPlace(tag, slots) else slots


def lacksHouseField(slots, ps):
    return any(how == "one" and not any(p[0] == "piece" and p[2] == k for p in ps) for how, k in slots)


def inOrder(inner, slots, ps):
    found = []
    for p in ps:
        if p[0] == "cut":
            found.append(p[1])
            continue
        _, at, tag, s = p
        found += inner(at, tag, s) if inPlace(tag, slots) else [at]
        slots = openBehind(tag, slots)
    return found


def orLacking(at, lacking, ws):
    return ws if ws else [at] if lacking else []


def byContent(inner, at, s, content):
    if content[0] == "noTag":
        return [at]
    if content[0] == "aName":
        return [] if isName(s) else [at]
    if content[0] == "aReference":
        return [] if isReference(s) else [at]
    return orLacking(at, lacksHouseField(content[1], houseFieldsIn(at, s)), inOrder(inner, content[1], houseFieldsIn(at, s)))


def wrongs(d):
    def offsets(at, tag, s):
        return [at] if d == 0 else byContent(wrongs(d - 1), at, s, contentOf(tag))

    return offsets


mostDeep = 4


def recordInPlace(roots, tag):
    return tagScalar <= tag <= tagRoots and (tag != tagRoots or roots)


def tableWrongs(ps):
    roots, found = True, []
    for p in ps:
        if p[0] == "cut":
            found.append(p[1])
            continue
        _, at, tag, s = p
        found += wrongs(mostDeep)(at, tag, s) if recordInPlace(roots, tag) else [at]
        roots = roots and tag != tagRoots
    return found


def smallest(ws):
    return min(ws) if ws else None


def framingOffset(s):
    return smallest(tableWrongs(houseFields(0, s)))


# ---- TableSizes.antt: a room is (from, to, how many may still come)

roomInTable = [(tagScalar, tagRoots, mostRecords)]


def roomIn(tag):
    if tag <= tagRoots:
        return [(tagImplements, tagImplements, mostImplemented), (tagField, tagSubscriptionRoot, mostMembers)]
    if tag == tagField:
        return [(tagArgument, tagArgument, mostArguments)]
    return []


def isOver(tag, room):
    return room[0] <= tag <= room[1] and room[2] == 0


def lessRoom(tag, room):
    return (room[0], room[1], max(room[2] - 1, 0)) if room[0] <= tag <= room[1] else room


def oversIn(inner, rooms, ps):
    found = []
    for p in ps:
        if p[0] == "cut":
            continue
        _, at, tag, s = p
        if any(isOver(tag, r) for r in rooms):
            found.append(at)
        found += inner(at, tag, s)
        rooms = [lessRoom(tag, r) for r in rooms]
    return found


def isWrapper(b):
    return b in (byteBracketL, byteBang)


def wrappersOver(n, at, s):
    found = []
    for b in s:
        if isWrapper(b):
            if n == 0:
                found.append(at)
            n = max(n - 1, 0)
        at += 1
    return found


def oversBy(inner, at, tag, s, content):
    if content[0] == "aReference":
        return wrappersOver(mostWrappers, at + 3, s)
    if content[0] == "holds":
        return oversIn(inner, roomIn(tag), houseFieldsIn(at, s))
    return []


def overs(d):
    def offsets(at, tag, s):
        return [] if d == 0 else oversBy(overs(d - 1), at, tag, s, contentOf(tag))

    return offsets


def countsOffset(s):
    return smallest(oversIn(overs(mostDeep), roomInTable, houseFields(0, s)))


# ---- Types.antt

Argument = namedtuple("Argument", "name type")
Member = namedtuple("Member", "tag name type arguments")
Definition = namedtuple("Definition", "tag name implements members")


def textOf(k, ps):
    found = find(lambda p: p[0] == "piece" and p[2] == k, ps)
    return bytes(found[3]) if found else b""


def nameIn(ps):
    return textOf(tagName, ps)


def typeIn(ps):
    r = refOf(textOf(tagReference, ps))
    return ("named", b"") if r is None else r


def argumentIn(at, s):
    return Argument(nameIn(houseFieldsIn(at, s)), typeIn(houseFieldsIn(at, s)))


def argumentOf(p):
    return [argumentIn(p[1], p[3])] if p[0] == "piece" and p[2] == tagArgument else []


def gather(f, xs):
    return [y for x in xs for y in f(x)]


def fieldIn(at, s):
    return Member(tagField, nameIn(houseFieldsIn(at, s)), typeIn(houseFieldsIn(at, s)), gather(argumentOf, houseFieldsIn(at, s)))


def inputIn(at, s):
    return Member(tagArgument, nameIn(houseFieldsIn(at, s)), typeIn(houseFieldsIn(at, s)), [])


def nameOnly(tag, s):
    return Member(tag, bytes(s), ("named", b""), [])


def memberOf(p):
    if p[0] == "cut":
        return []
    _, at, tag, s = p
    if tag == tagField:
        return [fieldIn(at, s)]
    if tag == tagArgument:
        return [inputIn(at, s)]
    return [nameOnly(tag, s)] if tagUnionMember <= tag else []


def implementedOf(p):
    return [bytes(p[3])] if p[0] == "piece" and p[2] == tagImplements else []


def definitionIn(at, tag, s):
    return Definition(tag, nameIn(houseFieldsIn(at, s)), gather(implementedOf, houseFieldsIn(at, s)), gather(memberOf, houseFieldsIn(at, s)))


def definitionOf(p):
    return [definitionIn(p[1], p[2], p[3])] if p[0] == "piece" else []


@lru_cache(maxsize=64)
def tableOf(s):
    return gather(definitionOf, houseFields(0, s))


def isObject(d):
    return d.tag == tagObject


def isInterface(d):
    return d.tag == tagInterface


def isUnion(d):
    return d.tag == tagUnion


def isEnum(d):
    return d.tag == tagEnum


def isInputObject(d):
    return d.tag == tagInputObject


def isDirective(d):
    return d.tag == tagDirective


def isRoots(d):
    return d.tag == tagRoots


def isType(d):
    return d.tag <= tagInputObject


def typeNamed(n, d):
    return isType(d) and d.name == n


def directiveNamed(n, d):
    return isDirective(d) and d.name == n


builtIns = [b"Int", b"Float", b"String", b"Boolean", b"ID"]
builtInDirectives = [b"skip", b"include"]


def isBuiltIn(n):
    return n in builtIns


# a Meaning: "builtIn", None for nothing, or a definition's number
def meaning(t, n):
    if isBuiltIn(n):
        return "builtIn"
    i = firstAt(lambda d: typeNamed(n, d), t)
    return i if i < len(t) else None


tagNothing = 0


def blankDefinition(tag):
    return Definition(tag, b"", [], [])


def definitionBy(t, m):
    return blankDefinition(tagScalar) if m == "builtIn" else blankDefinition(tagNothing) if m is None else t[m]


def meant(t, n):
    return definitionBy(t, meaning(t, n))


def isUnknown(d):
    return d.tag == tagNothing


def rootsOf(t):
    d = find(isRoots, t)
    return [nameOnly(tagQueryRoot, b"Query")] if d is None else d.members


def canBe(t, a, o):
    return isObject(meant(t, o)) and (
        isInterface(meant(t, a)) and a in meant(t, o).implements or isUnion(meant(t, a)) and any(o == m.name for m in meant(t, a).members)
    )


# ---- SubTypes.antt: both the clauses and the test, which must agree


# `SubType`: is there a derivation by the four clauses
def SubType(can, r, s):
    if sameRef(r, s):  # equal
        return True
    if r[0] == "named" and s[0] == "named" and can(s[1], r[1]):  # object-of
        return True
    if r[0] == "listOf" and s[0] == "listOf" and SubType(can, r[1], s[1]):  # list
        return True
    return r[0] == "nonNull" and SubType(can, r[1], s)  # non-null


def subTest(can, r, s):
    if r[0] == "named":
        return s[0] == "named" and (r[1] == s[1] or can(s[1], r[1]))
    if r[0] == "listOf":
        return s[0] == "listOf" and subTest(can, r[1], s[1])
    if s[0] == "nonNull":
        return sameRef(r[1], s[1]) or subTest(can, r[1], s)
    return subTest(can, r[1], s)


# ---- Places.antt, and the schema rules, a file each: a place is (member, part, argument)

wholeOf = (noPlace, noPlace, noPlace)


def memberAt(m):
    return (m, noPlace, noPlace)


def argumentAt(m, a):
    return (m, noPlace, a)


def partAt(m, p):
    return (m, p, noPlace)


def partArgumentAt(m, p, a):
    return (m, p, a)


def membersThat(fails, d):
    return [memberAt(m) for m, e in enumerate(d.members) if fails(m, e)]


def memberPlaces(fails, argumentFails, m, e):
    return [argumentAt(m, a) for a, x in enumerate(e.arguments) if argumentFails(e, a, x)] + ([memberAt(m)] if fails(m, e) else [])


def membersOrArgumentsThat(fails, argumentFails, d):
    return [p for m, e in enumerate(d.members) for p in memberPlaces(fails, argumentFails, m, e)]


def implementedThat(fails, d):
    return [memberAt(m) for m, n in enumerate(d.implements) if fails(m, n)]


def earlier(p, i, xs):
    return any(p(x) for x in xs[:i])


def isReserved(n):
    return n[:2] == b"__"


def reservedName(t, i, d):
    return [wholeOf] if isReserved(d.name) else []


def typeKnown(t, i, d):
    return isBuiltIn(d.name) or earlier(lambda x: typeNamed(d.name, x), i, t)


def directiveKnown(t, i, d):
    return d.name in builtInDirectives or earlier(lambda x: directiveNamed(d.name, x), i, t)


def nameKnown(t, i, d):
    return [wholeOf] if isType(d) and typeKnown(t, i, d) or isDirective(d) and directiveKnown(t, i, d) else []


def needsMembers(d):
    return tagObject <= d.tag and isType(d)


def noMembers(t, i, d):
    return [wholeOf] if needsMembers(d) and len(d.members) == 0 else []


def nameRepeated(t, i, d):
    if isRoots(d):
        return []
    return membersOrArgumentsThat(
        lambda m, e: earlier(lambda x: x.name == e.name, m, d.members),
        lambda e, a, x: earlier(lambda y: y.name == x.name, a, e.arguments),
        d,
    )


def reservedMember(t, i, d):
    if not (isObject(d) or isInterface(d)):
        return []
    return membersOrArgumentsThat(lambda m, e: isReserved(e.name), lambda e, a, x: isReserved(x.name), d)


noEnumValues = [b"true", b"false", b"null"]


def enumValue(t, i, d):
    return membersThat(lambda m, e: e.name in noEnumValues, d) if isEnum(d) else []


def baseMeant(t, r):
    return meant(t, baseOf(r))


def isField(e):
    return e.tag == tagField


def isInputField(e):
    return e.tag == tagArgument


def noType(t, i, d):
    return membersOrArgumentsThat(
        lambda m, e: (isField(e) or isInputField(e)) and isUnknown(baseMeant(t, e.type)),
        lambda e, a, x: isUnknown(baseMeant(t, x.type)),
        d,
    )


def isComposite(d):
    return tagObject <= d.tag <= tagUnion


def wrongBase(t, i, d):
    return membersOrArgumentsThat(
        lambda m, e: isField(e) and isInputObject(baseMeant(t, e.type)) or isInputField(e) and isComposite(baseMeant(t, e.type)),
        lambda e, a, x: isComposite(baseMeant(t, x.type)),
        d,
    )


def memberNoObject(t):
    return lambda m, e: not isObject(meant(t, e.name))


def notObjectOrInterface(t, i, d):
    if isUnion(d):
        return membersThat(memberNoObject(t), d)
    return implementedThat(lambda m, n: not isInterface(meant(t, n)), d)


def implementedTwice(t, i, d):
    return implementedThat(lambda m, n: earlier(lambda x: x == n, m, d.implements), d)


def promised(ask, t, d):
    return [q for m, n in enumerate(d.implements) if isInterface(meant(t, n)) for p, f in enumerate(meant(t, n).members) for q in ask(m, p, f)]


def own(d, f):
    return find(lambda e: e.name == f.name, d.members)


def interfaceFieldMissing(t, i, d):
    return promised(lambda m, p, f: [] if any(e.name == f.name for e in d.members) else [partAt(m, p)], t, d)


def noSubType(t, f, e):
    can = lambda a, o: canBe(t, a, o)
    held = SubType(can, e.type, f.type)
    assert held == subTest(can, e.type, f.type)
    return not held


def fieldType(t, i, d):
    def ask(m, p, f):
        e = own(d, f)
        return [partAt(m, p)] if e is not None and noSubType(t, f, e) else []

    return promised(ask, t, d)


def interfaceArgumentMissing(t, i, d):
    def ask(m, p, f):
        e = own(d, f)
        if e is None:
            return []
        return [partArgumentAt(m, p, a) for a, x in enumerate(f.arguments) if not any(y.name == x.name for y in e.arguments)]

    return promised(ask, t, d)


def argumentType(t, i, d):
    def ask(m, p, f):
        e = own(d, f)
        if e is None:
            return []
        found = []
        for a, x in enumerate(f.arguments):
            y = find(lambda z: z.name == x.name, e.arguments)
            if y is not None and not sameRef(y.type, x.type):
                found.append(partArgumentAt(m, p, a))
        return found

    return promised(ask, t, d)


def isExtra(f, y):
    return isNonNull(y.type) and not any(x.name == y.name for x in f.arguments)


def argumentExtra(t, i, d):
    def ask(m, p, f):
        e = own(d, f)
        return [] if e is None else [partArgumentAt(m, p, a) for a, y in enumerate(e.arguments) if isExtra(f, y)]

    return promised(ask, t, d)


def rootNotObject(t, i, d):
    return membersThat(memberNoObject(t), d) if isRoots(d) else []


def queryNotObject(t):
    return not any(isRoots(d) for d in t) and not isObject(meant(t, b"Query"))


# ---- Judging.antt

rules = [
    (1, reservedName),
    (2, nameKnown),
    (3, noMembers),
    (4, nameRepeated),
    (5, reservedMember),
    (6, enumValue),
    (7, noType),
    (8, wrongBase),
    (9, notObjectOrInterface),
    (10, implementedTwice),
    (11, interfaceFieldMissing),
    (12, fieldType),
    (13, interfaceArgumentMissing),
    (14, argumentType),
    (15, argumentExtra),
    (16, rootNotObject),
]
ruleRoot = 16


# all breaks, each as the numbers that it shows
def breaks(t):
    found = [(i, k) + p for i, d in enumerate(t) for k, rule in rules for p in rule(t, i, d)]
    return found + ([(len(t), ruleRoot) + wholeOf] if queryNotObject(t) else [])


# a TableAnswer: its number and what it shows; the last ones are kept, since many documents are judged by one table
@lru_cache(maxsize=64)
def judge(s):
    at = framingOffset(s)
    if at is not None:
        return refuseFraming, [at]
    over = countsOffset(s)
    if over is not None:
        return refuseTooMany, [over]
    broken = breaks(tableOf(s))
    return (refuseSchema, list(min(broken))) if broken else (accepted, [])


# ---- TableCalls.antt

# gw_check_table: the answer and the report after
def Checked(table, report):
    if len(report) < reportSize:  # short-report
        return refuseBuffer, report
    if mostTable < len(table):  # over-length
        return refuseOverLength, filled(reportSize, [refuseOverLength, inputTable], report)
    number, shown = judge(table)  # judges
    return number, filled(reportSize, [number] + shown, report)
