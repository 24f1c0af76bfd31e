# The definitions of crates/paper_query/specs written out in Python, definition by definition, under the same names: constructs, enclosing
# types, places, reaching, the fourteen query rules, the least break, opening an operation, and gw_check.
# States nothing of its own. It was written from the definitions alone, before the library or the readers in tests/ were looked at.
# A shape is (base, wrappers). "The rows below p that pass" are looked up by their parent, where a definition looks through all rows.
from paper import table as types
from paper.table import baseOf, earlier, find, firstAt, inputTable, isInputObject, isComposite, isUnion, isUnknown, judge, meant, mostTable, rootsOf, tableOf, tagQueryRoot
from paper.text import (
    Row,
    TextAnswer,
    Tokens,
    accepted,
    filled,
    flat,
    inputDocument,
    kindArgument,
    kindBoolean,
    kindDirective,
    kindField,
    kindFragment,
    kindInline,
    kindList,
    kindObject,
    kindObjectField,
    kindOperation,
    kindSpread,
    kindTypeReference,
    kindVariable,
    kindVariableDefinition,
    mostText,
    noParent,
    refuseBuffer,
    refuseOverLength,
    reportSize,
    rowsSize,
    shownOf,
    wrapList,
    wrapNonNull,
)

# ---- QueryNumbers.antt: the rules are numbered by their files' names below
refuseQuery = 10

# ---- Constructs.antt

noRow = Row(0, 0, 0, noParent, 0, 0, 0)


class Doc:
    def __init__(self, bs, rows):
        self.bytes, self.rows = bytes(bs), rows
        self.children = {}
        for i, r in enumerate(rows):
            self.children.setdefault(r.parent, []).append(i)
        self.memo = {}

    # the numbers of the rows right below p, in order
    def below(self, p):
        return self.children.get(p, ())


def queryNumber(broken):
    """Fits, which is nothing here, or Breaks i k"""
    return refuseQuery if broken else accepted


def queryShown(broken):
    return list(broken or [])


def remembered(f):
    def g(*args):
        d = args[-2]
        key = (f.__name__,) + args[-1:] + (id(args[0]),)
        if key not in d.memo:
            d.memo[key] = f(*args)
        return d.memo[key]

    return g


def count(d):
    return len(d.rows)


def rowOf(d, i):
    return d.rows[i] if i < len(d.rows) else noRow


def kindOf(d, i):
    return rowOf(d, i).kind


def parentOf(d, i):
    return rowOf(d, i).parent


def extraOf(d, i):
    return rowOf(d, i).extra


def spelt(d, r):
    return d.bytes[r.nameStart : r.nameStart + r.nameLength]


def nameOf(d, i):
    return spelt(d, rowOf(d, i))


def isSelection(r):
    return kindField <= r.kind <= kindInline


def isValue(r):
    return kindVariable <= r.kind <= kindObject


def numbersWhere(p, d):
    return [i for i, r in enumerate(d.rows) if p(r)]


def fragmentCalled(d, n, r):
    return r.kind == kindFragment and spelt(d, r) == n


def fragmentNamed(d, n):
    return firstAt(lambda r: fragmentCalled(d, n, r), d.rows)


def hasFragment(d, n):
    return any(fragmentCalled(d, n, r) for r in d.rows)


# ---- Enclosing.antt: a FieldIs is "typename", ("member", e), "missing" or "unknown"


def definitionAt(t, k):
    return t[k] if k < len(t) else types.blankDefinition(types.tagNothing)


def compositeOf(t, n):
    m = types.meaning(t, n)
    if m == "builtIn" or m is None:
        return None
    return m if isComposite(definitionAt(t, m)) else None


def rootOf(t, x):
    return find(lambda m: m.tag == tagQueryRoot + x, rootsOf(t))


def fieldOf(t, k, n):
    return None if isUnion(definitionAt(t, k)) else find(lambda e: e.name == n, definitionAt(t, k).members)


def isTypename(n):
    return n == b"__typename"


def fieldNamed(t, k, n):
    if k is None:
        return "unknown"
    if isTypename(n):
        return "typename"
    e = fieldOf(t, k, n)
    return "missing" if e is None else ("member", e)


def selectionsType(t, f):
    return compositeOf(t, baseOf(f[1].type)) if f[0] == "member" else None


def conditionOf(d, i):
    return find(lambda r: r.kind == kindTypeReference, [d.rows[j] for j in d.below(i)])


def conditioned(t, d, above, r):
    return above if r is None else compositeOf(t, spelt(d, r))


# `insideBy` with its bound, a row's number and one, which is always enough: parents stand before
@remembered
def typeInside(t, d, i):
    k = kindOf(d, i)
    if k == kindOperation:
        m = rootOf(t, extraOf(d, i))
        return None if m is None else compositeOf(t, m.name)
    if k == kindFragment:
        return conditioned(t, d, None, conditionOf(d, i))
    if k == kindInline:
        return conditioned(t, d, typeInside(t, d, parentOf(d, i)), conditionOf(d, i))
    if k == kindField:
        return selectionsType(t, fieldNamed(t, typeInside(t, d, parentOf(d, i)), nameOf(d, i)))
    return None


def enclosing(t, d, i):
    return typeInside(t, d, parentOf(d, i))


def fieldAt(t, d, i):
    return fieldNamed(t, enclosing(t, d, i), nameOf(d, i))


def argumentCalled(f, n):
    return find(lambda x: x.name == n, f[1].arguments) if f[0] == "member" else None


# ---- PlaceTypes.antt


def wrappersOf(r):
    if r[0] == "named":
        return 0
    return 4 * wrappersOf(r[1]) + (wrapList if r[0] == "listOf" else wrapNonNull)


def shapeOf(r):
    return (baseOf(r), wrappersOf(r))


def shapeIn(d, r):
    return (spelt(d, r), r.extra)


def nullable(w):
    return w // 4 if w % 4 == wrapNonNull else w


def sameButNonNull(p, q):
    return p[0] == q[0] and nullable(p[1]) == nullable(q[1])


def itemOf(p):
    return (p[0], nullable(p[1]) // 4) if nullable(p[1]) % 4 == wrapList else None


def inputFieldOf(t, n, p):
    if not isInputObject(meant(t, p[0])):
        return None
    e = find(lambda x: x.name == n, meant(t, p[0]).members)
    return None if e is None else shapeOf(e.type)


def argumentPlace(t, d, i):
    p = parentOf(d, i)
    if kindOf(d, p) == kindDirective:
        return (b"Boolean", 0)
    if kindOf(d, p) == kindField:
        x = argumentCalled(fieldAt(t, d, p), nameOf(d, i))
        return None if x is None else shapeOf(x.type)
    return None


@remembered
def place(t, d, i):
    if kindOf(d, i) == kindArgument:
        return argumentPlace(t, d, i)
    if kindOf(d, i) == kindObjectField:
        above = place(t, d, parentOf(d, i))
        return None if above is None else inputFieldOf(t, nameOf(d, i), above)
    if isValue(rowOf(d, i)):
        above = place(t, d, parentOf(d, i))
        if kindOf(d, parentOf(d, i)) == kindList:
            return None if above is None else itemOf(above)
        return above
    return None


# ---- Reaching.antt: the relations by search


def isDefinition(r):
    return r.kind in (kindOperation, kindFragment)


# the rows that stand in row a
def Within(d, a):
    found, todo = [], [a]
    while todo:
        i = todo.pop()
        found.append(i)
        todo += [j for j in d.below(i) if not isDefinition(rowOf(d, j))]
    return found


# the fragment that row s spreads, if there is one
def Spreads(d, s):
    if kindOf(d, s) != kindSpread:
        return None
    f = fragmentNamed(d, nameOf(d, s))
    return f if f < count(d) else None


# all rows that row a reaches
def Reaches(d, a):
    key = ("Reaches", a)
    if key not in d.memo:
        rows = set(Within(d, a))
        todo = list(rows)
        while todo:
            f = Spreads(d, todo.pop())
            if f is not None:
                more = [i for i in Within(d, f) if i not in rows]
                rows.update(more)
                todo += more
        d.memo[key] = rows
    return d.memo[key]


def Circles(d, f):
    return any(Spreads(d, s) == f for s in Reaches(d, f))


# ---- Rule1 .. Rule14


def isNamed(r):
    return r.nameLength != 0


def operationRepeated(t, d, i):
    return (
        kindOf(d, i) == kindOperation
        and isNamed(rowOf(d, i))
        and earlier(lambda r: r.kind == kindOperation and spelt(d, r) == nameOf(d, i), i, d.rows)
    )


def operationUnnamed(t, d, i):
    return (
        kindOf(d, i) == kindOperation
        and not isNamed(rowOf(d, i))
        and (earlier(lambda r: r.kind == kindOperation, i, d.rows) or any(r.kind == kindOperation for r in d.rows[i + 1 :]))
    )


def fragmentRepeated(t, d, i):
    return kindOf(d, i) == kindFragment and earlier(lambda r: fragmentCalled(d, nameOf(d, i), r), i, d.rows)


def conditionWrong(t, d, i):
    return kindOf(d, i) == kindTypeReference and kindOf(d, parentOf(d, i)) in (kindFragment, kindInline) and not isComposite(meant(t, nameOf(d, i)))


def fieldNotOfType(t, d, i):
    return kindOf(d, i) == kindField and fieldAt(t, d, i) == "missing"


def hasSelections(d, i):
    return any(isSelection(d.rows[j]) for j in d.below(i))


def unlike(t, f, selects):
    if f == "typename":
        return selects
    if f[0] == "member":
        return selects != isComposite(meant(t, baseOf(f[1].type)))
    return False


def leafWrong(t, d, i):
    return kindOf(d, i) == kindField and unlike(t, fieldAt(t, d, i), hasSelections(d, i))


def spreadOfNone(t, d, i):
    return kindOf(d, i) == kindSpread and not hasFragment(d, nameOf(d, i))


def ReachesItself(t, d, i):
    return kindOf(d, i) == kindFragment and Circles(d, i)


def repeatedThere(d, i):
    return any(j < i and d.rows[j].kind == kindDirective and nameOf(d, j) == nameOf(d, i) for j in d.below(parentOf(d, i)))


def rowsBelow(d, k, i):
    return [j for j in d.below(i) if d.rows[j].kind == k]


def isIf(d, a):
    return nameOf(d, a) == b"if" and any(d.rows[j].kind in (kindBoolean, kindVariable) for j in d.below(a))


def onlyIfs(d, found):
    return len(found) == 1 and isIf(d, found[0])


def directiveRight(d, i):
    return (
        nameOf(d, i) in types.builtInDirectives
        and isSelection(rowOf(d, parentOf(d, i)))
        and not repeatedThere(d, i)
        and onlyIfs(d, rowsBelow(d, kindArgument, i))
    )


def directiveWrong(t, d, i):
    return kindOf(d, i) == kindDirective and not directiveRight(d, i)


# the rows of operation o's definitions of the variable n
def definitions(d, o, n):
    return [j for j in d.below(o) if d.rows[j].kind == kindVariableDefinition and nameOf(d, j) == n]


def defines(d, o, n):
    return len(definitions(d, o, n)) > 0


def operations(d):
    return numbersWhere(lambda r: r.kind == kindOperation, d)


def Undefined(t, d, i):
    return kindOf(d, i) == kindVariable and any(i in Reaches(d, o) and not defines(d, o, nameOf(d, i)) for o in operations(d))


def declared(d, v):
    r = find(lambda r: r.kind == kindTypeReference, [d.rows[j] for j in d.below(v)])
    return None if r is None else shapeIn(d, r)


def isInput(x):
    return not isUnknown(x) and not isComposite(x)


def noInputType(t, d, i):
    if kindOf(d, i) != kindVariableDefinition:
        return False
    p = declared(d, i)
    return not (p is not None and isInput(meant(t, p[0])))


def declaredBy(d, o, n):
    return declared(d, definitions(d, o, n)[0]) if defines(d, o, n) else None


def differ(p, q):
    return p is not None and q is not None and not sameButNonNull(p, q)


def Differs(t, d, i):
    return kindOf(d, i) == kindVariable and any(
        i in Reaches(d, o) and differ(declaredBy(d, o, nameOf(d, i)), place(t, d, i)) for o in operations(d)
    )


def nameTwice(t, d, i):
    k = kindOf(d, i)
    return k in (kindArgument, kindVariableDefinition) and any(
        j < i and d.rows[j].kind == k and nameOf(d, j) == nameOf(d, i) for j in d.below(parentOf(d, i))
    )


def noRoot(t, d, i):
    return kindOf(d, i) == kindOperation and rootOf(t, extraOf(d, i)) is None


def hasNoArgument(f, n):
    if f == "typename":
        return True
    return f[0] == "member" and not any(x.name == n for x in f[1].arguments)


def argumentUnknown(t, d, i):
    p = parentOf(d, i)
    return kindOf(d, i) == kindArgument and kindOf(d, p) == kindField and hasNoArgument(fieldAt(t, d, p), nameOf(d, i))


# ---- QueryRules.antt

Broken = [
    (1, operationRepeated),
    (2, operationUnnamed),
    (3, fragmentRepeated),
    (4, conditionWrong),
    (5, fieldNotOfType),
    (6, leafWrong),
    (7, spreadOfNone),
    (8, ReachesItself),
    (9, directiveWrong),
    (10, Undefined),
    (11, noInputType),
    (11, Differs),
    (12, nameTwice),
    (13, noRoot),
    (14, argumentUnknown),
]


# None for Fits, or the least break: row by row, rule by rule
def Judged(t, d):
    for i in range(count(d)):
        for k, broken in Broken:
            if broken(t, d, i):
                return i, k
    return None


# ---- DocumentCalls.antt


def read(s, rows):
    return Doc(s, rows)


# gw_check: the answer, the rows and the report after
def CheckedDocument(table, document, rows, report):
    if len(report) < reportSize:  # short-report
        return refuseBuffer, rows, report
    if len(rows) < rowsSize:  # short-rows
        return refuseBuffer, rows, filled(reportSize, [refuseBuffer], report)
    if mostText < len(document):  # long-document
        return refuseOverLength, rows, filled(reportSize, [refuseOverLength, inputDocument], report)
    if mostTable < len(table):  # long-table
        return refuseOverLength, rows, filled(reportSize, [refuseOverLength, inputTable], report)
    zeros = filled(rowsSize, [], rows)
    number, shown = judge(table)
    if number != accepted:  # refuses-table
        return number, zeros, filled(reportSize, [number] + shown, report)
    said = TextAnswer("Document", Tokens(document))
    if said[0] == "refuses":  # refuses-text
        return said[1], zeros, filled(reportSize, [said[1]] + shownOf(said[1], said[2]), report)
    broken = Judged(tableOf(table), read(document, said[1]))
    if broken is not None:  # breaks-rule
        return queryNumber(broken), zeros, filled(reportSize, [queryNumber(broken), *queryShown(broken)], report)
    return accepted, filled(rowsSize, flat(said[1]), rows), filled(reportSize, [accepted, len(said[1])], report)  # accepts


# ---- Opening.antt

refuseNoOperation = 12


def operationMeant(d, name):
    if len(name) == 0:
        found = numbersWhere(lambda r: r.kind == kindOperation, d)
        return found[0] if len(found) == 1 else None
    i = firstAt(lambda r: r.kind == kindOperation and spelt(d, r) == name, d.rows)
    return i if i < count(d) else None


# ("stops", number, shown) or ("opens", document, operation)
def Opened(table, document, name):
    number, shown = judge(table)
    if number != accepted:
        return ("stops", number, shown)
    said = TextAnswer("Document", Tokens(document))
    if said[0] == "refuses":
        return ("stops", said[1], shownOf(said[1], said[2]))
    d = read(document, said[1])
    broken = Judged(tableOf(table), d)
    if broken is not None:
        return ("stops", queryNumber(broken), queryShown(broken))
    op = operationMeant(d, bytes(name))
    return ("stops", refuseNoOperation, []) if op is None else ("opens", d, op)
