# The definitions of crates/paper_plan/specs written out in Python, definition by definition, under the same names: keys, conditions that
# apply, the draft's field collection, plans, well-formed plans, the walk, gw_plan and gw_walk.
# States nothing of its own. It was written from the definitions alone, before the library or the readers in tests/ were looked at.
# A Cond is "absent", ("literal", b) or ("variable", v); a Sort ("field", k), ("spread", f) or ("inline", type or None); a test
# ("if-true", v), ("unless-true", v), ("unless-applies", t) or ("if-met", f); a step ("leave", test, n) or ("list", k, r).
from collections import namedtuple

from paper.rules import Opened, Reaches, compositeOf, conditionOf, count, definitionAt, fragmentNamed, isSelection, isValue, kindOf, nameOf, numbersWhere, rowOf, spelt
from paper.table import canBe, firstAt, inputTable, isObject, isComposite, judge, mostTable, tableOf
from paper.text import (
    accepted,
    extraTrue,
    filled,
    hitsByte,
    inputDocument,
    kindArgument,
    kindBoolean,
    kindDirective,
    kindField,
    kindFragment,
    kindSpread,
    kindVariableDefinition,
    mostFragments,
    mostRows,
    mostText,
    mostVariables,
    refuseBuffer,
    refuseOverLength,
    reportSize,
)

# ---- Keys.antt


def nameFront(bs, at):
    stop = at
    while stop < len(bs) and hitsByte("letterOrDigit", bs[stop]):
        stop += 1
    return bs[at:stop]


def keyIn(d, r):
    return nameFront(d.bytes, r.start)


def keyAt(d, i):
    return keyIn(d, rowOf(d, i))


def keyNumber(d, k):
    key = ("keyNumber", k)
    if key not in d.memo:
        d.memo[key] = firstAt(lambda r: r.kind == kindField and keyIn(d, r) == k, d.rows)
    return d.memo[key]


# ---- Applies.antt


def applies(t, k, o):
    return k == o or canBe(t, definitionAt(t, k).name, definitionAt(t, o).name)


# ---- Collecting.antt

View = namedtuple("View", "sort skip include body fragment on")


# a Grouped is a list of (key, fields)
def append(k, rs, g):
    for n, (key, fields) in enumerate(g):
        if key == k:
            return g[:n] + [(key, fields + rs)] + g[n + 1 :]
    return g + [(k, rs)]


def merge(g, hs):
    for k, rs in hs:
        g = append(k, rs, g)
    return g


def skipped(vars, c):
    return False if c == "absent" else c[1] if c[0] == "literal" else vars(c[1])


def included(vars, c):
    return True if c == "absent" else c[1] if c[0] == "literal" else vars(c[1])


def passes(vars, d, r):
    return not skipped(vars, d.skip(r)) and included(vars, d.include(r))


def conditionFits(does, c):
    return c is None or does(c)


# `Collect`: its rules leave no choice, so the groups and the visited fragments after are a function of those before
def Collect(d, vars, does, rs, v, g):
    for r in rs:
        if not passes(vars, d, r):  # left-out
            continue
        sort = d.sort(r)
        if sort[0] == "field":  # a-field
            g = append(sort[1], [r], g)
        elif sort[0] == "spread":
            f = sort[1]
            if f in v:  # visited
                continue
            v = [f] + v
            if does(d.on(f)):  # a-spread; else other-type
                h, v = Collect(d, vars, does, d.fragment(f), v, [])
                g = merge(g, h)
        elif conditionFits(does, sort[1]):  # an-inline; else other-inline
            h, v = Collect(d, vars, does, d.body(r), v, [])
            g = merge(g, h)
    return g, v


def withKey(k, rs):
    return [(k, r) for r in rs]


def pairs(g):
    return [p for k, rs in g for p in withKey(k, rs)]


# ---- Planning.antt


def skipTests(c):
    return [("if-true", c[1])] if c[0] == "variable" else []


def includeTests(c):
    return [("unless-true", c[1])] if c[0] == "variable" else []


def conditionTests(c):
    return [] if c is None else [("unless-applies", c)]


def skipDrops(c):
    return c[0] == "literal" and c[1]


def includeDrops(c):
    return c[0] == "literal" and not c[1]


def dropped(s, i):
    return skipDrops(s) or includeDrops(i)


def leavesPast(past, ts):
    return [("leave", t, past) for t in ts]


def guarded(ts, at, b):
    return leavesPast(at + len(ts) + len(b), ts) + b


def sortTests(d, sort):
    if sort[0] == "spread":
        return [("if-met", sort[1]), ("unless-applies", d.on(sort[1]))]
    return conditionTests(sort[1]) if sort[0] == "inline" else []


def tests(d, r):
    return skipTests(d.skip(r)) + includeTests(d.include(r)) + sortTests(d, d.sort(r))


class TooLong(Exception):
    pass


# `plan` with its bound k. A plan over 4,096 steps is only asked for its length, so it is left as soon as that is known
def plan(d, k, at, rs):
    if k == 0:
        return []
    steps = []
    for r in rs:
        if dropped(d.skip(r), d.include(r)):
            continue
        here = at + len(steps)
        ts, sort = tests(d, r), d.sort(r)
        inner = here + len(ts)
        if sort[0] == "field":
            b = [("list", sort[1], r)]
        else:
            b = plan(d, k - 1, inner, d.fragment(sort[1]) if sort[0] == "spread" else d.body(r))
        steps += guarded(ts, here, b)
        if at + len(steps) > mostSteps:
            raise TooLong
    return steps


Plan = namedtuple("Plan", "first steps")


def planOf(d, k, bs):
    first, steps = [], []
    for b in bs:
        first.append(len(steps))
        steps += plan(d, k, len(steps), b)
    return Plan(first, steps)


def blockOf(p, b):
    a = p.first[b] if b < len(p.first) else 0
    e = p.first[b + 1] if b + 1 < len(p.first) else len(p.steps)
    return p.steps[a : max(e, a)]


def says(vars, does, test, met):
    what, n = test
    if what == "if-true":
        return vars(n)
    if what == "unless-true":
        return not vars(n)
    if what == "unless-applies":
        return not does(n)
    return n in met


# a block's steps stand from number pc on; those before number `to` are passed over. met and out grow in place
def walk(vars, does, ss, pc, met, out):
    to = 0
    for x in ss:
        if pc >= to:
            if x[0] == "list":
                out.append((x[1], x[2]))
                to = 0
            else:
                to = x[2] if says(vars, does, x[1], met) else 0
                if x[1][0] == "if-met":
                    met.add(x[1][1])
        pc += 1


def blocks(vars, does, p, bs):
    met, out = set(), []
    for b in bs:
        walk(vars, does, blockOf(p, b), p.first[b] if b < len(p.first) else 0, met, out)
    return out


def grouped(ps):
    g = {}
    for k, r in ps:
        g.setdefault(k, []).append(r)
    return list(g.items())


def walkAnswer(vars, does, p, bs):
    return pairs(grouped(blocks(vars, does, p, bs)))


# ---- Selecting.antt


def setOf(d, p):
    return [i for i in d.below(p) if isSelection(rowOf(d, i))]


def fragments(d):
    return numbersWhere(lambda r: r.kind == kindFragment, d)


def fragmentNumber(d, f):
    return firstAt(lambda i: nameOf(d, i) == f, fragments(d))


def fragmentRow(d, n):
    return fragments(d)[n] if n < len(fragments(d)) else count(d)


def variableNumber(d, op, x):
    return firstAt(lambda i: nameOf(d, i) == x, [i for i in d.below(op) if kindOf(d, i) == kindVariableDefinition])


def typeNumber(t, n):
    k = compositeOf(t, n)
    return len(t) if k is None else k


def typeOn(t, d, r):
    return len(t) if r is None else typeNumber(t, spelt(d, r))


def typeIf(t, d, r):
    return None if r is None else typeNumber(t, spelt(d, r))


def ifOf(d, op, x):
    def of(i):
        k = next((j for j in d.below(i) if kindOf(d, j) == kindDirective and nameOf(d, j) == x), None)
        if k is None:
            return "absent"
        a = next((j for j in d.below(k) if kindOf(d, j) == kindArgument), count(d))
        v = next((d.rows[j] for j in d.below(a) if isValue(d.rows[j])), None)
        if v is None:
            return "absent"
        return ("literal", v.extra == extraTrue) if v.kind == kindBoolean else ("variable", variableNumber(d, op, spelt(d, v)))

    return of


def sortOf(t, d, i):
    if kindOf(d, i) == kindField:
        return ("field", keyAt(d, i))
    if kindOf(d, i) == kindSpread:
        return ("spread", nameOf(d, i))
    return ("inline", typeIf(t, d, conditionOf(d, i)))


def byNames(t, d, op):
    return View(
        lambda i: sortOf(t, d, i),
        ifOf(d, op, b"skip"),
        ifOf(d, op, b"include"),
        lambda i: setOf(d, i),
        lambda f: setOf(d, fragmentNamed(d, f)),
        lambda f: typeOn(t, d, conditionOf(d, fragmentNamed(d, f))),
    )


def numberSort(d, sort):
    if sort[0] == "field":
        return ("field", keyNumber(d, sort[1]))
    if sort[0] == "spread":
        return ("spread", fragmentNumber(d, sort[1]))
    return sort


def byNumbers(t, d, op):
    return View(
        lambda i: numberSort(d, sortOf(t, d, i)),
        ifOf(d, op, b"skip"),
        ifOf(d, op, b"include"),
        lambda i: setOf(d, i),
        lambda n: setOf(d, fragmentRow(d, n)),
        lambda n: typeOn(t, d, conditionOf(d, fragmentRow(d, n))),
    )


# the draft's answer: the groups of the holders' merged selection sets
def Collects(t, d, op, vars, o, holders):
    return Collect(byNames(t, d, op), vars, lambda k: applies(t, k, o), [r for h in holders for r in setOf(d, h)], [], [])[0]


def pairsOf(d, g):
    return [p for k, rs in g for p in withKey(keyNumber(d, k), rs)]


def IsBlock(d, op, i):
    return kindOf(d, i) == kindField and setOf(d, i) != [] and i in Reaches(d, op)


def BlockRows(d, op):
    return [op] + [i for i in range(count(d)) if IsBlock(d, op, i)]


def planFor(t, d, op, rows):
    return planOf(byNumbers(t, d, op), count(d) + 1, [setOf(d, r) for r in rows])


# ---- PlanNumbers.antt

planSize = 14338
mostSteps = 4096
mostBlocks = 2048
stepIfTrue, stepUnlessTrue, stepUnlessApplies, stepIfMet, stepList = 1, 2, 3, 4, 5


def stepNumbers(s):
    if s[0] == "list":
        return [stepList, s[1], s[2]]
    return [{"if-true": stepIfTrue, "unless-true": stepUnlessTrue, "unless-applies": stepUnlessApplies, "if-met": stepIfMet}[s[1][0]], s[1][1], s[2]]


def planNumbers(p):
    return [len(p.first), len(p.steps)] + p.first + [0] * (mostBlocks - len(p.first)) + [n for s in p.steps for n in stepNumbers(s)]


def getD(xs, i, e):
    return xs[i] if i < len(xs) else e


def blocksIn(p):
    return getD(p, 0, 0)


def stepsIn(p):
    return getD(p, 1, 0)


def firstIn(p, b):
    return getD(p, 2 + b, 0)


def endIn(p, b):
    return firstIn(p, b + 1) if b + 1 < blocksIn(p) else stepsIn(p)


def kindAt(p, i):
    return getD(p, 2050 + 3 * i, 0)


def oneAt(p, i):
    return getD(p, 2051 + 3 * i, 0)


def twoAt(p, i):
    return getD(p, 2052 + 3 * i, 0)


def Formed(t, p, end, i):
    kind, first, second = kindAt(p, i), oneAt(p, i), twoAt(p, i)
    return (
        1 <= kind  # low
        and kind <= stepList  # high
        and (not kind <= stepUnlessTrue or first < mostVariables)  # variable-low
        and (kind != stepUnlessApplies or isComposite(definitionAt(t, first)))  # record-is
        and (kind != stepIfMet or first < mostFragments)  # fragment-low
        and (kind != stepList or first < mostRows and second < mostRows)  # listed-low
        and (not kind < stepList or i < second)  # later
        and (not kind < stepList or second <= end)  # within
    )


def WellFormed(t, p):
    return (
        planSize <= len(p)  # long
        and 1 <= blocksIn(p)  # some
        and blocksIn(p) <= mostBlocks  # few-blocks
        and stepsIn(p) <= mostSteps  # few-steps
        and firstIn(p, 0) == 0  # zeroth
        and all(firstIn(p, b) <= firstIn(p, b + 1) for b in range(blocksIn(p) - 1))  # rising
        and all(firstIn(p, b) <= stepsIn(p) for b in range(blocksIn(p)))  # inside
        and all(Formed(t, p, endIn(p, b), i) for b in range(blocksIn(p)) for i in range(firstIn(p, b), endIn(p, b)))  # formed
    )


# ---- PlanCalls.antt

refuseTooManySteps = 13


# gw_plan: the answer, the plan and the report after
def Planned(table, document, name, plan, report):
    if len(report) < reportSize:  # short-report
        return refuseBuffer, plan, report
    if len(plan) < planSize:  # short-plan
        return refuseBuffer, plan, filled(reportSize, [refuseBuffer], report)
    if mostText < len(document):  # long-document
        return refuseOverLength, plan, filled(reportSize, [refuseOverLength, inputDocument], report)
    if mostTable < len(table):  # long-table
        return refuseOverLength, plan, filled(reportSize, [refuseOverLength, inputTable], report)
    opened = Opened(table, document, name)
    if opened[0] == "stops":  # refuses-opening
        return opened[1], filled(planSize, [], plan), filled(reportSize, [opened[1]] + opened[2], report)
    _, d, op = opened
    try:
        p = planFor(tableOf(table), d, op, BlockRows(d, op))
    except TooLong:  # too-many-steps
        return refuseTooManySteps, filled(planSize, [], plan), filled(reportSize, [refuseTooManySteps], report)
    return accepted, filled(planSize, planNumbers(p), plan), filled(reportSize, [accepted, len(p.first), len(p.steps)], report)  # plans


# ---- LentPlan.antt


def isOne(b):
    return lambda i: getD(b, i, 0) == 1


def testOf(k, a):
    return ({stepIfTrue: "if-true", stepUnlessTrue: "unless-true", stepUnlessApplies: "unless-applies"}.get(k, "if-met"), a)


def stepOf(k, a, b):
    return ("list", a, b) if k == stepList else ("leave", testOf(k, a), b)


def planIn(p):
    return Plan([firstIn(p, b) for b in range(blocksIn(p))], [stepOf(kindAt(p, i), oneAt(p, i), twoAt(p, i)) for i in range(stepsIn(p))])


def flatPairs(ps):
    return [n for p in ps for n in p]


# ---- WalkNumbers.antt, WalkCalls.antt

mostPairs = 512
mostWalked = 64
pairsSize = 1024
variablesSize = 64
refuseWalk = 14
refuseTooManyPairs = 15


def CanWalk(t, plan, object, blocks, variables):
    return (
        WellFormed(t, plan)
        and all(b < blocksIn(plan) for b in blocks)
        and isObject(definitionAt(t, object))
        and len(blocks) <= mostWalked
        and variablesSize <= len(variables)
    )


def listed(t, plan, object, blocks, variables):
    return walkAnswer(isOne(variables), lambda k: applies(t, k, object), planIn(plan), blocks)


# gw_walk: the answer, the pairs and the report after
def Walked(table, plan, object, blocks, variables, pairs, report):
    if len(report) < reportSize:  # short-report
        return refuseBuffer, pairs, report
    if len(pairs) < pairsSize:  # short-pairs
        return refuseBuffer, pairs, filled(reportSize, [refuseBuffer], report)
    if mostTable < len(table):  # long-table
        return refuseOverLength, pairs, filled(reportSize, [refuseOverLength, inputTable], report)
    zeros = filled(pairsSize, [], pairs)
    number, shown = judge(table)
    if number != accepted:  # refuses-table
        return number, zeros, filled(reportSize, [number] + shown, report)
    t = tableOf(table)
    if not CanWalk(t, plan, object, blocks, variables):  # refuses-walk
        return refuseWalk, zeros, filled(reportSize, [refuseWalk], report)
    found = listed(t, plan, object, blocks, variables)
    if mostPairs < len(found):  # too-many-pairs
        return refuseTooManyPairs, zeros, filled(reportSize, [refuseTooManyPairs], report)
    return accepted, filled(pairsSize, flatPairs(found), pairs), filled(reportSize, [accepted, len(found)], report)  # lists
