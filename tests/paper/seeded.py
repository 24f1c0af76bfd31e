#!/usr/bin/env python3
"""Whether the comparison sees a wrong definition: each change below is made to the writing-out, and compare.py must find an input that differs.

  seeded.py [COUNT [PART..]]   with COUNT random inputs (1500) for each change; some minutes for all parts

The last word of a change is True where no answer can change, so that none may differ.
"""
import pathlib
import shutil
import subprocess
import sys
import tempfile

TESTS = pathlib.Path(__file__).resolve().parent.parent
# part, file, what stands there, what is put in its place
CHANGES = [
    ("text", "text", '"plain": ((0x09, 0x09), (0x20, 0x21), (0x23, 0x5B), (0x5D, 0x7F))', '"plain": ((0x09, 0x09), (0x20, 0x21), (0x23, 0x5B), (0x5D, 0x7E))'),
    ("text", "text", '"lead3": ((0xE1, 0xEC), (0xEE, 0xEF))', '"lead3": ((0xE1, 0xEF),)'),
    ("text", "text", '"commented": ((0x09, 0x09), (0x20, 0x7F))', '"commented": ((0x20, 0x7F),)'),
    ("text", "text", "Ignored = space / comma / lf / cr / ef bb bf", "Ignored = space / comma / lf / cr"),
    ("text", "text", "FloatValue = IntegerPart FractionalPart / IntegerPart ExponentPart / ", "FloatValue = IntegerPart FractionalPart / "),
    ("text", "text", "FragmentName = nameButOn", "FragmentName = anyName"),
    ("text", "text", "DefaultValue = equals ConstValue", "DefaultValue = equals Value"),
    ("text", "text", "VariablesText = row kind:Object ConstObjectValue end", "VariablesText = row kind:Object ObjectValue end"),
    ("text", "text", "mostWrappers = 7", "mostWrappers = 8"),
    ("text", "text", "return mostRows < s.rows", "return mostRows <= s.rows"),
    ("text", "text", "variables=0 if k == kindOperation else s.variables + 1 if", "variables=s.variables + 1 if"),
    ("text", "text", "wrappers=0 if k == kindVariableDefinition else s.wrappers", "wrappers=s.wrappers"),
    ("text", "text", "InlineFragment = row spread kind:Inline TypeCondition?", "InlineFragment = row spread kind:Inline TypeCondition"),
    ("text", "text", 'return ("refuses", min(faults), t.start)', 'return ("refuses", max(faults), t.start)'),
    ("text", "text", 'if what == "comment" and not lineEnd(bs, stop):', "if False:"),
    ("text", "text", "return at == len(bs) or bs[at] in (10, 13)", "return at == len(bs) or bs[at] == 10"),
    ("text", "text", '"escaped": ((0x22, 0x22), (0x5C, 0x5C), (0x2F, 0x2F),', '"escaped": ((0x22, 0x22), (0x5C, 0x5C),'),
    ("text", "text", '"e0": ((0xE0, 0xE0),),', '"e0": ((0xE0, 0xE1),),', True),
    ("text", "text", '"lead2": ((0xC2, 0xDF),)', '"lead2": ((0xC1, 0xDF),)'),
    ("text", "text", '"hex": ((0x30, 0x39), (0x41, 0x46), (0x61, 0x66))', '"hex": ((0x30, 0x39), (0x41, 0x47), (0x61, 0x66))'),
    ("text", "text", '"sign": ((0x2B, 0x2B), (0x2D, 0x2D))', '"sign": ((0x2D, 0x2D),)'),
    ("text", "text", 'return isNameClass(c) and c not in ("n-true", "n-false", "n-null")', 'return isNameClass(c) and c not in ("n-true", "n-false")'),
    ("text", "text", "rows[top][6] = rows[top][6] * 4 + m[1]", "rows[top][6] = rows[top][6] + m[1] * 4"),
    ("text", "text", 'if c in ("parenR", "bracketR", "braceR"):', 'if c in ("bracketR", "braceR"):'),
    ("text", "text", "fragments=s.fragments + 1 if k == kindFragment", "fragments=s.fragments + 1 if k in (kindFragment, kindInline)"),
    ("text", "text", "FragmentSpread = row spread kind:Spread", "FragmentSpread = spread row kind:Spread"),
    ("text", "text", "Directive = row kind:Directive atSign named Name", "Directive = row kind:Directive atSign Name"),
    ("text", "text", "return mostFragments < s.fragments or", "return"),
    ("text", "text", "DefaultValue? end\nDefault", "end DefaultValue?\nDefault"),
    ("text", "text", "mostText = 16384", "mostText = 16385"),
    ("text", "text", 'if text.end[0] == "bad":  # no-token\n        return ("refuses", refuseNoToken, text.end[1])\n', ""),
    ("table", "table", 'if k == tag:\n            return slots[i:] if how == "many" else slots[i + 1 :]', "if k == tag:\n            return slots[i:]"),
    ("table", "table", "return ws if ws else [at] if lacking else []", "return ([at] if lacking else []) + ws"),
    ("table", "table", "(tagRoots, holds(one(tagQueryRoot), atMostOne", "(tagRoots, holds(atMostOne(tagQueryRoot), atMostOne"),
    ("table", "table", "roots = roots and tag != tagRoots", "roots = True"),
    ("table", "table", "    if isRoots(d):\n        return []\n    return membersOrArgumentsThat", "    return membersOrArgumentsThat"),
    ("table", "table", "if not (isObject(d) or isInterface(d)):", "if isUnion(d) or isEnum(d) or isDirective(d) or isRoots(d):"),
    ("table", "table", "return isBuiltIn(d.name) or earlier", "return earlier"),
    ("table", "table", "return [p for m, e in enumerate(d.members) for p in memberPlaces", "return [p for m, e in enumerate(d.members[:1]) for p in memberPlaces"),
    ("table", "table", "return isNonNull(y.type) and not any", "return not any"),
    ("table", "table", "if y is not None and not sameRef(y.type, x.type):", "if y is not None and baseOf(y.type) != baseOf(x.type):"),
    ("table", "table", 'if r[0] == "listOf" and s[0] == "listOf" and SubType(can, r[1], s[1]):', "if False:"),
    ("table", "table", "not any(isRoots(d) for d in t) and not isObject", "not isObject"),
    ("table", "table", "mostArguments = 16", "mostArguments = 17"),
    ("table", "table", "return wrappersOver(mostWrappers, at + 3, s)", "return wrappersOver(mostWrappers, at, s)"),
    ("table", "table", "isUnion(meant(t, a)) and any(o == m.name for m in meant(t, a).members)", "False"),
    ("table", "table", "(tagField, holds(one(tagName), one(tagReference), many(tagArgument)))", "(tagField, holds(one(tagName), many(tagReference), many(tagArgument)))"),
    ("table", "table", "(tagDirective, holds(one(tagName), many(tagArgument)))", "(tagDirective, holds(one(tagName), many(tagField)))"),
    ("table", "table", '        if n > len(s) - i - 3:\n            found.append(("cut", at + i))\n            break', "        if n > len(s) - i - 3:\n            break"),
    ("table", "table", "return openAfter(tag, slots) if inPlace(tag, slots) else slots", "return openAfter(tag, slots)", True),
    ("table", "table", 'if len(s) - i < 3:\n            found.append(("cut", at + i))\n            break', "if len(s) - i < 3:\n            break"),
    ("table", "table", "return len(s) > 0 and oneOf(letter, s[0])", "return len(s) > 0 and oneOf(letterOrDigit, s[0])"),
    ("table", "table", 'if s and s[0] == byteBang:\n        return ("nonNull", r), s[1:]', 'if s and s[0] == byteBang:\n        return marked(("nonNull", r), s[1:])'),
    ("table", "table", "return isType(d) and d.name == n", "return d.name == n"),
    ("table", "table", 'builtInDirectives = [b"skip", b"include"]', 'builtInDirectives = [b"skip", b"include", b"deprecated"]'),
    ("table", "table", "mostMembers = 64", "mostMembers = 65"),
    ("table", "table", "mostImplemented = 64", "mostImplemented = 63"),
    ("table", "table", "mostRecords = 256", "mostRecords = 255"),
    ("table", "table", "i = firstAt(lambda d: typeNamed(n, d), t)\n    return i if", "i = len(t) - 1 - firstAt(lambda d: typeNamed(n, d), t[::-1]) if any(typeNamed(n, d) for d in t) else len(t)\n    return i if"),
    ("table", "table", "    if isUnion(d):\n        return membersThat(memberNoObject(t), d)", "    if isUnion(d):\n        return []"),
    ("table", "table", "lambda m, e: earlier(lambda x: x.name == e.name, m, d.members)", "lambda m, e: earlier(lambda x: x.name == e.name and x.tag == 18, m, d.members)"),
    ("table", "table", "(isField(e) or isInputField(e)) and isUnknown", "isField(e) and isUnknown"),
    ("table", "table", "lambda e, a, x: isComposite(baseMeant(t, x.type)),\n        d,\n    )\n\n\ndef memberNoObject", "lambda e, a, x: False,\n        d,\n    )\n\n\ndef memberNoObject"),
    ("table", "table", "return find(lambda e: e.name == f.name, d.members)", "return find(lambda e: e.name == f.name, d.members[::-1])"),
    ("table", "table", "y = find(lambda z: z.name == x.name, e.arguments)", "y = find(lambda z: z.name == x.name, e.arguments[::-1])"),
    ("table", "table", "if isInterface(meant(t, n)) for p, f", "if n in [x.name for x in t] for p, f"),
    ("table", "table", "return membersThat(memberNoObject(t), d) if isRoots(d) else []", "return membersThat(memberNoObject(t), d)[:1] if isRoots(d) else []"),
    ("rules", "rules", "return w // 4 if w % 4 == wrapNonNull else w", "return w"),
    ("rules", "rules", "        if kindOf(d, parentOf(d, i)) == kindList:\n            return None if above is None else itemOf(above)\n        return above", "        return above"),
    ("rules", "rules", "if not isInputObject(meant(t, p[0])):", "if not isInputObject(meant(t, p[0])) or p[1] not in (0, 2):"),
    ("rules", "rules", "return kindOf(d, i) == kindFragment and Circles(d, i)", "return kindOf(d, i) == kindFragment and any(Spreads(d, s) == i for s in Within(d, i))"),
    ("rules", "rules", "any(i in Reaches(d, o) and not defines(d, o, nameOf(d, i)) for o in operations(d))", "(any(i in Reaches(d, o) for o in operations(d)) and not any(i in Reaches(d, o) and defines(d, o, nameOf(d, i)) for o in operations(d)))"),
    ("rules", "rules", "return len(found) == 1 and isIf(d, found[0])", "return len(found) >= 1 and isIf(d, found[0])"),
    ("rules", "rules", "        and not repeatedThere(d, i)\n", ""),
    ("rules", "rules", "        and isNamed(rowOf(d, i))\n", ""),
    ("rules", "rules", '    if f == "typename":\n        return True\n    return f[0]', "    return f[0]"),
    ("rules", "rules", "return None if isUnion(definitionAt(t, k)) else find", "return find"),
    ("rules", "rules", "return not isUnknown(x) and not isComposite(x)", "return not isComposite(x)"),
    ("rules", "rules", "return declared(d, definitions(d, o, n)[0])", "return declared(d, definitions(d, o, n)[-1])"),
    ("rules", "rules", "and not isComposite(meant(t, nameOf(d, i)))", "and isUnknown(meant(t, nameOf(d, i)))"),
    ("rules", "rules", 'return (b"Boolean", 0)', "return None"),
    ("rules", "rules", "return conditioned(t, d, typeInside(t, d, parentOf(d, i)), conditionOf(d, i))", "return conditioned(t, d, None, conditionOf(d, i))"),
    ("rules", "rules", "return find(lambda m: m.tag == tagQueryRoot + x, rootsOf(t))", "return find(lambda m: True, rootsOf(t))"),
    ("rules", "rules", "todo += [j for j in d.below(i) if not isDefinition(rowOf(d, j))]", "todo += [j for j in d.below(i) if kindOf(d, j) != kindInline]"),
    ("rules", "rules", "and (earlier(lambda r: r.kind == kindOperation, i, d.rows) or any(r.kind == kindOperation for r in d.rows[i + 1 :]))", "and earlier(lambda r: r.kind == kindOperation, i, d.rows)"),
    ("rules", "rules", "any(d.rows[j].kind in (kindBoolean, kindVariable) for j in d.below(a))", "True"),
    ("rules", "rules", 'nameOf(d, a) == b"if" and', "True and"),
    ("rules", "rules", "and isSelection(rowOf(d, parentOf(d, i)))", "and kindOf(d, parentOf(d, i)) != kindOperation"),
    ("rules", "rules", '    if f == "typename":\n        return selects', '    if f == "typename":\n        return False'),
    ("rules", "rules", "return selects != isComposite(meant(t, baseOf(f[1].type)))", "return isComposite(meant(t, baseOf(f[1].type))) and not selects"),
    ("rules", "rules", "kindOf(d, parentOf(d, i)) in (kindFragment, kindInline)", "kindOf(d, parentOf(d, i)) == kindFragment"),
    ("rules", "rules", "return p[0] == q[0] and nullable(p[1]) == nullable(q[1])", "return nullable(p[1]) == nullable(q[1])"),
    ("rules", "rules", "j < i and d.rows[j].kind == k and nameOf(d, j) == nameOf(d, i) for j in d.below(parentOf(d, i))", "j < i and d.rows[j].kind == k and nameOf(d, j) == nameOf(d, i) and k == kindArgument for j in d.below(parentOf(d, i))"),
    ("rules", "rules", "return m if isComposite(definitionAt(t, m)) else None", "return m"),
    ("rules", "rules", "e = find(lambda x: x.name == n, meant(t, p[0]).members)\n    return None if e is None else shapeOf(e.type)", "e = find(lambda x: x.name == n, meant(t, p[0]).members)\n    return None if e is None else (shapeOf(e.type)[0], p[1])"),
    ("rules", "rules", "return (p[0], nullable(p[1]) // 4) if", "return (p[0], p[1] // 4) if"),
    ("rules", "rules", "    for k, broken in Broken:", "    for k, broken in Broken[::-1]:"),
    ("rules", "rules", '    if k is None:\n        return "unknown"\n    if isTypename(n):\n        return "typename"', '    if isTypename(n):\n        return "typename"\n    if k is None:\n        return "unknown"'),
    ("rules", "rules", "return None if m is None else compositeOf(t, m.name)", 'return compositeOf(t, b"Query" if m is None else m.name)'),
    ("rules", "rules", "        return None if x is None else shapeOf(x.type)\n    return None", '        return (b"Int", 0) if x is None else shapeOf(x.type)\n    return None'),
    ("rules", "rules", "            return None if above is None else itemOf(above)", "            return None if above is None else itemOf(above) or above"),
    ("rules", "rules", "return None if e is None else shapeOf(e.type)", "return p if e is None else shapeOf(e.type)"),
    ("rules", "rules", "    return not (p is not None and isInput(meant(t, p[0])))", "    return not (p is not None and isInput(meant(t, p[0]))) or isInputObject(meant(t, p[0])) and p[1] == 22"),
    ("rules", "rules", "f = fragmentNamed(d, nameOf(d, s))\n    return f if", "f = fragmentNamed(d, nameOf(d, s))\n    f = max([i for i, r in enumerate(d.rows) if fragmentCalled(d, nameOf(d, s), r)], default=f)\n    return f if"),
    ("rules", "rules", "return len(definitions(d, o, n)) > 0", "return any(definitions(d, p, n) for p in operations(d) if p <= o)"),
    ("rules", "rules", "        and onlyIfs(d, rowsBelow(d, kindArgument, i))\n", "        and (onlyIfs(d, rowsBelow(d, kindArgument, i)) or not rowsBelow(d, kindArgument, i))\n"),
    ("rules", "rules", "    return any(j < i and d.rows[j].kind == kindDirective and nameOf(d, j) == nameOf(d, i) for", "    return any(j != i and d.rows[j].kind == kindDirective and nameOf(d, j) == nameOf(d, i) for"),
    ("values", "values", "4294967296 - v) if v <= 2147483648", "4294967296 - v) if v <= 2147483647"),
    ("values", "values", "<= 9007199254740992", "<= 9007199254740993"),
    ("values", "values", "0xD800 <= x <= 0xDFFF", "0xD800 <= x <= 0xDBFF"),
    ("values", "values", "return nullAt(i, r) if t is None or t == Null else Got(t)", "return nullAt(i, r) if t == Null else Got(Null if t is None else t)"),
    ("values", "values", "def leftOut(vars, v):\n    return v[0]", "def leftOut(vars, v):\n    return False and v[0]"),
    ("values", "values", 'ID=lambda: Got(("Text", s)),', 'ID=lambda: inRange(i, "Text", s if intOf(s) is not None else None),'),
    ("values", "values", 'ID=lambda: textAt(i, cs), Own=lambda: Got(("Token", s))', "ID=lambda: textAt(i, cs), Own=lambda: textAt(i, cs)"),
    ("values", "values", "if not ReachedField(d, op, row):", "if kindOf(d, row) != kindField:"),
    ("values", "values", "if len(bs) <= mostCoerced", "if len(bs) < mostCoerced"),
    ("values", "values", 'return ("list", at, [inner(c) for c in d.below(i)])', 'return ("list", at, [inner(c) for c in d.below(i)][:40])'),
    ("values", "values", "def unknownEntry(ds, es):\n    for i, n in es:", "def unknownEntry(ds, es):\n    for i, n in reversed(es):"),
    ("values", "rules", "return found[0] if len(found) == 1 else None", "return found[0] if found else None"),
    ("values", "text", "return [at] if number == refuseTooMany else [at, text]", "return [at, 0]"),
    ("values", "values", "lambda d: missingDue(i)(d) if d.default is None else constant(kinds, d.default, d.type)", "lambda d: missingDue(i)(d)"),
    ("values", "values", '    if r[0] == "listOf":\n        return andThen(single(kinds, f, r[1]), lambda t: Got(("Many", [t])))', '    if r[0] == "listOf":\n        return single(kinds, f, r[1])'),
    ("values", "values", "return bytes([x // 16777216, x // 65536 % 256, x // 256 % 256, x % 256])", "return bytes([x % 256, x // 256 % 256, x // 65536 % 256, x // 16777216])"),
    ("values", "values", '0x66: b"\\x0c"', '0x66: b"f"'),
    ("values", "values", "if x < 0x800:", "if x < 0x801:"),
    ("values", "values", "b - 0x37 if b < 0x61", "b - 0x41 if b < 0x61"),
    ("values", "values", '    if not ReachedField(d, op, row):  # no-field-reached\n        return ("ends", refuseNoOperation, [])\n    said = variablesRead(variables)\n    if said[0] == "refuses":  # variables-unread\n        return ("ends", said[1], shownInText(inputVariables, said[1], said[2]))', '    said = variablesRead(variables)\n    if said[0] == "refuses":  # variables-unread\n        return ("ends", said[1], shownInText(inputVariables, said[1], said[2]))\n    if not ReachedField(d, op, row):\n        return ("ends", refuseNoOperation, [])'),
    ("values", "values", "    if mostText < len(variables):  # long-variables", "    if mostText <= len(variables):  # long-variables"),
    ("values", "values", 'def nullAt(i, r):\n    return No(i, reasonNull) if r[0] == "nonNull" else Got(Null)', 'def nullAt(i, r):\n    return No(i, reasonNull) if r[0] == "nonNull" else Got(("Many", [Null])) if r[0] == "listOf" else Got(Null)'),
    ("values", "values", '("ends", refuseValue, [o[1][0], o[1][1], o[2]])', '("ends", refuseValue, [0, o[1][1], o[2]])'),
    ("values", "values", "    e = repeatedEntry(es)\n    if e is not None:\n        return No(e, reasonRepeated)\n    e = unknownEntry(ds, es)\n    if e is not None:\n        return No(e, reasonUnknown)", "    e = unknownEntry(ds, es)\n    if e is not None:\n        return No(e, reasonUnknown)\n    e = repeatedEntry(es)\n    if e is not None:\n        return No(e, reasonRepeated)"),
    ("values", "values", '        return ("string", at, tokenAt(d, i), cs)', '        return ("string", at, tokenAt(d, i)[:200], cs)'),
    ("values", "values", "return [i for i in d.below(op) if kindOf(d, i) == kindVariableDefinition]", "return [i for i in d.below(op) if kindOf(d, i) == kindVariableDefinition][::-1]"),
    ("plans", "plans", "return skipTests(d.skip(r)) + includeTests(d.include(r)) + sortTests(d, d.sort(r))", "return sortTests(d, d.sort(r)) + skipTests(d.skip(r)) + includeTests(d.include(r))"),
    ("plans", "plans", "    met, out = set(), []\n    for b in bs:\n", "    met, out = set(), []\n    for b in bs:\n        met = set()\n"),
    ("plans", "plans", "return skipDrops(s) or includeDrops(i)", "return skipDrops(s)"),
    ("plans", "plans", "d.memo[key] = firstAt(lambda r: r.kind == kindField and keyIn(d, r) == k, d.rows)", "d.memo[key] = firstAt(lambda r: r.kind == kindField and nameFront(d.bytes, r.nameStart) == k, d.rows)"),
    ("plans", "plans", "return kindOf(d, i) == kindField and setOf(d, i) != [] and i in Reaches(d, op)", "return kindOf(d, i) == kindField and setOf(d, i) != []"),
    ("plans", "plans", "and (not kind < stepList or second <= end)", "and (not kind < stepList or second < end)"),
    ("plans", "plans", "and (not kind < stepList or i < second)", "and (not kind < stepList or i <= second)"),
    ("plans", "plans", "and stepsIn(p) <= mostSteps", "and stepsIn(p) < mostSteps"),
    ("plans", "plans", "and isObject(definitionAt(t, object))", "and isComposite(definitionAt(t, object))"),
    ("plans", "plans", "return k == o or canBe", "return canBe"),
    ("plans", "plans", "return lambda i: getD(b, i, 0) == 1", "return lambda i: getD(b, i, 0) != 0"),
    ("plans", "plans", "if mostPairs < len(found)", "if mostPairs <= len(found)"),
    ("plans", "plans", "and len(blocks) <= mostWalked", "and len(blocks) < mostWalked"),
    ("plans", "plans", "and variablesSize <= len(variables)", "and variablesSize <= len(variables) + 1"),
    ("plans", "plans", "and (kind != stepIfMet or first < mostFragments)", ""),
    ("plans", "plans", "and all(firstIn(p, b) <= firstIn(p, b + 1) for b in range(blocksIn(p) - 1))", ""),
    ("plans", "plans", '                if x[1][0] == "if-met":\n                    met.add(x[1][1])', '                if x[1][0] == "if-met" and len(met) < 3:\n                    met.add(x[1][1])'),
    ("plans", "plans", 'return [("unless-true", c[1])] if c[0] == "variable" else []', 'return [("if-true", c[1])] if c[0] == "variable" else []'),
    ("plans", "plans", "return leavesPast(at + len(ts) + len(b), ts) + b", "return leavesPast(at + len(b), ts) + b"),
    ("plans", "plans", 'return [("if-met", sort[1]), ("unless-applies", d.on(sort[1]))]', 'return [("unless-applies", d.on(sort[1])), ("if-met", sort[1])]'),
    ("plans", "plans", "            v = [f] + v\n            if does(d.on(f)):", "            if does(d.on(f)):\n                v = [f] + v", True),
    ("plans", "plans", "    return [op] + [i for i in range(count(d)) if IsBlock(d, op, i)]", "    return [op] + [i for i in range(count(d)) if IsBlock(d, op, i)][:3]"),
    ("plans", "plans", "and blocksIn(p) <= mostBlocks", "and blocksIn(p) < mostBlocks"),
    ("plans", "plans", "and (kind != stepList or first < mostRows and second < mostRows)", "and (kind != stepList or first < mostRows)"),
    ("plans", "plans", "and (not kind <= stepUnlessTrue or first < mostVariables)", "and (not kind <= stepUnlessTrue or first <= mostVariables)"),
    ("plans", "plans", "and (kind != stepUnlessApplies or isComposite(definitionAt(t, first)))", "and (kind != stepUnlessApplies or first < len(t))"),
    ("plans", "plans", "and firstIn(p, 0) == 0", "and True"),
    ("plans", "plans", "and all(firstIn(p, b) <= stepsIn(p) for b in range(blocksIn(p)))", "and True"),
    ("plans", "plans", "planSize <= len(p)", "planSize - 1 <= len(p)"),
    ("plans", "plans", "and 1 <= blocksIn(p)", "and True"),
    ("plans", "plans", "    return list(g.items())", "    return sorted(g.items())"),
    ("plans", "plans", "return firstAt(lambda i: nameOf(d, i) == x, [i for i in d.below(op) if kindOf(d, i) == kindVariableDefinition])", "return firstAt(lambda i: nameOf(d, i) == x, [i for i in range(count(d)) if kindOf(d, i) == kindVariableDefinition])"),
    ("plans", "plans", "        if at + len(steps) > mostSteps:", "        if at + len(steps) >= mostSteps:"),
    ("plans", "plans", "and all(b < blocksIn(plan) for b in blocks)", "and all(b <= blocksIn(plan) for b in blocks)"),
]
STOP = "            print(self.compared, 'compared, then one differs')\n            raise SystemExit(1)\n"


def tried(part, name, old, new, count):
    """Whether compare.py fails on the changed definitions; it stops at the first difference."""
    with tempfile.TemporaryDirectory() as place:
        tests = pathlib.Path(place) / "tests"
        shutil.copytree(TESTS, tests, ignore=shutil.ignore_patterns("__pycache__", "*.c", "*.h"))
        changed, compare = tests / "paper" / f"{name}.py", tests / "paper" / "compare.py"
        text = changed.read_text()
        if old not in text:
            raise SystemExit(f"seeded: {name}.py no longer has {old!r}")
        changed.write_text(text.replace(old, new, 1))
        compare.write_text(compare.read_text().replace("            self.differ += 1\n", "            self.differ += 1\n" + STOP, 1))
        return subprocess.run([sys.executable, str(compare), part, count, "2016"], capture_output=True).returncode != 0


def main(words):
    count, parts = (words[0] if words else "1500"), words[1:]
    total = wrong = 0
    for part, name, old, new, *same in CHANGES:
        if parts and part not in parts:
            continue
        total += 1
        if tried(part, name, old, new, count) == bool(same):
            wrong += 1
            print(f"seeded: {part}: {'seen, though nothing can differ' if same else 'not seen'}: {old!r} for {new!r}", file=sys.stderr)
    print(f"paper seeded: {total} changes tried, {wrong} not as they should be")
    return 1 if wrong or not total else 0


if __name__ == "__main__":
    sys.exit(main(sys.argv[1:]))
