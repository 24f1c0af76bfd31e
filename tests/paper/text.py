# The definitions of crates/paper/specs written out in Python, definition by definition, under the same names: characters, tokens, grammar,
# rows, sizes, what is said of a text, and gw_parse.
# States nothing of its own. It was written from the definitions alone, before the library or the readers in tests/ were looked at.
# Where a definition is a relation, its evident executable form stands in for it, and a comment says which.
# Lists of numbers are bytes, tuples or lists; an Option is None or the value; a mark is a tuple.
from collections import namedtuple

# ---- Numbers.antt

mostText = 16384
mostLevels = 32
mostRows = 2048
mostFragments = 64
mostVariables = 64
mostWrappers = 7
rowSize = 7
rowsSize = 14336
reportSize = 8
accepted = 0
refuseBuffer = 1
refuseOverLength = 2
refuseNoToken = 3
refuseNoGoing = 4
refuseTooDeep = 5
refuseTooManyRows = 6
refuseTooMany = 8
inputDocument = 0
inputVariables = 1
noParent = 2048
kindOperation = 1
kindFragment = 2
kindField = 3
kindSpread = 4
kindInline = 5
kindArgument = 6
kindDirective = 7
kindVariableDefinition = 8
kindTypeReference = 9
kindObjectField = 10
kindVariable = 20
kindInteger = 21
kindFloat = 22
kindString = 23
kindBoolean = 24
kindNull = 25
kindEnum = 26
kindList = 27
kindObject = 28
extraQuery = 0
extraMutation = 1
extraSubscription = 2
extraFalse = 0
extraTrue = 1
wrapList = 1
wrapNonNull = 2
wrapBase = 4

# ---- Language.antt: classes, terminals, productions

classes = (
    "bang dollar parenL parenR spread colon equals atSign bracketL bracketR braceL bar braceR "
    "n-query n-mutation n-subscription n-fragment n-on n-true n-false n-null n-other int float string"
).split()


def isNameClass(c):
    return c in ("n-query", "n-mutation", "n-subscription", "n-fragment", "n-on", "n-true", "n-false", "n-null", "n-other")


def hits(terminal, c):
    if terminal == "anyName":
        return isNameClass(c)
    if terminal == "nameButOn":
        return isNameClass(c) and c != "n-on"
    if terminal == "nameButLiteral":
        return isNameClass(c) and c not in ("n-true", "n-false", "n-null")
    return terminal == c


# The productions: a part, `=`, its alternatives between `/`. A capital letter begins a part; `row`, `kind:K:X`, `named`, `wrapper`,
# `wrap:W`, `end` are marks; the rest are terminals: a class, `anyName`, `nameButOn`, `nameButLiteral`. An alternative `.` is empty.
language_text = """
Document = Definition+
Definition+ = Definition Definition*
Definition* = . / Definition Definition*
Definition = OperationDefinition / FragmentDefinition
OperationDefinition = OperationType OperationName? VariableDefinitions? Directives? SelectionSet end / row kind:Operation:Query SelectionSet end
OperationType = row kind:Operation:Query n-query / row kind:Operation:Mutation n-mutation / row kind:Operation:Subscription n-subscription
OperationName? = . / named Name
SelectionSet = braceL Selection+ braceR
Selection+ = Selection Selection*
Selection* = . / Selection Selection*
Selection = Field / FragmentSpread / InlineFragment
Field = row kind:Field Alias? named Name Arguments? Directives? SelectionSet? end
Alias? = . / Alias
Alias = named Name colon
SelectionSet? = . / SelectionSet
Arguments? = . / Arguments
Arguments = parenL Argument+ parenR
Argument+ = Argument Argument*
Argument* = . / Argument Argument*
Argument = row kind:Argument named Name colon Value end
FragmentSpread = row spread kind:Spread named FragmentName Directives? end
FragmentDefinition = row kind:Fragment n-fragment named FragmentName TypeCondition Directives? SelectionSet end
FragmentName = nameButOn
TypeCondition? = . / TypeCondition
TypeCondition = n-on row kind:TypeReference NamedType end
InlineFragment = row spread kind:Inline TypeCondition? Directives? SelectionSet end
Value = row kind:Variable dollar named Name end / row kind:Integer int end / row kind:Float float end / row kind:String string end / row kind:Boolean:True n-true end / row kind:Boolean:False n-false end / row kind:Null n-null end / row kind:Enum named EnumValue end / row kind:List ListValue end / row kind:Object ObjectValue end
ListValue = bracketL bracketR / bracketL Value+ bracketR
Value+ = Value Value*
Value* = . / Value Value*
ObjectValue = braceL braceR / braceL ObjectField+ braceR
ObjectField+ = ObjectField ObjectField*
ObjectField* = . / ObjectField ObjectField*
ObjectField = row kind:ObjectField named Name colon Value end
ConstValue = row kind:Integer int end / row kind:Float float end / row kind:String string end / row kind:Boolean:True n-true end / row kind:Boolean:False n-false end / row kind:Null n-null end / row kind:Enum named EnumValue end / row kind:List ConstListValue end / row kind:Object ConstObjectValue end
ConstListValue = bracketL bracketR / bracketL ConstValue+ bracketR
ConstValue+ = ConstValue ConstValue*
ConstValue* = . / ConstValue ConstValue*
ConstObjectValue = braceL braceR / braceL ConstObjectField+ braceR
ConstObjectField+ = ConstObjectField ConstObjectField*
ConstObjectField* = . / ConstObjectField ConstObjectField*
ConstObjectField = row kind:ObjectField named Name colon ConstValue end
EnumValue = nameButLiteral
VariableDefinitions? = . / VariableDefinitions
VariableDefinitions = parenL VariableDefinition+ parenR
VariableDefinition+ = VariableDefinition VariableDefinition*
VariableDefinition* = . / VariableDefinition VariableDefinition*
VariableDefinition = row kind:VariableDefinition dollar named Name colon row kind:TypeReference TypeRef end DefaultValue? end
DefaultValue? = . / DefaultValue
DefaultValue = equals ConstValue
TypeRef = NamedType / ListType / NonNullType
NamedType = named Name
ListType = wrapper bracketL TypeRef bracketR wrap:List
NonNullType = NamedType wrapper bang wrap:NonNull / ListType wrapper bang wrap:NonNull
Directives? = . / Directives
Directives = Directive+
Directive+ = Directive Directive*
Directive* = . / Directive Directive*
Directive = row kind:Directive atSign named Name Arguments? end
Name = anyName
VariablesText = row kind:Object ConstObjectValue end
"""


def symbol(word):
    if word[0].isupper():
        return ("nt", word)
    head, *rest = word.split(":")
    if head in ("row", "named", "wrapper", "end"):
        return ("act", (head,))
    if head == "kind":
        return ("act", ("kind", globals()["kind" + rest[0]], globals()["extra" + rest[1]] if len(rest) > 1 else 0))
    if head == "wrap":
        return ("act", ("wrap", globals()["wrap" + rest[0]]))
    return ("tm", word)


def productions(text, symbol):
    rules = {}
    for line in text.strip().splitlines():
        name, _, right = line.partition(" = ")
        rules[name] = [tuple(symbol(w) for w in a.split() if w != ".") for a in right.split(" / ")]
    return rules


language = productions(language_text, symbol)

# ---- Lexical.antt

letter = ((0x41, 0x5A), (0x5F, 0x5F), (0x61, 0x7A))
letterOrDigit = ((0x30, 0x39), (0x41, 0x5A), (0x5F, 0x5F), (0x61, 0x7A))
sets = {
    "letter": letter,
    "letterOrDigit": letterOrDigit,
    "digit": ((0x30, 0x39),),
    "nonZero": ((0x31, 0x39),),
    "zero": ((0x30, 0x30),),
    "minus": ((0x2D, 0x2D),),
    "dot": ((0x2E, 0x2E),),
    "e": ((0x45, 0x45), (0x65, 0x65)),
    "sign": ((0x2B, 0x2B), (0x2D, 0x2D)),
    "quote": ((0x22, 0x22),),
    "backslash": ((0x5C, 0x5C),),
    "u": ((0x75, 0x75),),
    "hex": ((0x30, 0x39), (0x41, 0x46), (0x61, 0x66)),
    "escaped": ((0x22, 0x22), (0x5C, 0x5C), (0x2F, 0x2F), (0x62, 0x62), (0x66, 0x66), (0x6E, 0x6E), (0x72, 0x72), (0x74, 0x74)),
    "plain": ((0x09, 0x09), (0x20, 0x21), (0x23, 0x5B), (0x5D, 0x7F)),
    "commented": ((0x09, 0x09), (0x20, 0x7F)),
    "lead2": ((0xC2, 0xDF),),
    "e0": ((0xE0, 0xE0),),
    "lead3": ((0xE1, 0xEC), (0xEE, 0xEF)),
    "ed": ((0xED, 0xED),),
    "tail": ((0x80, 0xBF),),
    "tailHigh": ((0xA0, 0xBF),),
    "tailLow": ((0x80, 0x9F),),
    "ef": ((0xEF, 0xEF),),
    "bb": ((0xBB, 0xBB),),
    "bf": ((0xBF, 0xBF),),
    "hash": ((0x23, 0x23),),
    "space": ((0x09, 0x09), (0x20, 0x20)),
    "comma": ((0x2C, 0x2C),),
    "lf": ((0x0A, 0x0A),),
    "cr": ((0x0D, 0x0D),),
    "b-bang": ((0x21, 0x21),),
    "b-dollar": ((0x24, 0x24),),
    "b-parenL": ((0x28, 0x28),),
    "b-parenR": ((0x29, 0x29),),
    "b-colon": ((0x3A, 0x3A),),
    "b-equals": ((0x3D, 0x3D),),
    "b-atSign": ((0x40, 0x40),),
    "b-bracketL": ((0x5B, 0x5B),),
    "b-bracketR": ((0x5D, 0x5D),),
    "b-braceL": ((0x7B, 0x7B),),
    "b-bar": ((0x7C, 0x7C),),
    "b-braceR": ((0x7D, 0x7D),),
}


def inSet(spans, b):
    return any(a <= b <= z for a, z in spans)


def hitsByte(name, b):
    return b < 256 and inSet(sets[name], b)


# `is:C` is the mark that a piece is a token of class C; `ignored` and `comment` are the other two
lexical_text = """
Piece = IntValue is:int / FloatValue is:float / b-bang is:bang / b-dollar is:dollar / b-parenL is:parenL / b-parenR is:parenR / b-colon is:colon / b-equals is:equals / b-atSign is:atSign / b-bracketL is:bracketL / b-bracketR is:bracketR / b-braceL is:braceL / b-bar is:bar / b-braceR is:braceR / dot dot dot is:spread / Name is:n-other / StringValue is:string / Ignored ignored / Comment comment
Name = letter NameRest*
NameRest* = . / letterOrDigit NameRest*
IntValue = IntegerPart
FloatValue = IntegerPart FractionalPart / IntegerPart ExponentPart / IntegerPart FractionalPart ExponentPart
IntegerPart = NegativeSign? zero / NegativeSign? nonZero Digit*
NegativeSign? = . / minus
Digit* = . / digit Digit*
Digit+ = digit Digit*
FractionalPart = dot Digit+
ExponentPart = e Sign? Digit+
Sign? = . / sign
StringValue = quote quote / quote StringCharacter+ quote
StringCharacter+ = StringCharacter StringCharacter*
StringCharacter* = . / StringCharacter StringCharacter*
StringCharacter = plain / Wide / backslash Escape
Escape = escaped / u hex hex hex hex
Wide = lead2 tail / e0 tailHigh tail / lead3 tail tail / ed tailLow tail
Ignored = space / comma / lf / cr / ef bb bf
Comment = hash CommentCharacter*
CommentCharacter* = . / CommentCharacter CommentCharacter*
CommentCharacter = commented / Wide
"""


def lexicalSymbol(word):
    if word[0].isupper():
        return ("nt", word)
    if word in ("ignored", "comment") or word.startswith("is:"):
        return ("act", word)
    return ("tm", word)


lexical = productions(lexical_text, lexicalSymbol)

# ---- Grammar.antt: `Derives`. All leftmost derivations are followed at once: a configuration is the symbols still to derive, as a
# linked list, and what was written so far. Every part derives some text (`productive` below), so a configuration that is left after
# some tokens says that a text of the part begins with them, and none left says that no text goes on so.


def productive(rules):
    good = set()
    while True:
        more = {n for n in rules if any(all(k != "nt" or s in good for k, s in a) for a in rules[n])}
        if more == good:
            return good == set(rules)
        good = more


assert productive(language) and productive(lexical)


def linked(symbols, rest):
    for s in reversed(symbols):
        rest = (s, rest)
    return rest


class Deriving:
    def __init__(self, rules, hits):
        self.rules, self.hits = rules, hits
        self.begins = {}
        self.nothings = {}

    # the marks with which a part derives no token at all
    def empties(self, part):
        if part not in self.nothings:
            self.nothings[part] = []
            found = []
            for a in self.rules[part]:
                found += self.emptiesOf(a)
            self.nothings[part] = found
        return self.nothings[part]

    def emptiesOf(self, symbols):
        ways = [()]
        for kind, s in symbols:
            if kind == "tm":
                return []
            if kind == "act":
                ways = [w + (s,) for w in ways]
            else:
                ways = [w + e for w in ways for e in self.empties(s)]
        return ways

    # the ways in which a part derives a token c first: the marks before it, and the symbols behind it
    def starts(self, part, c):
        if (part, c) not in self.begins:
            found = []
            for a in self.rules[part]:
                found += self.startsOf(a, c)
            self.begins[(part, c)] = found
        return self.begins[(part, c)]

    def startsOf(self, symbols, c):
        found = []
        before = [()]
        for n, (kind, s) in enumerate(symbols):
            rest = symbols[n + 1 :]
            if kind == "act":
                before = [b + (s,) for b in before]
            elif kind == "tm":
                if self.hits(s, c):
                    found += [(b, rest) for b in before]
                return found
            else:
                found += [(b + marks, more + rest) for b in before for marks, more in self.starts(s, c)]
                before = [b + e for b in before for e in self.empties(s)]
                if not before:
                    return found
        return found

    # from the stack and over the token c: pairs of marks before it and the stack behind it
    def over(self, stack, c):
        found = []
        todo = [((), stack)]
        while todo:
            before, stack = todo.pop()
            if stack is None:
                continue
            (kind, s), rest = stack
            if kind == "act":
                todo.append((before + (s,), rest))
            elif kind == "tm":
                if self.hits(s, c):
                    found.append((before, rest))
            else:
                for marks, more in self.starts(s, c):
                    found.append((before + marks, linked(more, rest)))
                for e in self.empties(s):
                    todo.append((before + e, rest))
        return found

    # the marks with which the stack derives no more token
    def ending(self, stack):
        ways = [()]
        while stack is not None and ways:
            (kind, s), stack = stack
            if kind == "tm":
                return []
            ways = [w + (s,) for w in ways] if kind == "act" else [w + e for w in ways for e in self.empties(s)]
        return ways


# ---- Tokens.antt

Tok = namedtuple("Tok", "clas start stop")
# a Text: its tokens, and ("over", at) or ("bad", at)
Text = namedtuple("Text", "tokens end")

names = {
    b"query": "n-query",
    b"mutation": "n-mutation",
    b"subscription": "n-subscription",
    b"fragment": "n-fragment",
    b"on": "n-on",
    b"true": "n-true",
    b"false": "n-false",
    b"null": "n-null",
}


def nameClass(w):
    return names.get(bytes(w), "n-other")


def classed(c, w):
    return nameClass(w) if c == "n-other" else c


# `Longest`: the configurations of Piece as a set of stacks, byte by byte; the sets and their next ones are remembered. What a piece is
# is the mark that its derivation has, and that is the last symbol of each alternative of Piece.
lexing = Deriving(lexical, hitsByte)
pieceStart = frozenset([linked((("nt", "Piece"),), None)])
nextPieces = {}


def afterByte(state, b):
    key = (state, b)
    if key not in nextPieces:
        stacks = frozenset(rest for s in state for marks, rest in lexing.over(s, b))
        whats = {m for s in stacks for way in lexing.ending(s) for m in way}
        assert len(whats) <= 1
        nextPieces[key] = (stacks, whats.pop() if whats else None)
    return nextPieces[key]


# the longest piece that begins at `at`: where it ends and what it is; None where there is none
def Longest(bs, at):
    state, i, found = pieceStart, at, None
    while i < len(bs):
        state, what = afterByte(state, bs[i])
        if not state:
            break
        i += 1
        if what is not None:
            found = (i, what)
    return found


def lineEnd(bs, at):
    return at == len(bs) or bs[at] in (10, 13)


def Tokens(bs):
    at, tokens = 0, []
    while at < len(bs):
        found = Longest(bs, at)
        if found is None:  # starts-none
            return Text(tokens, ("bad", at))
        stop, what = found
        if what == "comment" and not lineEnd(bs, stop):  # bad-comment
            return Text(tokens, ("bad", at))
        if what.startswith("is:"):
            tokens.append(Tok(classed(what[3:], bs[at:stop]), at, stop))
        at = stop
    return Text(tokens, ("over", at))


# ---- Rows.antt

Row = namedtuple("Row", "kind start end parent nameStart nameLength extra")


# the rows of the events es and the tokens ts: `book`, with the rows as lists that are changed in place
def rowsOf(es, ts):
    rows, open_, stop, n = [], [], 0, 0
    for e in es:
        if e[0] == "tok":
            if n < len(ts):
                stop = ts[n].stop
            n += 1
            continue
        m = e[1]
        top = open_[-1] if open_ else noParent
        if m[0] == "row":
            rows.append([0, ts[n].start if n < len(ts) else 0, 0, top, 0, 0, 0])
            open_.append(len(rows) - 1)
        elif m[0] == "kind":
            rows[top][0], rows[top][6] = m[1], m[2]
        elif m[0] == "named":
            a, z = (ts[n].start, ts[n].stop) if n < len(ts) else (0, 0)
            rows[top][4], rows[top][5] = a, z - a
        elif m[0] == "wrap":
            rows[top][6] = rows[top][6] * 4 + m[1]
        elif m[0] == "end":
            rows[top][2] = stop
            open_.pop()
    return [Row(*r) for r in rows]


def flat(rows):
    return [n for r in rows for n in r]


# ---- Sizes.antt

Sums = namedtuple("Sums", "levels rows fragments variables wrappers")
nothingCounted = Sums(0, 0, 0, 0, 0)


def leveled(c, levels):
    if c in ("parenL", "bracketL", "braceL"):
        return levels + 1
    if c in ("parenR", "bracketR", "braceR"):
        return max(levels - 1, 0)
    return levels


def countedMark(m, s):
    if m[0] == "row":
        return s._replace(rows=s.rows + 1)
    if m[0] == "kind":
        k = m[1]
        return s._replace(
            fragments=s.fragments + 1 if k == kindFragment else s.fragments,
            variables=0 if k == kindOperation else s.variables + 1 if k == kindVariableDefinition else s.variables,
            wrappers=0 if k == kindVariableDefinition else s.wrappers,
        )
    if m[0] == "wrapper":
        return s._replace(wrappers=s.wrappers + 1)
    return s


def overLevels(s):
    return mostLevels < s.levels


def overRows(s):
    return mostRows < s.rows


def overCounts(s):
    return mostFragments < s.fragments or mostVariables < s.variables or mostWrappers < s.wrappers


# ---- Reading.antt: `Fault` and `TextAnswer`. The tokens are taken from left to right; each fault of a token shows that token's offset, so the
# first token with a fault has the least one, and behind it nothing need be looked at.

parsing = Deriving(language, hits)


# ("rows", rows) or ("refuses", number, offset)
def TextAnswer(part, text):
    configs = [(linked((("nt", part),), None), None, nothingCounted)]
    for t in text.tokens:
        after = []
        for stack, events, sums in configs:
            for marks, rest in parsing.over(stack, t.clas):
                e, s = events, sums
                for m in marks:
                    e, s = (("mark", m), e), countedMark(m, s)
                after.append((rest, (("tok", t.clas), e), s._replace(levels=leveled(t.clas, s.levels))))
        if not after:  # no-going
            return ("refuses", refuseNoGoing, t.start)
        faults = [refuseTooDeep for c in after if overLevels(c[2])]
        faults += [refuseTooManyRows for c in after if overRows(c[2])]
        faults += [refuseTooMany for c in after if overCounts(c[2])]
        if faults:
            return ("refuses", min(faults), t.start)
        configs = after
    if text.end[0] == "bad":  # no-token
        return ("refuses", refuseNoToken, text.end[1])
    read = []
    for stack, events, sums in configs:
        for marks in parsing.ending(stack):
            e = events
            for m in marks:
                e = (("mark", m), e)
            es = []
            while e is not None:
                es.append(e[0])
                e = e[1]
            read.append(rowsOf(es[::-1], text.tokens))
    if not read:  # no-end
        return ("refuses", refuseNoGoing, text.end[1])
    assert all(r == read[0] for r in read)
    return ("rows", read[0])


# ---- Refusals.antt

def shownOf(number, at):
    return [at]


def shownInText(text, number, at):
    return [at] if number == refuseTooMany else [at, text]


# ---- Calls.antt

def filled(size, ns, old):
    return list(ns) + [0] * (size - len(ns)) + list(old[size:])


# gw_parse: the answer, the rows and the report after
def Parsed(document, rows, report):
    if len(report) < reportSize:  # short-report
        return refuseBuffer, rows, report
    if len(rows) < rowsSize:  # short-rows
        return refuseBuffer, rows, filled(reportSize, [refuseBuffer], report)
    if mostText < len(document):  # over-length
        return refuseOverLength, rows, filled(reportSize, [refuseOverLength, inputDocument], report)
    said = TextAnswer("Document", Tokens(document))
    if said[0] == "refuses":  # refuses-text
        return said[1], filled(rowsSize, [], rows), filled(reportSize, [said[1]] + shownOf(said[1], said[2]), report)
    return accepted, filled(rowsSize, flat(said[1]), rows), filled(reportSize, [accepted, len(said[1])], report)  # reads
