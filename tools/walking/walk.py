"""A function's MIR, walked statement by statement. What is in hand is followed: the locals, the borrows and where they stand in the context, and
what has happened, which the facts of Facts.antt are given."""
from walking.mir import arms, is_element, items, lent, mentions, statements, written
from walking.types import BUILTIN, OF_WIDTH, WIDTH, Datum, Function


def proj(x, i):
    return x + " .1" * i + " .0"


def pairs(xs):
    return "".join("(%s, " % x for x in xs) + "tt" + ")" * len(xs)


def conses(xs):
    return "(%s)" % " ∷ ".join([str(x) for x in xs] + ["[]"])


def atom(x):
    plain = " " not in x or (x[0] == "(" and x[-1] == ")" and "(" not in x[1:] and ")" not in x[:-1])
    return x if plain or closed(x) else "(%s)" % x


def closed(x):
    """whether the first parenthesis is closed by the last"""
    depth = 0
    for i, c in enumerate(x):
        depth += (c == "(") - (c == ")")
        if depth == 0:
            return i == len(x) - 1 and x[0] == "("
    return False


def contract(g, atoms="A", mem="mem", run="run"):
    """a callee's triple"""
    return "(tripleOf 𝓤 H %s %s.signature (%s.spec 𝓤 H %s %s %s))" % (atoms, g.alias, g.alias, atoms, mem, run)


# the struct that holds a slice and a position
READER = "check_fields::reader::Reader"


class Value:
    """what a local holds: data, with why it is good; or a borrow, and whose; and what a test of it says. A reader is the number that is its
    position, with whose slice it `holds`"""

    def __init__(self, datum=None, term=None, good=None, of=None, told=None, holds=None):
        self.datum, self.term, self.good, self.of, self.told, self.holds = datum, term, good, of, told, holds
        self.parts = None


class Happening:
    """something on the way: the term that the walk has for it, its type, and a name"""

    def __init__(self, term, type_, name):
        self.term, self.type, self.name = term, type_, name


class Entry:
    """a borrow in the context, `in` hand, `lent` or given `out`; or what `waits` for one that is lent"""

    def __init__(self, of, what, value=None, loan=None, long=None):
        self.of, self.what, self.value, self.loan, self.long = of, what, value, loan, long

    def copy(self):
        return Entry(self.of, self.what, self.value, self.loan, self.long)


class State:
    def __init__(self, locals_, entries, way):
        self.locals, self.entries, self.way = locals_, entries, way
        self.early = self.looping = self.holes = False
        self.then = None

    def copy(self):
        other = State(dict(self.locals), [e.copy() for e in self.entries], list(self.way))
        other.early, other.looping, other.holes, other.then = self.early, self.looping, self.holes, self.then
        return other

    def at(self):
        """where the locals stand: behind all borrows"""
        return len(self.entries)

    def index(self, name, *whats):
        return next(i for i, e in enumerate(self.entries) if e.of == name and e.what in whats)

    def entry(self, name, *whats):
        return self.entries[self.index(name, *whats)]

    def move(self, order):
        """the entries with these numbers come to the front"""
        text = "" if order == list(range(len(order))) else "move ! %s $ " % conses(order)
        self.entries = [self.entries[i] for i in order] + [e for i, e in enumerate(self.entries) if i not in order]
        return text


class Walk:
    def __init__(self, path, mir, types, facts, knot=None):
        self.path, self.mir, self.types, self.facts, self.knot = path, mir, types, facts, knot
        self.f = Function(path, mir, types)
        self.callees, self.structs, self.enums, self.elements, self.arrays = {}, {}, {}, {}, {}
        self.needed, self.numbers, self.total = [], {}, {}
        self.calls = self.tests = self.open = 0
        self.loop = None
        self.count(mir.body(path), [])
        self.steps = self.walk(mir.body(path), self.start(), 8)

    def start(self):
        locals_ = {i + 1: Value(of=k.name) if k.borrow else Value(k.datum, k.name, "g-" + k.name) for i, k in enumerate(self.f.kinds)}
        way = [Happening(k.name, k.denot, k.name) for k in self.f.kinds]
        if self.f.requires:
            way.append(Happening("pre", " ".join(["Pre"] + [k.name for k in self.f.asked()]), "pre"))
        return State(locals_, [Entry(k.name, "in", k.name) for k in self.f.borrows], way)

    # how often a fact is needed, so that an only one has no number
    def count(self, body, rest):
        for n, s in enumerate(body):
            if s == "return":
                self.add("says")
            elif s[0] == "if":
                self.count(statements(s[2]), rest)
                self.count(statements(s[3]), rest)
            elif s[0] == "switch":
                for _, a in arms(s[2]):
                    self.count(a, rest)
            elif s[0] == "exit":
                self.count(rest, [])
            elif s[0] == "block":
                return self.count(statements(s[1][1]), body[n + 1:])
            elif is_element(body[n:]):
                self.add("within")
            elif s[0] == "assign" and s[2][0] == "op2" and s[2][1][0] in ("add", "mul", "sub"):
                self.add("fits")

    def add(self, name):
        self.total[name] = self.total.get(name, 0) + 1

    def fact(self, name, st, what):
        """a fact of Facts.antt, given as much of the way as the modules around it take"""
        n = self.numbers[name] = self.numbers.get(name, 0) + 1
        full = "%s-%d" % (name, n) if n > 1 or self.total.get(name, 1) > 1 else name
        self.needed.append((full, list(st.way), what))
        taken = st.way[:(self.facts or {}).get(full)]
        return "(%s)" % " ".join(["facts." + full] + [atom(h.term) for h in taken])

    def callee(self, path):
        if path not in self.callees:
            self.callees[path] = Function(path, self.mir, self.types)
        return self.callees[path]

    def within(self, g):
        """whether a callee is a member of the same cycle"""
        return bool(self.knot) and g.path.split("::")[-1] in self.knot.split("+")

    def size(self, g, terms):
        return " ".join(["sizes.%s-size" % g.name] + terms)

    def kind(self, name):
        return next(k for k in self.f.kinds if k.name == name)

    # ---- values

    def struct(self, path):
        name = path.split("::")[-1]
        self.structs[name] = self.types.module(path)[1]
        return "%s#.the-type %s′.the-laws" % (name, name)

    def field(self, v, k):
        name, text = self.types.source.fields(v.datum.path)[k]
        if text not in BUILTIN:
            raise SystemExit("walk: a field of type " + text)
        return Value(Datum(BUILTIN[text]), "%s .%s" % (atom(v.term), name.replace("_", "-")),
                     "(%s)" % proj("owed %s %s _ %s" % (self.struct(v.datum.path), atom(v.term), v.good), k))

    def operand(self, x, st, at=None):
        """the operand's rule, and its value"""
        n = st.at() if at is None else at
        if x == "unit":
            return "unit-lit !", Value(Datum("units"), "tt", "refl")
        if x[0] == "int":
            return "lit ! tt", Value(Datum(OF_WIDTH.get(x[1])), x[2], "(refl, omega arith)")
        i, steps = int(x[1][1]), items(x[1][2])
        v, within = st.locals[i], "-in" if st.holes else ""
        if steps and steps[0][0] == "variant":
            # a field of an enum that is known at a variant
            j = int(steps[1][1]) - 1
            rule = "held-part ! %d %d %s %d refl refl tt refl refl refl refl refl" % (n, i, steps[0][1], j)
            return rule, v.parts[j]
        if not steps:
            return "var%s ! %d %d refl refl tt" % (within, n, i), v
        if len(steps) > 1 or steps[0][0] != "field":
            raise SystemExit("walk: operand %s" % x)
        k = int(steps[0][1])
        rule = "part%s ! %d %d %d refl refl tt refl refl refl" % (within, n, i, k)
        if v.of:
            return rule, Value(Datum("usizes"), "length " + v.of, "(refl, room-%s .0)" % v.of)
        if v.holds:
            return rule, Value(of=v.holds) if k == 0 else Value(v.datum, v.term, v.good)
        return rule, self.field(v, k)

    def typed(self, v):
        """that the value can be stored"""
        if v.of:
            return "(tt, (tt, (record { fits = room-%s .0 }, tt)))" % v.of if self.kind(v.of).slice else "(tt, tt)"
        if v.holds:
            return "(tt, ((tt, (record { fits = room-%s .0 }, tt)), (record { fits = %s .1 }, tt)))" % (v.holds, atom(v.good))
        if v.datum.name in ("units", "bools"):
            return "(tt, tt)"
        return "(typed 𝓤 H A W %s %s %s)" % (v.datum.name, atom(v.term), atom(v.good))

    # ---- statements

    def walk(self, body, st, ind):
        outer, self.open = self.open, 0
        text = self.go(body, st, ind)
        text, self.open = text + ")" * self.open, outer
        return text

    def go(self, body, st, ind):
        pad = "\n" + " " * ind
        out = ""
        while True:
            s, rest = body[0], body[1:]
            if s == "return":
                return out + pad + self.leaves(st)
            if is_element(body):
                out, body = out + pad + self.element(body, st, pad), body[3:]
                continue
            if not rest and st.then:
                (then, falls), st.then = st.then, None
                return out + pad + ("skips ! $" if s == "skip" else self.assign(s, st, "-last")) + pad + "%s _ $" % falls + self.go(then, st, ind)
            if st.looping and not rest:
                return out + pad + self.assign(s, st, "-last") + pad + self.again(st)
            if s[0] == "switch":
                return out + pad + self.takes_apart(s, rest, st, ind)
            if s[0] == "if":
                return out + pad + self.branch(s, rest, st, ind)
            if s[0] == "block":
                return out + pad + self.enter_loop(statements(s[1][1]), rest, st)
            out += pad + (self.assign(s, st) if s[0] == "assign" else self.call(s, rest, st, pad))
            body = rest

    def assign(self, s, st, last=""):
        i, rv, n = int(s[1][1]), s[2], st.at()
        if rv[0] == "rvOpd":
            rule, v = self.operand(rv[1], st)
            v = self.named(v, i)
            rule, typed = "of-opd ! (%s)" % rule, self.typed(v)
        elif rv[0] == "addrOf":
            rule, typed, v = self.address(rv, st)
        elif rv[0] == "aggregate":
            rule, typed, v = self.aggregate(items(rv[1]), i, st)
        elif rv[0] == "repeat":
            rule, typed, v = self.repeat(rv, i, st)
        elif rv[0] == "op2":
            rule, typed, v = self.binary(rv, st)
        elif rv[0] == "op1" and rv[1] == ["cast", "unsigned", "unsigned", "64"]:
            rule, v = self.operand(rv[2], st)
            bound = "omega (arith, %s .1)" % v.good
            rule, typed = "un ! (%s) (record { fits = %s })" % (rule, bound), "(tt, record { fits = %s })" % bound
            v = Value(Datum("usizes"), v.term, "(refl, %s)" % bound)
        else:
            raise SystemExit("walk: right side %s" % rv)
        if items(s[1][2]):
            # a reader moves on
            st.locals[i] = Value(v.datum, v.term, v.good, holds=st.locals[i].holds)
            return "puts-field ! %d %d %s refl (%s) refl tt refl refl refl %s $" % (n, i, items(s[1][2])[0][1], rule, typed)
        st.locals[i] = v
        return "puts%s ! %d %d refl (%s) tt %s $" % (last, n, i, rule, typed)

    def named(self, v, local):
        """a field of an enum has the type of the local that it is put into"""
        if v.datum or v.of:
            return v
        mir = self.mir.locals(self.path)[local]
        return Value(Datum(OF_WIDTH[mir[1]]) if mir[0] == "tyInt" else self.types.declared(mir[1][1]), v.term, v.good)

    def address(self, rv, st):
        j, steps = int(rv[1][1]), items(rv[1][2])
        rule = {0: "addr ! (from ! (stop !))", 1: "lent ! %d %d refl refl tt" % (st.at(), j),
                2: "lent-ptr ! %d %d refl refl tt refl refl" % (st.at(), j)}[len(steps)]
        return rule, "(tt, tt)", Value(of=st.locals[j].of)

    def aggregate(self, xs, local, st):
        """a slice, lent on or of an array of one's own; or a struct"""
        of = st.locals[int(xs[0][1][1])].of if xs[0][0] == "copy" else None
        if self.mir.locals(self.path)[local][1][0] == "pair" and self.mir.locals(self.path)[local][1][1] == READER:
            (slice_, _), (rule, at) = self.operand(xs[0], st), self.operand(xs[1], st)
            v = Value(at.datum, at.term, at.good, holds=of)
            return "agg ! " + self.operands([slice_, rule]), self.typed(v), v
        if of and of not in self.arrays:
            p, j = int(xs[0][1][1]), int(xs[1][1][1])
            return "lent-slice ! %d %d %d refl refl refl tt tt refl refl" % (st.at(), j, p), self.typed(Value(of=of)), Value(of=of)
        rules = [self.operand(x, st) for x in xs]
        rule = "agg ! " + self.operands([r for r, _ in rules])
        mir = self.mir.locals(self.path)[local]
        variants = self.types.source.variants(mir[1][1]) if mir[0] == "tyNamed" else []
        if variants:
            d, (name, owes) = self.types.declared(mir[1][1]), self.enum(mir[1][1])
            term = "(%s)" % " ".join(["%s·.%s" % (name, variants[int(xs[0][2])][0])] + [atom(v.term) for _, v in rules[1:]])
            v = Value(d, term, "(enum-laws.%s %s %s)" % (owes % "owes", term, pairs([v.good for _, v in rules[1:]])))
            return rule, self.typed(v), v
        if of:
            return rule, "(tt, (tt, (record { fits = omega arith }, tt)))", Value(of=of)
        d = self.types.declared(self.mir.locals(self.path)[local][1][1])
        names = [x[0].replace("_", "-") for x in self.types.source.fields(d.path)]
        term = "(record { %s })" % "; ".join("%s = %s" % (x, v.term) for x, (_, v) in zip(names, rules))
        v = Value(d, term, "(laws.owes %s %s %s)" % (self.struct(d.path), term, pairs([v.good for _, v in rules])))
        return rule, self.typed(v), v

    def operands(self, rules):
        return "".join("(and-then ! (%s) " % r for r in rules) + "(no-more !)" + ")" * len(rules)

    def repeat(self, rv, local, st):
        """an array of one's own: its list has a name, so that the walk does not compute it"""
        source = self.f.lets[local - len(self.f.kinds) - 1]
        name, size = "own-" + source.replace("_", "-"), rv[2]
        rule, x = self.operand(rv[1], st)
        element = self.types.source.repeated(self.path, source)
        if element:
            x = Value(Datum(BUILTIN[element]), "(pos %s)" % x.term if element[0] == "i" else x.term, "(refl, omega arith)")
        d, what = x.datum.name, "replicate %s %s" % (size, atom(x.term))
        good = "(repeats-good %s %s %s %s-is %s)" % (d, size, atom(x.term), name, x.good)
        self.arrays[name] = {"local": local, "element": d, "size": size, "denot": "List (%s)" % x.datum.denot, "value": name, "good": good, "all": what}
        st.way += [Happening(name, self.arrays[name]["denot"], name), Happening(name + "-is", "%s ≡ %s" % (name, what), name + "-is")]
        return ("repeats ! %s %s %s %s-is (%s)" % (d, size, atom(x.term), name, rule),
                "(typed 𝓤 H A W (arrays %s %s) %s %s)" % (d, size, name, good), Value(of=name))

    def binary(self, rv, st):
        op = rv[1] if isinstance(rv[1], str) else rv[1][0]
        (ra, a), (rb, b) = self.operand(rv[2], st), self.operand(rv[3], st)
        x, y = atom(a.term), atom(b.term)
        if op in ("eq", "lt"):
            yes, no, sign = {"eq": ("eqb→eq", "not-equal", "≡"), "lt": ("ltb→lt", "not-below", "<")}[op]
            said = "%s %s %s" % (a.term, sign, b.term)
            told = [("%s %s %s" % (yes, x, y), said), ("%s %s %s" % (no, x, y), said + " → ⊥")]
            return "bin ! (%s) (%s) tt" % (ra, rb), "(tt, tt)", Value(Datum("bools"), told=told)
        if op not in ("add", "mul", "sub"):
            raise SystemExit("walk: operation " + op)
        term = "%s %s %s" % (x, {"add": "+", "mul": "*", "sub": "-"}[op], y)
        if op == "sub":
            dom = self.fact("fits", st, "%s ≤ %s" % (b.term, a.term))
            bound = "omega arith" if a.term.isdigit() else "omega (arith, %s .1)" % a.good
        else:
            bound = self.one_more(op, a, b, st) or self.fact("fits", st, "%s < 2 ^ %d" % (term, WIDTH[a.datum.name]))
            dom = "(record { fits = %s })" % bound
        return "bin ! (%s) (%s) %s" % (ra, rb, dom), "(tt, record { fits = %s })" % bound, Value(a.datum, term, "(refl, %s)" % bound)

    def one_more(self, op, a, b, st):
        """x + 1 fits where x was found to be below a parameter, unless Facts.antt says why"""
        if op != "add" or b.term != "1" or "fits" in (self.facts or {}) or "fits-1" in (self.facts or {}):
            return None
        below = ((h, k) for h in st.way for k in self.f.kinds if not k.borrow and h.type == "%s < %s" % (a.term, k.name))
        h, k = next(below, (None, None))
        return "(omega (arith, %s, g-%s .1))" % (h.term, k.name) if h else None

    def branch(self, s, rest, st, ind):
        pad = "\n" + " " * ind
        rule, v = self.operand(s[1], st)
        self.tests += 1
        y = "y%d" % self.tests
        told = v.told or [("told " + atom(v.term), v.term + " ≡ true"), ("untold " + atom(v.term), v.term + " ≡ false")]
        ways = [st.copy(), st]
        for w, (law, said) in zip(ways, told):
            w.way.append(Happening("%s %s" % (law, y), said, y))
        leaves = [n for n in (0, 1) if isinstance(s[2 + n], list) and s[2 + n][0] == "exit"]
        if leaves:
            # the test of a `while`, or of an `if` that breaks
            out, on = ways[leaves[0]], ways[1 - leaves[0]]
            out.looping = False
            away = "(λ %s. exec ! (𝓣 .C) (𝓣 .Λ) E# mir′.t-%d (atRet E# Post) $" % (y, self.loop["at"])
            away, go = lambda a=away: a + self.walk(self.loop["rest"], out, ind) + ")", lambda: "(λ %s." % y + self.walk(rest, on, ind) + ")"
            parts = [away(), go()] if leaves == [0] else [go(), away()]
            return "%s ! (%s)" % ("breaks" if leaves == [0] else "tests", rule) + pad + parts[0] + pad + parts[1]
        if s[3] != "skip":
            raise SystemExit("walk: an `if` with an `else`")
        ways[0].early = True
        arm = "(λ %s." % y + self.walk(statements(s[2]), ways[0], ind) + ")"
        return "if-then ! (%s)" % rule + pad + arm + pad + "(λ %s." % y + self.walk(rest, st, ind) + ")"

    # ---- a `let .. else`

    def enum(self, path):
        """an enum's name, and the law of what a value of it owes"""
        name = path.split("::")[-1]
        self.enums[name] = self.types.variants(path)
        return name, "%s %s" % ("%s", self.struct(path))

    def takes_apart(self, s, rest, st, ind):
        pad = "\n" + " " * ind
        i, n = int(s[1][1][1]), st.at()
        v = st.locals[i]
        (keys, taken), (_, other) = arms(s[2])
        name, owed = self.enum(v.datum.path)
        self.tests += 1
        c, out = self.tests, "%s %s" % (self.types.cases(v.datum), atom(v.term))
        for k, (variant, count) in enumerate(self.types.source.variants(v.datum.path)):
            w, xs, y = st.copy(), ["x%d-%d" % (c, j) for j in range(count)], "y%d" % c
            term = " ".join(["%s·.%s" % (name, variant)] + xs)
            good = "subst (Good %s) %s %s" % (v.datum.name, y, v.good)
            w.locals[i] = Value(v.datum, atom(term), "(%s)" % good)
            w.locals[i].parts = [Value(None, x, "(%s)" % proj("enum-laws.%s %s _ (%s)" % (owed % "owed", atom(term), good), j)) for j, x in enumerate(xs)]
            w.way += [Happening(x, "?", x) for x in xs] + [Happening(y, "%s ≡ %s" % (v.term, term.replace("·.", ".")), y)]
            known = "as-held ! %d %d refl refl (ap (%s .val) %s) $" % (n, i, v.datum.name, y)
            read = "(tag ! %d %d refl refl tt refl refl refl)" % (n, i)
            if str(k) in keys:
                w.then, body, rule = (rest, "falls%d" % c), taken, "hits ! %s tt tt (λ falls%d." % (read, c)
            else:
                w.early, body, rule = True, other, "misses ! %s tt tt (" % read
            out += pad + "(λ %s. %s %s" % (" ".join(xs + [y]), known, rule) + self.walk(body, w, ind) + "))"
        return out

    # ---- one element of a slice

    def element(self, body, st, pad):
        mul, offset, use = body[:3]
        name, first, place = st.locals[int(offset[2][2][1][1])].of, int(mul[1][1]), int(offset[1][1])
        row, size, n = self.kind(name).row, mul[2][3][2], st.at()
        rule, index = self.operand(mul[2][2], st)
        i, h = atom(index.term), "h-" + name
        e = st.entry(name, "in")
        ys, within = atom(e.value), self.fact("within", st, "%s < length %s" % (index.term, e.value))
        self.elements[name] = (row.type, size)
        bound = "bytes-%s room-%s %s" % (name, name, "(omega (arith, %s, %s))" % (within, e.long) if e.long else within)
        text = "puts ! %d %d refl (bin ! (%s) (lit ! tt) (record { fits = %s })) tt (tt, record { fits = %s }) $" % (n, first, rule, bound, bound) + pad
        text += "puts ! %d %d refl (as-value ! (bin ! (part ! %d %s 0 refl refl tt refl refl refl) (var ! %d %d refl refl tt) tt)" % (
            n, place, n, offset[2][2][1][1], n, first) + pad
        text += "(ap (vptr (%s .block)) (sym (place-is %s (%s .off) %s)))) tt (tt, tt) $" % (h, size, h, i) + pad
        text += st.move([st.index(name, "in")])
        d = row.datum
        spells = "%s (λ (x : %s). %s .val x ∷ []) (%s .tells)" % (row.type, d.denot, d.name, d.name)
        what = "%s %s %s facts.blank %s" % (h, ys, i, within)
        follow = "from ! (hop ! (at-local ! %d %d refl refl tt) (%s))" % (n + 1, place, "%s")
        self.open += 1
        if use[1][2] == "lnil":
            return text + self.looks(use, st, n + 1, d, spells, what, follow, "getD %s %s facts.blank" % (ys, i), pad)
        rule, v = self.operand(use[2][1], st, n + 1)
        e.value = "set %s %s %s" % (ys, i, atom(v.term))
        long = "length-set %s %s %s" % (ys, i, atom(v.term))
        e.long = "(%s ∙ %s)" % (long, e.long) if e.long else "(%s)" % long
        text += "opens-at ! tt %s %s (λ _." % (spells, what) + pad
        text += "assigns ! (of-opd ! (%s)) (%s) (store-raw ! 0 refl %s) $" % (rule, follow % "stop !", self.typed(v)) + pad
        return text + "closes-at ! tt %s (%s .makes 𝓤 H A W) %s %s %s %s (%s .val %s ∷ []) %s %s $" % (
            row.type, d.name, h, ys, i, atom(v.term), d.name, atom(v.term), within, atom(v.good))

    def looks(self, use, st, m, d, spells, what, follow, at, pad):
        """an element, or a field of it, is read"""
        self.calls += 1
        target, steps, q, good = int(use[1][1]), items(use[2][1][1][2]), "q%d" % self.calls, "is%d" % self.calls
        v, read = Value(d, at, good), "load ! (%s) (look-raw ! 0 refl)" % (follow % "stop !")
        if len(steps) > 1:
            k = int(steps[1][1])
            v, read = self.field(v, k), "load ! (%s) (look-in ! 0 (sub ! %d refl (whole !)))" % (follow % "fld ! refl (stop !)", k)
        st.locals[target] = v
        laws = self.struct(d.path).replace("the-laws", "the-copy")
        text = "looks-at ! tt %s (laws.copy %s 𝓤 H A W) %s (λ %s %s." % (spells, laws, what, q, good) + pad
        text += "puts ! %d %d refl (of-opd ! (%s)) tt %s $" % (m, target, read, self.typed(v)) + pad
        before, after = what.split("facts.blank ", 1)
        return text + "shuts-at ! tt (%s .type) %sfacts.blank %s (%s .val (%s) ∷ []) %s $" % (d.name, before, q, d.name, at, after)

    # ---- calls

    def call(self, s, rest, st, pad):
        f, dest = self.callee(s[1][1][1]), int(s[3][1])
        self.calls += 1
        if f.held:
            return self.call_held(f, s, st, pad)
        args = list(zip(items(s[2]), f.kinds))
        owners = [(st.locals[int(x[1][1])].of, k) for x, k in args if k.borrow]
        lends, text = self.lends(owners, rest, st, pad)
        own, more = self.lends_own(owners, st, pad)
        text += more + st.move([st.index(name, "in", "lent") for name, _ in owners])
        rules = [self.operand(x, st) for x, _ in args]
        passed = [st.entry(v.of, "in", "lent") if k.borrow else v for (_, v), k in zip(rules, f.kinds)]
        terms = [t for p, k in zip(passed, f.kinds) for t in ([p.loan or "h-" + p.of, atom(p.value)] if k.borrow else [atom(p.term)])]
        ps = "(%s)" % " ".join(["for-" + f.alias] + terms) if terms else "for-" + f.alias
        goods = pairs([p.good for p, k in zip(passed, f.kinds) if not k.borrow])
        if self.within(f):
            smaller = self.size(f, [atom(p.value if k.borrow else p.term) for p, k in zip(passed, f.kinds)])
            less = self.fact("less-" + f.name, st, "%s < %s" % (smaller, self.size(self.f, [k.name for k in self.f.kinds])))
            text += "calls-one ! (fmOf 𝓤 H (W .laws) 𝓣) %s (to %s) (known-%s (to %s) %s) %s" % (contract(f), ps, f.alias, ps, less, ps)
        else:
            text += "calls-by ! (fmOf 𝓤 H (W .laws) 𝓣) %s known-%s (to %s) %s" % (contract(f), f.alias, ps, ps)
        text += " refl %s %s %s _ %s" % (goods, self.asks(f, passed, ps, st), f.result.name, self.back(f, ps)) + pad
        text += self.operands([r for r, _ in rules]) + self.returned(f, dest, passed, st) + pad
        self.open += 1
        return text + self.lands(f, dest, own, lends, passed, st, pad)

    def call_held(self, f, s, st, pad):
        """a function of a reader is called: the slice that the reader holds is in hand"""
        rule, v = self.operand(items(s[2])[0], st)
        text = st.move([st.index(v.holds, "in")])
        rule, _ = self.operand(items(s[2])[0], st)
        e, j, at = st.entry(v.holds, "in"), self.f.borrows.index(self.kind(v.holds)), atom(v.term)
        reader = "κ%d q%d %s# %s" % (j, j, v.holds, at)
        ps = "(for-%s h-%s %s %s)" % (f.alias, v.holds, atom(e.value), at)
        text += "calls-by ! (fmOf 𝓤 H (W .laws) 𝓣) %s known-%s (to-reader %s) %s refl %s (Unit {0}) tt (asks-reader %s 𝓤 H A W) %s _ (says-reader %s 𝓤 H A W (%s .type) _)" % (
            contract(f), f.alias, reader, ps, pairs([v.good]), reader, f.result.name, reader, f.result.name) + pad
        dest, passed = int(s[3][1]), [e, Value(v.datum, v.term, v.good)]
        text += self.operands([rule]) + self.returned(f, dest, passed, st) + pad
        self.open += 1
        return text + self.lands(f, dest, [], [], passed, st, pad)

    def lends(self, owners, rest, st, pad):
        """what is used again is lent, and what is mine to write and only read there is shared"""
        out, text = [], ""
        for name, k in owners:
            if name in self.arrays or not self.kind(name).mut:
                continue
            if k.mut and not st.looping and not any(mentions(rest, i) for i, v in st.locals.items() if v.of == name):
                continue
            e, c = st.entry(name, "in"), "%d-%s" % (self.calls, name)
            rule = ("lends-" if k.mut else "shares-") + ("slice" if k.slice else "ref")
            text += st.move([st.index(name, "in")])
            text += "%s ! tt %s h-%s %s (λ %sν%s δ%s." % (rule, k.row.type, name, atom(e.value), "" if k.slice else "p%s " % c, c, c) + pad
            self.open += 1
            e.what, e.loan = "lent", "(relent h-%s ν%s δ%s)" % (name, c, c)
            st.entries.insert(1, Entry(name, "waits"))
            out.append((name, k, e, c))
        return out, text

    def lends_own(self, owners, st, pad):
        """arrays of one's own are lent"""
        out, text = [], ""
        for name, k in [x for x in owners if x[0] in self.arrays]:
            a, c, n = self.arrays[name], "%d-%s" % (self.calls, name), st.at()
            if not st.holes:
                text, st.holes = text + "lends-out ! %d refl $" % n + pad, True
            if k.slice:
                loan = "(spanAt (blockOf 𝓤 H (tysOf (mine.function .locals)) β %d) %s s%s)" % (a["local"], a["size"], c)
                text += "lends-span ! tt %s %s (omega arith, omega arith) %d %d %s %s refl refl tt refl (λ _ s%s." % (
                    a["element"], a["size"], n, a["local"], atom(a["value"]), a["good"], c) + pad
            else:
                loan = "(loanAt (β %d) ν%s δ%s)" % (a["local"], c, c)
                text += "lends-local ! tt (arrays %s %s) %d %d %s %s refl refl tt refl (λ ν%s δ%s." % (
                    a["element"], a["size"], n, a["local"], atom(a["value"]), a["good"], c, c) + pad
            self.open += 1
            st.entries = [Entry(name, "lent", a["value"], loan), Entry(name, "waits")] + st.entries
            out.append((name, k, c))
        return out, text

    def asks(self, f, passed, ps, st):
        if not f.requires:
            return "(Unit {0}) tt (asks-all 𝓤 H A %s [])" % ps
        terms = [atom(p.value if k.borrow else p.term) for p, k in zip(passed, f.kinds) if k in f.asked()]
        ev = self.fact("asks-" + f.name, st, " ".join([f.name + "-asks"] + terms))
        return "_ %s %s" % (ev, "(id⊢ 𝓤 _)" if f.requires == 1 else "(asks-all 𝓤 H A %s %s)" % (ps, conses(["_"] * f.requires)))

    def back(self, f, ps):
        if f.ensures == 1:
            return "(λ v. id⊢ 𝓤 _)"
        return "(said-together 𝓤 H A W %s (%s .type) %s)" % (ps, f.result.name, conses(["_"] * f.ensures))

    def returned(self, f, dest, passed, st):
        """what a call hands over: its result, new values, what it says, and that slices are as long"""
        c, n = self.calls, dest - len(self.f.kinds) - 1
        base = self.f.lets[n].replace("_", "-") if 0 <= n < len(self.f.lets) else f.name
        r = "%s%d" % (base, c)
        news = {k.name: ("(%s)" % proj("ws%d" % c, i), "%s%d" % (p.of, c)) for i, (k, p) in enumerate(zip(f.kinds, passed)) if k.mut}
        told, _, lasts = f.told()
        says = [atom(p.value if k.borrow else p.term) for p, k in zip(passed, f.kinds) if k in told]
        says += ([] if f.unit else [r]) + [news[k.name][0] for k in lasts]
        if not f.unit:
            st.way.append(Happening(r, f.result.denot, r))
        st.way += [Happening(news[k.name][0], k.denot, news[k.name][1]) for k in f.muts]
        if f.ensures:
            st.way.append(Happening("e%d" % c, " ".join([f.name + "-says"] + says), "e%d" % c))
        st.locals[dest] = Value(Datum("units"), "tt", "refl") if f.unit else Value(f.result, r, "g-" + r)
        self.news = {}
        for k, p in zip(f.kinds, passed):
            if k.mut:
                long = "(%s)" % proj("same%d" % c, f.borrows.index(k)) if k.slice else None
                self.news[p.of] = (news[k.name][0], p.value, long)
                if long:
                    st.way.append(Happening(long, "length %s ≡ length %s" % (news[k.name][0], atom(p.value)), "%s-long%d" % (p.of, c)))
        slices = any(k.mut and k.slice for k in f.kinds)
        return " (λ %s %s %s %s %s." % ("_" if f.unit else r, "ws%d" % c if f.muts else "_", "_" if f.unit else "g-" + r,
                                       "e%d" % c if f.ensures else "_", "same%d" % c if slices else "_")

    def lands(self, f, dest, own, lends, passed, st, pad):
        """the result is stored, and what was lent comes back"""
        text = ""
        for name, k, c in own:
            text += self.back_own(name, k, c, st, pad)
        if own:
            text, st.holes = text + "whole-again ! %d refl tt $ " % st.at(), False
        text += "lands-in ! %d %d refl tt %s $" % (st.at(), dest, self.typed(st.locals[dest]))
        for k, e in zip(f.kinds, passed):
            if k.mut and e.of not in self.arrays:
                new, _, long = self.news[e.of]
                e.what, e.value = "out" if e.what == "in" else e.what, new
                e.long = "(%s ∙ %s)" % (long, e.long) if e.long and long else long or e.long
        for name, k, e, c in lends:
            text += pad + st.move([st.index(name, "lent"), st.index(name, "waits")])
            new, old, long = self.news[name] if k.mut else (e.value, e.value, None)
            rule = ("back-" if k.mut else "unshares-") + ("slice" if k.slice else "ref")
            values = "%s %s" % (atom(old), new) if k.mut else atom(e.value)
            text += "%s ! tt %s h-%s %s ν%s δ%s%s $" % (rule, k.row.type, name, values, c, c, " p" + c if not k.slice else " " + long if k.mut else "")
            e.what, e.loan = "in", None
            del st.entries[1]
        return text

    def back_own(self, name, k, c, st, pad):
        a = self.arrays[name]
        text = st.move([st.index(name, "lent"), st.index(name, "waits")])
        st.entries = st.entries[2:]
        new, old, _ = self.news[name]
        a["value"], a["good"] = new, "g%s" % c
        self.open += 1
        if k.slice:
            return text + "back-span ! tt %s %s %d %d (blockOf 𝓤 H (tysOf (mine.function .locals)) β %d) %s %s s%s refl refl tt refl refl (λ g%s." % (
                a["element"], a["size"], st.at(), a["local"], a["local"], atom(old), new, c, c) + pad
        return text + "back-local ! tt (arrays %s %s) %d %d (β %d) %s ν%s δ%s refl refl tt refl refl (λ g%s." % (
            a["element"], a["size"], st.at(), a["local"], a["local"], new, c, c, c) + pad

    # ---- the end

    def leaves(self, st):
        f, n, result = self.f, st.at(), st.locals[0]
        text = "ends-early ! %d Post refl refl refl tt $ " % n if st.early else "ends ! %d refl refl tt $ " % n
        for k in f.muts:
            e = st.entry(k.name, "in", "out")
            if e.what == "in":
                text += st.move([st.index(k.name, "in")]) + "gives ! (%s %s) h-%s %s $ " % (k.kind, k.row.type, k.name, atom(e.value))
                e.what = "out"
        text += st.move([st.index(k.name, "in", "out") for k in f.borrows])
        ends = [st.entry(k.name, "in", "out") for k in f.muts]
        args = ([] if f.unit else [atom(result.term)]) + [atom(e.value) for e in ends]
        args += [e.long or "refl" for e, k in zip(ends, f.muts) if k.slice] + ([] if f.unit else [atom(result.good)])
        if f.ensures:
            told, _, lasts = f.told()
            said = [k.name for k in told] + ([] if f.unit else [atom(result.term)]) + [atom(e.value) for e, k in zip(ends, f.muts) if k in lasts]
            args.append(self.fact("says", st, " ".join(["Said"] + said)))
        return text + "by ! (%s)" % " ".join(["exits"] + args)

    # ---- a loop, as a lemma. What Facts.antt's state has of it, it has of its values; beside it stand that these are good, and lists as long as before

    def enter_loop(self, body, rest, st):
        first = len(self.f.kinds) + 1
        turn = State({i: v for i, v in st.locals.items() if i < first}, [], st.way[:len(self.f.kinds) + bool(self.f.requires)])
        turn.way.append(Happening("(t .state)", "State", "t"))
        turn.looping = True
        fields, lists = [], []
        for i, v in sorted(st.locals.items()):
            if first <= i < first + len(self.f.lets) and v.datum and mentions([body, rest], i):
                name = self.f.lets[i - first].replace("_", "-")
                fixed = i not in written(body) and all(w in {h.term for h in turn.way} or not w[0].isalpha() for w in v.term.replace("(", " ").replace(")", " ").split())
                if not fixed:
                    fields.append((i, name, v))
                turn.locals[i] = v if fixed else Value(v.datum, "t .state ." + name, "(t .good-%s)" % name, holds=v.holds)
        changed = {st.locals[i].of for i in lent(body) if i in st.locals}
        for e in st.entries:
            e = e.copy()
            if e.value != e.of or (self.kind(e.of).mut and e.of in changed):
                lists.append((self.kind(e.of), e.long))
                e.value, e.long = "t .state ." + e.of, "(t .long-%s)" % e.of if self.kind(e.of).slice else None
            turn.entries.append(e)
        away = [i for i in range(first, len(self.mir.locals(self.path))) if i not in turn.locals]
        self.loop = {"rest": rest, "at": len(self.mir.body(self.path)) - len(rest) + 1, "away": away, "fields": fields, "lists": lists, "start": turn.copy()}
        begin = self.state("start", st, [v.good for _, _, v in fields], [long for k, long in lists if k.slice])
        text = "forgets ! %d %s refl tt $ first ! $ blocks ! $ loops ! 𝓣 (by-size size) (by-size-wf size) (Inv β) (turn β) %s" % (st.at(), conses(away), begin)
        self.loop["turn"] = self.walk(body, turn, 10)
        return text

    def state(self, name, st, goods, longs):
        parts = ["state = " + self.fact(name, st, "State")]
        parts += ["good-%s = %s" % (n, g) for (_, n, _), g in zip(self.loop["fields"], goods)]
        parts += ["long-%s = %s" % (k.name, s or "refl") for k, s in zip([k for k, _ in self.loop["lists"] if k.slice], longs)]
        return "(record { %s })" % "; ".join(parts)

    def again(self, st):
        """a turn's end"""
        loop, n = self.loop, st.at()
        text = "forgets ! %d %s refl tt $ " % (n, conses(loop["away"]))
        text += st.move([st.index(e.of, "in", "out") for e in loop["start"].entries])
        goods = [st.locals[i].good for i, _, _ in loop["fields"]]
        new = self.state("next", st, goods, [st.entry(k.name, "in", "out").long for k, _ in loop["lists"] if k.slice])
        return text + "again ! (by-size size) Inv t %s %s" % (new, self.fact("less", st, "size next < size t"))
