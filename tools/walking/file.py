"""The files of a walk: Proof.antt, and Said.antt, which has what the function and those that it calls ask and say."""
import re

from walking.names import NAMES
from walking.source import tokens
from walking.walk import Value, atom, conses, contract, pairs, proj

HEAD = "{M : Type 1} (𝓤 : URA M) (H : Heap 𝓤) (A : Atoms 𝓤) (W : Given 𝓤 H A) (mem : Memory → SProp 𝓤) (run : Routine → Fun 𝓤)"
RUN = "(WpFn 𝓤 H (𝓣 .C) (𝓣 .Λ) mine.function)"
CLAUSES = "(f.clauses 𝓤 H A mem run)"


def by_parameter(w):
    """a line for each parameter, of the frame's lists"""
    stay, go, vals, tells, typed, n = [], [], [], [], [], len(w.f.borrows)
    for k in w.f.kinds:
        if not k.borrow:
            d = k.datum.name
            stay.append("stay-none (λ _. %s .type) yes" % d)
            go.append("goes-none 𝓤 H A W %d (λ _. %s .type) yes (λ κs x f. refl)" % (n, d))
            vals.append("(λ (x : %s). %s .val x ∷ [])" % (k.denot, d))
            tells.append("%s .tells" % d)
            typed.append("typed 𝓤 H A W %s %s g-%s" % (d, k.name, k.name))
            continue
        j, s = w.f.borrows.index(k), "slice" if k.slice else "ref"
        stay.append("gave-%s (%d ∷ []) tt (%s)" % (s, j, k.row.plain) if k.mut else "stay-none-%s (%d ∷ []) tt (%s) yes" % (s, j, k.row.plain))
        go.append("goes-gave-%s 𝓤 H A W %d %d tt (%s)" % (s, n, j, k.row.plain) if k.mut else
                  "goes-none-%s 𝓤 H A W %d (%d ∷ []) tt (%s) yes" % (s, n, j, k.row.plain))
        vals.append("slice-vals" if k.slice else "ptr-vals")
        tells.append("%s%s-tells (named %d) (%s) %s" % ("mut" if k.mut else "shr", "-slice" if k.slice else "", j, proj("κs", j), k.row.type))
        typed.append(w.typed(Value(of=k.name)))
    return stay, go, vals, tells, typed


def called(g):
    """what a callee is passed"""
    types, names, pars = [], [], []
    for i, k in enumerate(g.kinds):
        types += ["Loan", k.denot] if k.borrow else [k.denot]
        names += ["h%d" % i, "x%d" % i] if k.borrow else ["x%d" % i]
        pars.append("brw (%s %s) h%d x%d" % (k.kind, k.row.type, i, i) if k.borrow else "dat %s x%d" % (k.datum.name, i))
    a = g.alias
    return "abbrev for-%s : %s\n%s = %s" % (a, " → ".join(types + ["List Par"]), " ".join(["for-" + a] + names), " ∷ ".join(pars + ["[]"]))


def lent(w, text):
    """a walk's text, with a borrow's loan and its list in place of their names"""
    for j, k in enumerate(w.f.borrows):
        loan = "(loan%s κ%d q%d %s#)" % ("Slice" if k.slice else "Ref", j, j, k.name)
        text = re.sub(r"(?<![\w.#′-])h-%s(?![\w#′-])" % re.escape(k.name), loan, text)
        text = re.sub(r"(?<![\w.#′-])%s(?![\w#′-])" % re.escape(k.name), "(%s# .now)" % k.name, text)
    return text


def parameters(w):
    """the module of the walk: parameters, borrows, the way out"""
    f, n = w.f, len(w.f.borrows)
    params = " ".join("(%s# : RefT (%s))" % (k.name, k.denot) if k.borrow else "(%s : %s)" % (k.name, k.denot) for k in f.kinds)
    known = ["(room-%s : Room %s (length (%s# .now)))" % (k.name, k.row.type, k.name) for k in f.kinds if k.slice]
    known += ["(g-%s : Good %s %s)" % (k.name, k.datum.name, k.name) for k in f.kinds if not k.borrow]
    lines = ["module _ %s (%s : Lft) (%s : Share)" % (HEAD, " ".join("κ%d" % i for i in range(n)), " ".join("q%d" % i for i in range(n))), params, " ".join(known)]
    lines += ["(%s : %s) (%s-is : %s ≡ %s)" % (x, a["denot"], x, x, a["all"]) for x, a in w.arrays.items()]
    if f.requires:
        lines.append("(pre : %s)" % " ".join(["said.Pre"] + ["(%s# .now)" % k.name if k.borrow else k.name for k in f.asked()]))
    out = []
    pars = ["brw (%s %s) h-%s %s" % (k.kind, k.row.type, k.name, k.name) if k.borrow else "dat %s %s" % (k.datum.name, k.name) for k in f.kinds]
    out.append("  abbrev ps : List Par\n  ps = %s" % " ∷ ".join(pars + ["[]"]))
    out.append("  abbrev bound : walkOf 𝓤 H A f.ended stayed %s .Ghost\n  bound = ((lfts ps, shares ps, tt, denots 0 ps, valss 0 ps), tt)" % CLAUSES)
    out.append("  abbrev Post : Val → SProp 𝓤\n  Post = walkOf 𝓤 H A f.ended stayed %s .post bound" % CLAUSES)
    return "\n    ".join(lines) + " where\n" + lent(w, "\n\n".join(out + [exits(f)]))


def exits(f):
    slices, d = [k for k in f.muts if k.slice], f.result.name
    told, _, lasts = f.told()
    said = " ".join(["said.Said"] + [k.name for k in told] + ([] if f.unit else ["r"]) + [k.name + "′" for k in lasts])
    binders = ([] if f.unit else ["(r : %s)" % f.result.denot]) + ["(%s′ : %s)" % (k.name, k.denot) for k in f.muts]
    hyps = ["length %s′ ≡ length %s" % (k.name, k.name) for k in slices] + ([] if f.unit else ["Good %s r" % d]) + ([said] if f.ensures else [])
    names = ([] if f.unit else ["r"]) + [k.name + "′" for k in f.muts] + ["same-" + k.name for k in slices]
    names += ([] if f.unit else ["good"]) + (["says"] if f.ensures else [])
    ws = pairs([k.name + "′" if k.mut else "tt" for k in f.kinds])
    goods = pairs(["g-" + k.name for k in f.kinds if not k.borrow])
    value, res = ("vunit", "units tt refl") if f.unit else ("(%s .val r)" % d, "%s r good" % d)
    law, last = {0: ("leaves-unsaid", ""), 1: ("leaves-with", " (%s) says" % said)}.get(f.ensures, ("leaves-saying", " %s says" % conses(["_"] * f.ensures)))
    arrows = " → ".join(([" ".join(binders)] if binders else []) + hyps + ["ent 𝓤 (⋆ 𝓤 H A (outs 𝓤 0 ps %s)) (Post %s)" % (ws, value)])
    return ("  exits : %s\n  %s = via 𝓤 _ (%s 𝓤 H A W ps %s %s %s%s)\n      (ends-at 𝓤 H A f.ended stayed %s W bound %s %s %s %s)" %
            (arrows, " ".join(["exits"] + names), law, ws, goods, res, last, CLAUSES, value, "tt" if f.unit else "r", ws,
             pairs(["same-" + k.name if k in slices else "tt" for k in f.kinds])))


def loop(w):
    """the state that a loop goes by; the context at a state, and a turn"""
    f, l = w.f, w.loop
    around = [k.name for k in f.kinds] + (["pre"] if f.requires else [])

    def fact(name, more=()):
        return " ".join(["facts." + name] + (around + list(more))[:(w.facts or {}).get(name)])
    pre = " (pre : %s)" % " ".join(["said.Pre"] + [k.name for k in f.asked()]) if f.requires else ""
    record = ["module _ %s%s where" % (" ".join("(%s : %s)" % (k.name, k.denot) for k in f.kinds), pre), "  record Loop : Type 0 where",
              "    state : " + fact("State")]
    record += ["    good-%s : Good %s (state .%s)" % (n, v.datum.name, n) for _, n, v in l["fields"]]
    record += ["    long-%s : length (state .%s) ≡ length %s" % (k.name, k.name, k.name) for k, _ in l["lists"] if k.slice]
    state = "  abbrev St : Type 0\n  St = %s\n\n  abbrev size : St → ℕ\n  size t = %s" % (" ".join(["Loop"] + around), fact("size", ["(t .state)"]))
    values = []
    for i in range(len(w.mir.locals(w.path))):
        v = l["start"].locals.get(i)
        one = "none" if v is None else "some (h-%s .val)" % v.of if v.of else "some (%s .val %s)" % (v.datum.name, atom(v.term))
        values.append("some (vstruct (vcons (h-%s .val) (vcons (usizes .val %s) vnil)))" % (v.holds, atom(v.term)) if v and v.holds else one)
    context = ["‵ (%s (%s %s) h-%s %s)" % (e.what.capitalize(), w.kind(e.of).kind, w.kind(e.of).row.type, e.of, atom(e.value)) for e in l["start"].entries]
    context.append("fr 𝓤 H (tysOf (mine.function .locals)) β (%s)" % " ∷ ".join(values + ["[]"]))
    turn = ("    module _ (β : ℕ → ℕ) where\n      abbrev E# : List (Ty × ℕ)\n      E# = envAt (tysOf (mine.function .locals)) β\n\n"
            "      abbrev Inv : St → List (Item 𝓤)\n      Inv t = %s\n\n"
            "      turn : (t : St) → Sq W (Inv t) (runs (𝓣 .C) (𝓣 .Λ) E# mir′.turn-1 (anyQ (afterTurn 𝓤 H (Below 𝓤 H A (by-size size) Inv t)\n"
            "          (afterBlock 𝓤 H (afterSeq 𝓤 H (Wp 𝓤 H (𝓣 .C) (𝓣 .Λ) E# mir′.t-%d (atReturn 𝓤 H E# Post)) (atReturn 𝓤 H E# Post))))))\n"
            "      unfolding afterTurn\n      turn t =%s\n\n" % (" ∷ ".join(context + ["[]"]), l["at"], l["turn"]))
    return "\n".join(record), state, turn


def of_ghost(f, y):
    """a function's parameters in lists and numbers, from what its triple binds"""
    return [atom("%s%s" % (atom(proj(y + " .0 .3", i)), " .now" if k.borrow else "")) for i, k in enumerate(f.kinds)]


def knows(w, g, size):
    """what is known of a callee: its contract, or where it is a member of the same cycle its contract at smaller sizes"""
    if not w.within(g):
        return "Triple 𝓤 (𝓣 .C #%s) %s" % (g.alias, contract(g))
    c = contract(g)
    return "(y : %s .Ghost) → %s < %s → ent 𝓤 (%s .pre y) (𝓣 .C #%s (%s .args y) (%s .post y))" % (c, w.size(g, of_ghost(g, "y")), size, c, g.alias, c, c)


def walk(w, used, typed, turn):
    known = "".join("\n      (known-%s : %s)" % (g.alias, knows(w, g, w.size(w.f, [k.name for k in w.f.kinds]))) for g in used)
    order = " move ! %s $" % conses(range(1, len(w.f.borrows) + 1)) if w.f.borrows else ""
    return ("  module _ (𝓣 : Tables 𝓤 H)%s where\n%s"
            "    walk : ent 𝓤 (onEntry 𝓤 H A f.signature (lfts ps) (shares ps) (denots 0 ps) (valss 0 ps)) (WpFn 𝓤 H (𝓣 .C) (𝓣 .Λ) mine.function (vals ps) Post)\n"
            "    walk = via 𝓤 (⋆ 𝓤 H A (ins 𝓤 ps)) (arrives 𝓤 H A W 0 ps) (qed W (ins 𝓤 ps) ∵\n"
            "        begins ! (𝓣 .C) (𝓣 .Λ) mine.function (vals ps) Post %s (λ β.%s%s))" % (known, turn, pairs(typed), order, w.steps))


def meets(w, used, vals, tells, go):
    f, n = w.f, len(w.f.borrows)
    a = {k.name: atom(proj("a", i)) for i, k in enumerate(f.kinds)}
    args = [atom(proj("κs", i)) for i in range(n)] + [atom(proj("qs", i)) for i in range(n)] + [a[k.name] for k in f.kinds]
    args += ["(%s .0 .1)" % proj("are", i) for i, k in enumerate(f.kinds) if k.slice]
    args += ["(%s)" % proj("are", i) for i, k in enumerate(f.kinds) if not k.borrow]
    args += [x for array in w.arrays.values() for x in ("(%s)" % array["all"], "refl")]
    call = " ".join(["walk 𝓤 H A W mem run"] + args + (["pre"] if f.requires else []) + ["𝓣"] + ["known-" + g.alias for g in used])
    if f.requires == 0:
        enters = "via 𝓤 _ (fst∗ 𝓤 _ (%s κs a .requires g)) (%s)" % (CLAUSES[1:-1], call)
    elif f.requires == 1:
        asked = ["(%s .now)" % a[k.name] if k.borrow else a[k.name] for k in f.asked()]
        enters = "needs 𝓤 (%s) _ (λ pre. %s)" % (" ".join(["said.Pre"] + asked), call)
    else:
        enters = "needs-all 𝓤 %s _ (λ pre. %s)" % (conses(["_"] * f.requires), call)
    if w.knot:
        return at_size(w, used, vals, tells, go, enters)
    known = "".join("\n    (known-%s : %s)" % (g.alias, knows(w, g, "")) for g in used)
    return ("module _ %s (𝓣 : Tables 𝓤 H)%s where\n  meets : Meets 𝓤 H A f.signature %s (f.spec 𝓤 H A mem run)\n"
            "  meets = walk-meets 𝓤 H A f.ended stayed W %s\n      %s %s (WpFn-mono 𝓤 H (W .laws) 𝓣 mine.function)\n"
            "      (walked 𝓤 H A f.ended stayed %s %s\n      (λ κs. %s)\n      (λ κs. %s)\n      (λ κs qs bounds a g are. %s))" %
            (HEAD, known, RUN, pairs(go), CLAUSES, RUN, CLAUSES, RUN, pairs(vals), pairs(tells), enters))


def at_size(w, used, vals, tells, go, enters):
    """a member of a cycle: its contract at one choice of what its triple binds, from those of members at smaller sizes"""
    size = w.size(w.f, of_ghost(w.f, "z"))
    known = "".join("\n    (known-%s : %s)" % (g.alias, knows(w, g, "")) for g in used if not w.within(g))
    inner = [g for g in used if w.within(g)]
    c = "tripleOf 𝓤 H A f.signature (f.spec 𝓤 H A mem run)"
    return ("module _ %s (𝓣 : Tables 𝓤 H)%s where\n  pub at-size : (z : %s .Ghost) → %sent 𝓤 (%s .pre z) (WpFn 𝓤 H (𝓣 .C) (𝓣 .Λ) mine.function (%s .args z) (%s .post z))\n"
            "  at-size z %s = let κs = z .0 .0 in let qs = z .0 .1 in let a = z .0 .3 in let g = z .1 in\n"
            "      walk-meets-at 𝓤 H A f.ended stayed W %s\n      %s %s (WpFn-mono 𝓤 H (W .laws) 𝓣 mine.function) z\n"
            "      (walked-at 𝓤 H A f.ended stayed %s %s z\n      %s\n      %s\n      (λ are. %s))" %
            (HEAD, known, c, "".join("(%s) → " % knows(w, g, size) for g in inner), c, c, c, " ".join("known-" + g.alias for g in inner),
             pairs(go), CLAUSES, RUN, CLAUSES, RUN, pairs(vals), pairs(tells), enters))


def spec(w, used):
    out = ("pub %s-spec : {M : Type 1} → stated.statement M\nunfolding mine.routine tablesOf\n%s-spec 𝓤 H 𝓜 𝓖 𝓡 =\n"
           "    by-walk 𝓤 H 𝓜 𝓡 mine.env #me mine.function (tripleOf 𝓤 H (𝓖 .A) f.signature (f.spec 𝓤 H (𝓖 .A) (𝓜 .mem) (𝓡 .run))) (mine.unfolded 𝓤 H 𝓜 𝓡)\n"
           "    (meets 𝓤 H (𝓖 .A) (givenOf 𝓤 H 𝓜 𝓖) (𝓜 .mem) (𝓡 .run) (tablesOf 𝓤 H 𝓜 (tables 𝓤 H 𝓜 𝓡 mine.env))" % (w.f.name, w.f.name))
    for g in used:
        p, _ = w.types.module(g.path, w.path)
        out += ("\n    (cited 𝓤 H %s 𝓜 𝓡 mine.env #%s %s-def.routine mine.calls-%s (%s-thm.met 𝓤 H 𝓜 𝓖 𝓡))" %
                (contract(g, "(𝓖 .A)", "(𝓜 .mem)", "(𝓡 .run)"), g.alias, g.alias, p.replace("::", "·").replace("_", "-"), g.alias))
    return out + ")"


def says(w):
    """whether there is a Said.antt"""
    return bool(w.needed or w.f.requires or w.f.ensures)


def made_by(w):
    parts = w.path.split("::")
    return "tools/walk %s %s" % (parts[0], "::".join(parts[1:]))


def proof(w):
    used = list(w.callees.values())
    stay, go, vals, tells, typed = by_parameter(w)
    out = [called(g) for g in used]
    out += ["bytes-%s : {n i : ℕ} → Room %s n → i < n → i * %s < 2 ^ 64\nbytes-%s {n} {i} room l = let h : n * %s < 2 ^ 63 = room .1 in omega (arith, h)" % (
        name, R, size, name, size) for name, (R, size) in w.elements.items()]
    out.append("abbrev stayed : Stays (f.ended .signature .params) (f.ended .kept)\nstayed = %s" % pairs(stay))
    record, state, turn = loop(w) if w.loop else ("", "", "")
    out += [record] if record else []
    out.append("\n\n".join([parameters(w)] + [lent(w, x) for x in ([state] if state else []) + [walk(w, used, typed, turn)]]))
    out += [meets(w, used, vals, tells, go)] + ([] if w.knot else [spec(w, used)])
    body = "\n\n".join(out) + "\n"
    base = w.types.own(w.path.split("::")[0], w.knot) if w.knot else None
    if w.knot:
        body = body.replace("mine.function", "mine.%s-function" % w.f.name)
    words = tokens(body)
    lines = ["-- `%s` meets its contract: a walk of its MIR, written by `%s`. By hand is Proof/%sFacts.antt alone." % (w.path, made_by(w), w.f.name + "/" if w.knot else "")]
    mine = w.types.module(w.path)[1]
    lines += (["mod Facts"] if w.needed else []) + (["mod Said"] if says(w) else [])
    for module, names in NAMES:
        here = [x for x in names if x in words or x.strip("_") in words]
        lines += ["use %s.{%s}" % (module, ", ".join(here))] if here else []
    for module in sorted(set(w.types.used.values())):
        names = sorted(n for n, m in w.types.used.items() if m == module and n in words)
        lines += ["use %s.{%s}" % (module, ", ".join(names))] if names else []
    lines += ["use denote.Struct.Laws as laws"] if "(laws." in body else []
    lines += ["use denote.Enum.Laws as enum-laws"] if "enum-laws." in body else []
    for name, module in sorted(w.enums.items()):
        lines += ["use %s as %s·" % (module, name)] if name + "·." in body else []
    for name, module in sorted(w.structs.items()):
        lines += ["use %s as %s#" % (module, name), "use %s.Laws as %s′" % (module, name)]
    for g in used:
        m = w.types.module(g.path, w.path)[1]
        if w.knot:
            lines += ["use %s as %s" % (m, g.alias), "use %s.%s.{name as #%s}" % (m, "Key" if w.within(g) else "Symbol", g.alias)]
            continue
        lines += ["use %s as %s" % (m, g.alias), "use %s.Symbol as %s-def" % (m, g.alias), "use %s.Symbol.{name as #%s}" % (m, g.alias),
                  "use %s.Met as %s-thm" % (m, g.alias)]
    if w.knot:
        lines += ["use %s as f" % mine, "use %s.Code as mine" % base, "use %s.Proof.Sizes as sizes" % base]
        lines += ["use %s.Code.%s as mir′" % (base, w.f.name.replace("-", "_"))] if w.loop else []
        inner = "%s.Proof.%s" % (base, w.f.name.replace("-", "_"))
    else:
        lines += ["use %s.Key.{name as #me}" % mine, "use %s as f" % mine, "use %s.Statement as stated" % mine, "use %s.Code as mine" % mine]
        lines += ["use %s.Code.Mir as mir′" % mine] if w.loop else []
        inner = mine + ".Proof"
    lines += ["use %s.%s as %s" % (inner, x, x.lower()) for x in ("Facts", "Said") if x.lower() + "." in body]
    return "\n".join(lines) + "\n\n" + body


class Names:
    """the names that clauses use; where two modules have one name, the second is written with a prime"""

    def __init__(self):
        self.modules, self.taken = {}, {}

    def use(self, module, name):
        if name not in self.modules.setdefault(module, []):
            self.modules[module].append(name)

    def clause(self, text, ghosts):
        """a clause's text, once the names in it are used"""
        words = tokens(text)
        for n in sorted(words | {"_%s_" % x for x in words}):
            if n not in ghosts:
                continue
            module, decl = ghosts[n]
            short = n if n.startswith("_") else n.split(".")[-1]
            if self.taken.setdefault(short, (module, decl)) != (module, decl):
                decl, short = "%s as %s′" % (decl.split(" as ")[0], short), short + "′"
            self.use(module, decl)
            if short != n:
                text = re.sub(r"(?<![^\s(])%s(?![^\s),])" % re.escape(n), short, text)
        return text

    def lines(self):
        return ["use %s.{%s}" % (m, ", ".join(self.modules[m])) for m in sorted(self.modules)]


def abbreviation(name, kinds, result, lasts, clauses, g, names, w):
    """a function's clauses of one kind, in pairs to the right, as a fact of what they speak of"""
    text = clauses[-1].text
    for c in reversed(clauses[:-1]):
        text = "(%s) × (%s)" % (c.text, text)
    text = names.clause(text, w.types.source.ghosts(g.path, w.path.split("::")[0]))
    r = next((c.result for c in clauses if c.result and c.result != "_"), "r")
    args = [k.source for k in kinds] + ([r] if result else []) + [k.source + "′" for k in lasts]
    types = [k.denot for k in kinds] + ([g.result.denot] if result else []) + [k.denot for k in lasts]
    return "abbrev pub %s : %s\n%s = %s" % (name, " → ".join(types + ["Type 0"]), " ".join([name] + args), text)


def said(w):
    out, names = [], Names()
    for g, asks, told in [(w.f, "Pre", "Said")] + [(g, g.name + "-asks", g.name + "-says") for g in w.callees.values()]:
        if g.requires:
            out.append(abbreviation(asks, g.asked(), False, [], g.signature.requires, g, names, w))
        if g.ensures:
            out.append(abbreviation(told, *g.told(), g.signature.ensures, g, names, w))
    body = "\n\n".join(out) + "\n"
    words = tokens(body)
    for module, known in NAMES:
        for n in [x for x in known if x in ("ℕ", "ℤ", "List", "Bool") and x in words]:
            names.use(module, n)
    for n, module in w.types.used.items():
        if n in words:
            names.use(module, n)
    lines = ["-- What `%s` and the functions that it calls ask and say, in lists and numbers: x is behind a reference at first, x′ at last." % w.path,
             "-- Written by `%s`." % made_by(w)]
    return "\n".join(lines + names.lines()) + "\n\n" + body


def skeleton(w):
    """Facts.antt, with a hole for each fact"""
    def plain(text, way):
        for h in way:
            if h.term != h.name and h.term in text:
                text = text.replace(h.term, h.name)
        return text.replace("t .state .", "t .").replace("facts.", "")
    root = {"facts": [], "next": {}}
    for name, way, what in w.needed:
        node = root
        for i, h in enumerate(way):
            node = node["next"].setdefault((h.name, plain(h.type, way[:i])), {"facts": [], "next": {}})
        node["facts"].append((name, plain(what, way)))
    out = []

    def go(node, ind):
        for name, what in node["facts"]:
            out.append("%spub %s : %s\n%s%s = ?" % (" " * ind, name, what, " " * ind, name))
        for (name, type_), child in node["next"].items():
            header = ["(%s : %s)" % (name, type_)]
            while not child["facts"] and len(child["next"]) == 1:
                (name, type_), child = next(iter(child["next"].items()))
                header.append("(%s : %s)" % (name, type_))
            out.append("%smodule _ %s where" % (" " * ind, " ".join(header)))
            go(child, ind + 2)
    go(root, 0)
    return "\n\n".join(out)
