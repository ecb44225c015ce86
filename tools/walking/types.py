"""The types of parameters, as the laws of `walks` name them. MIR has the paths of declared types, the source the signs of numbers."""
import glob
import os
import re

from walking.names import NAMES
from walking.source import tokens

BUILTIN = {"usize": "usizes", "u64": "usizes", "u32": "words32", "u16": "words16", "i32": "ints32", "bool": "bools", "()": "units"}
WIDTH = {"usizes": 64, "words32": 32, "words16": 16}
OF_WIDTH = {"64": "usizes", "32": "words32", "16": "words16"}
DENOTATION = {"usizes": "ℕ", "words32": "ℕ", "words16": "ℕ", "ints32": "ℤ", "bools": "Bool"}


# what the walk calls its own
TAKEN = {"run", "mem", "walk", "walks", "meets", "exits", "stayed", "bound", "ps", "f", "mine", "stated", "facts", "said", "laws", "fm", "turn", "size", "pre"}


def taken(name):
    return name in TAKEN or any(name in names for _, names in NAMES)


def safe(name):
    """a name of the source: not one of the laws' or of the walk's"""
    name = name.replace("_", "-")
    return name + "₀" if taken(name) else name


class Datum:
    """plain data; `path` is that of a declared type"""

    def __init__(self, name, path=None):
        self.name, self.path = name, path
        self.denot = DENOTATION.get(name, "%s .type .Denot" % name)


class Row:
    """what is behind a reference: its type, its denotation, and how a signature writes it"""

    def __init__(self, type_, denot, plain, datum=None):
        self.type, self.denot, self.plain, self.datum = type_, denot, plain, datum


class Kind:
    """a parameter: `dat`, or a borrow, as `Loans` names the four kinds"""

    def __init__(self, source, name, kind, datum=None, row=None):
        self.source, self.name, self.kind, self.datum, self.row = source, name, kind, datum, row
        self.borrow, self.mut, self.slice = kind != "dat", kind.startswith("mut"), kind.endswith("Slice")
        self.denot = row.denot if row else datum.denot


class Types:
    def __init__(self, root, crate, source):
        self.crate, self.source, self.used, self.rows = crate, source, {}, {}
        below, listed = source.standing(crate) | {crate}, source.listed()[crate]
        paths = [(p.split(os.sep)[-3], p) for p in glob.glob(os.path.join(root, "crates/*/proofs/*.antt"))]
        # what the crate names itself goes before what stands further down
        for owner, path in sorted(paths, key=lambda x: (x[0] not in listed, x)):
            if owner in below:
                self.declare(owner, os.path.basename(path)[:-5], open(path, encoding="utf-8").read())

    def declare(self, owner, module, text):
        """data types that a file of proofs makes of declared ones"""
        uses = {alias: m.replace("·proofs.proofs.", ".proofs.") for m, alias in re.findall(r"^use (\S+) as (\S+)$", text, re.M)}
        for name, alias in re.findall(r"^(\w+) = (?:structs|enums) (\S+)\.the-type", text, re.M):
            if uses[alias] not in self.rows or owner == self.crate:
                self.rows[uses[alias]] = (name, owner, module)

    def own(self, owner, tail):
        return "Rattle·%s%s.%s" % (owner, "·proofs.proofs" if owner == self.crate else ".proofs", tail)

    def module(self, path, caller=None):
        """a declared item's own module, and the path that names it"""
        crate = path.split("::")[0]
        p = path if crate == self.crate else self.source.facade(path, caller)
        return p, self.own(crate, ".".join(p.split("::")[1:]))

    def declared(self, path):
        for p in (self.source.facade(path), path):
            key = "Rattle·%s.proofs.%s" % (p.split("::")[0], ".".join(p.split("::")[1:]))
            if key in self.rows:
                name, owner, module = self.rows[key]
                self.used[name] = self.own(owner, module)
                return Datum(name, path)
        raise SystemExit("walk: no data type for %s; make one with `structs` or `enums` in proofs/Rows.antt" % path)

    def variants(self, path):
        """the module of an enum's variants"""
        return self.source.declared(path, self.crate)[path.split("::")[-1]][0] + ".the-variants"

    def cases(self, datum):
        """the law that goes by cases on an enum, beside its data type"""
        name = "by-" + datum.path.split("::")[-1].lower()
        self.used[name] = self.used[datum.name]
        return name

    def datum(self, text, mir):
        if text in BUILTIN:
            return Datum(BUILTIN[text])
        if isinstance(mir, list) and mir[0] == "tyNamed":
            return self.declared(mir[1][1])
        raise SystemExit("walk: no data type for " + text)

    def reader(self, name):
        """a reader: the slice that it holds, and its position"""
        return [Kind(name + "-script", name + "-script", "shrSlice", row=self.element("u8", None)), Kind(name + "-at", name + "-at", "dat", datum=Datum("usizes"))]

    def element(self, text, mir):
        if isinstance(mir, list) and mir[0] == "tyNamed":
            d = self.declared(mir[1][1])
            return Row("(%s .type)" % d.name, "List (%s)" % d.denot, "plain (λ _. %s .type)" % d.name, d)
        return Row(text, "List " + ("ℤ" if text[0] == "i" else "ℕ"), "plain (λ _. %s)" % text, Datum(BUILTIN[text]) if text in BUILTIN else None)

    def kind(self, name, text, mir):
        m = re.match(r"&(mut )?\[(.*)\]$", text)
        if not m:
            return Kind(name, safe(name), "dat", datum=self.datum(text, mir))
        mode = "mut" if m.group(1) else "shr"
        if ";" not in m.group(2):
            return Kind(name, safe(name), mode + "Slice", row=self.element(m.group(2), mir[2][1][3]))
        elem, size = [x.strip() for x in m.group(2).split(";")]
        row = self.element(elem, mir[3][1])
        return Kind(name, safe(name), mode + "Ref", row=Row("(Array %s tt %s)" % (row.type, size), row.denot, "arrayOf (%s) %s" % (row.plain, size)))


class Function:
    """a function's signature, with its contract in lists and numbers"""

    def __init__(self, path, mir, types):
        self.path = path
        self.signature = s = types.source.signature(path)
        tys = mir.locals(path)
        # a function of a reader has no other parameter
        self.held = [t for _, t in s.params] == ["Reader<'a>"]
        self.kinds = types.reader(s.params[0][0]) if self.held else [types.kind(n, t, tys[i + 1]) for i, (n, t) in enumerate(s.params)]
        self.borrows = [k for k in self.kinds if k.borrow]
        self.muts = [k for k in self.kinds if k.mut]
        self.result = types.datum(s.result, tys[0])
        self.unit = self.result.name == "units"
        self.lets = s.lets
        self.requires, self.ensures = len(s.requires), len(s.ensures)
        self.name = path.split("::")[-1].replace("_", "-")
        self.alias = self.name + "′" if taken(self.name) else self.name

    def asked(self):
        """the parameters that its `requires` speak of"""
        words = self.words(self.signature.requires)
        return [k for k in self.kinds if k.source in words]

    def told(self):
        """what its `ensures` speak of: parameters; whether of the result; last values"""
        words = self.words(self.signature.ensures)
        return [k for k in self.kinds if k.source in words], not self.unit, [k for k in self.muts if k.source + "′" in words]

    def words(self, clauses):
        return tokens(" ".join(c.text for c in clauses))
