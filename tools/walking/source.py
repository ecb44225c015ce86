"""What the sources say: signatures, contracts, structs, and by which path a crate names what is another's."""
import glob
import os
import re


def split(text):
    """at commas that stand in no brackets"""
    out, depth, cur = [], 0, ""
    for c in text:
        depth += (c in "([<{") - (c in ")]>}")
        if c == "," and depth == 0:
            out.append(cur)
            cur = ""
        else:
            cur += c
    return [x.strip() for x in out + [cur] if x.strip()]


def groups(text):
    """the parts in parentheses, at the top"""
    out, depth, start = [], 0, 0
    for i, c in enumerate(text):
        if c == "(":
            depth += 1
            start = i + 1 if depth == 1 else start
        elif c == ")":
            depth -= 1
            if depth == 0:
                out.append(text[start:i])
    return out


def bound(body):
    """the names that a function's `let`s bind, in their order"""
    out = []
    for m in re.finditer(r"\blet (?:mut )?(?:([a-z_]\w*)|[A-Z][\w:]*\s*[({]([^)}]*)[)}])", body):
        out += [m.group(1)] if m.group(1) else [x.strip() for x in m.group(2).split(",") if x.strip() not in ("", "_", "..")]
    return out


def tokens(text):
    return set(re.split(r"[\s(),{};]+", text))


class Clause:
    """a clause in lists and numbers: x for what is behind a reference at first, x′ at last; r-script and r-at of a reader r"""

    def __init__(self, text):
        m = re.match(r"\s*(?:λ\s*(\S+?)\.\s*)?⌜(.*)⌝\s*$", text, re.S)
        if not m:
            raise SystemExit("walk: a clause that is not one fact: " + text)
        self.result = m.group(1)
        text = " ".join(m.group(2).split())
        text = re.sub(r"\(now \((\w+) \.entry \.script\)\)", r"\1-script", re.sub(r"\((\w+) \.entry \.at\)", r"\1-at", text))
        text = re.sub(r"\(now \((\w+) \.entry\)\)|now \((\w+) \.entry\)", lambda x: x.group(1) or x.group(2), text)
        text = re.sub(r"\(now \((\w+) \.exit\)\)|now \((\w+) \.exit\)", lambda x: (x.group(1) or x.group(2)) + "′", text)
        self.text = re.sub(r"\(now (\w+)\)|now (\w+)", lambda x: x.group(1) or x.group(2), text)


class Signature:
    def __init__(self, params, result, requires, ensures, lets):
        self.params, self.result, self.requires, self.ensures, self.lets = params, result, requires, ensures, lets


class Source:
    def __init__(self, root):
        self.root, self.crates = root, {}

    def modules(self, crate):
        if crate not in self.crates:
            base, out = os.path.join(self.root, "crates", crate, "src"), {}
            for path in glob.glob(base + "/**/*.rt", recursive=True):
                parts = os.path.relpath(path, base)[:-3].split(os.sep)
                out["::".join([crate] + [p for p in parts if p not in ("lib", "main")])] = open(path, encoding="utf-8").read()
            self.crates[crate] = out
        return self.crates[crate]

    def module(self, path):
        return self.modules(path.split("::")[0]).get(path.rsplit("::", 1)[0], "")

    def find(self, path, pattern):
        m = re.search(pattern % re.escape(path.rsplit("::", 1)[1]), self.module(path), re.S | re.M)
        if not m:
            raise SystemExit("walk: %s is not found" % path)
        return m

    def signature(self, path):
        m = self.find(path, r'^(?:pub )?(?:extern "C" )?fn %s(?:<[^>(]*>)?\s*\((.*?)\)\s*(?:->\s*([^\n{]+?))?\s*((?:\n|\{).*?)^\}')
        params = [tuple(x.strip() for x in p.replace("mut ", "", p.startswith("mut ")).split(":", 1)) for p in split(m.group(1))]
        clauses, _, body = ("\n" + m.group(3)).partition("\n{")
        texts = re.findall(r"^\s*(requires|ensures)(?: \w+)? \{(.*?)\}\s*?$(?=\n\s*(?:requires|ensures)(?: \w+)? \{|\s*\Z)", clauses, re.S | re.M)
        return Signature(params, m.group(2) or "()", [Clause(t) for k, t in texts if k == "requires"], [Clause(t) for k, t in texts if k == "ensures"],
                         bound(body))

    def fields(self, path):
        m = self.find(path, r"^(?:pub )?struct %s \{(.*?)^\}")
        return [(n, t.strip()) for n, t in re.findall(r"^\s*(?:pub )?(\w+): ([^\n]+?),?$", m.group(1), re.M)]

    def variants(self, path):
        """an enum's variants with the number of fields of each; none of a struct"""
        m = re.search(r"^(?:pub )?enum %s \{(.*?)^\}" % path.rsplit("::", 1)[1], self.module(path), re.S | re.M)
        out = []
        for name, fields in re.findall(r"^    (\w+)\s*(\(.*?\)|\{.*?\n    \})?,?\s*$", m.group(1), re.S | re.M) if m else []:
            out.append((name, len(split(fields[1:-1]))))
        return out

    def repeated(self, path, name):
        """the type of 0 in a function's `let name = [0u32; n]`"""
        m = self.find(path, r'^(?:pub )?(?:extern "C" )?fn %s\s*\(.*?^\}')
        m = re.search(r"let (?:mut )?%s = \[\d+([ui]\w+); " % name, m.group(0))
        return m.group(1) if m else ""

    def facade(self, path, caller=None):
        """the path by which another crate names an item: the caller's `use`, the item's own, or the `pub use` where a module of it is private"""
        parts = path.split("::")
        m = re.search(r"^use (%s::(?:\w+::)*%s);" % (parts[0], parts[-1]), self.module(caller), re.M) if caller else None
        if m:
            return m.group(1)
        for i in range(1, len(parts) - 1):
            text = self.modules(parts[0]).get("::".join(parts[:i]), "")
            if not re.search(r"^pub mod %s;" % parts[i], text, re.M) and re.search(r"^pub use %s;" % "::".join(parts[i:]), text, re.M):
                return "::".join(parts[:i] + [parts[-1]])
        return path

    def ghosts(self, path, crate):
        """the names that contracts in an item's module may use, with where each is from, as a crate's proofs write it"""
        own = path.split("::")[0]
        out = self.declared(path, crate)
        for module, names in re.findall(r"^ghost use ([^\s{]+)\.\{(.*?)\};", self.module(path), re.M):
            if own != crate:
                module = module.replace("Rattle·%s·specs.specs." % own, "Rattle·%s.specs." % own)
            for n in names.split(","):
                out[n.strip().split(" as ")[-1]] = (module, n.strip())
        return out

    def declared(self, path, crate):
        """the declared types in a module's scope, and the variants of its enums, which a contract writes as Enum.Variant"""
        text, out = self.module(path), {}
        names = {n: path.split("::")[0] for n in re.findall(r"^(?:pub )?(?:struct|enum) (\w+)", text, re.M)}
        for p in re.findall(r"^use ((?:\w+::)+[A-Z]\w*);", text, re.M):
            owner = p.split("::")[0]
            names[p.split("::")[-1]] = path.split("::")[0] if owner in ("super", "crate", "self") else owner
        for name, owner in names.items():
            for module, source in self.modules(owner).items():
                m = re.search(r"^(?:pub )?(?:struct|enum) %s \{(.*?)^\}" % name, source, re.M | re.S)
                if m:
                    base = "Rattle·%s%s.declared.%s" % (owner, "·specs.specs" if owner == crate else ".specs", ".".join(module.split("::")[1:] + [name]))
                    out[name] = (base, name)
                    for v in re.findall(r"^    ([A-Z]\w*)", m.group(1), re.M):
                        out["%s.%s" % (name, v)] = (base + ".the-variants", v)
        return out

    def cycle(self, crate, name):
        """the folder of the cycle of calls that a function is a member of, where its proof is by hand"""
        for path in glob.glob(os.path.join(self.root, "crates", crate, "proofs", "+*")):
            knot = os.path.basename(path)
            if name in knot.split("+") and os.path.exists(os.path.join(path, "Proof", "Sizes.antt")):
                return knot
        return None

    def listed(self):
        """for each crate those that its line in crates.txt names"""
        text = open(os.path.join(self.root, "crates.txt"), encoding="utf-8").read()
        return {n: d.split() for n, d in re.findall(r"^(\w+):(.*)$", text, re.M)}

    def standing(self, crate):
        """the crates that a crate stands on"""
        below = self.listed()
        out, todo = set(), [crate]
        while todo:
            for x in below.get(todo.pop(), []):
                if x not in out:
                    out.add(x)
                    todo.append(x)
        return out


def facts_in(path):
    """how many parameters the modules around each name of a Facts.antt have; none where there is no such file"""
    if not os.path.exists(path):
        return None
    text = re.sub(r"--.*", "", open(path, encoding="utf-8").read())
    found, around = {}, []
    for m in re.finditer(r"^( *)(?:module _ (.*?)\bwhere\s*$|(?:abbrev )?pub (?:record )?(\S+))", text, re.S | re.M):
        depth = len(m.group(1))
        around = [x for x in around if x[0] < depth]
        if m.group(3):
            found[m.group(3)] = sum(n for _, n in around)
        else:
            around.append((depth, sum(len(b.partition(" : ")[0].split()) for b in groups(m.group(2)))))
    return found
