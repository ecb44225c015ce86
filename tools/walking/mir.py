"""The MIR of a crate, as nested lists: `rt mir CRATE` prints one term."""
import re
import subprocess


def parse(text):
    stack = [[]]
    for t in re.findall(r'"[^"]*"|[()]|[^\s()]+', text):
        if t == "(":
            stack.append([])
        elif t == ")":
            done = stack.pop()
            stack[-1].append(done)
        else:
            stack[-1].append(t.strip('"'))
    return stack[0]


def items(x):
    """the elements of a list that is written with constructors"""
    out = []
    while isinstance(x, list):
        out.append(x[1])
        x = x[2]
    return out


def statements(body):
    out = []
    while isinstance(body, list) and body[0] == "seq":
        out.append(body[1])
        body = body[2]
    return out + [body]


def arms(x):
    """the arms of a `switch`, each with its keys and statements"""
    out = []
    while isinstance(x, list) and x[0] == "arm":
        out.append((items(x[1]), statements(x[2])))
        x = x[3]
    return out


def mentions(x, number):
    """whether a local is used"""
    if not isinstance(x, list):
        return False
    return (len(x) > 1 and x[0] == "place" and x[1] == str(number)) or any(mentions(y, number) for y in x)


def written(body):
    """the locals that are written in a loop"""
    out = set()
    for s in body:
        if s[0] == "assign":
            out.add(int(s[1][1]))
        elif s[0] == "call":
            out.add(int(s[3][1]))
        elif s[0] == "if":
            out |= written(statements(s[2])) | written(statements(s[3]))
        elif s[0] == "switch":
            out |= {i for _, a in arms(s[2]) for i in written(a)}
    return out


def lent(body):
    """the locals of which, or of what they point to, an address is taken"""
    return {int(s[2][1][1]) for s in body if s[0] == "assign" and s[2][0] == "addrOf"}


def is_element(body):
    """an index times a size, the pointer so far on, and what is read or written there"""
    return (len(body) > 2 and all(isinstance(s, list) and s[0] == "assign" for s in body[:3])
            and body[1][2][0] == "op2" and body[1][2][1] == "offset")


class Mir:
    def __init__(self, root, crate):
        text = subprocess.run(["rt", "mir", crate], cwd=root, capture_output=True, text=True).stdout
        if "program (" not in text:
            raise SystemExit("walk: rt mir %s: %s" % (crate, text.strip()))
        self.functions = {f[1]: f[2] for f in items(parse(text[text.index("program ("):])[1]) if f[0] == "fn-def"}

    def locals(self, path):
        return [x[1] for x in items(self.functions[path][4])]

    def body(self, path):
        return statements(self.functions[path][5])
