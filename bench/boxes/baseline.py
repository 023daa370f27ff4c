#!/usr/bin/env python3
"""Box questions on shifts of finite type, by MiniSat, or by CaDiCaL where SOLVER says so: a plain baseline. It reads the language of docs/guide.md, answers %member,
%contains, %equal and %empty, and writes the answer lines alone."""
import itertools, re, subprocess, sys, tempfile, os

TOKEN = re.compile(r"\s+|--[^\n]*|(?P<t>[a-z]+|0|[1-9][0-9]*|-[1-9][0-9]*|<->|->|!=|[AE%()\[\].=!&|~@:])")
OPP = lambda d: tuple(-x for x in d)
SQ = {"up": (0, 1, 0), "dn": (0, -1, 0), "rt": (1, 0, 0), "lt": (-1, 0, 0)}
DIAG = {"ne": (1, 1, 0), "nw": (-1, 1, 0), "se": (1, -1, 0), "sw": (-1, -1, 0)}
KINDS = {
    "line": (1, {"rt": (1, 0, 0), "lt": (-1, 0, 0)}),
    "square": (2, SQ),
    "king": (2, {**SQ, **DIAG}),
    "triangle": (2, {**SQ, "ne": (1, 1, 0), "sw": (-1, -1, 0)}),
    "cube": (3, {"rt": (1, 0, 0), "lt": (-1, 0, 0), "up": (0, 1, 0), "dn": (0, -1, 0), "fw": (0, 0, 1), "bk": (0, 0, -1)}),
}


def tokens(text):
    at, out = 0, []
    while at < len(text):
        m = TOKEN.match(text, at)
        assert m, "syntax at %d" % at
        if m.group("t"):
            out.append(m.group("t"))
        at = m.end()
    return out


class Script:
    def __init__(self, text):
        self.dim, self.nodes, self.symbols = 2, None, ["0", "1"]
        self.edges, self.radius, self.period = None, 4, 4
        self.rules, self.confs, self.queries = {}, {}, []
        parts, cur = [], []
        for t in tokens(text):
            if t == "%":
                cur = []
                parts.append(cur)
            else:
                cur.append(t)
        for p in parts:
            self.command(p[0], p[1:])

    def topology(self):
        if self.edges is None:
            self.kind({1: "line", 2: "square", 3: "cube"}[self.dim])

    def kind(self, k):
        if k == "hex":
            self.nodes = self.nodes or ["0", "1"]
            self.edges = {}
            for l, d in (("a", (0, 0, 0)), ("b", (-1, 0, 0)), ("c", (0, -1, 0))):
                self.edges[l, 0] = (d, 1)
                self.edges[l, 1] = (OPP(d), 0)
        else:
            self.nodes = self.nodes or ["0"]
            self.edges = {(l, 0): (d, 0) for l, d in KINDS[k][1].items()}

    def command(self, head, args):
        if head == "dim":
            self.dim = int(args[0])
        elif head == "nodes":
            self.nodes = args
        elif head == "alphabet":
            self.symbols = args
        elif head == "topology" and args[0] != "(":
            self.kind(args[0])
        elif head == "topology":
            self.nodes = self.nodes or ["0"]
            self.edges = {}
            while args:
                end = args.index(")")
                e = args[1:end]
                args = args[end + 1:]
                close = e.index("]")
                off = tuple([int(x) for x in e[3:close]] + [0] * (3 - (close - 3)))
                self.edges[e[0], self.nodes.index(e[1])] = (off, self.nodes.index(e[close + 1]))
        elif head == "limits":
            self.radius, self.period = int(args[0]), int(args[1])
        elif head == "weights":
            pass
        else:
            self.topology()
            if head == "rule":
                f, rest = Formula(self, args[1:]).parse()
                self.rules[args[0]] = Rule(self, f)
            elif head == "conf":
                close = args.index("]")
                self.confs[args[0]] = ([int(x) for x in args[2:close]] + [1] * (3 - (close - 2)), [self.symbols.index(x) for x in args[close + 1:]])
            else:
                self.queries.append((head, args))


class Formula:
    """A recursive descent parser; formulas are tuples."""
    def __init__(self, s, toks):
        self.s, self.t, self.i = s, toks, 0

    def peek(self):
        return self.t[self.i] if self.i < len(self.t) else None

    def take(self):
        self.i += 1
        return self.t[self.i - 1]

    def parse(self):
        f = self.iff(("o",))
        return f, self.t[self.i:]

    def iff(self, sc):
        f = self.implies(sc)
        while self.peek() == "<->":
            self.take()
            f = ("iff", f, self.implies(sc))
        return f

    def implies(self, sc):
        f = self.many("|", "or", lambda: self.many("&", "and", lambda: self.unary(sc)))
        if self.peek() == "->":
            self.take()
            return ("or", [("not", f), self.implies(sc)])
        return f

    def many(self, sign, tag, part):
        fs = [part()]
        while self.peek() == sign:
            self.take()
            fs.append(part())
        return fs[0] if len(fs) == 1 else (tag, fs)

    def unary(self, sc):
        t = self.peek()
        if t == "!":
            self.take()
            return ("not", self.unary(sc))
        if t in ("A", "E"):
            self.take()
            v = self.take()
            self.take()
            balls = []
            while self.peek() != "]":
                m = self.take()
                balls.append((m, int(self.take())))
            self.take()
            return ("all" if t == "A" else "some", v, balls, self.unary(sc + (v,)))
        if t == "(":
            self.take()
            f = self.iff(sc)
            assert self.take() == ")"
            return f
        return self.atom(sc)

    def term(self):
        v, moves = self.take(), []
        while self.peek() == ".":
            self.take()
            moves.append(self.take())
        return (v, moves)

    def atom(self, sc):
        a = self.term()
        op = self.take()
        if op in ("=", "!="):
            w = self.peek()
            if w[0].isdigit() or (w not in sc and not (self.i + 1 < len(self.t) and self.t[self.i + 1] == ".")):
                self.take()
                return (op + "s", a, self.s.symbols.index(w))
            return (op + "t", a, self.term())
        if op == ":":
            return (":", a, self.s.nodes.index(self.take()))
        return (op, a, self.term())


class Rule:
    def __init__(self, s, f):
        self.s, self.f = s, f
        self.tree = [self.expand(f, {"o": ((0, 0, 0), a)}) for a in range(len(s.nodes))]
        self.reads = [set(self.leaves(t)) for t in self.tree]

    def leaves(self, t):
        if t[0] == "leaf":
            yield t[1]
        elif t[0] == "not":
            yield from self.leaves(t[1])
        elif t[0] in ("and", "or", "iff"):
            for p in t[1]:
                yield from self.leaves(p)

    def neighbours(self, c):
        (p, a) = c
        for (l, frm), (d, to) in self.s.edges.items():
            if frm == a:
                yield (tuple(x + y for x, y in zip(p, d)), to)
            if to == a:
                yield (tuple(x - y for x, y in zip(p, d)), frm)

    def ball(self, c, r):
        b = {c}
        for _ in range(r):
            b |= {n for c in b for n in self.neighbours(c)}
        return b

    def cell(self, term, env):
        p, a = env[term[0]]
        for l in term[1]:
            e = self.s.edges.get((l, a))
            if e is None:
                return None
            p, a = tuple(x + y for x, y in zip(p, e[0])), e[1]
        return (p, a)

    def expand(self, f, env):
        k = f[0]
        if k == "not":
            return ("not", self.expand(f[1], env))
        if k in ("and", "or"):
            return (k, [self.expand(g, env) for g in f[1]])
        if k == "iff":
            return ("iff", [self.expand(f[1], env), self.expand(f[2], env)])
        if k in ("all", "some"):
            cells = set()
            for v, r in f[2]:
                cells |= self.ball(env[v], r)
            cells = sorted(cells, key=lambda c: (c[0][::-1], c[1]))
            return ("and" if k == "all" else "or", [self.expand(f[3], {**env, f[1]: c}) for c in cells])
        a = self.cell(f[1], env)
        b = f[2] if k[-1] == "s" or k == ":" else self.cell(f[2], env)
        if a is None or b is None:
            return ("const", False)
        if k == "=s":
            return ("leaf", a, b)
        if k == "!=s":
            return ("not", ("leaf", a, b))
        if k in ("=t", "!=t"):
            e = ("or", [("and", [("leaf", a, s), ("leaf", b, s)]) for s in range(len(self.s.symbols))])
            return e if k == "=t" else ("not", e)
        if k == "~":
            return ("const", b in set(self.neighbours(a)))
        if k == "@":
            return ("const", a == b)
        return ("const", a[1] == b)

    def holds(self, t, look):
        k = t[0]
        if k == "leaf":
            return look(t[1]) == t[2]
        if k == "const":
            return t[1]
        if k == "not":
            return not self.holds(t[1], look)
        if k == "iff":
            return self.holds(t[1][0], look) == self.holds(t[1][1], look)
        return (all if k == "and" else any)(self.holds(p, look) for p in t[1])


class Clauses:
    def __init__(self):
        self.n, self.list, self.inputs = 0, [], {}

    def cells(self, cells, symbols):
        for c in cells:
            vs = [self.new() for _ in range(symbols)]
            self.inputs[c] = vs
        for vs in list(self.inputs.values()):
            self.list.append(vs)
            self.list += [[-a, -b] for a, b in itertools.combinations(vs, 2)]

    def new(self):
        self.n += 1
        return self.n

    def gate(self, t, at):
        k = t[0]
        if k == "leaf":
            return self.inputs[at(t[1])][t[2]]
        if k == "not":
            return -self.gate(t[1], at)
        if k == "const":
            g = self.new()
            self.list.append([g] if t[1] else [-g])
            return g
        ls = [self.gate(p, at) for p in t[1]]
        g = self.new()
        if k == "iff":
            a, b = ls
            self.list += [[-g, -a, b], [-g, a, -b], [g, a, b], [g, -a, -b]]
        elif k == "and":
            self.list += [[-g, l] for l in ls] + [[g] + [-l for l in ls]]
        else:
            self.list += [[g, -l] for l in ls] + [[-g] + ls]
        return g

    def solve(self):
        with tempfile.TemporaryDirectory() as d:
            with open(d + "/in", "w") as f:
                f.write("p cnf %d %d\n" % (self.n, len(self.list)))
                for c in self.list:
                    f.write(" ".join(map(str, c)) + " 0\n")
            if os.environ.get("SOLVER") == "cadical":
                said = subprocess.run(["cadical", "-q", d + "/in"], stdout=subprocess.PIPE, text=True).stdout.split()
                return {int(x) for x in said if x.lstrip("-").isdigit()} if "SATISFIABLE" in said else None
            subprocess.run(["minisat", "-verb=0", d + "/in", d + "/out"], stdout=subprocess.DEVNULL)
            out = open(d + "/out").read().split()
        return {int(x) for x in out[1:]} if out[0] == "SAT" else None


def add(p, c):
    return (tuple(x + y for x, y in zip(p, c[0])), c[1])


def question(s, x, y):
    """Premise x; goal: y is broken, or always where y is None. ('YES', n), ('NO', periods, symbols) or ('UNKNOWN',)"""
    nodes = range(len(s.nodes))
    n0 = 0 if y is None else max([0] + [abs(v) for a in nodes for c in y.reads[a] for v in c[0]])
    for n in range(n0, max(s.radius, n0) + 1):
        side = [range(-n, n + 1) if i < s.dim else [0] for i in range(3)]
        region = [((px, py, pz), a) for pz in side[2] for py in side[1] for px in side[0] for a in nodes]
        inside, cl = set(region), Clauses()
        cl.cells(region, len(s.symbols))
        for (p, a) in region:
            if all(add(p, c) in inside for c in x.reads[a]):
                cl.list.append([cl.gate(x.tree[a], lambda c: add(p, c))])
        if y is not None:
            cl.list.append([-cl.gate(y.tree[a], lambda c: c) for a in nodes])
        if cl.solve() is None:
            return ("YES", n)
    ranges = [range(1, s.period + 1) if i < s.dim else [1] for i in range(3)]
    tori = [(q, shear) for q in itertools.product(*ranges) for shear in range(q[0] if s.dim > 1 else 1)]
    for q, shear in sorted(tori, key=lambda torus: (torus[0][0] * torus[0][1] * torus[0][2], torus)):
        region = [((px, py, pz), a) for pz in range(q[2]) for py in range(q[1]) for px in range(q[0]) for a in nodes]
        mod = lambda c: (((c[0][0] - c[0][1] // q[1] * shear) % q[0], c[0][1] % q[1], c[0][2] % q[2]), c[1])
        cl = Clauses()
        cl.cells(region, len(s.symbols))
        for (p, a) in region:
            cl.list.append([cl.gate(x.tree[a], lambda c: mod(add(p, c)))])
        if y is not None:
            cl.list.append([-cl.gate(y.tree[a], mod) for a in nodes])
        found = cl.solve()
        if found is not None:
            return ("NO", list(q[:s.dim]) + ["shear", shear] * (shear > 0), [k for c in region for k, v in enumerate(cl.inputs[c]) if v in found])
    return ("UNKNOWN",)


def answer(s, head, args):
    if head == "member":
        (q, symbols), x = s.confs[args[0]], s.rules[args[1]]
        nodes = range(len(s.nodes))
        region = [((px, py, pz), a) for pz in range(q[2]) for py in range(q[1]) for px in range(q[0]) for a in nodes]
        where = {c: v for c, v in zip(region, symbols)}
        for (p, a) in region:
            look = lambda c: where[tuple((v + w) % m for v, w, m in zip(p, c[0], q)), c[1]]
            if not x.holds(x.tree[a], look):
                return "OUT " + " ".join(map(str, list(p[:s.dim]) + [a]))
        return "IN"
    if head == "equal":
        l, r = s.rules[args[0]], s.rules[args[1]]
        a, b = question(s, l, r), question(s, r, l)
        if a[0] == "NO":
            return "NO left " + " ".join(map(str, a[1]))
        if b[0] == "NO":
            return "NO right " + " ".join(map(str, b[1]))
        if a[0] == b[0] == "YES":
            return "YES %d %d" % (a[1], b[1])
        return "UNKNOWN limits"
    d = question(s, s.rules[args[1]], s.rules[args[0]]) if head == "contains" else question(s, s.rules[args[0]], None)
    if d[0] == "YES":
        return "YES %d" % d[1]
    if d[0] == "NO":
        return "NO " + " ".join(map(str, d[1]))
    return "UNKNOWN limits"


if __name__ == "__main__":
    script = Script(sys.stdin.read())
    for number, (head, args) in enumerate(script.queries, 1):
        print("query %d %s" % (number, answer(script, head, args)))
