#!/usr/bin/env python3
"""Counts what the limits of a source speak of, by docs/LANGUAGE.md and docs/FORMATS.md, without fabhost.

    tools/counts.py SOURCE..

Of each source a line is printed with its bytes, its tokens, the most statements around a token, the most tokens of an expression, the
instances, the signals that count, the words of memories, the bytes of the longest path, the statements and the nodes of expressions
with all loops unrolled, the most turns of a loop, and the functions. The source has to be right: what has a fault is counted somehow,
or is none by the grammar and ends with status 1.

    text_of(data)  ->  Text(size, tokens, fault)        for bytes of any length; `fault` is the first fault of a token, or nothing
    counts(text)   ->  Counts(bytes, tokens, ..)
"""
import collections
import re
import sys

sys.dont_write_bytecode = True

BYTES, TOO_LONG, TOKENS = 1_048_576, 2_097_152, 200_000

Text = collections.namedtuple("Text", "size tokens fault")
Counts = collections.namedtuple("Counts", "bytes tokens deep longest instances signals words path statements nodes turns functions")

# ---- tokens

GAP = re.compile(rb"(?:[\t\n\f\r ]+|//[^\n]*|/\*(?s:.)*?\*/|\(\*(?![\t\n\f\r ]*\))(?s:.)*?\*\)|`(?:timescale|default_nettype)[^\n]*)+")
TOKEN = re.compile(
    rb"(?P<name>[A-Za-z_][\w$]*|\\[!-~]+)"
    rb"|(?P<system>\$[\w$]+)"
    rb"|(?P<number>(?:\d[\d_]*[\t\n\f\r ]*)?'[sS]?(?:[bB][\t\n\f\r ]*[01xXzZ?][01xXzZ?_]*|[oO][\t\n\f\r ]*[0-7xXzZ?][0-7xXzZ?_]*|[dD][\t\n\f\r ]*(?:\d[\d_]*|[xXzZ?])|[hH][\t\n\f\r ]*[\da-fA-FxXzZ?][\da-fA-FxXzZ?_]*)|\d[\d_]*(?![\t\n\f\r ]*'))"
    rb'|(?P<string>"(?:[^"\\\n]|\\[^\n])*")'
    rb"|(?P<mark><<<|>>>|===|!==|<<|>>|<=|>=|==|!=|&&|\|\||~&|~\||~\^|\^~|\+:|-:|[()\[\]{},;:.#@=?+\-*/%<>!~&|^])"
)
RESERVED = set("always assign automatic begin case casez default else end endcase endfunction endmodule for function if initial input integer localparam module negedge or output parameter posedge reg repeat signed wire".split())


def open_gap(data, at):
    return data.startswith(b"/*", at) or re.compile(rb"\(\*(?![\t\n\f\r ]*\))").match(data, at) is not None


def too_wide(word):
    """The number of lexical faults 4 to 6 that a number has, or 0."""
    if b"'" not in word:
        return 5 if int_of(word) >= 1 << 32 else 0
    size, _, rest = word.partition(b"'")
    size, rest = size.strip(), rest.lstrip(b"sS")
    digits = rest[1:].strip()
    base = {98: 2, 111: 8, 100: 10, 104: 16}[rest[0] | 32]
    if size and int_of(size) == 0:
        return 4
    if size and int_of(size) > 128:
        return 5
    has_x, has_z = re.search(rb"[xX]", digits) is not None, re.search(rb"[zZ?]", digits) is not None
    if not size and not has_x and not has_z and (len(digits) > 200 and digits.strip(b"0_") or len(digits) <= 200 and int(digits.replace(b"_", b""), base) >= 1 << 32):
        return 5
    return 6 if has_x or has_z and (not size or base == 10) else 0


def int_of(digits):
    """A plain number; one of very many digits only as far as it matters."""
    digits = digits.replace(b"_", b"").lstrip(b"0") or b"0"
    return int(digits) if len(digits) < 30 else 1 << 64


def scanned(data):
    """The tokens as they come, each by its kind and its bytes; last `fault` and the number of the fault where one has none."""
    at, end = 0, len(data)
    while at < end:
        found = GAP.match(data, at)
        if found:
            at = found.end()
            continue
        if open_gap(data, at):
            yield "fault", 2
            return
        found = TOKEN.match(data, at)
        if not found:
            yield "fault", 3 if data[at] == 34 else 4 if data[at] == 39 or 48 <= data[at] <= 57 else 1
            return
        kind, word = found.lastgroup, found.group()
        if kind == "number":
            wrong = too_wide(word)
            if wrong:
                yield "fault", wrong
                return
        yield kind, word
        at = found.end()


def text_of(data):
    data = data.encode() if isinstance(data, str) else data
    tokens = 0
    if len(data) <= BYTES:
        for kind, word in scanned(data):
            if kind == "fault":
                return Text(len(data), tokens, word)
            tokens += 1
            if tokens > TOKENS:
                break
    return Text(len(data), tokens, 0)


def text_answer(data):
    """What a text alone is refused for: `toolong` (the file isn't read), `limit 1`, `lex N`, `limit 2`, or nothing."""
    it = text_of(data)
    if it.size > TOO_LONG:
        return "toolong"
    if it.size > BYTES:
        return "limit 1"
    return f"lex {it.fault}" if it.fault else "limit 2" if it.tokens > TOKENS else ""


# ---- trees; a statement and an expression are tuples

Module = collections.namedtuple("Module", "name ports inputs params signals loops memories processes functions instances")
LEVELS = {w: n for n, ws in enumerate(["||", "&&", "|", "^ ^~ ~^", "&", "== != === !==", "< <= > >=", "<< >> <<< >>>", "+ -", "* / %"]) for w in ws.split()}
UNARY = set("+ - ! ~ & ~& | ~| ^ ~^ ^~".split())


class NoSource(Exception):
    pass


class Parser:
    def __init__(self, data):
        found = list(scanned(data))
        if found and found[-1][0] == "fault":
            raise NoSource(f"lex {found[-1][1]}")
        self.words = [w.decode("latin-1") if k != "name" or w[:1] != b"\\" else w.decode("latin-1")[1:] for k, w in found] + [""]
        self.kinds = ["word" if k == "name" and w.decode("latin-1") in RESERVED else k for k, w in found] + ["end"]
        self.at, self.deep, self.longest, self.inside, self.aside = 0, 0, 0, 0, 0

    def see(self, *words):
        return self.words[self.at] in words and self.kinds[self.at] in ("word", "mark")

    def take(self, *words):
        if self.see(*words):
            self.at += 1
            return True
        return False

    def need(self, word):
        if not self.take(word):
            raise NoSource(f"{word} is wanted at token {self.at + 1}, which is {self.words[self.at]!r}")

    def name(self):
        if self.kinds[self.at] != "name":
            raise NoSource(f"a name is wanted at token {self.at + 1}, which is {self.words[self.at]!r}")
        self.at += 1
        return self.words[self.at - 1]

    def many(self, one, end=None):
        found = [one()]
        while self.take(","):
            found.append(one())
        if end:
            self.need(end)
        return found

    # -- expressions

    def expr(self):
        """One that stands in no other, unless it does."""
        begun, outer = self.at, self.inside == 0
        self.inside += 1
        found = self.choice()
        self.inside -= 1
        if outer:
            self.longest = max(self.longest, self.at - begun)
        return found

    def choice(self):
        test = self.binary(0)
        if not self.take("?"):
            return test
        first = self.expr()
        self.need(":")
        return ("cond", test, first, self.choice())

    def binary(self, least):
        left = self.unary()
        while self.kinds[self.at] == "mark" and LEVELS.get(self.words[self.at], -1) >= least:
            op = self.words[self.at]
            self.at += 1
            left = ("bin", op, left, self.binary(LEVELS[op] + 1))
        return left

    def unary(self):
        ops = []
        while self.kinds[self.at] == "mark" and self.words[self.at] in UNARY:
            ops.append(self.words[self.at])
            self.at += 1
        found = self.primary()
        for op in reversed(ops):
            found = ("un", op, found)
        return found

    def primary(self):
        kind, word = self.kinds[self.at], self.words[self.at]
        if kind in ("number", "string"):
            self.at += 1
            return (kind, word)
        if self.take("("):
            found = self.expr()
            self.need(")")
            return found
        if self.take("{"):
            first = self.expr()
            if self.take("{"):
                found = ("rep", first, self.many(self.expr, "}"))
                self.need("}")
                return found
            found = ("cat", [first] + (self.many(self.expr) if self.take(",") else []))
            self.need("}")
            return found
        if kind == "system":
            self.at += 1
            return ("sys", word, self.given())
        name = self.name()
        if self.take("("):
            return ("call", name, self.many(self.expr, ")"))
        return ("name", name, self.selects())

    def given(self):
        return self.many(lambda: None if self.see(",", ")") else self.expr(), ")") if self.take("(") else []

    def selects(self):
        found = []
        while self.take("["):
            first = self.expr()
            kind = next((w for w in (":", "+:", "-:") if self.take(w)), "[")
            found.append((kind, first, self.expr() if kind != "[" else None))
            self.need("]")
        return found

    def left(self):
        """A left side; its own tokens, without those of its indices, count."""
        begun, aside = self.at, self.aside
        found = self.target()
        self.longest = max(self.longest, self.at - begun - (self.aside - aside))
        return found

    def target(self):
        if self.take("{"):
            return ("cat", self.many(self.target, "}"))
        found = ("name", self.name(), [])
        while self.take("["):
            first = self.index()
            kind = next((w for w in (":", "+:", "-:") if self.take(w)), "[")
            found[2].append((kind, first, self.index() if kind != "[" else None))
            self.need("]")
        return found

    def index(self):
        begun = self.at
        found = self.expr()
        self.aside += self.at - begun
        return found

    # -- statements

    def stm(self, deep):
        self.deep = max(self.deep, deep)
        if self.take(";"):
            return ("nop",)
        if self.take("begin"):
            if self.take(":"):
                self.name()
            found = []
            while not self.take("end"):
                found.append(self.stm(deep + 1))
            return ("seq", found)
        if self.take("if"):
            self.need("(")
            test = self.expr()
            self.need(")")
            then = self.stm(deep + 1)
            return ("if", test, then, self.stm(deep + 1) if self.take("else") else None)
        if self.take("case", "casez"):
            self.need("(")
            found = ("case", self.expr(), [])
            self.need(")")
            while not self.take("endcase"):
                if self.take("default"):
                    self.take(":")
                    labels = []
                else:
                    labels = self.many(self.expr, ":")
                found[2].append((labels, self.stm(deep + 1)))
            return found
        if self.take("for"):
            self.need("(")
            start = self.set("=")
            self.need(";")
            test = self.expr()
            self.need(";")
            step = self.set("=")
            self.need(")")
            return ("for", start, test, step, self.stm(deep + 1))
        if self.take("repeat"):
            self.need("(")
            count = self.expr()
            self.need(")")
            return ("repeat", count, self.stm(deep + 1))
        if self.kinds[self.at] == "system":
            self.at += 1
            found = ("task", self.words[self.at - 1], self.given())
        else:
            found = self.set("=", "<=")
        self.need(";")
        return found

    def set(self, *ops):
        left = self.left()
        if not self.take(*ops):
            raise NoSource(f"an assignment is wanted at token {self.at + 1}")
        return ("set", left, self.expr())

    # -- modules

    def range(self):
        if not self.take("["):
            return None
        first = self.expr()
        self.need(":")
        last = self.expr()
        self.need("]")
        return first, last

    def typed(self):
        if not self.take("integer"):
            self.take("signed")
            self.range()

    def module(self):
        self.need("module")
        m = Module(self.name(), [], set(), [], {}, set(), [], [], {}, [])
        if self.take("#"):
            self.need("(")
            while not self.take(")"):
                self.take(",")
                self.take("parameter")
                self.typed()
                self.param(m, True)
                while self.see(",") and self.words[self.at + 1] != "parameter":
                    self.at += 1
                    self.param(m, True)
        if self.take("("):
            while not self.take(")"):
                self.take(",")
                if self.see("input", "output"):
                    self.port(m, True)
                else:
                    m.ports.append(self.name())
        self.need(";")
        while not self.take("endmodule"):
            self.item(m)
        return m

    def param(self, m, header=False):
        name = self.name()
        self.need("=")
        m.params.append((name, self.expr(), header))

    def port(self, m, header):
        """Of a list, up to where another declaration or the end comes."""
        direction = self.words[self.at]
        self.at += 1
        variable = self.take("reg", "integer")
        if not variable:
            self.take("wire")
        self.take("signed")
        self.range()
        while True:
            name = self.name()
            if header:
                m.ports.append(name)
            if direction == "input":
                m.inputs.add(name)
            self.declare(m, name, variable and self.take("="))
            if not (self.see(",") and not (header and self.words[self.at + 1] in ("input", "output"))):
                break
            self.need(",")

    def declare(self, m, name, has_value):
        m.signals.setdefault(name, True)
        if has_value:
            m.processes.append(("set", ("name", name, []), self.expr()))

    def item(self, m):
        if self.see("input", "output"):
            self.port(m, False)
            self.need(";")
        elif self.take("parameter", "localparam"):
            local = self.words[self.at - 1] == "localparam"
            self.typed()
            while True:
                self.param(m, False if local else None)
                if not self.take(","):
                    break
            self.need(";")
        elif self.take("wire"):
            self.take("signed")
            self.range()
            self.many(lambda: self.declare(m, self.name(), self.take("=")), ";")
        elif self.take("reg", "integer"):
            if self.words[self.at - 1] == "reg":
                self.take("signed")
                self.range()
            self.many(lambda: self.variable(m), ";")
        elif self.take("assign"):
            self.many(lambda: m.processes.append(self.set("=")), ";")
        elif self.take("initial"):
            m.processes.append(self.stm(1))
        elif self.take("always"):
            self.need("@")
            if self.take("("):
                while not self.take(")"):
                    self.at += 1
            else:
                self.need("*")
            m.processes.append(self.stm(1))
        elif self.take("function"):
            self.function(m)
        else:
            self.instance(m)

    def variable(self, m):
        name = self.name()
        size = self.range()
        if size:
            m.signals.setdefault(name, True)
            m.memories.append((name, *size))
        else:
            self.declare(m, name, self.take("="))

    def function(self, m):
        self.take("automatic")
        self.typed()
        name = self.name()
        if self.take("("):
            while not self.take(")"):
                self.take(",")
                self.take("input")
                self.typed()
                self.name()
        self.need(";")
        while self.see("input", "reg", "integer"):
            while not self.take(";"):
                self.at += 1
        m.functions[name] = self.stm(1)
        self.need("endfunction")

    def conns(self, end=")"):
        found, n = {}, 0
        while not self.take(end):
            self.take(",")
            if self.take("."):
                name = self.name()
                self.need("(")
                found[name] = None if self.see(")") else self.expr()
                self.need(")")
            elif not self.see(",", end):
                found[n] = self.expr()
            n += 1
        return found

    def instance(self, m):
        of, over = self.name(), {}
        if self.take("#"):
            self.need("(")
            over = self.conns()
        while True:
            name = self.name()
            self.need("(")
            m.instances.append((of, name, over, self.conns()))
            if not self.take(","):
                break
        self.need(";")


# ---- counting


def loop_names(stm, into):
    """The variables of loops."""
    stack = [stm]
    while stack:
        it = stack.pop()
        if it is None:
            continue
        if it[0] == "for":
            into.add(it[1][1][1])
            stack.append(it[4])
        elif it[0] == "seq":
            stack += it[1]
        elif it[0] == "if":
            stack += it[2:]
        elif it[0] == "case":
            stack += [s for _, s in it[2]]
        elif it[0] == "repeat":
            stack.append(it[2])


NUMBERS = {}


def value(word):
    """Of a number's spelling, without z."""
    if word not in NUMBERS:
        if "'" in word:
            size, _, rest = word.partition("'")
            rest = rest.lstrip("sS")
            base = {"b": 2, "o": 8, "d": 10, "h": 16}[rest[0].lower()]
            NUMBERS[word] = int(re.sub(r"[zZ?]", "0", rest[1:].strip().replace("_", "")), base) % (1 << int(size or 32))
        else:
            NUMBERS[word] = int(word.replace("_", ""))
    return NUMBERS[word]


OPS = {
    "+": lambda a, b: a + b, "-": lambda a, b: a - b, "*": lambda a, b: a * b, "/": lambda a, b: a // b if b else 0, "%": lambda a, b: a % b if b else 0,
    "<": lambda a, b: a < b, "<=": lambda a, b: a <= b, ">": lambda a, b: a > b, ">=": lambda a, b: a >= b, "==": lambda a, b: a == b, "!=": lambda a, b: a != b,
    "<<": lambda a, b: a << b, ">>": lambda a, b: a >> b, "&&": lambda a, b: bool(a) and bool(b), "||": lambda a, b: bool(a) or bool(b), "&": lambda a, b: a & b, "|": lambda a, b: a | b, "^": lambda a, b: a ^ b,
}


def known(e, names):
    """The value of a constant, or of a loop's header, of small numbers."""
    if e[0] == "number":
        return value(e[1])
    if e[0] == "name":
        return names[e[1]]
    if e[0] == "un":
        a = known(e[2], names)
        return {"-": -a, "+": a, "!": int(not a), "~": ~a}[e[1]]
    if e[0] == "bin":
        return int(OPS[e[1]](known(e[2], names), known(e[3], names)))
    if e[0] == "cond":
        return known(e[2] if known(e[1], names) else e[3], names)
    raise NoSource(f"no constant: {e[0]}")


class Missing(Exception):
    def __init__(self, name):
        self.name = name


class Counter:
    """Counts the statements and nodes of one module's processes and functions."""

    def __init__(self, m, names, memories):
        self.m, self.names, self.memories = m, names, memories
        self.bodies, self.turns = {}, 0

    def nodes(self, e):
        """Statements of functions that it calls, and nodes."""
        kind = e[0]
        if kind in ("number", "string"):
            return 0, 1
        if kind == "name":
            return self.selected(e[1], e[2])
        if kind == "un":
            return self.over(1, e[2:])
        if kind == "bin":
            # a sum of many is deep to the left
            parts, s, n = [], 0, 0
            while e[0] == "bin":
                parts.append(e[3])
                n += 1
                e = e[2]
            parts.append(e)
            for part in parts:
                a, b = self.nodes(part)
                s, n = s + a, n + b
            return s, n
        if kind == "cond":
            return self.over(1, e[1:])
        if kind == "cat":
            return self.over(1, e[1])
        if kind == "rep":
            return self.over(1, e[2])
        if kind == "call":
            if e[1] not in self.bodies:
                raise Missing(e[1])
            s, n = self.over(1, e[2])
            return s + self.bodies[e[1]][0], n + self.bodies[e[1]][1]
        return self.call(e[1], e[2])

    def over(self, n, parts):
        s = 0
        for part in parts:
            if part is not None:
                a, b = self.nodes(part)
                s, n = s + a, n + b
        return s, n

    def selected(self, name, selects):
        s, n = 0, 1
        for kind, first, second in selects:
            n += 1
            if kind != ":" and first is not None and first[0] != "number":
                a, b = self.nodes(first)
                s, n = s + a, n + b
            elif kind == "[" and name in self.memories:
                n += 1
        return s, n

    def call(self, name, given):
        """The arguments of a system call; a format is none."""
        if name == "$time":
            return 0, 0
        return self.over(0, [e for e in given if e is not None and not (name in ("$display", "$write") and e[0] == "string")])

    def left(self, t):
        if t[0] == "cat":
            s, n = 0, 0
            for one in t[1]:
                a, b = self.left(one)
                s, n = s + a, n + b
            return s, n
        s, n = 0, 0
        for kind, first, _ in t[2]:
            if kind != ":" and (first[0] != "number" or t[1] in self.memories):
                a, b = self.nodes(first)
                s, n = s + a, n + b
        return s, n

    def stm(self, it):
        kind = it[0]
        if kind == "nop":
            return 1, 0
        if kind == "seq":
            s, n = 1, 0
            for one in it[1]:
                a, b = self.stm(one)
                s, n = s + a, n + b
            return s, n
        if kind == "if":
            # a chain of else is long
            s, n = 0, 0
            while it is not None and it[0] == "if":
                for a, b in (self.nodes(it[1]), self.stm(it[2]), (1, 0)):
                    s, n = s + a, n + b
                it = it[3]
            a, b = self.stm(it) if it is not None else (0, 0)
            return s + a, n + b
        if kind == "case":
            s, n = self.nodes(it[1])
            for labels, body in it[2]:
                for a, b in [self.nodes(x) for x in labels] + [self.stm(body)]:
                    s, n = s + a, n + b
            return s + 1, n
        if kind == "repeat":
            turns = known(it[1], self.names)
            self.turns = max(self.turns, turns)
            a, b = self.stm(it[2])
            return 1 + turns * a, turns * b
        if kind == "for":
            return self.loop(it)
        if kind == "set":
            (a, b), (c, d) = self.nodes(it[2]), self.left(it[1])
            return 1 + a + c, b + d
        a, b = self.call(it[1], it[2])
        return 1 + a, b

    def loop(self, it):
        _, start, test, step, body = it
        inner = set()
        loop_names(body, inner)
        name, turns, s, n, one = start[1][1], 0, 1, 0, None
        self.names[name] = known(start[2], self.names)
        while known(test, self.names) and turns < 5000:
            if one is None or inner:
                one = self.stm(body)
            s, n = s + one[0], n + one[1]
            self.names[name] = known(step[2], self.names)
            turns += 1
        self.turns = max(self.turns, turns)
        return s, n

    def reach(self, what):
        """What `what` gives, with the bodies of the functions that it calls."""
        waiting, among = [None], set()
        while True:
            top = waiting[-1]
            try:
                found = what() if top is None else self.stm(self.m.functions[top])
            except Missing as missing:
                if missing.name in among:
                    raise NoSource("a function calls itself") from None
                waiting.append(missing.name)
                among.add(missing.name)
                continue
            waiting.pop()
            if top is None:
                return found
            self.bodies[top] = found


class Design:
    def __init__(self, modules):
        self.modules = {m.name: m for m in reversed(modules)}
        self.kept, self.turns = {}, 0

    def constants(self, m, over):
        # those of a header, where there is one, else those declared by `parameter`, may be given others
        in_header = any(h for _, _, h in m.params)
        names, numbers = {}, {}
        for name, _, h in m.params:
            if h if in_header else h is None:
                numbers[name] = len(numbers)
        for name, e, _ in m.params:
            given = over.get(name, over.get(numbers[name])) if name in numbers else None
            names[name] = given if given is not None else known(e, names)
        return names

    def whole(self, name, clocks, over):
        """Instances, signals, words, the longest path from here on, statements, nodes."""
        key = (name, frozenset(clocks), tuple(sorted(over.items(), key=str)))
        if key in self.kept:
            return self.kept[key]
        m = self.modules[name]
        names = self.constants(m, over)
        counter = Counter(m, dict(names), {x for x, _, _ in m.memories})
        loops = set()
        for process in m.processes:
            loop_names(process, loops)
        own = [x for x in m.signals if x not in clocks and x not in loops]
        found = [0, len(own), sum(abs(known(a, names) - known(b, names)) + 1 for _, a, b in m.memories), max([1 + len(x) for x in own] or [0]), 0, 0]
        for process in m.processes:
            a, b = counter.reach(lambda p=process: counter.stm(p))
            found[4] += a
            found[5] += b
        for of, inst, given, conns in m.instances:
            child = self.modules[of]
            inner, joined = set(), 0
            for port, e in conns.items():
                port = child.ports[port] if isinstance(port, int) else port
                if e is None:
                    continue
                if port in child.inputs and e[0] == "name" and not e[2] and e[1] in clocks:
                    inner.add(port)
                    continue
                joined += 1
                a, b = counter.reach(lambda x=e: counter.nodes(x)) if port in child.inputs else (0, 1)
                found[4] += 1 + a
                found[5] += b
            within = self.whole(of, inner, {k: known(e, names) for k, e in given.items() if e is not None})
            for n in (1, 2, 4, 5):
                found[n] += within[n]
            found[0] += 1 + within[0]
            found[3] = max(found[3], 1 + len(inst) + within[3])
        self.turns = max(self.turns, counter.turns)
        self.kept[key] = tuple(found)
        return self.kept[key]


def counts(data):
    data = data.encode() if isinstance(data, str) else data
    sys.setrecursionlimit(200_000)
    parser = Parser(data)
    modules = []
    while parser.kinds[parser.at] != "end":
        modules.append(parser.module())
    held = {of for m in modules for of, _, _, _ in m.instances}
    tops = [m for m in modules if m.name not in held]
    if len(tops) != 1:
        raise NoSource(f"{len(tops)} tops")
    design = Design(modules)
    found = design.whole(tops[0].name, tops[0].inputs, {})
    return Counts(len(data), len(parser.kinds) - 1, parser.deep, parser.longest, found[0], found[1], found[2], len(tops[0].name) + found[3], found[4], found[5], design.turns, sum(len(m.functions) for m in modules))


def main():
    wrong = False
    for path in sys.argv[1:]:
        with open(path, "rb") as it:
            data = it.read()
        try:
            print(path, " ".join(f"{k} {n:,}" for k, n in counts(data)._asdict().items()))
        except (NoSource, KeyError, RecursionError) as found:
            print(f"{path}: {found}")
            wrong = True
    return 1 if wrong or len(sys.argv) < 2 else 0


if __name__ == "__main__":
    sys.exit(main())
