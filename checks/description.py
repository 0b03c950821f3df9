"""A machine description as a tree, in the notation of kp_plain: what crates/kp_isa_*/specs say of the descriptions in examples/."""
import re

TOKEN = re.compile(r"//[^\n]*|[ \t\r\n]+|(\d+'[bodh][0-9a-f_]+|\w+|->|==|<<|>>|[-+*&|^~?:;=<>\[\](){},])", re.I)
LEVELS = [{"|": "Or"}, {"^": "Xor"}, {"&": "And"}, {"==": "Eq", "<": "Lt"}, {"<<": "Shl", ">>": "Shr"}, {"+": "Add", "-": "Sub"}, {"*": "Mul"}]
BASES = {"b": 2, "o": 8, "d": 10, "h": 16}


def tokens_of(text):
    """The tokens, each with its line and column."""
    at = 0
    while at < len(text):
        found = TOKEN.match(text, at)
        if found[1]:
            yield found[1], (text.count("\n", 0, at) + 1, at - text.rfind("\n", 0, at))
        at = found.end()
    yield None, None


def place(p):
    return f"(p {p[0]} {p[1]})"


def some(text):
    return f"(Some {text})" if text else "None"


def listed(items):
    return " ∷ ".join([*items, "[]"])


class Reader:
    """Reads a description. Each method reads a part, and returns it in the notation."""

    def __init__(self, text):
        self.tokens = list(tokens_of(text))
        self.next = 0

    def look(self):
        return self.tokens[self.next][0]

    def at(self):
        return self.tokens[self.next][1]

    def take(self, *wanted):
        token = self.look()
        assert not wanted or token in wanted, f"{token} at {self.at()}, and not {wanted}"
        self.next += 1
        return token

    def has(self, token):
        if self.look() != token:
            return False
        self.next += 1
        return True

    def name(self):
        (line, col), name = self.at(), self.take()
        return f'(n {line} {col} "{name}")'

    def number(self):
        (line, col), value = self.at(), self.take()
        return f"(k {line} {col} {value})"

    def literal(self, word):
        p = self.at()
        width, value = self.take().split("'")
        return f"({word} {place(p)} {width} {int(value[1:].replace('_', ''), BASES[value[0].lower()])})"

    def expr(self):
        test = self.chain(0)
        p = self.at()
        if not self.has("?"):
            return test
        yes = self.expr()
        self.take(":")
        return f"(mux {place(p)} {test} {yes} {self.expr()})"

    def chain(self, level):
        if level == len(LEVELS):
            return self.unary()
        left = self.chain(level + 1)
        while self.look() in LEVELS[level]:
            p, operator = self.at(), self.take()
            left = f"(bin {place(p)} {LEVELS[level][operator]} {left} {self.chain(level + 1)})"
        return left

    def unary(self):
        p = self.at()
        if self.has("~"):
            return f"(inv {place(p)} {self.unary()})"
        value = self.operand()
        while True:
            p = self.at()
            if not self.has("["):
                return value
            high = self.take()
            low = self.take() if self.has(":") else high
            self.take("]")
            value = f"(cut {place(p)} {value} {high} {low})"

    def exprs(self, end):
        parts = [self.expr()]
        while self.take(",", end) == ",":
            parts.append(self.expr())
        return parts

    def operand(self):
        p = self.at()
        if "'" in self.look():
            return self.literal("lit")
        if self.has("("):
            return self.exprs(")")[0]
        if self.has("{"):
            parts = self.exprs("}")
            return parts[0] if len(parts) == 1 else f"(cat {place(p)} {self.terms(parts)})"
        name = self.take()
        if name in ("zext", "sext"):
            self.take("(")
            value = self.expr()
            self.take(",")
            width = self.number()
            self.take(")")
            return f"({name[0]}x {place(p)} {value} {width})"
        if self.has("("):
            return f'(app {place(p)} (codes "{name}") {self.terms(self.exprs(")"))})'
        return f'(v {p[0]} {p[1]} "{name}")'

    @staticmethod
    def terms(parts):
        return "".join(f"(more {it} " for it in parts) + "none" + ")" * len(parts)

    def wide(self):
        name = self.name()
        self.take(":")
        return name, self.number()

    def declaration(self):
        """A declaration; a function is named here, and its body is kept."""
        kind = self.take()
        if kind == "fn":
            return self.function()
        name, width = self.wide()
        if kind in ("reg", "hint"):
            self.take("=")
            rest = self.literal("lit_of")
        elif kind == "file":
            self.take("[")
            rest = self.number()
            self.take("]")
        elif kind == "pipe":
            rest = ""
        elif kind == "sample":
            self.take("at")
            rest = self.number()
        else:
            self.take("->")
            target, address, enable = self.name(), "", ""
            if self.has("["):
                address = self.name()
                self.take("]")
            if self.has("when"):
                enable = self.name()
            self.take("at")
            rest = f"{target} {some(address)} {some(enable)} {self.number()}"
        self.take(";")
        return f"{'register' if kind == 'reg' else kind} {name} {width} {rest}".rstrip()

    def function(self):
        word = self.look()
        name, params = self.name(), []
        self.take("(")
        while not params or self.take(",", ")") == ",":
            param, width = self.wide()
            params.append(f"({param[1:-1]}, {width[1:-1]})")
        self.take(":")
        width = self.number()
        self.take("=")
        self.bodies[word] = self.expr()[1:-1]
        self.take(";")
        return f"func {name} ({listed(params)}) {width} {word}_body"

    def statement(self):
        p, kind, name = self.at(), self.take(), self.name()
        self.take("=")
        if kind == "read":
            target, address, when, guess = self.name(), "", "", ""
            if self.has("["):
                address = self.expr()
                self.take("]")
            if self.has("when"):
                when = self.expr()
            elif self.has("guess"):
                guess = self.expr()
            rest = f"{target} {some(address)} {some(when)} {some(guess)}"
        else:
            rest = self.expr()
            if kind == "set":
                rest += " " + some(self.expr() if self.has("when") else "")
        self.take(";")
        return f"{'bind' if kind == 'let' else kind} {place(p)} {name} {rest}"

    def image(self):
        """The entries of the image section, if there is one."""
        entries = []
        if self.has("image"):
            self.take("{")
            while not self.has("}"):
                name, address, values = self.name(), "", []
                if self.has("["):
                    address = self.number()
                    self.take("]")
                self.take("=")
                while not values or self.take(",", ";") == ",":
                    values.append(self.literal("lit_of"))
                entries.append(f"record {{ name = {name}; address = {some(address)}; values = {listed(values)} }}")
        return entries

    def definitions(self):
        """The definitions of a description, by name."""
        self.bodies = {}
        self.take("machine")
        word, name = self.look(), self.name()
        self.take(";")
        self.take("stages")
        stages = self.number()
        self.take(";")
        parts, blocks, found = [], [], {}
        while self.look() != "stage":
            parts.append(self.declaration())
        while self.has("stage"):
            number = self.number()
            k = number.split()[-1][:-1]
            statements = []
            self.take("{")
            while not self.has("}"):
                statements.append(self.statement())
            found[f"stage{k}"] = listed(statements)
            blocks.append(f"({number[1:-1]}, stage{k})")
        found.update({f"{it}_body": body for it, body in self.bodies.items()})
        found.update({"parts": listed(parts), "blocks": listed(blocks), word: f"job_of {name} {stages} parts blocks image"})
        entries = self.image()
        if entries:
            found["program"] = listed(entries)
        self.take("end")
        return found
