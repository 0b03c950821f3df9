"""The wires of a module of the subset. Each right side has one wire; what is constant has none until it is used by name."""
from typing import NamedTuple, Optional

from kptools.job import literal

WIDEST = 64
MOST_PARTS = 12
VALUE = {
    '&': lambda a, b: a & b, '|': lambda a, b: a | b, '^': lambda a, b: a ^ b, '+': lambda a, b: a + b, '-': lambda a, b: a - b,
    '*': lambda a, b: a * b, '==': lambda a, b: int(a == b), '<': lambda a, b: int(a < b),
    '<<': lambda a, b: a << min(b, WIDEST), '>>': lambda a, b: a >> min(b, WIDEST),
}


class Rejected(Exception):
    """What the subset has no text for."""


class Known(NamedTuple):
    """A constant. Where nothing depends on its value it is `free`: Yosys has x."""
    width: int
    value: int
    free: bool = False


class Wire(NamedTuple):
    width: int
    name: str


def ones(width):
    return (1 << width) - 1


def known(width, value, free=False):
    return Known(width, value & ones(width), free)


def is_known(it, value: Optional[int] = None):
    return isinstance(it, Known) and value in (None, it.value)


class Wires:
    def __init__(self):
        self.lines, self.made, self.rights = [], {}, {}       # text, right side -> wire, name of a wire -> (operator, operands)

    def wire(self, width, text, *right):
        """The wire with this right side."""
        if not 1 <= width <= WIDEST:
            raise Rejected(f'a value of {width} bits, and a wire has 1 to {WIDEST}')
        if (width, text) not in self.made:
            it = Wire(width, f'n{len(self.made)}')
            self.made[width, text] = it
            self.rights[it.name] = right
            self.lines.append((it, text))
        return self.made[width, text]

    def named(self, it):
        return (self.wire(it.width, literal(it.width, it.value)) if is_known(it) else it).name

    def apply(self, operator, a, b, width=None):
        """a operator b"""
        width = width or a.width
        if is_known(a) and is_known(b):
            return known(width, VALUE[operator](a.value, b.value))
        if operator in '&|^':
            for one, other in ((a, b), (b, a)):
                if is_known(one, 0):
                    return known(width, 0) if operator == '&' else other
                if is_known(one, ones(width)) and operator != '^':
                    return other if operator == '&' else one
        return self.wire(width, f'{self.named(a)} {operator} {self.named(b)}', operator, a, b)

    def invert(self, a):
        return known(a.width, ~a.value) if is_known(a) else self.wire(a.width, f'~{a.name}', '~', a)

    def choose(self, test, a, b):
        """test ? a : b"""
        if is_known(test):
            return a if test.value else b
        for one, other in ((a, b), (b, a)):
            if is_known(one) and one.free:
                return other
        return a if a == b else self.wire(a.width, f'{test.name} ? {self.named(a)} : {self.named(b)}', '?', test, a, b)

    def slice(self, a, high, low):
        if (high, low) == (a.width - 1, 0):
            return a
        return known(high - low + 1, a.value >> low, a.free) if is_known(a) else self.wire(high - low + 1, f'{a.name}[{high}:{low}]', '[]', a, low)

    def join(self, parts):
        """The parts, the highest bits first."""
        if len(parts) == 1:
            return parts[0]
        width = sum(it.width for it in parts)
        if all(map(is_known, parts)):
            value = 0
            for it in parts:
                value = value << it.width | it.value
            return known(width, value, all(it.free for it in parts))
        while len(parts) > MOST_PARTS:
            parts = [self.join(parts[i:i + MOST_PARTS]) for i in range(0, len(parts), MOST_PARTS)]
        return self.wire(width, '{' + ', '.join(map(self.named, parts)) + '}', '{}', *parts)

    def bit(self, a, i):
        """Bit i of a value, by its definition where that has bits that are constant. Bits that are alike are equal."""
        if is_known(a) or a.width == 1:
            return self.slice(a, i, i)
        operator, *operands = self.rights[a.name] or ('',)
        if operator == '?':
            test, one, other = operands[0], self.bit(operands[1], i), self.bit(operands[2], i)
            return test if (is_known(one, 1), is_known(other, 0)) == (True, True) else self.choose(test, one, other)
        if operator in ('&', '|'):
            return self.apply(operator, *(self.bit(it, i) for it in operands))
        if operator == '{}':
            for it in reversed(operands):
                if i < it.width:
                    return self.bit(it, i)
                i -= it.width
        return self.slice(a, i, i)

    def extend(self, a, width, signed=False):
        """The low bits, or zeros, or copies of the topmost bit where it is a sign, in front."""
        if width <= a.width:
            return self.slice(a, width - 1, 0)
        more = width - a.width
        front = self.choose(self.slice(a, a.width - 1, a.width - 1), known(more, -1), known(more, 0)) if signed else known(more, 0)
        return self.join([front, a])

    def is_zero(self, a):
        return self.invert(a) if a.width == 1 else self.apply('==', a, known(a.width, 0), 1)

    def truth(self, a):
        """Whether any bit is 1."""
        return a if a.width == 1 else self.invert(self.is_zero(a))
