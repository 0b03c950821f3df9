"""The description of a machine as a tree. A text that `kpview explain` rejects may be read as anything."""
import re
from typing import NamedTuple, Optional

from kptools.job import value_of

TOKEN = re.compile(r"//[^\n]*|[ \t\r\n]+|(\d+'[bodhBODH][0-9a-fA-F_]+|\w+|->|==|<<|>>|.)", re.S)
LEVELS = ('|', '^', '&', '== <', '<< >>', '+ -', '*')          # the operators, from the loosest level to the tightest
KEYWORDS = frozenset('machine stages reg file pipe result hint fn stage read let put set aim image stalls end at when guess from to step zext sext sample '
                     'inputs'.split())


class Expression(NamedTuple):
    """An operator, or `?`, `{}`, `[]` (high, low), zext and sext (width), call (function), name, literal (width, value)."""
    kind: str
    detail: object
    parts: tuple = ()


class Declaration(NamedTuple):
    """A reg, file (bits of an address), pipe, hint or sample."""
    kind: str
    name: str
    width: int
    bits: int
    text: str


class Result(NamedTuple):
    name: str
    width: int
    target: str
    address: Optional[str]      # pipes
    enable: Optional[str]


class Function(NamedTuple):
    name: str
    width: int
    parameters: tuple           # of (name, width)
    body: Expression
    text: str


class Statement(NamedTuple):
    """The value is None for a read, whose parts are `address`, `when` and `guess`; a set may have a `when` too."""
    kind: str
    name: str
    target: Optional[str]
    value: Optional[Expression]
    parts: dict


class Token(NamedTuple):
    text: str
    at: int                     # of its first character


def tokens_of(text):
    return [Token(it[1], it.start(1)) for it in TOKEN.finditer(text) if it[1]]


def end_of(text):
    """After the first `end`, or None."""
    return next((it.at + 3 for it in tokens_of(text) if it.text == 'end'), None)


class Machine:
    """What a text up to its `end` describes. Declarations, functions and sections keep their text."""

    def __init__(self, text):
        self.text, self.tokens, self.next = text, tokens_of(text), 0
        self.front = text[:self.tokens[0].at]
        self.declarations, self.results, self.functions, self.blocks, self.sections = [], [], {}, [], {}
        self._take('machine')
        self.name = self._take()
        self._take(';', 'stages')
        self.stages = int(self._take())
        self._take(';')
        while self._look() != 'stage':
            self._declaration()
        while self._look() == 'stage':
            self._take(), self._take(), self._take('{')
            self.blocks.append([])
            while not self._has('}'):
                self.blocks[-1].append(self._statement())
        while self._look() != 'end':
            begin, name = self.next, self._take()
            while self._take() != '}':
                pass
            self.sections[name] = self._text(begin)
        self.declared = {it.name: it for it in self.declarations}

    def of_kind(self, *kinds):
        return [it for it in self.declarations if it.kind in kinds]

    def _look(self):
        return self.tokens[self.next].text

    def _take(self, *wanted):
        for it in wanted or (None,):
            token = self.tokens[self.next].text
            if it not in (None, token):
                raise ValueError(f'expected `{it}`, found `{token}`')
            self.next += 1
        return token

    def _has(self, token):
        found = self._look() == token
        self.next += found
        return found

    def _number(self, *after):
        value = int(self._take())
        if after:
            self._take(*after)
        return value

    def _text(self, begin):
        last = self.tokens[self.next - 1]
        return self.text[self.tokens[begin].at:last.at + len(last.text)]

    def _declaration(self):
        begin, kind, name = self.next, self._take(), self._take()
        if kind == 'fn':
            self._function(begin, name)
            return
        self._take(':')
        width, bits = int(self._take()), 0
        if kind == 'result':
            self._take('->')
            target, address, enable = self._take(), None, None
            if self._has('['):
                address = self._take()
                self._take(']')
            if self._has('when'):
                enable = self._take()
            self.results.append(Result(name, width, target, address, enable))
        elif self._has('['):
            bits = self._number()
        while self._take() != ';':
            pass
        if kind != 'result':
            self.declarations.append(Declaration(kind, name, width, bits, self._text(begin)))

    def _function(self, begin, name):
        parameters = []
        self._take('(')
        while True:
            it = self._take()
            self._take(':')
            parameters.append((it, int(self._take())))
            if self._take() == ')':
                break
        self._take(':')
        width = self._number('=')
        body = self._expression()
        self._take(';')
        self.functions[name] = Function(name, width, tuple(parameters), body, self._text(begin))

    def _statement(self):
        kind, name, target, value, parts = self._take(), self._take(), None, None, {}
        self._take('=')
        if kind == 'read':
            target = self._take()
            if self._has('['):
                parts['address'] = self._expression()
                self._take(']')
        else:
            value = self._expression()
        for word in ('when', 'guess'):
            if self._has(word):
                parts[word] = self._expression()
        self._take(';')
        return Statement(kind, name, target, value, parts)

    def _expression(self):
        test = self._chain(0)
        if not self._has('?'):
            return test
        yes = self._expression()
        self._take(':')
        return Expression('?', None, (test, yes, self._expression()))

    def _chain(self, level):
        if level == len(LEVELS):
            return self._unary()
        left = self._chain(level + 1)
        while self._look() in LEVELS[level].split():
            operator = self._take()
            left = Expression(operator, None, (left, self._chain(level + 1)))
        return left

    def _unary(self):
        if self._has('~'):
            return Expression('~', None, (self._unary(),))
        value = self._primary()
        while self._has('['):
            high = low = self._number()
            if self._has(':'):
                low = self._number()
            self._take(']')
            value = Expression('[]', (high, low), (value,))
        return value

    def _list(self, end):
        parts = [self._expression()]
        while self._take() != end:
            parts.append(self._expression())
        return tuple(parts)

    def _primary(self):
        if self._has('('):
            return self._list(')')[0]
        if self._has('{'):
            parts = self._list('}')
            return parts[0] if len(parts) == 1 else Expression('{}', None, parts)
        word = self._take()
        if "'" in word:
            return Expression('literal', (int(word.split("'")[0]), value_of(word)))
        if word in ('zext', 'sext'):
            self._take('(')
            value = self._expression()
            self._take(',')
            return Expression(word, self._number(')'), (value,))
        return Expression('call', word, self._list(')')) if self._has('(') else Expression('name', word)
