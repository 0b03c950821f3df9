"""Instruction sets as tables: each bit of a word is a constant or one bit of a field, so a line of a table assembles and disassembles."""
import re
from typing import NamedTuple

TOKEN = re.compile(r'\s*([A-Za-z_.][\w.]*|[-+]?0x[0-9a-fA-F]+|[-+]?\d+|\S)')
NUMBER = re.compile(r'[-+]?(0x[0-9a-fA-F]+|\d+)')
KIND = re.compile(r'(signed|unsigned)|label( \+ (\d+)| -)?|([A-Za-z]+)')
BASES = {'b': 2, 'd': 10, 'h': 16}


class Wrong(Exception):
    """A line of a table or a program, and what is wrong in it."""

    def __init__(self, line, text):
        super().__init__(f'{line}: {text}')


def number(token):
    return int(token, 0) if re.match(r'[-+]?0x', token) else int(token)


class Field(NamedTuple):
    """A field of a word. `kind` is signed, unsigned, label, or the letters before the number of a register."""
    name: str
    width: int
    kind: str
    added: int = 0          # the address that a label counts from, minus that of the instruction
    backwards: bool = False

    @property
    def range(self):
        if self.kind == 'signed' or self.kind == 'label' and not self.backwards:
            return -(1 << self.width - 1), (1 << self.width - 1) - 1
        return 0, (1 << self.width) - 1

    def value(self, token, here, labels, line):
        """The value of an operand."""
        if self.kind == 'label':
            value = self.distance(token, here, labels, line)
        elif self.kind in ('signed', 'unsigned'):
            if not NUMBER.fullmatch(token):
                raise Wrong(line, f'expected a number, found `{token}`')
            value = number(token)
        else:
            found = re.fullmatch(rf'{self.kind}(\d+)', token)
            if not found or int(found[1]) > self.range[1]:
                raise Wrong(line, f'expected a register {self.kind}0 to {self.kind}{self.range[1]}, found `{token}`')
            value = int(found[1])
        low, high = self.range
        if not low <= value <= high:
            raise Wrong(line, f'{value} is out of range: {low} to {high}' + f' (the distance of `{token}`)' * (self.kind == 'label'))
        return value

    def distance(self, token, here, labels, line):
        if token in labels:
            target = labels[token]
        elif NUMBER.fullmatch(token):
            target = number(token)
        else:
            raise Wrong(line, f'the label `{token}` is declared nowhere')
        ahead = target - here - self.added
        return -ahead if self.backwards else ahead

    def text(self, bits, here, names):
        """The operand for these bits of a word."""
        value = bits - (1 << self.width) if bits > self.range[1] else bits
        if self.kind == 'label':
            address = here + self.added + (-value if self.backwards else value)
            return names.get(address, hex(address) if address >= 0 else str(address))
        return str(value) if self.kind in ('signed', 'unsigned') else f'{self.kind}{value}'


class Form:
    """A line of a table: mnemonic, operands, and for each bit of the word, the lowest first, a constant or (field, bit)."""

    def __init__(self, mnemonic, operands, bits):
        self.mnemonic, self.operands, self.bits = mnemonic, operands, bits
        self.fixed = sum(1 << i for i, it in enumerate(bits) if isinstance(it, int))
        self.match = sum(it << i for i, it in enumerate(bits) if isinstance(it, int))

    @property
    def shown(self):
        return f'{self.mnemonic} {spaced(self.operands)}'.strip()

    def word(self, values):
        return sum((it if isinstance(it, int) else values[it[0]] >> it[1] & 1) << i for i, it in enumerate(self.bits))

    def fields(self, word):
        found = {}
        for i, it in enumerate(self.bits):
            if not isinstance(it, int):
                found[it[0]] = found.get(it[0], 0) | (word >> i & 1) << it[1]
        return found


def spaced(tokens):
    return ''.join(it + ' ' * (it == ',') for it in tokens)


class Table:
    def __init__(self, text):
        self.width = self.step = 0
        self.fields, self.forms = {}, []
        for line, it in enumerate(text.split('\n'), 1):
            it = it.split('//')[0].strip()
            if it:
                if it[-1] != ';':
                    raise Wrong(line, 'a line of a table ends with `;`')
                self.add(line, it[:-1].strip())
        if not self.width:
            raise Wrong(1, 'no line `word WIDTH step N;`')

    def add(self, line, it):
        word = re.fullmatch(r'word (\d+) step (\d+)', it)
        field = re.fullmatch(r'field ([\w, ]+?) *: *(\d+) *= *(.*)', it)
        form = re.fullmatch(r'([\w.]+)\s*([^={}]*?)\s*=\s*(?:\{(.*)\}|(.*))', it)
        if word:
            self.width, self.step = int(word[1]), int(word[2])
        elif field:
            self.add_fields(line, field[1].split(','), int(field[2]), field[3])
        elif form:
            self.add_form(line, form[1], TOKEN.findall(form[2]), form[3] if form[3] is not None else form[4])
        else:
            raise Wrong(line, 'expected `word ..`, `field ..` or `mnemonic operands = {bits}`')

    def add_fields(self, line, names, width, text):
        kind = KIND.fullmatch(text)
        if not kind:
            raise Wrong(line, f'`{text}` is no kind of field: signed, unsigned, label, `label + 4`, `label -`, or letters before the number of a register')
        name = kind[1] or kind[4] or 'label'
        for it in names:
            self.fields[it.strip()] = Field(it.strip(), width, name, int(kind[3] or 0), kind[2] == ' -')

    def add_form(self, line, mnemonic, operands, parts):
        bits = [bit for it in reversed(parts.split(',')) for bit in self.part(line, it.strip())]
        if len(bits) != self.width:
            raise Wrong(line, f'`{mnemonic}` has {len(bits)} bits, and a word {self.width}')
        stored = {it[0] for it in bits if not isinstance(it, int)}
        for it in sorted(stored - set(operands)):
            raise Wrong(line, f'the field `{it}` is no operand of `{mnemonic}`')
        self.forms.append(Form(mnemonic, operands, bits))

    def part(self, line, text):
        """The bits of a constant, a field, or a part of a field, the lowest first."""
        constant = re.fullmatch(r"(\d+)'([bdh])([0-9a-fA-F_]+)", text)
        if constant:
            value, width = int(constant[3].replace('_', ''), BASES[constant[2]]), int(constant[1])
            if value >> width:
                raise Wrong(line, f'`{text}` doesn\'t fit {width} bits')
            return [value >> i & 1 for i in range(width)]
        field = re.fullmatch(r'(\w+)(?:\[(\d+)(?::(\d+))?\])?', text)
        if not field or field[1] not in self.fields:
            raise Wrong(line, f'`{text}` is no literal and no field')
        width = self.fields[field[1]].width
        high = int(field[2]) if field[2] else width - 1
        low = int(field[3]) if field[3] else high if field[2] else 0
        if not low <= high < width:
            raise Wrong(line, f'`{text}`: the bits of `{field[1]}` are {width - 1} to 0')
        return [(field[1], i) for i in range(low, high + 1)]

    def assemble(self, text):
        """(words, their texts, label -> address) of a program."""
        labels, items = {}, []
        for line, it in enumerate(text.split('\n'), 1):
            it = re.split(r';|//|#', it)[0].strip()
            label = re.match(r'([A-Za-z_]\w*)\s*:', it)
            if label:
                if label[1] in labels:
                    raise Wrong(line, f'the label `{label[1]}` is declared already')
                labels[label[1]] = len(items) * self.step
                it = it[label.end():].strip()
            if it:
                items.append((line, it))
        words = [self.word(line, it, i * self.step, labels) for i, (line, it) in enumerate(items)]
        return words, [re.sub(r'\s+', ' ', it) for _, it in items], labels

    def word(self, line, text, here, labels):
        mnemonic, *tokens = TOKEN.findall(text)
        if mnemonic == '.word':
            if len(tokens) != 1 or not NUMBER.fullmatch(tokens[0]) or not -(1 << self.width - 1) <= number(tokens[0]) < 1 << self.width:
                raise Wrong(line, f'after .word comes a number of {self.width} bits')
            return number(tokens[0]) & (1 << self.width) - 1
        wrongs = []
        for it in self.forms:
            if it.mnemonic == mnemonic:
                try:
                    return self.encoded(it, tokens, here, labels, line)
                except Wrong as wrong:
                    wrongs.append(wrong)
        raise wrongs[0] if wrongs else Wrong(line, f'there is no instruction `{mnemonic}`')

    def encoded(self, form, tokens, here, labels, line):
        """The word of an instruction in this form."""
        values = {}
        if len(tokens) != len(form.operands):
            raise Wrong(line, f'the form is `{form.shown}`')
        for wanted, it in zip(form.operands, tokens):
            if wanted in self.fields:
                values[wanted] = self.fields[wanted].value(it, here, labels, line)
            elif wanted != it:
                raise Wrong(line, f'the form is `{form.shown}`, and `{it}` is in the place of `{wanted}`')
        word = form.word(values)
        stored = form.fields(word)
        for name, value in values.items():
            if stored.get(name, 0) != value & (1 << self.fields[name].width) - 1:
                raise Wrong(line, f'{value} has bits that `{form.mnemonic}` has no place for')
        return word

    def disassemble(self, word, here=0, names=()):
        """The instruction of a word, by the first form that matches it."""
        for it in self.forms:
            if word & it.fixed == it.match:
                bits = it.fields(word)
                operands = [self.fields[token].text(bits.get(token, 0), here, names or {}) if token in self.fields else token for token in it.operands]
                return f'{it.mnemonic} {spaced(operands)}'.strip()
        return f'.word 0x{word:0{(self.width + 3) // 4}x}'
