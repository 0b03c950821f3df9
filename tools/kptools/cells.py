"""What each cell of a netlist computes, as wires of the subset."""
from kptools.wires import WIDEST, Rejected, Wires, known

BITWISE = {'$and', '$or', '$xor', '$xnor', '$not', '$mux', '$pmux'}
ALIKE = {'$and': '&', '$or': '|', '$xor': '^', '$add': '+', '$sub': '-', '$mul': '*'}
EQUAL = {'$eq', '$eqx', '$ne', '$nex'}
ORDER = {'$lt', '$le', '$gt', '$ge'}
SHIFT = {'$shl', '$sshl', '$shr', '$sshr', '$shift', '$shiftx'}
REDUCE = {'$reduce_and', '$reduce_or', '$reduce_bool', '$reduce_xor', '$reduce_xnor', '$logic_not', '$logic_and', '$logic_or'}


class Cells:
    """The values of bits of a netlist, where `rst` is tied to 0 or 1. `files` has the file of each memory."""

    def __init__(self, netlist, rst, registers, files):
        self.netlist, self.files, self.wires = netlist, files, Wires()
        self.base, self.open, self.unknown = {}, set(), 0          # bit -> (value, number of the bit in it); cells whose value is being made
        self.give(netlist.ports.get('rst', ()), known(1, rst))
        for port in sorted(netlist.inputs - {'clk', 'rst'}):
            self.give(netlist.ports[port], self.wires.wire(len(netlist.ports[port]), port))
        for name, bits in registers:
            self.give(bits, self.wires.wire(len(bits), name))

    def give(self, bits, value):
        for i, bit in enumerate(bits):
            if not isinstance(bit, str):
                self.base.setdefault(bit, (value, i))

    def value(self, bits):
        """The value of bits, of which the lowest comes first: parts of other values, joined."""
        for bit in bits:
            self.need(bit)
        parts, i = [], 0
        while i < len(bits):
            j = i + 1
            while j < len(bits) and self.follows(bits, i, j):
                j += 1
            parts.append(self.constant(bits[i:j]) if isinstance(bits[i], str) else self.part(bits[i], j - i))
            i = j
        return self.wires.join(parts[::-1])

    def follows(self, bits, i, j):
        """Whether bit j continues the part that begins at bit i."""
        if isinstance(bits[i], str) or isinstance(bits[j], str):
            return isinstance(bits[i], str) and isinstance(bits[j], str)
        (one, low), (other, high) = self.base[bits[i]], self.base[bits[j]]
        return one is other and high == low + j - i

    def part(self, bit, width):
        it, low = self.base[bit]
        return self.wires.slice(it, low + width - 1, low)

    def constant(self, bits):
        free = all(it in 'xz' for it in bits)
        self.unknown += not free and any(it in 'xz' for it in bits)
        return known(len(bits), sum(1 << i for i, it in enumerate(bits) if it == '1'), free)

    def need(self, bit):
        """Gives the bit its value, and with it the other bits of the same cell."""
        if isinstance(bit, str) or bit in self.base:
            return
        if bit not in self.netlist.driver:
            raise Rejected(f'nothing drives {self.netlist.name_of(bit)}')
        cell, _, i = self.netlist.driver[bit]
        port = i // cell.number('WIDTH') if cell.kind == '$mem_v2' else 0
        if (cell.name, port) in self.open:
            raise cell.rejected(f'{self.netlist.name_of(bit)} is used in its own value')
        self.open.add((cell.name, port))
        try:
            if cell.kind == '$mem_v2':
                self.read_port(cell, port)
            else:
                for it in self.parts(cell):
                    self.give(it.wires['Y'], self.wires.extend(self.output(it), len(it.wires['Y'])))
        except Rejected as it:
            raise it if ' (a cell ' in str(it) or str(it).startswith('nothing') else cell.rejected(str(it)) from None
        self.open.discard((cell.name, port))

    @staticmethod
    def parts(cell):
        """A cell that works bit by bit as parts that fit wires; any other as it is."""
        width = len(cell.wires['Y'])
        return [cell.part(i, min(i + WIDEST, width)) for i in range(0, width, WIDEST)] if cell.kind in BITWISE else [cell]

    def address(self, cell, name, port):
        """(an address of the file, whether the bits above it are 0)"""
        bits, wanted = cell.number('ABITS'), (cell.number('SIZE') - 1).bit_length()
        it = self.value(cell.wires[name][port * bits:(port + 1) * bits])
        above = self.wires.is_zero(self.wires.slice(it, bits - 1, wanted)) if bits > wanted else known(1, 1)
        return self.wires.extend(it, wanted), above

    def read_port(self, cell, port):
        width = cell.number('WIDTH')
        if cell.number('RD_CLK_ENABLE') >> port & 1:
            raise Rejected('a read port with a register, as Yosys makes it by `memory` without -nordff')
        address, _ = self.address(cell, 'RD_ADDR', port)
        it = self.wires.wire(width, f'{self.files[cell.name]}[{self.wires.named(address)}]')
        self.give(cell.wires['RD_DATA'][port * width:(port + 1) * width], it)

    def output(self, cell):
        kind, width = cell.kind, len(cell.wires.get('Y', ()))
        if kind in ('$pmux', '$bmux'):
            return self.select(cell, width)
        a, b, s = (self.value(cell.wires[it]) if it in cell.wires else None for it in 'ABS')
        signed, b_signed = cell.number('A_SIGNED'), cell.number('B_SIGNED')
        if kind == '$mux':
            return self.wires.choose(s, b, a)
        if kind in ALIKE:
            return self.wires.apply(ALIKE[kind], *(self.wires.extend(it, width, signed and b_signed) for it in (a, b)))
        if kind == '$xnor':
            return self.wires.invert(self.wires.apply('^', *(self.wires.extend(it, width, signed and b_signed) for it in (a, b))))
        if kind in ('$not', '$pos', '$neg'):
            return self.unary(kind, self.wires.extend(a, width, signed))
        if kind in EQUAL or kind in ORDER:
            return self.compare(kind, a, b, signed and b_signed)
        if kind in SHIFT:
            return self.shift(kind, a, b, signed, b_signed, width)
        if kind in REDUCE:
            return self.reduce(kind, a, b)
        if kind in ('$div', '$mod') and not signed and not b_signed:
            return self.divide(kind, a, b, width)
        raise Rejected('there is no text of the subset for it')

    def unary(self, kind, a):
        return {'$not': self.wires.invert, '$pos': lambda it: it, '$neg': lambda it: self.wires.apply('-', known(it.width, 0), it)}[kind](a)

    def select(self, cell, width):
        """One of several values: by a bit for each, or by a number."""
        s, a = self.value(cell.wires['S']), cell.wires['A']
        part = lambda bits, i: self.value(bits[i * width:(i + 1) * width])
        if cell.kind == '$pmux':
            it = self.value(a)
            for i in range(s.width):
                it = self.wires.choose(self.wires.slice(s, i, i), part(cell.wires['B'], i), it)
            return it
        parts = [part(a, i) for i in range(1 << s.width)]
        for i in range(s.width):
            test = self.wires.slice(s, i, i)
            parts = [self.wires.choose(test, high, low) for low, high in zip(parts[::2], parts[1::2])]
        return parts[0]

    def compare(self, kind, a, b, signed):
        width = max(a.width, b.width)
        a, b = self.wires.extend(a, width, signed), self.wires.extend(b, width, signed)
        if kind in EQUAL:
            it = self.wires.apply('==', a, b, 1)
            return self.wires.invert(it) if kind in ('$ne', '$nex') else it
        if signed:
            a, b = (self.wires.apply('^', it, known(width, 1 << width - 1)) for it in (a, b))
        if kind in ('$gt', '$le'):
            a, b = b, a
        it = self.wires.apply('<', a, b, 1)
        return self.wires.invert(it) if kind in ('$le', '$ge') else it

    def shift(self, kind, a, b, signed, b_signed, width):
        wires = self.wires
        if kind in ('$shl', '$sshl'):
            return wires.apply('<<', wires.extend(a, width, signed), b)
        a = wires.extend(a, max(width, a.width), signed and kind != '$shiftx')
        if kind in ('$shift', '$shiftx') and b_signed:
            back = wires.apply('-', known(b.width, 0), b)
            return wires.choose(wires.slice(b, b.width - 1, b.width - 1), wires.apply('<<', a, back), wires.apply('>>', a, b))
        if kind == '$sshr' and signed:
            fill = wires.choose(wires.slice(a, a.width - 1, a.width - 1), known(a.width, -1), known(a.width, 0))
            return wires.apply('^', wires.apply('>>', wires.apply('^', a, fill), b), fill)
        return wires.apply('>>', a, b)

    def reduce(self, kind, a, b):
        wires = self.wires
        if kind == '$reduce_and':
            return wires.apply('==', a, known(a.width, -1), 1)
        if kind in ('$reduce_or', '$reduce_bool'):
            return wires.truth(a)
        if kind == '$logic_not':
            return wires.is_zero(a)
        if kind in ('$logic_and', '$logic_or'):
            return wires.apply('&' if kind == '$logic_and' else '|', wires.truth(a), wires.truth(b))
        it = wires.slice(a, 0, 0)
        for i in range(1, a.width):
            it = wires.apply('^', it, wires.slice(a, i, i))
        return wires.invert(it) if kind == '$reduce_xnor' else it

    def divide(self, kind, a, b, width):
        """Without signs, a subtraction for each bit. Of a division by 0 Yosys knows nothing, and the value is that of these subtractions."""
        wires, wide = self.wires, max(a.width, b.width) + 1
        rest, quotient, b = known(wide, 0), [], wires.extend(b, wide)
        for i in reversed(range(a.width)):
            rest = wires.join([wires.slice(rest, wide - 2, 0), wires.slice(a, i, i)])
            less = wires.apply('<', rest, b, 1)
            rest = wires.choose(less, rest, wires.apply('-', rest, b))
            quotient.append(wires.invert(less))
        return wires.extend(wires.join(quotient) if kind == '$div' else rest, width)

    # What registers and files take at the edge

    def level(self, cell, port):
        """Whether an enable or a reset is active."""
        it = self.value(cell.wires[port])
        return it if cell.number(f'{port}_POLARITY') else self.wires.invert(it)

    def next(self, cell):
        """The value that a flip-flop takes: a reset comes before the enable, but where `$sdffce` is enabled alone."""
        kind, it = cell.kind, self.value(cell.wires['D'])
        enabled = lambda it: self.wires.choose(self.level(cell, 'EN'), it, self.value(cell.wires['Q']))
        reset = lambda it, port: self.wires.choose(self.level(cell, port), known(it.width, cell.number(f'{port}_VALUE')), it)
        if kind == '$sdffce':
            return enabled(reset(it, 'SRST'))
        if kind in ('$dffe', '$sdffe', '$adffe'):
            it = enabled(it)
        if kind in ('$sdff', '$sdffe'):
            it = reset(it, 'SRST')
        return reset(it, 'ARST') if kind in ('$adff', '$adffe') else it

    def write(self, cell):
        """(enable, address, value) of the write port of a memory, or None."""
        wires, ports = self.wires, cell.number('WR_PORTS')
        if not ports:
            return None
        if ports > 1:
            raise cell.rejected(f'{ports} write ports, and a file has one')
        if cell.wires['WR_CLK'] != self.netlist.ports['clk'] or not cell.number('WR_CLK_ENABLE') or not cell.number('WR_CLK_POLARITY'):
            raise cell.rejected('a memory that is written at another time than the rising edge of clk')
        address, inside = self.address(cell, 'WR_ADDR', 0)
        data, enables = self.value(cell.wires['WR_DATA']), self.value(cell.wires['WR_EN'])
        bits = {self.wires.bit(enables, i) for i in range(enables.width)}
        if len(bits) == 1:
            return wires.apply('&', bits.pop(), inside), address, data
        old = wires.wire(data.width, f'{self.files[cell.name]}[{wires.named(address)}]')
        merged = wires.apply('|', wires.apply('&', data, enables), wires.apply('&', old, wires.invert(enables)))
        return wires.apply('&', wires.truth(enables), inside), address, merged
