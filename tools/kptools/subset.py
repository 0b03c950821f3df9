"""The text of the subset for a netlist and a job."""
import re

from kptools.cells import Cells
from kptools.job import literal
from kptools.wires import Rejected, is_known

LONGEST_NAME = 60


class Module:
    def __init__(self, netlist, job, names, with_reset, with_image, warn):
        self.netlist, self.job, self.with_reset, self.with_image, self.warn = netlist, job, with_reset, with_image, warn
        self.owner = {bit: cell for cell in netlist.flip_flops for bit in cell.wires['Q']}
        self.check_ports()
        self.registers = self.visible_registers(names)
        self.registers += self.pipeline_registers({bit for _, bits in self.registers for bit in bits})
        self.memories = {it: self.memory_of(it, names.get(it.name, f'f_{it.name}')) for it in job.files}

    def check_ports(self):
        ports, job = self.netlist.ports, self.job
        wanted = {'clk': 1, 'rst': 1, 'ext': job.stages, **{f's_{it.name}': it.width for it in job.samples}}
        for name in ('clk', 'ext'):
            if name not in self.netlist.inputs:
                raise Rejected(f'the module has no input {name}')
        for name in sorted(self.netlist.inputs):
            if name not in wanted:
                raise Rejected(f'the job has no sample for the input {name}')
            if len(ports[name]) != wanted[name]:
                raise Rejected(f'the input {name} has {len(ports[name])} bits, and the job says {wanted[name]}')
        for name, width in (('full', job.stages), ('ue', job.stages), ('back', 4)):
            if name in ports and len(ports[name]) != width:
                raise Rejected(f'the output {name} has {len(ports[name])} bits, and the job says {width}')
        if 'ue' not in ports:
            raise Rejected('the module has no output ue, by which instructions are counted')
        for cell in self.netlist.flip_flops:
            if cell.wires['CLK'] != ports['clk'] or not cell.number('CLK_POLARITY'):
                raise cell.rejected('a register that is set at another time than the rising edge of clk')
            if self.with_reset and cell.kind.startswith('$adff'):
                raise cell.rejected('an asynchronous reset')

    def visible_registers(self, names):
        """(name, bits) of each register of the job."""
        found = []
        for it in self.job.registers:
            name = names.get(it.name, f'r_{it.name}')
            if name not in self.netlist.names:
                raise Rejected(f'no register {name} for {it.name} of the job: --name {it.name}=NAME says which one it is')
            bits = self.netlist.names[name]
            if len(bits) != it.width:
                raise Rejected(f'{name} has {len(bits)} bits, and {it.name} of the job {it.width}')
            for bit in bits:
                if not isinstance(bit, str) and bit not in self.owner and (bit in self.netlist.driver or bit not in self.netlist.starts):
                    driver = f': {self.netlist.driver[bit][0].place} computes it' if bit in self.netlist.driver else ''
                    raise Rejected(f'{name} is no register{driver}')
            found.append((f'r_{it.name}', bits))
        return found

    def pipeline_registers(self, taken):
        """(name, bits) of each other register, by the shortest name that the source has for it."""
        source = {}
        for name in sorted(self.netlist.visible, key=lambda it: (not it.startswith('q_'), it.count('.'), len(it), it)):
            source.setdefault(tuple(self.netlist.names[name]), name)
        found, used = [], set()
        for cell in self.netlist.flip_flops:
            bits = [it for it in cell.wires['Q'] if it not in taken]
            if bits:
                name = re.sub(r'\W', '_', source.get(tuple(bits), self.netlist.name_of(bits[0])))
                name = (name if re.match('q_.', name) else f'q_{name}')[:LONGEST_NAME]
                while name in used:
                    name += '_'
                used.add(name)
                found.append((name, bits))
        return found

    def memory_of(self, file, name):
        cell = self.netlist.memories.get(name)
        if cell is None:
            raise Rejected(f'no memory {name} for {file.name} of the job: --name {file.name}=NAME says which one it is')
        words, width = cell.number('SIZE'), cell.number('WIDTH')
        if (words, width, cell.number('OFFSET')) != (file.words, file.width, 0):
            raise cell.rejected(f'{name} has {words} words of {width} bits, and {file.name} of the job {file.words} of {file.width}')
        return cell

    def behaviour(self, rst):
        """(values, next values of the registers, writes of the files) where rst is tied to this value."""
        cells = Cells(self.netlist, rst, self.registers, {cell.name: f'f_{file.name}' for file, cell in self.memories.items()})
        for cell in self.netlist.memories.values():
            if cell.name not in cells.files:
                raise cell.rejected(f"the job has no file for the memory {cell.parameters['MEMID'].lstrip(chr(92))}")
        latched = {}
        for cell in self.netlist.flip_flops:
            value = cells.next(cell)
            latched.update((bit, (value, i)) for i, bit in enumerate(cell.wires['Q']))
        nexts = [self.next_of(cells, bits, latched) for _, bits in self.registers]
        return cells, nexts, {file.name: cells.write(cell) for file, cell in self.memories.items()}

    @staticmethod
    def next_of(cells, bits, latched):
        """What a register takes. A bit that nothing drives keeps its value."""
        own = {bit: latched.get(bit) or cells.base[bit] for bit in bits if not isinstance(bit, str)}
        parts, i = [], 0
        while i < len(bits):
            j = i + 1
            if isinstance(bits[i], str):
                parts.append(cells.constant([bits[i]]))
            else:
                value, low = own[bits[i]]
                while j < len(bits) and not isinstance(bits[j], str) and own[bits[j]][0] is value and own[bits[j]][1] == low + j - i:
                    j += 1
                parts.append(cells.wires.slice(value, low + j - i - 1, low))
            i = j
        return cells.wires.join(parts[::-1])

    def start_of(self, bits, under_reset):
        """The start value of a register: its bits' own, else those under reset, else 0. None in place of a bit that has none."""
        found = []
        for i, bit in enumerate(bits):
            if isinstance(bit, str):
                found.append(int(bit == '1'))
            elif bit in self.netlist.starts:
                found.append(self.netlist.starts[bit])
            else:
                found.append(under_reset.value >> i & 1 if is_known(under_reset) else None)
        return found

    def starts(self):
        """Register -> start value."""
        resets = self.behaviour(1) if 'rst' in self.netlist.ports else None
        given = {f'r_{name}': value for name, value in self.job.start_values().items()} if self.with_image else {}
        starts, unknown = {}, []
        for i, (name, bits) in enumerate(self.registers):
            found = self.start_of(bits, resets and resets[1][i])
            if None in found and name not in given:
                unknown.append(name)
            starts[name] = given.get(name, sum((it or 0) << k for k, it in enumerate(found)))
        if unknown:
            self.warn(f"0 is taken for {len(unknown)} registers without a start value, as {unknown[0]}")
        if self.with_reset:
            self.check_reset(starts, resets)
        return starts

    def check_reset(self, starts, resets):
        if resets is None:
            raise Rejected('--reset, and the module has no rst')
        for (name, bits), value in zip(self.registers, resets[1]):
            if not is_known(value, starts[name]):
                raise Rejected(f'{name} ({self.netlist.name_of(bits[0])}) takes no constant, or not its start value, where rst is 1')
        for name, write in resets[2].items():
            if write and not is_known(write[0], 0):
                raise Rejected(f'{name} may be written where rst is 1')

    def outputs(self, cells):
        """(output, its wire)"""
        for name, width in (('full', self.job.stages), ('ue', self.job.stages), ('back', 4)):
            if name not in self.netlist.ports:
                self.warn(f'0 is taken for the output {name}, which the module doesn\'t have')
            yield name, cells.wires.named(cells.value(self.netlist.ports.get(name, ['0'] * width)))

    def text(self):
        cells, nexts, writes = self.behaviour(0)
        starts = self.starts()
        outputs = list(self.outputs(cells))
        updates = [f'{name} <= {cells.wires.named(value)};' for (name, _), value in zip(self.registers, nexts)]
        for file, write in writes.items():
            if write and not is_known(write[0], 0):
                enable, address, value = map(cells.wires.named, write)
                updates.append(f'if ({enable}) f_{file}[{address}] <= {value};')
        if cells.unknown:
            self.warn(f'0 is taken for x in {cells.unknown} values')
        files = [line for it, cell in self.memories.items() for line in self.words(it, cell)]
        ends = [f'assign {name} = {wire};' for name, wire in outputs]
        lines = [self.header(), *(f'  reg [{len(bits) - 1}:0] {name};' + self.source(name, bits) for name, bits in self.registers),
                 *(f'  reg [{it.width - 1}:0] f_{it.name} [0:{it.words - 1}];' for it in self.job.files), *['  integer i;'] * bool(self.job.files)]
        lines += [line for it, right in used(cells.wires.lines, ends + updates)
                  for line in (f'  wire [{it.width - 1}:0] {it.name};', f'  assign {it.name} = {right};')]
        lines += [f'  {it}' for it in ends]
        lines += ['  initial begin', *(f'    {name} = {literal(len(bits), starts[name])};' for name, bits in self.registers), *files, '  end']
        return '\n'.join([*lines, *self.always(updates, starts), 'endmodule', ''])

    def header(self):
        job = self.job
        inputs = ['clk', *['rst'] * self.with_reset, f'[{job.stages - 1}:0] ext', *(f'[{it.width - 1}:0] s_{it.name}' for it in job.samples)]
        outputs = [f'[{job.stages - 1}:0] full', f'[{job.stages - 1}:0] ue', '[3:0] back']
        return f"module m_{job.name}({', '.join([f'input wire {it}' for it in inputs] + [f'output wire {it}' for it in outputs])});"

    def source(self, name, bits):
        """A comment with the name that the source has, where it is another."""
        found = self.netlist.name_of(bits[0]) if not isinstance(bits[0], str) else name
        return '' if found == name else f'  // {found}'

    def words(self, file, cell):
        """The start words of a file."""
        lines = [f'    for (i = 0; i < {file.words}; i = i + 1) f_{file.name}[i] = {literal(file.width, 0)};']
        if self.with_image:
            return lines + [f'    f_{it}[{i}] = {value};' for (it, i), value in self.job.start_words().items() if it == file.name]
        start = cell.parameters['INIT']
        start = start.rjust(file.width * file.words, 'x') if isinstance(start, str) else ''
        unknown = 0
        for i in range(file.words if start else 0):
            word = start[len(start) - (i + 1) * file.width:len(start) - i * file.width]
            unknown += 'x' in word
            value = int(word.replace('x', '0'), 2)
            lines += [f'    f_{file.name}[{i}] = {literal(file.width, value)};'] * bool(value)
        if unknown and unknown < file.words:
            self.warn(f'0 is taken for {unknown} words of {file.name} without a start value')
        return lines

    def always(self, updates, starts):
        if not self.with_reset:
            return ['  always @(posedge clk) begin', *(f'    {it}' for it in updates), '  end']
        resets = (f'      {name} <= {literal(len(bits), starts[name])};' for name, bits in self.registers)
        return ['  always @(posedge clk) begin', '    if (rst) begin', *resets, '    end else begin', *(f'      {it}' for it in updates), '    end', '  end']


def used(lines, ends):
    """The wires that the last lines need, in their order."""
    wanted, kept = set(re.findall(r'\bn\d+\b', ' '.join(ends))), []
    for it, right in reversed(lines):
        if it.name in wanted:
            kept.append((it, right))
            wanted.update(re.findall(r'\bn\d+\b', right))
    return kept[::-1]
