"""A flat module as Yosys writes it in JSON: who drives each bit."""
import copy
import json
import os
import re
import subprocess
import tempfile

from kptools.wires import WIDEST, Rejected

FLIP_FLOPS = {'$dff', '$dffe', '$sdff', '$sdffe', '$sdffce', '$adff', '$adffe'}
OTHER_STATE = re.compile(r'\$(aldff|dffsr|dlatch|adlatch|sr|ff|_DFF|_DLATCH|_SR|_FF|mem_v2|memrd|memwr|mem$)')
IGNORED = {'$assert', '$assume', '$cover', '$check', '$print', '$scopeinfo'}

# Yosys says this of a memory that nothing reads.
UNREAD = re.compile(r'internal cell \\\S*\.\\?(\S+) \(\$mem_v2\)')

# In place of `clean`: what `proc` makes for the operands of a write, which nothing reads either.
UNUSED = 'delete w:$memwr$* %ci1 t:$dff %i;'

# The processes become cells, the hierarchy one module, and the ports of a memory one cell. No ROM is made of a `case`, no register is merged with a read port,
# and what the job names is kept though no output depends on it.
SCRIPT = ('{reads}; hierarchy -check -top {top}; setattr -set keep 1 w:*r_* w:q_* {kept}; proc -norom -noopt; flatten; '
          'opt_expr -keepdc t:$meminit* %ci* t:$meminit* %u; opt_mem_priority; memory_share; memory_collect; setattr -set keep 1 t:$mem_v2; '
          '{opt} {clean} setattr -unset keep w:* c:*; write_json {to}')


class Cell:
    def __init__(self, name, it):
        self.name, self.kind, self.parameters, self.wires = name, it['type'], it['parameters'], it['connections']
        self.ways = it['port_directions']
        source = re.match(r'(.*?):(\d+)', it['attributes'].get('src', '').split('|')[0])
        self.place = f'{os.path.basename(source[1])}:{source[2]}' if source else name

    def number(self, name):
        it = self.parameters.get(name, 0)
        return int(it, 2) if isinstance(it, str) else it

    def parts(self):
        """A flip-flop as flip-flops of at most 64 bits."""
        width, values = len(self.wires['Q']), [it for it in ('SRST_VALUE', 'ARST_VALUE') if it in self.parameters]
        for low in range(0, width, WIDEST):
            it = copy.copy(self)
            it.wires = {port: bits[low:low + WIDEST] if port in ('D', 'Q') else bits for port, bits in self.wires.items()}
            it.parameters = {**self.parameters, **{name: self.number(name) >> low for name in values}}
            yield it

    def part(self, low, high):
        """The cell for the bits from low to below high of its output, where it works bit by bit."""
        it, width = copy.copy(self), len(self.wires['Y'])
        it.wires = dict(self.wires, Y=self.wires['Y'][low:high])
        for port in {'A', 'B'} & self.wires.keys():
            bits = self.wires[port]
            front = bits[-1] if self.number(f'{port}_SIGNED') else '0'
            bits = bits + [front] * (width - len(bits))
            it.wires[port] = [bit for i in range(0, len(bits), width) for bit in bits[i + low:i + high]]
        return it

    def rejected(self, text):
        return Rejected(f'{self.place}: {text} (a cell {self.kind})')


class Netlist:
    def __init__(self, module):
        self.ports = {name: it['bits'] for name, it in module['ports'].items()}
        self.inputs = {name for name, it in module['ports'].items() if it['direction'] == 'input'}
        self.names = {name: it['bits'] for name, it in module['netnames'].items()}
        self.visible = {name for name, it in module['netnames'].items() if not it.get('hide_name')}
        self.starts, self.driver, self.flip_flops, self.memories = {}, {}, [], {}
        for it in module['netnames'].values():
            start = it['attributes'].get('init', '')
            self.starts.update((bit, int(value)) for bit, value in zip(it['bits'], reversed(start)) if value in '01')
        for name, it in module['cells'].items():
            if it['type'] not in IGNORED:
                self.add(Cell(name, it))

    def add(self, cell):
        for port, way in cell.ways.items():
            for i, bit in enumerate(cell.wires[port] if way == 'output' else []):
                if bit in self.driver:
                    raise cell.rejected(f'a second driver of {self.name_of(bit)}')
                self.driver[bit] = cell, port, i
        if cell.kind in FLIP_FLOPS:
            self.flip_flops += cell.parts()
        elif cell.kind == '$mem_v2':
            self.memories[cell.parameters['MEMID'].lstrip('\\')] = cell
        elif OTHER_STATE.match(cell.kind):
            raise cell.rejected('a latch, or a register that no rising edge of one clock sets: an assignment may be missing in a branch')

    def name_of(self, bit):
        """A name that the source has for the bit."""
        found = sorted((not name in self.visible, len(name), name) for name, bits in self.names.items() if bit in bits)
        return found[0][2] if found else 'a wire without a name'


def read(files, top, kept, macros, optimised):
    """The netlist of a module: of Verilog files by Yosys, or of one JSON file that it wrote."""
    if files[0].endswith('.json'):
        return of_json(files[0], top)
    with tempfile.TemporaryDirectory() as work:
        options = ''.join(f' -D{it}' for it in macros)
        reads = '; '.join(f"read_verilog{' -sv' if it.endswith('.sv') else ''}{options} {it}" for it in files)
        words = dict(reads=reads, top=top, kept=' '.join(f'w:{it}' for it in kept), opt='opt -keepdc;' if optimised else '', to=f'{work}/net.json')
        said = yosys(SCRIPT.format(clean='clean;', **words))
        if said and UNREAD.search(said):
            # Yosys 0.23 finds fault with its own cell of a memory that nothing reads, in `clean`, and at its end, after the netlist is written.
            said = yosys(SCRIPT.format(clean=UNUSED, **words))
            said = '' if UNREAD.search(said) and os.path.exists(f'{work}/net.json') else said
        if said:
            raise Rejected(failure(said))
        return of_json(f'{work}/net.json', top)


def yosys(script):
    """What Yosys says where it fails, or an empty text."""
    ran = subprocess.run(['yosys', '-q', '-p', script], stdout=subprocess.PIPE, stderr=subprocess.STDOUT)
    return '' if ran.returncode == 0 else ran.stdout.decode(errors='replace').strip() or f'Yosys: status {ran.returncode}'


def failure(said):
    """What Yosys said when it failed, as one line."""
    unread = UNREAD.search(said)
    if unread:
        return f'Yosys makes no cell for the memory {unread[1]}, since nothing reads it'
    return next((it for it in said.split('\n') if 'ERROR' in it), said.split('\n')[-1]).replace('ERROR: ', 'Yosys: ')


def of_json(path, top):
    with open(path, encoding='utf-8') as it:
        modules = json.load(it)['modules']
    if top not in modules:
        raise Rejected(f"{os.path.basename(path)} has no module {top}: it has {', '.join(sorted(modules))}")
    return Netlist(modules[top])
