"""Runs the Verilog of the machines in Icarus Verilog and Verilator."""
import os
import re
import shutil
import subprocess

from tools import execution

VERILOG = os.path.join(execution.HERE, 'verilog')


def write(path, text):
    with open(path, 'w', encoding='ascii') as it:
        it.write(text)


def write_hex(path, found, words=None):
    """Words for $readmemh; with `words` the file starts with that number of zeros."""
    zeros = '@0\n' + '00000000\n' * words if words else ''
    write(path, zeros + ''.join(f"@{i:x}\n{value.split(chr(39) + 'h')[1]}\n" for i, value in sorted(found.items())))


def read_hex(path):
    return [int(line, 16) for line in execution.text_of(path).split('\n') if line and not line.startswith('//')]


def nonzero(name, path):
    return [(f'{name}[{i}]', f"32'h{value:08x}") for i, value in enumerate(read_hex(path)) if value]


def agrees(program, pc, work):
    """Whether the program counter, registers and data memory of the bench are the expected ones."""
    found = [('PC', pc), *nonzero('X', f'{work}/x.out'), *nonzero('DM', f'{work}/dm.out')]
    return found == execution.values(program.expected)


def simulate(tool, command, program, work, seed=None):
    """(whether the run agrees, a line of text). With a seed the stages are stalled at random."""
    stalls = [] if seed is None else [f'+seed={seed}']
    printed, seconds = execution.run([*command, f'+wanted={program.instructions}', *stalls], cwd=work, stderr=subprocess.DEVNULL)
    cycles, pc = re.search(r'^cycles (\d+) PC (\S+)', printed, re.M).groups()
    same = agrees(program, pc, work)
    return same, f"{tool} {'same' if same else 'DIFFERENT'}, {cycles} cycles{' with random stalls' * bool(stalls)}, {seconds:.2f} s"


def missing(tool):
    """Whether a tool isn't installed; says so."""
    if shutil.which(tool):
        return False
    print(f'{tool} is not installed: its runs are skipped', flush=True)
    return True


class Icarus:
    """Icarus Verilog: builds each module with its program in it."""

    def __init__(self, machine, work):
        self.machine, self.work = machine, work

    def run(self, program, seed=None):
        job = execution.machine_text(self.machine).rpartition('end')[0] + program.image + 'end\n'
        write(f'{self.work}/p.v', execution.run([execution.kp(), 'pipe'], job)[0])
        execution.run(['iverilog', '-g2005', f'-DTOP=m_{self.machine}', f'-DSTAGES={execution.MACHINES[self.machine]}', '-DCLOCK',
                       '-o', f'{self.work}/vvp', f'{VERILOG}/bench.v', f'{self.work}/p.v'])
        return simulate('icarus', ['vvp', '-n', f'{self.work}/vvp'], program, self.work, seed)


class Verilator:
    """Verilator: builds the module without a program once, and loads each program into its memories."""

    def __init__(self, machine, work):
        self.work = work
        write(f'{work}/m.v', execution.run([execution.kp(), 'pipe'], execution.machine_text(machine))[0])
        execution.run(['verilator', '--cc', '--exe', '--build', '-O3', '-Wno-fatal', '-Wno-lint', '--top-module', 'bench',
                       '--Mdir', f'{work}/obj', f'-DTOP=m_{machine}', f'-DSTAGES={execution.MACHINES[machine]}',
                       f'{VERILOG}/bench.v', f'{work}/m.v', f'{VERILOG}/bench.cpp'], stderr=subprocess.DEVNULL)

    def run(self, program, seed=None):
        write_hex(f'{self.work}/im.hex', execution.words(program.image, 'IM'))
        write_hex(f'{self.work}/dm.hex', execution.words(program.image, 'DM'))
        return simulate('verilator', [f'{self.work}/obj/Vbench', '+load'], program, self.work, seed)


class Outside:
    """The system of examples/soc, in Icarus Verilog."""

    def __init__(self, work):
        self.work = work
        system = f'{execution.HERE}/../soc'
        write(f'{work}/x.v', execution.run([execution.built('kpcore')], execution.text_of(f'{system}/core.kp'))[0])
        execution.run(['iverilog', '-g2005', '-DPROGRAM', '-o', f'{work}/vvp', f'{system}/soc_bench.v', f'{system}/soc.v', f'{work}/x.v'])

    def run(self, program):
        write_hex(f'{self.work}/im.hex', execution.words(program.image, 'IM'), 1 << 14)
        write_hex(f'{self.work}/dm.hex', execution.words(program.image, 'DM'), 1 << 12)
        return simulate('icarus with soc.v', ['vvp', '-n', f'{self.work}/vvp'], program, self.work)
