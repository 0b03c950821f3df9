#!/usr/bin/env python3
"""Whether tools/kpasm writes the words that others write: python3 checks/kpasm.py

- mini5: the program examples/isa/mini5.s is the image of examples/mini5.kp;
- dlx: each program of examples/ is the image that `kp asm` writes;
- rv32i: random programs of all instructions are the words that the assembler of GNU makes of the same text, and the words of the stored images of
  examples/riscv, read and assembled again, are the same words. The first needs riscv64-unknown-elf-as;
- a line that violates a table, and a table that is wrong, are reported with the line and the reason.

KP names another program than ./kp. The last line is `N checked, M wrong`, with the tools that aren't installed, and the status is 0 where M is 0."""
import glob
import os
import random
import re
import shutil
import subprocess
import sys
import tempfile

sys.dont_write_bytecode = True
TOP = os.path.dirname(os.path.dirname(os.path.abspath(__file__)))
sys.path.insert(0, f'{TOP}/tools')
from kptools.isa import Table

KP = os.environ.get('KP', f'{TOP}/kp')
ISA = f'{TOP}/examples/isa'
AS, OBJCOPY = 'riscv64-unknown-elf-as', 'riscv64-unknown-elf-objcopy'

# A program for the table of mini5, and what is said of it.
PROGRAMS = [
    ('add r1, r2', '1: the form is `add d, a, b`'),
    ('add r1, r2; r3', '1: the form is `add d, a, b`'),
    ('\nadd r1, r2, r8', '2: expected a register r0 to r7, found `r8`'),
    ('add r1, r2, 3', '1: expected a register r0 to r7, found `3`'),
    ('addi r1, r0, 16', '1: 16 is out of range: 0 to 15'),
    ('addi r1, r0, -1', '1: -1 is out of range: 0 to 15'),
    ('addi r1, r0, r1', '1: expected a number, found `r1`'),
    ('ld r1, 0[r0]', '1: the form is `ld d, c(a)`, and `[` is in the place of `(`'),
    ('sub r1, r2, r3', '1: there is no instruction `sub`'),
    ('bnz r1, there', '1: the label `there` is declared nowhere'),
    ('bnz r1, on\non: nop', '1: -1 is out of range: 0 to 15 (the distance of `on`)'),
    ('on: nop\non: nop', '2: the label `on` is declared already'),
    ('.word 65536', '1: after .word comes a number of 16 bits'),
]
# A table, and what is said of it.
TABLES = [
    ('word 8 step 1', '1: a line of a table ends with `;`'),
    ('field d : 3 = r;', '1: no line `word WIDTH step N;`'),
    ('word 8 step 1;\nfield d : 3 = 5;', '2: `5` is no kind of field: signed, unsigned, label, `label + 4`, `label -`, or letters before the number of a register'),
    ("word 8 step 1;\nnop = 7'h00;", '2: `nop` has 7 bits, and a word 8'),
    ("word 8 step 1;\nnop = {4'h0, x};", '2: `x` is no literal and no field'),
    ("word 8 step 1;\nnop = 8'h100;", "2: `8'h100` doesn't fit 8 bits"),
    ("word 8 step 1;\nfield d : 3 = r;\ninc d = {5'd0, d[3:1]};", '3: `d[3:1]`: the bits of `d` are 2 to 0'),
    ("word 8 step 1;\nfield d : 3 = r;\ninc = {5'd0, d};", '3: the field `d` is no operand of `inc`'),
    ('word 8 step 1;\nwhat is this;', '2: expected `word ..`, `field ..` or `mnemonic operands = {bits}`'),
]


def kpasm(*words):
    """Standard output, or what was said on standard error where the status is 2."""
    ran = subprocess.run([sys.executable, f'{TOP}/tools/kpasm', *words], stdout=subprocess.PIPE, stderr=subprocess.PIPE)
    return (ran.stderr if ran.returncode == 2 else ran.stdout).decode()


def image_of(job):
    with open(job, encoding='ascii') as it:
        return re.findall(r"\bIM\[\d+\] = [^;]*;", it.read())


def table(name):
    with open(f'{ISA}/{name}.isa', encoding='utf-8') as it:
        return Table(it.read())


def random_program(rng, isa, count):
    """A program with each instruction of a table, and a label in each line. A branch goes back and forth by at most 200 lines."""
    lines = []
    for i in range(count):
        form = isa.forms[i % len(isa.forms)]
        operands = []
        for it in form.operands:
            field = isa.fields.get(it)
            if field is None:
                operands.append(it)
            elif field.kind == 'label':
                operands.append(f'l{rng.randrange(max(0, i - 200), min(count, i + 200))}')
            else:
                low, high = field.range
                value = rng.choice([low, high, rng.randint(low, high)])
                operands.append(str(value) if field.kind in ('signed', 'unsigned') else f'{field.kind}{value}')
        lines.append(f"l{i}: {form.mnemonic} {''.join(operands)}")
    return '\n'.join(lines) + '\n'


def assembled_by_gnu(source, work):
    subprocess.run([AS, '-march=rv32i', '-mabi=ilp32', '-o', f'{work}/o', source], check=True)
    subprocess.run([OBJCOPY, '-O', 'binary', '-j', '.text', f'{work}/o', f'{work}/bin'], check=True)
    with open(f'{work}/bin', 'rb') as it:
        data = it.read()
    return ''.join(f'{int.from_bytes(data[i:i + 4], "little"):08x}\n' for i in range(0, len(data), 4))


def results(work):
    """(what was compared, what is wrong or an empty text)"""
    text = kpasm('image', f'{ISA}/mini5.isa', f'{ISA}/mini5.s', 'IM')
    yield 'mini5', '' if re.findall(r'\bIM\[.*', text) == image_of(f'{TOP}/examples/mini5.kp')[:8] else 'other words than those of mini5.kp'
    if shutil.which(KP):
        for program in sorted(glob.glob(f'{TOP}/examples/*.dlx')):
            with open(program, 'rb') as it:
                wanted = subprocess.run([KP, 'asm'], stdin=it, stdout=subprocess.PIPE).stdout.decode()
            yield os.path.basename(program), '' if kpasm('image', f'{ISA}/dlx.isa', program, 'IM') == wanted else 'other words than those of `kp asm`'
    isa, path = table('rv32i'), f'{work}/p.s'
    for seed in range(3) if shutil.which(AS) else ():
        with open(path, 'w', encoding='ascii') as it:
            it.write(random_program(random.Random(seed), isa, 400))
        yield f'rv32i, seed {seed}', '' if kpasm('words', f'{ISA}/rv32i.isa', path) == assembled_by_gnu(path, work) else f'other words than those of {AS}'
    for image in sorted(glob.glob(f'{TOP}/examples/riscv/images/*.image')):
        name = os.path.basename(image)[:-6]
        if not name.endswith('.m'):
            lines = kpasm('read', f'{ISA}/rv32i.isa', image, 'IM').rstrip('\n').split('\n')
            with open(path, 'w', encoding='ascii') as it:
                it.write('\n'.join(line.split('\t')[2] for line in lines) + '\n')
            again = kpasm('words', f'{ISA}/rv32i.isa', path).split()
            yield f'image {name}', '' if again == [line.split('\t')[1].strip() for line in lines] else f'other words after `read`: {again[:1]}'
    for kind, cases in (('program', PROGRAMS), ('table', TABLES)):
        for text, wanted in cases:
            with open(path, 'w', encoding='ascii') as it:
                it.write(text + '\n')
            said = kpasm('words', f'{ISA}/mini5.isa', path) if kind == 'program' else kpasm('words', path, f'{ISA}/mini5.s')
            yield f'{kind} {text!r}', '' if said == f'{path}:{wanted}\n' else f'says {said.strip()}'


def main():
    checked = wrong = 0
    with tempfile.TemporaryDirectory() as work:
        for what, fault in results(work):
            checked, wrong = checked + 1, wrong + bool(fault)
            if fault:
                print(f'{what}: {fault}')
    missing = [it for it in (KP, AS) if not shutil.which(it)]
    print(f'{checked} checked, {wrong} wrong' + (f"; not installed: {' '.join(missing)}" if missing else ''))
    return wrong > 0


sys.exit(main())
