"""Compiles programs by GCC, runs them by qemu-riscv32, and takes the expected states from what QEMU prints.

crt0.s and gentest end a program with the system call write(1, _data, _top - _data), at which the machines stop: QEMU prints the data
memory. Its log has the registers at that call and the number of instructions before it."""
import re
import shutil
import struct
import subprocess
import tempfile

from tools import elf, execution

GCC, NM, QEMU = 'riscv64-unknown-elf-gcc', 'riscv64-unknown-elf-nm', 'qemu-riscv32'
FLAGS = ('-O2 -mabi=ilp32 -ffreestanding -fno-builtin -nostdlib -Wall -Wextra '
         '-Wl,--no-warn-rwx-segments -Wl,--defsym=STACK=1024').split()
C_PROGRAMS = 'sort crc sieve matrix string fib divide interp kernels digits'.split()
MOST_INSTRUCTIONS = 100_000        # of `kp seq`
LONGEST_TRACE = 14 << 20           # bytes of QEMU's trace of as many instructions, and some more
STORED = ({name: [f'{name}.c'] for name in C_PROGRAMS} | {f'{name}.m': [f'{name}.c'] for name in ('matrix', 'digits')}
          | {'each': ['7', '--size', '3'], 'each.m': ['8', '--size', '3', '--m']})


def missing():
    """The first tool that isn't installed, or None."""
    return next((tool for tool in (GCC, QEMU) if not shutil.which(tool)), None)


def output(command, **more):
    return subprocess.run(command, check=True, stdout=subprocess.PIPE, **more).stdout


def compiled(name, source, work):
    """The path of the ELF file of a C program, or of a program that gentest prints for these arguments."""
    sources = [f'{execution.HERE}/c/crt0.s', f'{execution.HERE}/c/{source[0]}']
    if not source[0].endswith('.c'):
        sources = [f'{work}/test.s']
        with open(sources[0], 'wb') as it:
            it.write(output([f'{execution.HERE}/gentest', *source]))
    march = 'rv32im' if name.endswith('.m') else 'rv32i'
    output([GCC, f'-march={march}', *FLAGS, '-T', f'{execution.HERE}/c/link.ld', *sources, '-lgcc', '-o', f'{work}/elf'])
    return f'{work}/elf'


def one_by_one():
    """QEMU's flag for a block for each instruction, which has two names."""
    text = output([QEMU, '-help']).decode()
    return '-one-insn-per-tb' if 'one-insn-per-tb' in text else '-singlestep'


def registers(program, stop, work):
    """(registers at the stop, data memory)."""
    log = f'{work}/log'
    memory = output([QEMU, one_by_one(), '-d', 'cpu,nochain', '-dfilter', f'{stop:#x}+4', '-D', log, program], timeout=60)
    text = execution.text_of(log)
    found = {int(i): int(value, 16) for i, value in re.findall(r'\bx(\d+)/\w+ +([0-9a-f]{8})', text)}
    assert int(re.search(r'\bpc +([0-9a-f]{8})', text)[1], 16) == stop and found[0] == 0
    return found, memory


def trace(program, stop, work):
    """The addresses of the instructions up to the stop, which is the last. A run that is far longer than MOST_INSTRUCTIONS fails."""
    log = f'{work}/log'
    output(['prlimit', f'--fsize={LONGEST_TRACE}', QEMU, one_by_one(), '-d', 'exec,nochain', '-D', log, program], timeout=60)
    with open(log, encoding='ascii') as it:
        steps = [int(re.match(r'[^[]*\[\w+/(\w+)/', line)[1], 16) for line in it if line.startswith('Trace')]
    assert steps.count(stop) == 1
    return steps[:steps.index(stop) + 1]


def stop_of(program):
    """The address of the system call that ends a program."""
    return int(re.search(r'^(\w+) \w _stop$', output([NM, program]).decode(), re.M)[1], 16)


def state(program, work):
    """The state at the stop, as `kp seq` prints it, but for the words of IM."""
    stop = stop_of(program)
    found, memory = registers(program, stop, work)
    lines = [f'after {len(trace(program, stop, work)) - 1}', f"PC = 32'h{stop:08x}"]
    lines += [f"X[{i}] = 32'h{value:08x}" for i, value in sorted(found.items()) if value]
    after = struct.unpack(f'<{len(memory) // 4}I', memory)
    lines += [f"DM[{i}] = 32'h{value:08x}" for i, value in enumerate(after) if value]
    return '\n'.join(lines) + '\n'


def program(name, source):
    """Compiles a program and runs it by QEMU."""
    with tempfile.TemporaryDirectory() as work:
        path = compiled(name, source, work)
        with open(path, 'rb') as it:
            image = elf.image(it.read())
        return execution.Program(name, image, state(path, work))


def store(names):
    """Writes images/ and expected/ for the named programs, or for all."""
    for name in names or STORED:
        made = program(name, STORED[name])
        for path, text in ((f'images/{name}.image', made.image), (f'expected/{name}.state', made.expected)):
            with open(f'{execution.HERE}/{path}', 'w', encoding='ascii') as it:
                it.write(text)
        print(f'{name}: {made.instructions} instructions, {len(made.image)} bytes of image, {len(made.expected)} of state', flush=True)
