"""The C programs of a folder, as of a test suite: GCC compiles them, and QEMU prints the state that is expected at their end.

A program ends by exit(), abort() or a return of main (c/suite.s). With picolibc (Debian's picolibc-riscv64-unknown-elf; SPECS names another specs file) it may call
the library; without it there is libgcc alone. GCC gets the options that a program names in `dg-options` or `dg-additional-options`, as GCC's own tests do."""
import glob
import os
import re
import subprocess
import tempfile

from tools import elf, execution, qemu

HEAP = 24 << 10                    # bytes
SPECS = os.environ.get('SPECS', '/usr/lib/picolibc/riscv64-unknown-elf/picolibc.specs')
# What the machines don't have, in the words of `dg-require-effective-target`
MISSING = 'trampolines fileio mmap int128 dfp'.split()


class LeftOut(Exception):
    """A program that isn't run, and why."""


def names(folder, sample=None):
    """The programs of a folder and of the folders in it, without their extension: all, or a number of them at equal distances. NAME-lib and what is in a folder lib are
    parts of other programs."""
    found = sorted(os.path.relpath(it, folder)[:-2] for it in glob.glob(f'{folder}/**/*.c', recursive=True))
    found = [it for it in found if not it.endswith('-lib') and 'lib' not in it.split('/')[:-1]]
    return found[::max(1, len(found) // sample)][:sample] if sample else found


def options_of(text):
    """The options that a program asks for, but those for some targets only."""
    found = re.findall(r'dg-(?:additional-)?options\s+(?:"([^"]*)"|\{\s*"([^"]*)"\s*\})\s*(\{)?', text)
    return ' '.join(one or other for one, other, target in found if not target).split()


def check_needs(text):
    """Fails for a program that the machines can't run, where it says so."""
    for need in re.findall(r'dg-require-effective-target (\w+)', text):
        if need in MISSING:
            raise LeftOut(f'needs {need}')
    if re.search(r'dg-skip-if "[^"]*" \{ ! \{ i\?86', text):
        raise LeftOut('for x86 alone')


def compiled(folder, name, march, level, work):
    """The path of the ELF file."""
    source = f'{folder}/{name}.c'
    with open(source, encoding='latin-1') as it:
        text = it.read()
    check_needs(text)
    sources = [f'{execution.HERE}/c/suite.s', source]
    if os.path.exists(f'{folder}/{name}-lib.c'):
        sources += [f'{folder}/{name}-lib.c', *glob.glob(f'{os.path.dirname(source)}/lib/main.c')]
    options, libraries = ['-ffreestanding'], ['-lgcc']
    if os.path.exists(SPECS):
        sources.append(f'{execution.HERE}/c/sink.c')
        options, libraries = [f'--specs={SPECS}'], ['-lc', '-lm', '-lgcc']
    done = subprocess.run([qemu.GCC, f'-march={march}', '-mabi=ilp32', '-w', f'-{level}', *options, *options_of(text), '-nostdlib',
                           '-Wl,--no-warn-rwx-segments', f'-Wl,--defsym=HEAP={HEAP}', '-T', f'{execution.HERE}/c/suite.ld', *sources,
                           '-Wl,--start-group', *libraries, '-Wl,--end-group', '-o', f'{work}/elf'],
                          stdout=subprocess.PIPE, stderr=subprocess.PIPE)
    if done.returncode:
        said = done.stderr.decode(errors='replace')
        found = re.search(r"undefined reference to `(\w+)|region `(\w+)' overflowed|cannot move location counter|error: [^\n]*", said)
        raise LeftOut(f'GCC: {found[0] if found else said.strip()[-100:]}')
    return f'{work}/elf'


def program(folder, name, march, level):
    """The program with the state that QEMU prints for its end."""
    with tempfile.TemporaryDirectory() as work:
        path = compiled(folder, name, march, level, work)
        try:
            plain = subprocess.run([qemu.QEMU, path], stdout=subprocess.PIPE, stderr=subprocess.DEVNULL, timeout=20)
            if plain.returncode or len(plain.stdout) < elf.SPAN:
                raise LeftOut(f'QEMU: status {plain.returncode}')
            expected = qemu.state(path, work)
        except subprocess.TimeoutExpired:
            raise LeftOut('QEMU: more than its time') from None
        except subprocess.CalledProcessError:
            raise LeftOut(f'far more than {qemu.MOST_INSTRUCTIONS} instructions') from None
        with open(path, 'rb') as it:
            made = execution.Program(name, elf.image(it.read()), expected)
    if made.instructions > qemu.MOST_INSTRUCTIONS:
        raise LeftOut(f'{made.instructions} instructions')
    return made


def compare(machine, made):
    """Whether `kp seq` prints QEMU's state, and a line of text."""
    job = execution.machine_text(machine).rpartition('end')[0] + made.image + 'end\n'
    printed, seconds = execution.run([execution.kp(), 'seq', str(made.instructions)], job)
    same = printed == made.seq()
    return same, f"{machine:7} {made.name:24} seq {'same' if same else 'DIFFERENT'}: {made.instructions} instructions, {seconds:.2f} s"
