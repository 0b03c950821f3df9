"""Runs kp on a machine with a program, and compares the outcome with the expected state."""
import os
import re
import subprocess
import time

HERE = os.path.dirname(os.path.dirname(os.path.abspath(__file__)))
MACHINES = {'rv32i': 5, 'rv32ib': 5, 'rv32ip': 5, 'rv32i3': 3, 'rv32i_fast': 5, 'rv32im': 12}       # name -> stages
MOST_CYCLES = 100_000


def built(name):
    """A program of this repository: the variable KP or KPCORE, else the built program, else the script of its name."""
    top = os.path.join(HERE, '..', '..')
    built = os.path.join(top, 'crates', name, 'out', name)
    return os.environ.get(name.upper()) or (built if os.path.exists(built) else os.path.join(top, name))


def kp():
    """The program kp."""
    return built('kp')


def text_of(path):
    with open(path, encoding='ascii') as it:
        return it.read()


def machine_text(machine):
    return text_of(f'{HERE}/{machine}.kp')


def run(command, text=None, **more):
    """(standard output, seconds) of a command that must succeed."""
    start = time.time()
    done = subprocess.run(command, input=text and text.encode(), stdout=subprocess.PIPE, check=True, **more)
    return done.stdout.decode(), time.time() - start


class Program:
    """A program: its image section, and the state that QEMU printed for its end, without the words of IM."""

    def __init__(self, name, image, expected):
        self.name, self.image, self.expected = name, image, expected
        self.has_m = name.endswith('.m')
        self.instructions = int(expected.split()[1])

    def seq(self):
        """What `kp seq` must print: IM is as in the image."""
        program = ''.join(f"IM[{i}] = {value}\n" for i, value in sorted(words(self.image, 'IM').items()))
        head, pc, rest = self.expected.split('\n', 2)
        return f'{head}\n{pc}\n{program}{rest}'

    def runs_on(self, machine):
        return machine == 'rv32im' or not self.has_m


def words(image, name):
    """Index -> literal of the words of a file in an image section."""
    found = {}
    for at, values in re.findall(rf'\b{name}\[(\d+)\] = ([^;]*);', image):
        found.update(enumerate(values.split(', '), int(at)))
    return found


def values(state):
    """(target, value) of each line of a state, without the numbers of instructions that `sim` prints."""
    return re.findall(r'^(\w+(?:\[\d+\])?) = (\S+)(?: after \d+)?$', state, re.M)


class Tally:
    """The cycles that a number of instructions takes, by cause, from the rows of `sim`."""

    def __init__(self, sim, instructions):
        self.instructions, self.cycles = instructions, None
        self.squashed = self.waits = self.retired = 0
        for cycle, row in enumerate(re.findall('^cycle.*$', sim, re.M)):
            if self.retired == instructions:
                self.cycles = cycle
                return
            _, _, _, full, _, ue, _, back = row.split()
            self.retired += ue[-1] == '1'
            self.count(full, ue, 0 if back == '-' else int(back) + 1)

    def count(self, full, ue, squashed):
        """One cycle: the slots that a rollback empties, and whether a stage after them waits for data."""
        self.squashed += squashed
        self.waits += any(f == '1' and u == '0' for f, u in zip(full[squashed:], ue[squashed:]))

    def text(self):
        if self.cycles is None:
            return f'{self.retired} of {self.instructions} instructions retired'
        return (f'{self.instructions} instructions in {self.cycles} cycles ({self.cycles / self.instructions:.3f}): '
                f'{self.squashed} squashed, {self.waits} waiting')


def compare(machine, program):
    """(whether the machine agrees with the expected state, a line of text, the tally)."""
    job = machine_text(machine).rpartition('end')[0] + program.image + 'end\n'
    seq, seq_seconds = run([kp(), 'seq', str(program.instructions)], job)
    cycles = min(MOST_CYCLES, 2 * program.instructions + 200)
    sim, sim_seconds = run([kp(), 'sim', str(cycles)], job)
    tally = Tally(sim, program.instructions)
    # After its last instruction the machine stays at an ecall, which changes nothing. A run that MOST_CYCLES cut short is compared by `seq` alone.
    is_cut = tally.cycles is None and cycles == MOST_CYCLES and 4 * tally.retired > cycles
    same = seq == program.seq() and (is_cut or tally.cycles is not None and values(sim) == values(program.seq()))
    line = f"{machine:7} {program.name:9} {'same' if same else 'DIFFERENT'}: {tally.text()}; "
    return same, line + f'seq {seq_seconds:.2f} s, sim {cycles} {sim_seconds:.2f} s', tally


def check_machine(path, program, work):
    """(whether a machine of one's own ends a program in the expected state, a line of text): `kprun` runs it to its end on the pipelined machine of the job
    at this path, and compares every register and every word of data."""
    expected = os.path.join(work, program.name + '.expect')
    with open(expected, 'w', encoding='ascii') as it:
        it.write(program.expected + "X[..] = 32'h00000000\nDM[..] = 32'h00000000\n")
    job = text_of(path).rpartition('end')[0] + program.image + 'end\n'
    done = subprocess.run([built('kprun'), 'run', '--quiet', '--expect', expected], input=job.encode(), capture_output=True)
    said = ' '.join((done.stdout or done.stderr).decode().splitlines())
    return done.returncode == 0, f"{program.name:9} {'same' if done.returncode == 0 else 'DIFFERENT'}: {said}"
