"""Runs what was handed in by kp, and compares it with the table of the instructions."""
import os
import re
import subprocess

import l8

HERE = os.path.dirname(os.path.abspath(__file__))
# Of each machine: its stages, and programs with the cycles in which their instructions have to retire
CYCLES = {
    "1": (2, [("12 dependent sums", l8.STRAIGHT, 13)]),
    "2": (5, [("12 dependent sums", l8.STRAIGHT, 16), ("4 loads and their uses", l8.LOADS, 17), ("4 loads without a use", l8.SPARE, 13),
              ("a loop with a jump", l8.LOOP, 45)]),
    "3": (5, [("12 dependent sums", l8.STRAIGHT, 16), ("4 loads and their uses", l8.LOADS, 17), ("4 loads without a use", l8.SPARE, 13),
              ("a loop with a jump", l8.LOOP, 49), ("a loop with a branch back", l8.BACK, 53), ("a branch that is always taken", l8.SKIP, 63)]),
}


def tool(name):
    """A program: the variable of its name, or that of the top folder."""
    return os.environ.get(name.upper(), f"{HERE}/../../../{name}")


def kp(words, text):
    ran = subprocess.run([tool("kp"), *words], input=text.encode(), stdout=subprocess.PIPE)
    return ran.returncode, ran.stdout.decode()


def with_program(job, words, sections=""):
    """The machine with this program in the place of its sections, and with further ones."""
    machine = re.split(r"^(?:image|stalls|inputs|end)\b", job, maxsplit=1, flags=re.M)[0]
    image = "".join(f"  IM[{at}] = 16'h{it:04x};\n" for at, it in enumerate(words))
    return f"{machine}image {{\n{image}}}\n{sections}end\n"


def state(text):
    """What `seq` prints: names and values, without zeros."""
    found = {name: int(value, 16) for name, value in re.findall(r"^(\S+) = \d+'h([0-9a-f]+)", text, re.M)}
    return {name: it for name, it in found.items() if it and re.match(r"(PC|EPC|IE|OUT)$|R\[|DM\[", name)}


def computes(job, words, count, dialect="", samples=(), sections=""):
    """What differs after so many instructions, or nothing."""
    status, text = kp(["seq", str(count)], with_program(job, words, sections))
    if status:
        return text.strip()
    due, found = l8.run(words, count, dialect, samples), state(text)
    return "; ".join(f"{it} is {found.get(it, 0)} and not {due.get(it, 0)}" for it in sorted({*due, *found}) if due.get(it, 0) != found.get(it, 0))


def in_time(job, program, cycles):
    words, count = program
    status, text = kp(["sim", str(cycles)], with_program(job, words))
    if status:
        return text.strip()
    retired = int(re.search(r"^count .*?(\d+)$", text, re.M)[1])
    return "" if retired >= count else f"{retired} of {count} instructions retire in {cycles} cycles"


def machine(lab, job, counted=None, randoms=8):
    """The tests of a machine: each a name, and what is wrong. `counted` are other programs whose cycles are counted."""
    stages, programs = CYCLES[lab]
    counted = programs if counted is None else counted
    status, text = kp(["check"], job)
    yield "the job is accepted", text.strip() if status else ""
    if status:
        return
    yield "stages", "" if f" stages {stages} " in text else f"not {stages}, but {text.strip()}"
    for name, words in l8.EACH.items():
        yield name, computes(job, words, 40)
    for seed in range(randoms):
        yield f"random program {seed}", computes(job, l8.random_program(seed), 70)
    for name, program, cycles in counted:
        yield name, in_time(job, program, cycles)
