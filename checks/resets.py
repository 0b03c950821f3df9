#!/usr/bin/env python3
"""A module of `pipe` in Icarus Verilog beside the sequential machine: python3 checks/resets.py KP JOB SEED CYCLES

Runs the module that KP writes for the job under random stall words, samples and resets, and cuts the run after each cycle in which `rst` is 1. The
part after a cut is a run of the job that begins with the start values of its registers and with the words that the files of the circuit contain then:

- its rows are those of `kp sim`, with the same stall words and samples;
- its registers and words are those of `kp seq K`, where K counts, for each of them, the cycles in which `ue` was 1 for its write stage, and where
  instruction i takes the value that a sample has in the i-th cycle in which `ue` is 1 for the sample's stage;
- the files at a cut are those of the cycle before. In a cycle with `rst` 1 `ue` counts for nothing.

Rows are compared in each cycle; registers and words in some cycles, in those with `rst` 1, in those after them, and at the end. Prints `ok: ..` or
the first difference.
"""
import os
import random
import re
import subprocess
import sys
import tempfile


class Wrong(Exception):
    pass


def run(words, text=""):
    try:
        ran = subprocess.run(words, input=text.encode(), stdout=subprocess.PIPE, stderr=subprocess.STDOUT, timeout=600)
    except subprocess.TimeoutExpired:
        raise Wrong(f"{' '.join(words[:2])} runs for more than 600 seconds") from None
    out = ran.stdout.decode(errors="replace")
    if ran.returncode:
        raise Wrong(f"{' '.join(words[:2])} ends with status {ran.returncode}: {out.strip()[-200:]}")
    return out


class Job:
    """What a description declares, and its text up to its sections."""

    def __init__(self, text):
        text = re.sub(r"//[^\n]*", "", text)
        sections = re.search(r"\b(?:image|stalls|inputs|end)\b", text).start()
        self.head = text[:sections]
        image = re.match(r"image\s*\{([^}]*)\}", text[sections:])
        self.image = image[1] if image else ""
        found = lambda pattern: re.findall(pattern, self.head)
        self.name = found(r"\bmachine\s+(\w+)")[0]
        self.stages = int(found(r"\bstages\s+(\d+)")[0])
        self.regs = {it: int(width) for it, width in found(r"\breg\s+(\w+)\s*:\s*(\d+)")}
        self.files = {it: (int(width), int(address)) for it, width, address in found(r"\bfile\s+(\w+)\s*:\s*(\d+)\s*\[\s*(\d+)")}
        self.samples = {it: (int(width), int(at)) for it, width, at in found(r"\bsample\s+(\w+)\s*:\s*(\d+)\s+at\s+(\d+)")}
        result = r"\bresult\s+\w+\s*:\s*\d+\s*->\s*(\w+)\s*(?:\[\s*\w+\s*\])?\s*(?:when\s+\w+)?\s*at\s+(\d+)"
        self.write = {it: int(at) for it, at in found(result)}

    def text(self, image, stalls="", inputs=""):
        parts = [("image", image), ("stalls", stalls), ("inputs", inputs)]
        return self.head + "".join(f"{name} {{\n{body}}}\n" for name, body in parts if body) + "end\n"


class Cycle:
    """The inputs of a cycle, and whether registers and files are looked at in it."""

    def __init__(self, rng, job, resets, stalls, changes):
        self.rst = int(rng.random() < resets)
        self.ext = sum((rng.random() < stalls) << k for k in range(job.stages))
        self.samples = {it: rng.getrandbits(width) if rng.random() < changes else 0 for it, (width, _) in job.samples.items()}
        self.look = rng.random() < 0.1


def plan(rng, job, count):
    rates = rng.choice([0.02, 0.05, 0.15]), rng.choice([0, 0.05, 0.25]), rng.choice([0, 0.05, 0.5])
    cycles = [Cycle(rng, job, *rates) for _ in range(count)]
    cycles[rng.randrange(count)].rst = 1
    for it in range(count):
        if cycles[it].rst or it == 0 or cycles[it - 1].rst:
            cycles[it].look = True
    return cycles


def bench(job, cycles, folder):
    """Writes the stimulus, and returns a test bench that prints a line for each cycle, and the state after the last."""
    fields = [("rst", 1), ("look", 1), ("ext", job.stages)] + [(f"s_{it}", width) for it, (width, _) in job.samples.items()]
    width = sum(it for _, it in fields)
    with open(f"{folder}/stimulus", "w", encoding="ascii") as it:
        for cycle in cycles:
            word = 0
            for value, bits in zip([cycle.rst, cycle.look, cycle.ext, *cycle.samples.values()], [bits for _, bits in fields]):
                word = word << bits | value
            it.write(f"{word:x}\n")
    ports = "".join(f", .{it}({it})" for it, _ in fields if it != "look")
    state = "".join(f'      $write(" {it}=%h", dut.r_{it});\n' for it in job.regs)
    words = "".join(
        f'      for (i = 0; i < {1 << address}; i = i + 1) if (dut.f_{it}[i] !== 0) $write(" {it}[%0d]=%h", i, dut.f_{it}[i]);\n'
        for it, (_, address) in job.files.items())
    top = job.stages - 1
    return (f"module bench;\n  reg clk;\n  integer i, t;\n  reg [{width - 1}:0] stimulus [0:{len(cycles) - 1}];\n"
            + "".join(f"  reg [{bits - 1}:0] {it};\n" for it, bits in fields)
            + f"  wire [{top}:0] full, ue;\n  wire [3:0] back;\n"
            + f"  m_{job.name} dut(.clk(clk){ports}, .full(full), .ue(ue), .back(back));\n"
            + f"  task state; begin\n{state}{words}    $write(\"\\n\");\n  end endtask\n"
            + '  initial begin\n    $readmemh("stimulus", stimulus);\n    clk = 0;\n'
            + f"    for (t = 0; t < {len(cycles)}; t = t + 1) begin\n"
            + f"      {{{', '.join(it for it, _ in fields)}}} = stimulus[t];\n"
            + '      #1 $write("row %b %b %b", full, ue, back);\n      if (look) state; else $write("\\n");\n'
            + '      #1 clk = 1;\n      #1 clk = 0;\n    end\n    #1 $write("end");\n    state;\n    $finish;\n  end\nendmodule\n')


def simulated(job, cycles, module):
    """The rows as `sim` prints them, the update enables, and the states where they are looked at."""
    with tempfile.TemporaryDirectory() as folder:
        for name, text in ("module.v", module), ("bench.v", bench(job, cycles, folder)):
            with open(f"{folder}/{name}", "w", encoding="ascii") as it:
                it.write(text)
        run(["iverilog", "-g2005", "-s", "bench", "-o", f"{folder}/a", f"{folder}/bench.v", f"{folder}/module.v"])
        here = os.getcwd()
        os.chdir(folder)
        try:
            lines = run(["vvp", "-n", "a"]).split("\n")
        finally:
            os.chdir(here)
    lines = [it for it in lines if it.startswith(("row ", "end"))]
    if len(lines) != len(cycles) + 1:
        raise Wrong(f"Icarus: {len(lines)} lines for {len(cycles)} cycles")
    rows, enables, states = [], [], {}
    for t, line in enumerate(lines):
        words = line.split()
        if words[0] == "row":
            full, ue, back = words[1:4]
            if set(full + ue + back) - set("01"):
                raise Wrong(f"cycle {t}: a row with x or z: {line}")
            rows.append(f"full {full[::-1]} ue {ue[::-1]} back {int(back, 2) - 1 if int(back, 2) else '-'}")
            enables.append(int(ue, 2))
        state = dict(it.split("=") for it in words if "=" in it)
        if state or words[0] == "end":
            if any(set(it) - set("0123456789abcdef") for it in state.values()):
                raise Wrong(f"cycle {t}: x or z in the state")
            states[t] = {it: int(value, 16) for it, value in state.items()}
    return rows, enables, states


def number(width, value):
    return f"{width}'h{value:x}"


def image_of(job, state):
    """The entries of an image: the registers' own start values, and the words that are not 0 in this state."""
    lines = [f"  {it} = {start};\n" for it, start in re.findall(r"\b(\w+)\s*=\s*([^;,]*);", job.image) if it in job.regs]
    for it, value in state.items():
        name, _, address = it.partition("[")
        if address:
            lines.append(f"  {it} = {number(job.files[name][0], value)};\n")
    return "".join(lines)


def inputs_of(job, rows):
    """The samples of consecutive cycles or instructions, each a dictionary."""
    return "".join(f"  {it} = {number(job.samples[it][0], value)} from {t} to {t};\n"
                   for t, row in enumerate(rows) for it, value in row.items() if value)


class Part:
    """The run from one cut to the next."""

    def __init__(self, kp, job, image, cycles, enables):
        self.kp, self.job, self.image, self.cycles = kp, job, image, cycles
        self.passed = [[0] * job.stages]
        taken = {it: [] for it in job.samples}
        for cycle, ue in zip(cycles, enables):
            for it, (_, at) in job.samples.items():
                if ue >> at & 1:
                    taken[it].append(cycle.samples[it])
            self.passed.append([count + (ue >> k & 1) for k, count in enumerate(self.passed[-1])])
        most = max((len(it) for it in taken.values()), default=0)
        taken = [{it: values[i] for it, values in taken.items() if i < len(values)} for i in range(most)]
        self.sequential = job.text(image, inputs=inputs_of(job, taken))
        self.known = {}

    def rows(self):
        stalls = "".join(f"  {k} from {t} to {t};\n" for t, cycle in enumerate(self.cycles) for k in range(self.job.stages) if cycle.ext >> k & 1)
        text = self.job.text(self.image, stalls, inputs_of(self.job, [it.samples for it in self.cycles]))
        lines = run([self.kp, "sim", str(len(self.cycles))], text).split("\n")
        return [it.split(" ", 2)[2] for it in lines if it.startswith("cycle ")]

    def after(self, count):
        """The state of the sequential machine after this number of instructions."""
        if count not in self.known:
            lines = run([self.kp, "seq", str(count)], self.sequential).split("\n")
            self.known[count] = {it.split(" = ")[0]: int(it.rpartition("'h")[2], 16) for it in lines if " = " in it}
        return self.known[count]

    def difference(self, state, t):
        """The first register or word that differs after t cycles of this part, or None; and how many there are."""
        values = 0
        for it in [*self.job.regs, *self.job.files]:
            expected = self.after(self.passed[t][self.job.write[it]] if it in self.job.write else 0)
            if it in self.job.regs:
                values += 1
                if state[it] != expected[it]:
                    return f"{it} is {state[it]:x} and not {expected[it]:x}", values
                continue
            of_file = lambda all_words: {name: value for name, value in all_words.items() if name.startswith(f"{it}[") and value}
            given, wanted = of_file(state), of_file(expected)
            values += 1 << self.job.files[it][1]
            for name in [*given, *wanted]:
                if given.get(name, 0) != wanted.get(name, 0):
                    return f"{name} is {given.get(name, 0):x} and not {wanted.get(name, 0):x}", values
        return None, values


def compare(kp, path, seed, count):
    with open(path, encoding="ascii") as it:
        job = Job(it.read())
    cycles = plan(random.Random(f"{seed} {job.name}"), job, count)
    module = run([kp, "pipe"], job.text(job.image))
    rows, enables, states = simulated(job, cycles, module)
    first, image, values, resets = 0, job.image, 0, sum(it.rst for it in cycles)
    while first < count:
        last = next((t for t in range(first, count) if cycles[t].rst), count - 1)
        part = Part(kp, job, image, cycles[first : last + 1], enables[first : last + 1])
        for t, row in enumerate(part.rows(), first):
            if row != rows[t]:
                raise Wrong(f"cycle {t}, {t - first} after the last cut: {rows[t]} and not {row}")
        is_reset = cycles[last].rst
        for t in range(first, last + (1 if is_reset else 2)):
            if t in states:
                difference, more = part.difference(states[t], t - first)
                values += more
                if difference:
                    raise Wrong(f"cycle {t}, {t - first} after the last cut: {difference}")
        first = last + 1
        if is_reset:
            image = image_of(job, states[first])
            if image != image_of(job, states[last]):
                raise Wrong(f"cycle {last}: rst is 1, and a file changes")
            if first == count:
                difference, more = Part(kp, job, image, [], []).difference(states[first], 0)
                values += more
                if difference:
                    raise Wrong(f"cycle {first}, after a cut: {difference}")
    return f"ok: {count} rows, {values} values, {resets} resets"


def main(words):
    if len(words) != 4 or not words[3].isdecimal() or int(words[3]) < 1:
        sys.exit(__doc__)
    try:
        print(compare(words[0], words[1], words[2], int(words[3])))
    except Wrong as it:
        print(it)
        return 1
    return 0


if __name__ == "__main__":
    sys.exit(main(sys.argv[1:]))
