#!/usr/bin/env python3
"""The module of `kpcore` with ports of each kind, in simulators: python3 checks/ports.py KP KPCORE JOB SEED CYCLES MODULE TOOL..

Asks for each register and each file of the job (show, peek and load), for some pipes in the stages that hold them (probe and next), and for commit. The
module is then observed through its ports alone, under random stall words, samples, resets and loads. The first cycles raise the reset, and load words.
Again and again it is cut after each cycle in which `rst` is 1, as by checks/resets.py, so that what is shown is that of `kp sim` and `kp seq` over the words
that were loaded. Besides:

- without the ports and the lines that were added the text is that of `kp pipe`;
- a word is loaded only while `rst` is 1;
- `commit` is the bit of the last stage of `ue`;
- what `next P at k` shows is what `probe P at k` shows in the next cycle, unless `rst` is 1.

The module is written to the file MODULE. TOOL is `iverilog` or `verilator`: with both, they print the same. Prints `ok: ..` or the first difference.

What ports cost, in Yosys: python3 checks/ports.py cells KP KPCORE

`synth` deletes the registers on which no output depends. The module of `kp pipe` for examples/acc3.kp has to have a flip-flop for each stage but the first
(`full`), and one for whether C is set; with the lines `show X` and `commit` also those of X, of the pipe A and of the result C. `commit` alone adds none.
"""
import os
import random
import re
import subprocess
import sys
import tempfile

from resets import Job, Part, Wrong, image_of, number, plan, run

MOST_PROBED = 6
COUNTER = os.path.join(os.path.dirname(os.path.abspath(__file__)), "../examples/acc3.kp")


class Ports:
    """What is asked for, and the module with these ports."""

    def __init__(self, kp, kpcore, job, rng):
        self.job = job
        self.pipes = {it: int(width) for it, width in re.findall(r"\bpipe\s+(\w+)\s*:\s*(\d+)", job.head)}
        text = job.text(job.image)
        places = [(it, k) for it in self.pipes for k in range(1, job.stages)]
        rng.shuffle(places)
        self.probed = []
        for name, k in places:
            asked = subprocess.run([kpcore], input=f"{text}probe {name} at {k}\n".encode(), stdout=subprocess.PIPE, stderr=subprocess.PIPE)
            if asked.returncode == 0:
                self.probed.append((name, k))
            elif asked.returncode != 2 or b" error P3: " not in asked.stderr:
                raise Wrong(f"probe {name} at {k}: status {asked.returncode}, {asked.stderr.decode(errors='replace').splitlines()[:1]}")
            if len(self.probed) == MOST_PROBED:
                break
        lines = [f"show {it}" for it in job.regs]
        lines += [f"{verb} {it}" for it in job.files for verb in ("peek", "load")]
        lines += [f"{verb} {it} at {k}" for it, k in self.probed for verb in ("probe", "next")]
        lines += ["commit"]
        rng.shuffle(lines)
        self.module = run([kpcore], text + "".join(f"{it}\n" for it in lines))
        self.same_as(run([kp, "pipe"], text))

    def same_as(self, pipe):
        """The header has more ports, and there are more lines before the last one."""
        header, _, rest = pipe.partition("\n")
        comment = "  // The ports that were asked for. All other lines are those of kp pipe.\n"
        front, _, added = self.module.partition(comment)
        if not front.startswith(header[:-2] + ",\n") or not front.endswith(");\n" + rest[: -len("endmodule\n")]) or not added.endswith("\nendmodule\n"):
            raise Wrong("without the ports and their lines the text isn't that of pipe")


class Loads:
    """The words that are put into files in each cycle, whether it raises the reset or not."""

    def __init__(self, rng, job, cycles, first):
        for cycle in cycles[:first]:
            cycle.rst = 1
        rate = rng.choice([0.2, 0.7, 1])
        self.words = []
        for _ in cycles:
            each = {}
            for it, (width, address) in job.files.items():
                if rng.random() < rate:
                    each[it] = rng.randrange(1 << address), rng.getrandbits(width)
            self.words.append(each)


def bench(job, ports, cycles, loads, folder):
    """Writes the stimulus, and returns a test bench that prints a line for each cycle and each state."""
    fields = [("rst", 1), ("look", 1), ("ext", job.stages)] + [(f"s_{it}", width) for it, (width, _) in job.samples.items()]
    for it, (width, address) in job.files.items():
        fields += [(f"le_{it}", 1), (f"la_{it}", address), (f"l_{it}", width)]
    with open(f"{folder}/stimulus", "w", encoding="ascii") as stimulus:
        for cycle, words in zip(cycles, loads.words):
            values = [cycle.rst, cycle.look, cycle.ext, *cycle.samples.values()]
            for it in job.files:
                values += [1, *words[it]] if it in words else [0, 0, 0]
            word = 0
            for value, (_, bits) in zip(values, fields):
                word = word << bits | value
            stimulus.write(f"{word:x}\n")
    width = sum(it for _, it in fields)
    outputs = [(f"o_{it}", width) for it, width in job.regs.items()]
    outputs += [(f"{mark}_{it}_{k}", ports.pipes[it]) for it, k in ports.probed for mark in "od"] + [("commit", 1)]
    named = [it for it, _ in fields if it != "look"] + [it for it, _ in outputs] + [f"{mark}_{it}" for it in job.files for mark in ("pa", "p")]
    state = "".join(f'    $write(" {it}=%h", o_{it});\n' for it in job.regs)
    words = "".join(
        f'    for (i = 0; i < {1 << address}; i = i + 1) begin\n      pa_{it} = i[{address - 1}:0];\n      #1;\n'
        f'      if (p_{it} !== 0) $write(" {it}[%0d]=%h", i, p_{it});\n    end\n'
        for it, (_, address) in job.files.items())
    pipes = "".join(f' $write(" {it}:%h", {it});' for it, _ in outputs if it.count("_") > 1 or it[0] == "d")
    return (f"module bench;\n  reg clk;\n  integer i, t;\n  reg [{width - 1}:0] stimulus [0:{len(cycles) - 1}];\n"
            + "".join(f"  reg [{bits - 1}:0] {it};\n" for it, bits in fields)
            + "".join(f"  reg [{address - 1}:0] pa_{it};\n  wire [{bits - 1}:0] p_{it};\n" for it, (bits, address) in job.files.items())
            + "".join(f"  wire [{bits - 1}:0] {it};\n" for it, bits in outputs)
            + f"  wire [{job.stages - 1}:0] full, ue;\n  wire [3:0] back;\n"
            + f"  m_{job.name} dut(.clk(clk), .full(full), .ue(ue), .back(back)" + "".join(f", .{it}({it})" for it in named) + ");\n"
            + f"  task state; begin\n{state}{words}    $write(\"\\n\");\n  end endtask\n"
            + '  initial begin\n    $readmemh("stimulus", stimulus);\n    clk = 0;\n'
            + "".join(f"    pa_{it} = 0;\n" for it in job.files)
            + f"    for (t = 0; t < {len(cycles)}; t = t + 1) begin\n"
            + f"      {{{', '.join(it for it, _ in fields)}}} = stimulus[t];\n"
            + f'      #1 $write("row %b %b %b %b", full, ue, back, commit);{pipes}\n      if (look) state; else $write("\\n");\n'
            + '      #1 clk = 1;\n      #1 clk = 0;\n    end\n    #1 $write("end");\n    state;\n    $finish;\n  end\nendmodule\n')


def lines_of(tool, text, module, folder):
    """What the test bench prints."""
    for name, it in ("module.v", module), ("bench.v", text):
        with open(f"{folder}/{name}", "w", encoding="ascii") as file:
            file.write(it)
    files = [f"{folder}/bench.v", f"{folder}/module.v"]
    if tool == "iverilog":
        run(["iverilog", "-g2005", "-s", "bench", "-o", f"{folder}/a", *files])
        words = ["vvp", "-n", "a"]
    else:
        run(["verilator", "--binary", "-Wno-fatal", "-Wno-lint", "-O0", "--top-module", "bench", "--Mdir", f"{folder}/obj", *files])
        words = ["./obj/Vbench"]
    here = os.getcwd()
    os.chdir(folder)
    try:
        return [it for it in run(words).split("\n") if it.startswith(("row ", "end"))]
    finally:
        os.chdir(here)


def simulated(job, ports, cycles, loads, tools):
    """The rows, the update enables, the states in the cycles that print them, and the values of the pipes, by cycle."""
    with tempfile.TemporaryDirectory() as folder:
        text = bench(job, ports, cycles, loads, folder)
        lines = lines_of(tools[0], text, ports.module, folder)
        for tool in tools[1:]:
            if lines_of(tool, text, ports.module, folder) != lines:
                raise Wrong(f"{tool} prints something else than {tools[0]}")
    if len(lines) != len(cycles) + 1:
        raise Wrong(f"{tools[0]}: {len(lines)} lines for {len(cycles)} cycles")
    rows, enables, states, pipes = [], [], {}, []
    for t, line in enumerate(lines):
        words = line.split()
        if words[0] == "row":
            full, ue, back, commit = words[1:5]
            if set(full + ue + back + commit) - set("01"):
                raise Wrong(f"cycle {t}: a row with x or z: {line}")
            if commit != ue[0]:
                raise Wrong(f"cycle {t}: commit is {commit}, and ue {ue}")
            rows.append(f"full {full[::-1]} ue {ue[::-1]} back {int(back, 2) - 1 if int(back, 2) else '-'}")
            enables.append(int(ue, 2))
            pipes.append(dict(it.split(":") for it in words if ":" in it))
        state = dict(it.split("=") for it in words if "=" in it)
        if state or words[0] == "end":
            states[t] = {it: int(value, 16) for it, value in state.items()}
    return rows, enables, states, pipes


def pipes_move(ports, cycles, pipes):
    """The first difference between what is next and what is held then."""
    for t in range(len(cycles) - 1):
        for it, k in ports.probed:
            if not cycles[t].rst and pipes[t][f"d_{it}_{k}"] != pipes[t + 1][f"o_{it}_{k}"]:
                raise Wrong(f"cycle {t}: d_{it}_{k} is {pipes[t][f'd_{it}_{k}']}, and then o_{it}_{k} is {pipes[t + 1][f'o_{it}_{k}']}")


def compare(kp, kpcore, path, seed, count, module, tools):
    with open(path, encoding="ascii") as it:
        job = Job(it.read())
    rng = random.Random(f"{seed} {job.name} ports")
    cycles = plan(rng, job, count)
    loads = Loads(rng, job, cycles, rng.choice([1, 3, 20]))
    ports = Ports(kp, kpcore, job, rng)
    with open(module, "w", encoding="ascii") as it:
        it.write(ports.module)
    for t, cycle in enumerate(cycles):
        cycle.look = cycle.look or t == 0 or cycle.rst or cycles[t - 1].rst
    rows, enables, states, pipes = simulated(job, ports, cycles, loads, tools)
    pipes_move(ports, cycles, pipes)
    first, image, values, resets = 0, job.image, 0, sum(it.rst for it in cycles)
    while first < count:
        last = next((t for t in range(first, count) if cycles[t].rst), count - 1)
        part = Part(kp, job, image, cycles[first : last + 1], enables[first : last + 1])
        for t, row in enumerate(part.rows(), first):
            if row != rows[t]:
                raise Wrong(f"cycle {t}, {t - first} after the last cut: {rows[t]} and not {row}")
        for t in range(first, last + (1 if cycles[last].rst else 2)):
            if t in states:
                difference, more = part.difference(states[t], t - first)
                values += more
                if difference:
                    raise Wrong(f"cycle {t}, {t - first} after the last cut: {difference}")
        first = last + 1
        if cycles[last].rst:
            image = image_of(job, loaded_state(job, states[last], loads.words[last]))
    return f"ok: {count} rows, {values} values, {resets} resets, {len(ports.probed)} pipes, {', '.join(tools)}"


def loaded_state(job, state, words):
    """The state after words were put into its files."""
    return {**state, **{f"{it}[{address}]": value for it, (address, value) in words.items()}}


def synthesised(module, name):
    """The numbers of flip-flops and of all cells that Yosys makes of a module."""
    with tempfile.TemporaryDirectory() as folder:
        with open(f"{folder}/module.v", "w", encoding="ascii") as it:
            it.write(module)
        counts = "".join(f"tee -q -o {folder}/{it} select -count {cells}; " for it, cells in (("ff", "t:$_*DFF*_"), ("all", "t:*")))
        run(["yosys", "-q", "-p", f"read_verilog {folder}/module.v; synth -flatten -top m_{name}; {counts}"])
        found = []
        for it in "ff", "all":
            with open(f"{folder}/{it}", encoding="ascii") as count:
                found.append(int(re.search(r"(\d+) objects", count.read())[1]))
    return found


def cells(kp, kpcore):
    """The flip-flops of acc3: what its register, its pipe and its result store are all in one stage."""
    with open(COUNTER, encoding="ascii") as it:
        text = it.read()
    job = Job(text)
    widths = [*job.regs.values(), *(int(it) for it in re.findall(r"\b(?:pipe|result)\s+\w+\s*:\s*(\d+)", job.head))]
    full, is_set = job.stages - 1, 1
    modules = [("pipe", run([kp, "pipe"], text), full + is_set),
               ("commit", run([kpcore], f"{text}commit\n"), full + is_set),
               ("show X, commit", run([kpcore], f"{text}show X\ncommit\n"), full + is_set + sum(widths))]
    said = []
    for name, module, wanted in modules:
        flip_flops, every = synthesised(module, job.name)
        if flip_flops != wanted:
            raise Wrong(f"{name}: {flip_flops} flip-flops and not {wanted}")
        said.append(f"{name} {flip_flops} flip-flops of {every} cells")
    return f"ok: {'; '.join(said)}"


def printed(check, words):
    """Prints the result of a check, and returns the status."""
    try:
        print(check(*words))
    except Wrong as it:
        print(it)
        return 1
    return 0


def main(words):
    if len(words) == 3 and words[0] == "cells":
        return printed(cells, words[1:])
    if len(words) < 7 or not words[4].isdecimal() or int(words[4]) < 1:
        sys.exit(__doc__)
    return printed(compare, [*words[:4], int(words[4]), words[5], words[6:]])


if __name__ == "__main__":
    sys.exit(main(sys.argv[1:]))
