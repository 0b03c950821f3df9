#!/usr/bin/env python3
"""The gates that Yosys makes of a module of `pipe`, beside the module itself, in Icarus Verilog: python3 checks/gates.py KP JOB SEED CYCLES SECONDS

Both run under the same random stall words, samples and resets, and `full`, `ue` and `back` are compared in each cycle. Yosys has SECONDS for its
command `synth`, which makes flip-flops of every word of a file: where that takes longer, the job is skipped. Prints `ok: ..`, `skipped: ..` or the first
difference.
"""
import random
import subprocess
import sys
import tempfile

from resets import Job, Wrong, plan, run, simulated


def gates_of(module, name, seconds):
    """The module as gates and flip-flops, or None where Yosys takes longer than it has."""
    with tempfile.TemporaryDirectory() as folder:
        with open(f"{folder}/module.v", "w", encoding="ascii") as it:
            it.write(module)
        script = f"read_verilog {folder}/module.v; synth -flatten -top {name}; write_verilog -noattr {folder}/gates.v"
        try:
            ran = subprocess.run(["yosys", "-q", "-p", script], stdout=subprocess.PIPE, stderr=subprocess.STDOUT, timeout=seconds)
        except subprocess.TimeoutExpired:
            return None
        if ran.returncode:
            raise Wrong(f"yosys ends with status {ran.returncode}: {ran.stdout.decode(errors='replace').strip()[-200:]}")
        with open(f"{folder}/gates.v", encoding="ascii") as it:
            return it.read()


def compared(kp, text, seed, count, seconds):
    job = Job(text)
    module = run([kp, "pipe"], text)
    gates = gates_of(module, f"m_{job.name}", seconds)
    if gates is None:
        return f"skipped: more than {seconds} s"
    # Registers and files have no names among the gates, so only the outputs are looked at.
    job.regs, job.files = {}, {}
    cycles = plan(random.Random(seed), job, count)
    expected, found = simulated(job, cycles, module)[0], simulated(job, cycles, gates)[0]
    for t, (one, other) in enumerate(zip(expected, found)):
        if one != other:
            raise Wrong(f"cycle {t}: the module has {one}, its gates {other}")
    return f"ok: {count} cycles"


def main():
    kp, path, seed, count, seconds = sys.argv[1:]
    with open(path, encoding="ascii") as it:
        text = it.read()
    try:
        print(compared(kp, text, int(seed), int(count), int(seconds)))
    except Wrong as wrong:
        print(wrong)
        sys.exit(1)


if __name__ == "__main__":
    main()
