"""The tests of the labs 5 to 10: each yields names, and what is wrong or an empty text."""
import os
import random
import re
import shutil
import subprocess
import tempfile

import l8
from running import CYCLES, HERE, computes, in_time, kp, machine, tool, with_program

TOP = f"{HERE}/../../.."
MASK = (1 << 32) - 1


def signed32(value):
    return value - (1 << 32) if value >> 31 else value


# Seven instructions of the extension Zbb: bits 31 to 25, bits 14 to 12, and what they do with the values of two registers (RISC-V unprivileged manual)
ZBB = {
    "andn": (0b0100000, 0b111, lambda a, b: a & ~b & MASK),
    "orn": (0b0100000, 0b110, lambda a, b: (a | ~b) & MASK),
    "xnor": (0b0100000, 0b100, lambda a, b: ~(a ^ b) & MASK),
    "min": (0b0000101, 0b100, lambda a, b: min(a, b, key=signed32)),
    "minu": (0b0000101, 0b101, min),
    "max": (0b0000101, 0b110, lambda a, b: max(a, b, key=signed32)),
    "maxu": (0b0000101, 0b111, max),
}
CORNERS = [(0, 0), (1, MASK), (MASK, 1), (1 << 31, (1 << 31) - 1), ((1 << 31) - 1, 1 << 31), (0x12345678, 0xFF00FF00), (0xFFFFFFFE, 0xFFFFFFFF), (7, 7)]


def load(register, value):
    """lui and addi, which give a register this value."""
    low = value & 0xFFF
    return [(value + 0x800 & 0xFFFFF000) | register << 7 | 0x37, low << 20 | register << 15 | register << 7 | 0x13]


def riscv(words):
    return "image {\n" + "".join(f"  IM[{at}] = 32'h{it:08x};\n" for at, it in enumerate(words)) + "}\nend\n"


def bare(job):
    """A description without its sections."""
    return re.split(r"^(?:image|stalls|inputs|end)\b", job, maxsplit=1, flags=re.M)[0]


def of_state(text):
    return dict(re.findall(r"^(\S+) = \d+'h([0-9a-f]+)$", text, re.M))


def zbb(job):
    """Lab 5: RV32I with seven instructions more."""
    status, text = kp(["check"], job)
    yield "the job is accepted", text.strip() if status else ""
    if status:
        return
    for name, (high, middle, does) in ZBB.items():
        words = [it for i, (a, b) in enumerate(CORNERS) for it in (*load(1, a), *load(2, b), high << 25 | 2 << 20 | 1 << 15 | middle << 12 | 10 + i << 7 | 0x33)]
        found = of_state(kp(["seq", str(len(words))], bare(job) + riscv(words))[1])
        wrong = [f"of {a:08x} and {b:08x} it is {found.get(f'X[{10 + i}]', '0')}" for i, (a, b) in enumerate(CORNERS)
                 if int(found.get(f"X[{10 + i}]", "0"), 16) != does(a, b)]
        yield name, "; ".join(wrong[:2])
    for name in ("each", "fib", "sort"):
        with open(f"{TOP}/examples/riscv/images/{name}.image", encoding="ascii") as it:
            image = it.read()
        with open(f"{TOP}/examples/riscv/expected/{name}.state", encoding="ascii") as it:
            text = it.read()
        count, due = text.split()[1], of_state(text)
        found = {name: it for name, it in of_state(kp(["seq", count], bare(job) + image + "\nend\n")[1]).items() if not name.startswith("IM[")}
        differ = sorted(it for it in {*due, *found} if int(due.get(it, "0"), 16) != int(found.get(it, "0"), 16))
        yield f"RV32I: {name}", f"{differ[0]} is another than by QEMU" if differ else ""


def cut(job):
    """Lab 6: the instruction of dlxs, cut for the product of path and cycles."""
    with tempfile.TemporaryDirectory() as work:
        file = f"{work}/my.kp"
        with open(file, "w", encoding="utf-8") as it:
            it.write(job)
        said = subprocess.run([tool("kpview"), "same", f"{TOP}/examples/dlxs.kp", file], stdout=subprocess.PIPE, stderr=subprocess.STDOUT)
        depth = re.search(r"longest path ([\d.]+)", subprocess.run([tool("kpview"), "depth", file], stdout=subprocess.PIPE).stdout.decode())
        program = subprocess.run([f"{TOP}/examples/with-program", file, f"{TOP}/examples/sort.dlx"], stdout=subprocess.PIPE, env={**os.environ, "KP": tool("kp")})
    count = re.search(r"^count .*?(\d+)$", kp(["sim", "400"], program.stdout.decode())[1], re.M)
    path, cycles = float(depth[1]) if depth else 99, 400 / max(1, int(count[1])) if count else 99
    yield "the same instruction as dlxs", "" if said.returncode == 0 else said.stdout.decode().strip()
    yield "a path of at most 28 levels", "" if path <= 28 else f"{path}"
    yield "at most 1.5 cycles per instruction", "" if cycles <= 1.5 else f"{cycles:.2f}"
    for word, most in (("good", 40), ("better", 34), ("best", 29)):
        yield f"{word}: a product of at most {most}", "" if path * cycles <= most else f"{path} x {cycles:.2f} = {path * cycles:.1f}"


def interrupt(job):
    """Lab 7: L8 with an interrupt line."""
    yield from machine("2", job, counted=[it for it in CYCLES["2"][1] if it[0] != "a loop with a jump"], randoms=0)
    yield "the line", "" if re.search(r"\bsample\s+I\s*:\s*1\s+at\b", job) else "no sample I of 1 bit"
    for name, words in l8.INTERRUPT.items():
        yield name, computes(job, words, 20, "interrupt")
    for seed in range(10):
        words, samples = l8.interrupted(seed)
        section = "inputs {\n" + "".join(f"  I = 1'h1 from {it} to {it};\n" for it in samples) + "}\n"
        yield f"interrupts {seed}", computes(job, words, 70, "interrupt", samples, section)


# Faults of the pipeline in answers/4.v: a text of it, and what is in its place
FAULTS = {
    "no bypass from stage 3": ("assign n142 = n141 ? n304 :", "assign n142 = n141 ? n123 :"),
    "no bypass from stage 2": ("assign n150 = n144 ? n221 :", "assign n150 = n144 ? n202 :"),
    "the older value wins": ("  wire [7:0] n150;\n  assign n150 = n144 ? n221 : n142;",
                             "  wire [7:0] n151;\n  assign n151 = n144 ? n221 : n142;\n  wire [7:0] n150;\n  assign n150 = n141 ? n304 : n151;"),
    "stage 1 goes on while stage 2 is held": ("assign n109 = n108 | n210;", "assign n109 = n108 | n310;"),
    "stage 2 goes on while stage 3 is held": ("assign n209 = n208 | n310;", "assign n209 = n208 & n310;"),
    "a held stage 1 loses its instruction": ("assign n160 = n11 | n110;", "assign n160 = n11 & n3;"),
    "a held stage 3 loses its value": ("assign n364 = n211 ? n221 : n304;", "assign n364 = n211 ? n221 : n221;"),
    "a held stage 2 loses its constant": ("assign n261 = n111 ? n122 : n201;", "assign n261 = n111 ? n122 : n122;"),
}


def find_faults(job):
    """Lab 8: the sections of a job that show each of some faults."""
    with open(f"{HERE}/../start/4.kp", encoding="utf-8") as it:
        begin = it.read()
    with open(f"{HERE}/../answers/4.v", encoding="utf-8") as it:
        right = it.read()
    texts = [re.sub(r"//.*", "", it) for it in (job, begin)]
    same = bare(texts[0]).split() == bare(texts[1]).split() and "image" not in texts[0]
    yield "the machine is that of start/4.kp", "" if same else "another machine, or an image"
    status, said = kp(["watch", "60"], job + right)
    yield "no difference in the right module", "" if status == 0 else said.strip().split("\n")[-1]
    for name, (old, new) in FAULTS.items():
        assert right.count(old) == 1, old
        status, said = kp(["watch", "60"], job + right.replace(old, new))
        yield name, "" if status and re.search(r"^(differs|row)", said, re.M) else "not found in 60 cycles"


def board(text):
    """Lab 9: L8 with an output, and its module for a board."""
    job, _, ports = text.partition("\nend\n")
    yield from machine("2", job + "\nend\n", counted=[], randoms=0)
    for name, words in l8.OUT.items():
        yield name, computes(job + "\nend\n", words, 20, "out")
    for seed in range(4):
        yield f"random program {seed}", computes(job + "\nend\n", l8.random_program(seed, "out"), 70, "out")
    made = subprocess.run([tool("kpcore")], input=text.encode(), stdout=subprocess.PIPE, stderr=subprocess.PIPE)
    module = made.stdout.decode()
    yield "the port o_OUT", made.stderr.decode().strip() if made.returncode else "" if "o_OUT" in module and "show OUT" in ports else "the module has no port o_OUT"
    if made.returncode == 0 and shutil.which("yosys") and shutil.which("nextpnr-ice40"):
        with tempfile.TemporaryDirectory() as work:
            with open(f"{work}/core.v", "w", encoding="ascii") as it:
                it.write(module)
            script = f"read_verilog {work}/core.v {HERE}/../start/9-top.v; synth_ice40 -top top -json {work}/top.json"
            ran = subprocess.run(["yosys", "-q", "-p", script], stdout=subprocess.PIPE, stderr=subprocess.STDOUT)
            placed = ran.returncode or subprocess.run(["nextpnr-ice40", "--hx8k", "--package", "ct256", "--json", f"{work}/top.json", "--pcf-allow-unconstrained", "--freq", "12"],
                                                      stdout=subprocess.PIPE, stderr=subprocess.STDOUT).returncode
        yield "an HX8K has room for it, at 12 MHz", "" if not placed else "Yosys or nextpnr fails"


def products(job):
    """Lab 10: L8 with a multiplication in two stages."""
    counted = [*CYCLES["2"][1], ("4 products and their uses", l8.PRODUCTS, 17), ("4 products without a use", l8.UNUSED, 13)]
    yield from machine("2", job, counted=counted, randoms=0)
    yield "no operator *", "" if "*" not in re.sub(r"//.*", "", job) else "the text has one"
    for name, words in l8.MUL.items():
        yield name, computes(job, words, 20, "mul")
    for seed in range(8):
        yield f"random program {seed}", computes(job, l8.random_program(seed, "mul"), 70, "mul")


LATER = {"5": zbb, "6": cut, "7": interrupt, "8": find_faults, "9": board, "10": products}
