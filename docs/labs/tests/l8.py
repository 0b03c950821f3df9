"""The machine L8 of the labs, an instruction at a time, from its table in docs/labs/1-instructions.md alone, and programs for it. A dialect has the instructions
that a later lab adds.

A program is a list of words. A state is a dict: `PC`, `R[1]` .. and `DM[0]` .. to numbers; what it doesn't list is 0.
"""
import random

OPS = ("add", "sub", "and", "slt", "addi", "lw", "sw", "beq", "jal")
DIALECTS = {"": (), "interrupt": ("rti", "ei"), "out": ("out",), "mul": ("mul",)}
HANDLER = 0x80


def word(name, d=0, a=0, other=0):
    """An instruction: `other` is b of the first four and of mul, and else the constant, or the target of jal."""
    if name not in OPS:
        return 9 + next(it.index(name) for it in DIALECTS.values() if name in it) << 12 | d << 9 | a << 6 | (other & 7) << 3
    low = (other & 7) << 3 if name in OPS[:4] else other & 0xFF if name == "jal" else other & 0x3F
    return OPS.index(name) << 12 | d << 9 | (0 if name == "jal" else a << 6) | low


def signed(value, width=8):
    return value - (1 << width) if value >> (width - 1) else value


def run(program, count, dialect="", samples=()):
    """The state after so many instructions; `samples` are those in which the line I is 1."""
    ops, special = OPS + DIALECTS[dialect], {"EPC": 0, "IE": 0, "OUT": 0}
    pc, r, dm = 0, [0] * 8, [0] * 256
    for number in range(count):
        if special["IE"] and number in samples:
            special.update(EPC=pc, IE=0)
            pc = HANDLER
            continue
        i = program[pc] if pc < len(program) else 0
        op, d, a, b, c = i >> 12, i >> 9 & 7, i >> 6 & 7, i >> 3 & 7, signed(i & 0x3F, 6)
        name = ops[op] if op < len(ops) else ""
        at, after = r[a] + c & 0xFF, pc + 1 & 0xFF
        value = {
            "add": r[a] + r[b], "sub": r[a] - r[b], "and": r[a] & r[b], "slt": int(signed(r[a]) < signed(r[b])),
            "addi": r[a] + c, "lw": dm[at], "jal": after, "mul": r[a] * r[b],
        }.get(name)
        if name == "out":
            special["OUT"] = r[a]
        if name == "sw":
            dm[at] = r[d]
        if name in ("rti", "ei"):
            special["IE"] = 1
        if name in ("jal", "rti"):
            pc = i & 0xFF if name == "jal" else special["EPC"]
        else:
            pc = after + c & 0xFF if name == "beq" and r[a] == r[d] else after
        if value is not None and d:
            r[d] = value & 0xFF
    found = {"PC": pc, **special}
    found.update({f"R[{k}]": it for k, it in enumerate(r)})
    found.update({f"DM[{k}]": it for k, it in enumerate(dm)})
    return {name: it for name, it in found.items() if it}


# A program for each instruction, with all that it needs: the two registers 1 and 2 with 5 and -3
TWO = [word("addi", 1, 0, 5), word("addi", 2, 0, -3)]
EACH = {
    "add": TWO + [word("add", 3, 1, 2), word("add", 4, 2, 2), word("add", 0, 1, 1)],
    "sub": TWO + [word("sub", 3, 1, 2), word("sub", 4, 2, 1)],
    "and": TWO + [word("and", 3, 1, 2), word("and", 4, 2, 2)],
    "slt": TWO + [word("slt", 3, 1, 2), word("slt", 4, 2, 1), word("slt", 5, 1, 1), word("slt", 6, 0, 1)],
    "addi": TWO + [word("addi", 3, 1, -32), word("addi", 4, 2, 31), word("addi", 0, 1, 1), word("addi", 5, 0, 1)],
    "lw": TWO + [word("sw", 1, 0, 7), word("lw", 3, 0, 7), word("lw", 4, 2, 10), word("add", 5, 4, 3), word("lw", 0, 0, 7)],
    "sw": TWO + [word("sw", 2, 1, 1), word("sw", 1, 2, 4), word("lw", 6, 0, 6)],
    "beq": TWO + [word("beq", 1, 2, 5), word("addi", 3, 3, 1), word("addi", 1, 1, -1), word("beq", 1, 0, 1), word("beq", 0, 0, -4), word("sw", 3, 0, 0)],
    "jal": TWO + [word("jal", 7, 0, 5), word("addi", 3, 0, 1), word("jal", 0, 0, 6), word("jal", 6, 0, 3), word("add", 5, 6, 7)],
}


def random_program(seed, dialect=""):
    """A program of 48 words in which registers, addresses and branches meet often; words without an instruction too."""
    draw = random.Random(seed)
    words = [word("addi", k, 0, draw.randrange(-32, 32)) for k in range(1, 8)]
    ops = OPS + DIALECTS[dialect] * 2
    while len(words) < 48:
        name = draw.choice(ops)
        d, a = draw.randrange(8), draw.randrange(8)
        other = draw.randrange(8) if name not in OPS[4:] else draw.randrange(48) if name == "jal" else draw.randrange(-6, 7)
        words.append(draw.randrange(len(ops) if dialect else 9, 16) << 12 | draw.randrange(4096) if draw.random() < 0.04 else word(name, d, a, other))
    return words


# Programs whose cycles are counted: 12 dependent sums; 4 loads whose words are used at once;
# 4 loads before an instruction that doesn't use the word, though its constant has the bits of the register in the place of b; a loop with a jump back, with a branch back, and with
# a branch that is always taken. With each goes the number of its instructions as they are run.
STRAIGHT = [word("addi", 1, 1, 1)] * 12, 12
LOADS = [word("addi", 1, 0, 9)] + [word("lw", 2, 0, 0), word("add", 3, 2, 1)] * 4, 9
SPARE = [word("addi", 1, 0, 9)] + [word("lw", 2, 0, 0), word("addi", 3, 1, 16)] * 4, 9
LOOP = [
    word("addi", 1, 0, 10), word("addi", 2, 2, 3), word("addi", 1, 1, -1), word("beq", 1, 0, 1), word("jal", 0, 0, 1), word("sw", 2, 0, 1),
], 41
BACK = [
    word("addi", 1, 0, 10), word("addi", 6, 0, 1), word("addi", 2, 2, 3), word("addi", 1, 1, -1), word("slt", 4, 0, 1), word("beq", 4, 6, -4),
    word("sw", 2, 0, 1),
], 43
SKIP = [
    word("addi", 1, 0, 12), word("beq", 0, 0, 1), word("addi", 3, 3, 1), word("addi", 1, 1, -1), word("beq", 1, 0, 1), word("beq", 0, 0, -5),
    word("sw", 1, 0, 1),
], 49


def interrupted(seed):
    """A program with a handler that counts in R[7] and returns, and the instructions in which the line is 1."""
    draw = random.Random(seed)
    handler = [word("addi", 7, 7, 1), word("sw", 7, 0, 20), word("rti")]
    words = [word("ei"), *random_program(seed, "interrupt")]
    words += [0] * (HANDLER - len(words)) + handler
    return words, sorted(draw.sample(range(60), 1 + seed % 3 * 4))


# Programs with the instructions of a dialect, as EACH
OUT = {
    "out": TWO + [word("out", 0, 1), word("addi", 1, 1, 1), word("out", 0, 2), word("addi", 3, 0, 9)],
    "out of register 0": TWO + [word("out", 0, 1), word("out", 0, 0)],
    "out writes no register": TWO + [word("addi", 3, 0, 9), word("out", 3, 1), word("add", 4, 3, 3)],
}
MUL = {
    "mul": TWO + [word("mul", 3, 1, 1), word("mul", 4, 1, 2), word("mul", 5, 2, 2), word("mul", 6, 0, 1)],
    "mul of all bits": [word("addi", 1, 0, -1), word("addi", 2, 0, 27), word("mul", 3, 1, 1), word("mul", 4, 1, 2), word("mul", 5, 2, 2), word("mul", 6, 5, 3)],
    "mul to register 0": TWO + [word("mul", 0, 1, 1), word("add", 3, 0, 1)],
}
INTERRUPT = {
    "ei": [word("ei"), word("addi", 1, 0, 5)],
    "rti": [word("addi", 1, 0, 5), word("rti"), word("addi", 1, 1, 1)],
}
# Multiplications whose products are used at once, and none of which is used
PRODUCTS = [word("addi", 1, 0, 9)] + [word("mul", 2, 1, 1), word("add", 3, 2, 1)] * 4, 9
UNUSED = [word("addi", 1, 0, 9)] + [word("mul", 2, 1, 1), word("addi", 3, 1, 16)] * 4, 9
