#!/usr/bin/env python3
"""The descriptions of examples/ that proofs are about:

    python3 checks/isa.py              compares
    python3 checks/isa.py write NAME   writes the text and the tree of one of them: NAME is a row of MACHINES below

Of each machine of crates/kp_isa_*: the text in its specs/ is that of the file in examples/, byte for byte up to the file's image section or to its end,
and the tree beside it is what that file describes, with the same positions. The proofs show that the text has this tree, and what its machine does.
"""
import json
import os
import re
import sys

from description import Reader

ROOT = os.path.join(os.path.dirname(os.path.abspath(__file__)), "..")
# The name of the machine and of its definitions: the crate, the files of its text and of its tree, and the description
MACHINES = {
    "rv32i": ("kp_isa_rv", "Text", "Rv32i", "riscv/rv32i.kp"),
    "rv32ib": ("kp_isa_rv", "Rv32ibText", "Rv32ib", "riscv/rv32ib.kp"),
    "rv32ip": ("kp_isa_rv", "Rv32ipText", "Rv32ip", "riscv/rv32ip.kp"),
    "rv32im": ("kp_isa_rvm", "Text", "Rv32im", "riscv/rv32im.kp"),
    "dlxs": ("kp_isa_dlx", "Text", "Dlxs", "dlxs.kp"),
    "dlx5": ("kp_isa_dlx5", "Text", "Dlx5", "dlx5.kp"),
    "six": ("kp_isa_six", "Text", "Six", "cookbook/six.kp"),
}
LAYOUT = re.compile(r"\s+")


def read(path):
    with open(os.path.join(ROOT, path), encoding="ascii" if path.endswith(".kp") else "utf-8") as file:
        return file.read()


def text_in(specs):
    """The text that the definition in a file of specs/ puts together, line by line."""
    return "".join(json.loads(line) for line in re.findall(r'codes ("(?:[^"\\]|\\.)*")', specs))


def definitions_in(specs):
    """The definitions in a file of specs/, by name, with one space for each layout."""
    found = re.findall(r"^(\w+)(?: image)? =((?:.*\n)(?:    .*\n|  .*\n)*)", specs, re.M)
    return {name: LAYOUT.sub(" ", body).strip() for name, body in found}


def differences(crate, text_file, module, example):
    source = read(f"examples/{example}")
    text = text_in(read(f"crates/{crate}/specs/{text_file}.antt"))
    if not source.startswith(text) or not re.match(r"image \{|end\n$|$", source[len(text):]):
        yield f"crates/{crate}/specs/{text_file}.antt is not the text of examples/{example}"
    ours, theirs = definitions_in(read(f"crates/{crate}/specs/{module}.antt")), Reader(source).definitions()
    for name in theirs:
        if ours.get(name) != theirs[name]:
            yield f"crates/{crate}/specs/{module}.antt: {name} is not that of examples/{example}"


TREE = """-- The description examples/{example}, with the positions of its text.
use Rattle.std.specs.Prelude.{{ℕ, List, [], ◌∷◌, Option, Some, None, codes}}
use Prim.Native.String.{{String}}
use Rattle.kp_bits.specs.declared.operator.BinOp.TheVariants.{{And, Or, Xor, Add, Sub, Mul, Eq, Lt, Shl, Shr}}
use Rattle.kp_ast.specs.declared.tree.{{Named.Named, Num.Num, Image.Image, Job.Job}}
use Rattle.kp_plain.specs.Plain.{{p, named, num, lit_of, Term, lit, var, inv, bin, mux, cat, cut, zx, sx, app, none, more, Act, read, bind, put, set, aim, Part, register, file, pipe, hint, sample, result, func, job_of}}

-- a name, a number, and a name as an expression
abbrev pub n : ℕ → ℕ → String → Named
n line col name = named (p line col) (codes name)

abbrev pub k : ℕ → ℕ → ℕ → Num
k line col value = num (p line col) value

abbrev pub v : ℕ → ℕ → String → Term
v line col name = var (p line col) (codes name)
"""

TYPES = {"parts": "List Part", "blocks": "List (Num × List Act)", "program": "List Image"}


def lined(body):
    """A list with an element in each line."""
    depth, cut, parts = 0, 0, []
    for at, character in enumerate(body):
        depth += (character in "({") - (character in ")}")
        if depth == 0 and body.startswith(" ∷ ", at):
            parts.append(body[cut:at])
            cut = at + 3
    return "\n    " + "\n    ∷ ".join([*parts, body[cut:]])


def tree_file(name, source, example):
    """The text of the file of a tree, before `rt fmt`."""
    found = Reader(source).definitions()
    bodies = [it for it in found if it.endswith("_body")]
    stages = [it for it in found if it.startswith("stage")]
    parts = [TREE.format(example=example)]
    for it in [*bodies, "parts", *stages, "blocks", name, *(["program"] if "program" in found else [])]:
        kind = TYPES.get(it, "Term" if it in bodies else "List Act")
        if it == name:
            parts.append(f"-- with this image\nabbrev pub {it} : Option (List Image) → Job\n{it} image = {found[it]}\n")
        elif it == "program":
            parts.append(f"-- the program in the text\nabbrev pub {it} : {kind}\n{it} ={lined(found[it])}\n")
        else:
            body = f" {found[it]}" if it in bodies or it == "blocks" else lined(found[it])
            parts.append(f"abbrev pub {it} : {kind}\n{it} ={body}\n")
    return "\n".join(parts)


def text_file(name, source, example):
    """The text of the file of a text: up to its image section, or to its last line."""
    head = re.match(r"(?s).*?(?=^image \{|^end\n)", source, re.M)[0]
    lines = "\n    ++ ".join("codes " + json.dumps(line + "\n") for line in head[:-1].split("\n"))
    return (f"-- The text of examples/{example} up to its first section.\nuse Rattle.std.specs.Prelude.{{ℕ, List, ◌++◌, codes}}\n\n"
            f"unfoldable pub {name}_head : List ℕ\n{name}_head =\n    {lines}\n")


def write(name):
    crate, text, module, example = MACHINES[name]
    source = read(f"examples/{example}")
    for file, content in ((text, text_file(name, source, example)), (module, tree_file(name, source, example))):
        with open(os.path.join(ROOT, f"crates/{crate}/specs/{file}.antt"), "w", encoding="utf-8") as out:
            out.write(content)
    print(f"written: specs/{text}.antt and specs/{module}.antt of {crate}; rt fmt in crates/{crate} lays them out")


if __name__ == "__main__":
    if sys.argv[1:2] == ["write"] and sys.argv[2:3] and sys.argv[2] in MACHINES:
        write(sys.argv[2])
    elif sys.argv[1:]:
        sys.exit(__doc__)
    else:
        found = [it for row in MACHINES.values() for it in differences(*row)]
        print("\n".join(found) or f"ok: {len(MACHINES)} machines have the texts and trees of their examples")
        sys.exit(bool(found))
