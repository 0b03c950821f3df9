#!/usr/bin/env python3
"""No clause of a public function reaches `specs/inner`, directly or through other definitions: python3 checks/inner.py prints those that do.

A function is public if `src/lib.rt` of its crate exports it: its module, its name, or the type whose method it is.
"""
import os
import re
import sys

import reach

MODULE = re.compile(r"^\s*(pub(?:\(crate\))? )?mod (\w+);", re.M)
EXPORT = re.compile(r"^pub use ([^;]+);", re.M)
ITEM = re.compile(r"^impl\b([^{]*)|^(    )?(pub )?(?:const )?fn (\w+)", re.M)
CLAUSE = re.compile(r"\b(?:requires|ensures)\s*\w*\s*$")


def source(path):
    with open(path, encoding="utf-8") as it:
        return re.sub(r"//.*", "", it.read())


def modules(text, folder, public):
    """The files below a module, and whether all modules above them are public."""
    for found in MODULE.finditer(text):
        path, below = f"{folder}/{found[2]}.rt", public and found[1] == "pub "
        if os.path.exists(path):
            yield path, below
            yield from modules(source(path), f"{folder}/{found[2]}", below)


def clauses_at(text, at):
    """The clauses of the function whose name ends at `at`: the texts in braces up to its body."""
    while True:
        brace = text.find("{", at)
        if brace < 0 or not CLAUSE.search(text, at, brace):
            return
        at = reach.closing(text, brace + 1)
        yield text[brace:at]


def public_functions(crate):
    """The public functions of a crate, with the text of their file and where their names end."""
    top = f"{reach.TOP}/crates/{crate}/src"
    if not os.path.exists(f"{top}/lib.rt"):
        return
    lib = source(f"{top}/lib.rt")
    names = {it for found in EXPORT.findall(lib) for it in re.findall(r"\w+", found.split("::{")[-1] if "{" in found else found.split("::")[-1])}
    for path, public in modules(lib, top, True):
        text, of_type, of_trait = source(path), None, False
        for item in ITEM.finditer(text):
            if item[1] is not None:
                of_type, of_trait = re.search(r"(\w+)(?:<[^>]*>)?\s*$", item[1])[1], " for " in item[1]
                continue
            is_method = item[2] is not None
            seen = public or (of_type if is_method else item[4]) in names
            if seen and (item[3] or is_method and of_trait):
                yield item[4], text, item.end()


def main():
    found, wrong = reach.files(), 0
    for crate in sorted(os.listdir(f"{reach.TOP}/crates")):
        for function, text, at in public_functions(crate):
            lines = (it.removeprefix("ghost ").rstrip(";") for it in text.split("\n") if it.startswith("ghost use"))
            imports = reach.File(reach.spread("\n".join(lines)))
            left, seen = list(reach.named_in(imports, "", clauses_at(text, at))), set()
            while left:
                module, name = left.pop()
                if (module, name) in seen or module not in found or name not in found[module].definitions:
                    continue
                seen.add((module, name))
                if ".inner." in module:
                    print(f"{crate} {function}: {module.replace('.specs.', ' ')} {name}")
                    wrong += 1
                else:
                    left += reach.named_in(found[module], module, found[module].definitions[name])
    print(f"{wrong} definitions of specs/inner are reached by public clauses")
    sys.exit(bool(wrong))


if __name__ == "__main__":
    main()
