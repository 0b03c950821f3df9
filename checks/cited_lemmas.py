#!/usr/bin/env python3
"""Which lemmas other crates cite: python3 checks/cited_lemmas.py [--each] [CRATE ..]

Prints for each crate (or for the given ones) the modules of its proofs/ that .antt and .rt files of other crates cite, and these crates. With --each a row is one
module, with the names that are cited of it.
"""
import os
import re
import sys

TOP = os.path.dirname(os.path.dirname(os.path.abspath(__file__)))
HEAD = ["| crate | modules of `proofs/` | cited by |", "|---|---|---|"]
GROUP = re.compile(r"\buse (Rattle\.[^\s{]+?)\.\{([^}]*)\}")
USE = re.compile(r"\buse Rattle\.(\w+)\.proofs\.([\w.]+?)(?:\.\{([^}]*)\}|(?= as |[;\s]))")
PATH = re.compile(r"\b(kp_\w+)(?:\.|::)proofs(?:\.|::)(\w+)(?:(?:\.|::)(\w+))?")


def spread(text):
    """The text with one module a `use` line: `use M.{N.a, O.b}` is `use M.N.{a}`, `use M.O.{b}`."""

    def lines(found):
        modules = {}
        for name in (it.strip() for it in found[2].split(",") if it.strip()):
            before, renamed, after = name.partition(" as ")
            below, dot, last = before.rpartition(".")
            modules.setdefault(found[1] + dot + below, []).append(last + renamed + after)
        return "\n".join(f"use {path}.{{{', '.join(names)}}}" for path, names in modules.items())

    return GROUP.sub(lines, text)


def order():
    with open(f"{TOP}/crates.txt", encoding="utf-8") as it:
        return [line.split(":")[0].split()[0] for line in it if line.strip() and not line.startswith("#")]


def sources(crate):
    for folder, folders, names in os.walk(f"{TOP}/crates/{crate}"):
        folders[:] = [it for it in folders if it not in ("out", "must-fail")]
        for name in names:
            if name.endswith((".antt", ".rt")):
                with open(os.path.join(folder, name), encoding="utf-8") as it:
                    yield spread(it.read())


def cited(crates):
    """By crate and module: the crates that cite it, and the names that they cite."""
    found = {}
    for crate in crates:
        for text in sources(crate):
            uses = [(other, module, names.split(",")) for other, module, names in USE.findall(text)]
            paths = [(other, module, [name]) for other, module, name in PATH.findall(USE.sub("", text))]
            for other, module, names in uses + paths:
                if other != crate:
                    by, used = found.setdefault((other, module), (set(), set()))
                    by.add(crate)
                    used.update(name.split(" as ")[0].strip() for name in names if name.strip())
    return found


def row(cells):
    return f"| {' | '.join(cells)} |"


def rows_of(crates, found, chosen):
    """One row for each crate: its modules, and all that cite one of them."""
    for crate in chosen:
        modules = sorted(it for other, it in found if other == crate)
        if modules:
            by = set().union(*(found[crate, it][0] for it in modules))
            yield row([crate, ", ".join(f"`{it}`" for it in modules), ", ".join(sorted(by, key=crates.index))])


def rows_of_each(crates, found, chosen):
    """One row for each module: the names that are cited, and by whom."""
    for crate in chosen:
        for module in sorted(it for other, it in found if other == crate):
            by, used = found[crate, module]
            names = ", ".join(f"`{it}`" for it in sorted(used))
            yield row([crate, f"`{module}`" + (f": {names}" if names else ""), ", ".join(sorted(by, key=crates.index))])


def main(words):
    crates = order()
    found = cited(crates)
    chosen = [it for it in words if it != "--each"] or crates
    print("\n".join(HEAD + list((rows_of_each if "--each" in words else rows_of)(crates, found, chosen))))


if __name__ == "__main__":
    main(sys.argv[1:])
