#!/usr/bin/env python3
"""Which definitions a statement reaches.

    python3 checks/reach.py                    compares docs/BELIEVE.md with the sources
    python3 checks/reach.py --write            writes the numbers of lines into docs/BELIEVE.md, those of rows and `N lines in part P` of its text
    python3 checks/reach.py --list [ROOT ..]   the definitions of specs/ that the roots name, directly or through others: for each file how many
                                               of its lines these have, without comments and blank lines, and their names

A root is a definition, as kp_tool.specs.Headline.IsMoving, or its lines with one of the words after a colon, as kp_tool.specs.Promises.Shows:Sim,Vcd, or
clauses of a function, as kp_tool/tool:due,promises (all clauses without names after the colon); without roots it is those of the headline. On the page a comment `<!-- reach: ROOT .. -->` has the roots of the rows up
to the next one; `partly:` before them says that other rows have what else they reach. The number in a row is the lines of those definitions in
its files that the roots reach and the roots of earlier rows don't. A definition begins at the left edge, and its names come in by `use` lines; an operator is found by its symbol.
"""
import os
import re
import sys

TOP = os.path.dirname(os.path.dirname(os.path.abspath(__file__)))
PAGE = f"{TOP}/docs/BELIEVE.md"
HEADLINE = ["kp_tool.specs.Promises.IsPipeline:correct", "kp_tool.specs.Headline.IsRunWith", "kp_tool.specs.Headline.IsCorrect", "kp_tool.specs.Due.Between", "kp_words.specs.Commands.command_of"]
GROUP = re.compile(r"\buse (Rattle\.[^\s{]+?)\.\{([^}]*)\}")
USE = re.compile(r"^use Rattle\.([^\s{]+?)(?:\.\{([^}]*)\})?(?: as (\S+))?$", re.M)
FIELD = re.compile(r"^ +(?:pub )?\S+ :(?= )")
HEAD = re.compile(r"^(?:abbrev |unfoldable )?(?:pub )?(?:(?:record|data) (\S+)|(\S+) :(?= ))")
NAME = re.compile(r"[A-Za-z_][\w'\-]*(?:\.\w+)?|[^\s\w(){}\[\],;.'\"◌]+")
CLAUSE = re.compile(r"^\s*(?:requires|ensures)\s*(\w*)\s*\{", re.M)
REACH = re.compile(r"<!-- reach: (.*?) -->")
ROW = re.compile(r"^\| (.*?) \| ([\d,]+) \| ")
SUM = re.compile(r"[\d,]+( lines in parts? (\d+)(?: (?:to|and) (\d+))?)")
FILES = re.compile(r"(kp_\w+)|`(\w+)`")


def spread(text):
    """The text with one module a `use` line: `use M.{N.a, O.b}` is `use M.N.{a}`, `use M.O.{b}`."""

    def lines(found):
        modules = {}
        for name in (it.strip() for it in found[2].split(",") if it.strip()):
            before, renamed, after = name.partition(" as ")
            below, dot, last = before.rpartition(".")
            modules.setdefault(found[1] + dot + below, []).append(last + renamed + after)
        return "\n".join(f"use {path}.{{{', '.join(names)}}}" for path, names in modules.items())

    return GROUP.sub(lines, text)


class File:
    """The imports of a file of specs/, and its definitions: a list of lines for each name."""

    def __init__(self, text):
        self.names, self.modules, self.definitions = {}, {}, {}
        for path, names, alias in USE.findall(text):
            if names:
                for name in names.split(","):
                    before, _, after = name.strip().partition(" as ")
                    self.names[(after or before).strip("◌")] = (path, before.strip("◌"))
            elif alias:
                self.modules[alias] = path
        current, inside = None, False
        for line in USE.sub("", text).split("\n"):
            line = re.sub(r"\s*--.*", "", line)
            # what a module with parameters has is indented
            inside = line.startswith("module _") or inside and line[:1] in ("", " ")
            line = line.removeprefix("  ") if inside else line
            if not line or line.startswith(("infix", "module _")):
                continue
            if not line.startswith(" "):
                head = HEAD.match(line)
                words = line.removeprefix("pub ").split()
                known = next((it for it in words[:2] if it in self.definitions), None)
                current = (head[1] or head[2]).strip("◌") if head else known or current
            if current:
                self.definitions.setdefault(current, []).append(line)


def files():
    found = {}
    for crate in os.listdir(f"{TOP}/crates"):
        specs = f"{TOP}/crates/{crate}/specs"
        for folder, _, names in os.walk(specs):
            for name in names:
                if name.endswith(".antt"):
                    path = os.path.relpath(os.path.join(folder, name), specs)[: -len(".antt")]
                    with open(os.path.join(folder, name), encoding="utf-8") as it:
                        found[f"{crate}.specs.{path.replace('/', '.')}"] = File(spread(it.read()))
    return found


def named_in(file, module, lines):
    """The definitions, of this module or of others, whose names occur in the lines."""
    for name in (it for line in lines for it in NAME.findall(FIELD.sub("", line))):
        first, _, second = name.partition(".")
        if first in file.definitions:
            yield module, first
        elif first in file.names:
            yield file.names[first]
        elif first in file.modules:
            yield file.modules[first], second


def closing(text, at):
    """The position after the brace that closes the one before `at`."""
    depth = 1
    while depth:
        depth += {"{": 1, "}": -1}.get(text[at], 0)
        at += 1
    return at


def clauses(crate, function, wanted):
    """The definitions that the clauses of a function name."""
    for folder, _, names in os.walk(f"{TOP}/crates/{crate}/src"):
        for name in names:
            with open(os.path.join(folder, name), encoding="utf-8") as it:
                text = re.sub(r"//.*", "", it.read())
            start = re.search(rf"\bfn {function}\b", text)
            if not start:
                continue
            until = re.compile(r"^\{|^    \{", re.M).search(text, start.end())
            head = text[start.start() : until.start() if until else len(text)]
            imports = File(spread("\n".join(it.removeprefix("ghost ").rstrip(";") for it in text.split("\n") if it.startswith("ghost use"))))
            for clause in CLAUSE.finditer(head):
                if not wanted or clause[1] in wanted:
                    yield from named_in(imports, "", [head[clause.end() : closing(head, clause.end())]])
            return
    sys.exit(f"reach: {crate} has no function {function}")


def starts(found, roots):
    for root in roots:
        path, _, words = root.partition(":")
        crate, slash, function = path.partition("/")
        module, _, name = path.rpartition(".")
        if slash:
            yield from clauses(crate, function, [it for it in words.split(",") if it])
        elif words:
            wanted = set(words.split(","))
            lines = [it for it in found[module].definitions[name] if wanted & set(re.findall(r"\w+", it))]
            yield from (it for it in named_in(found[module], module, lines) if it != (module, name))
        else:
            yield module, name


def reached(found, roots):
    seen, left = [], list(starts(found, roots))
    while left:
        module, name = left.pop(0)
        if (module, name) in seen or module not in found or name not in found[module].definitions:
            continue
        seen.append((module, name))
        left += named_in(found[module], module, found[module].definitions[name])
    return seen


def modules_of(cell):
    """The files that a row of the page names: `kp_tool `Headline`, `Due`` is two."""
    crate, modules = "", []
    for word, file in FILES.findall(cell):
        crate = word or crate
        modules += [f"{crate}.specs.{file}"] if file else []
    return modules


def summed(lines):
    """The lines of the page, where the sums of the rows of its parts are right."""
    sizes, part = {}, 0
    for line in lines:
        part = int(line[3:].split(".")[0]) if line.startswith("## ") else part
        row = ROW.match(line)
        sizes[part] = sizes.get(part, 0) + (int(row[2].replace(",", "")) if row else 0)
    return [SUM.sub(lambda it: f"{sum(sizes[part] for part in range(int(it[2]), int(it[3] or it[2]) + 1)):,}{it[1]}", line) for line in lines]


def page(found, write):
    """Compares the rows of the page with the sources, and returns its text with the right numbers."""
    with open(PAGE, encoding="utf-8") as it:
        lines = it.read().split("\n")
    wrong, before, here, part, rows, partly = [], set(), [], "", {}, False

    def end_part():
        counted = {module for _, modules, _ in rows.values() for module in modules}
        for module in sorted({it for it, _ in here if it not in counted and not partly}):
            names = " ".join(sorted(name for it, name in here if it == module))
            wrong.append(f"{part}: {module.replace('.specs.', ' ')} is in no row: {names}")
        before.update(it for it in here if not partly or it[0] in counted)
        for number, (cell, modules, said) in rows.items():
            size = sum(len(found[it].definitions[name]) for it, name in here if it in modules)
            twin = [it for it in rows if it != number and set(rows[it][1]) & set(modules)]
            said_by_all = said + sum(rows[it][2] for it in twin)
            for module in modules:
                if module not in found:
                    wrong.append(f"{part}: there is no {module.replace('.specs.', ' ')}")
            if size != said_by_all:
                wrong.append(f"{part}: {cell}: {said_by_all} lines in the page, {size} in the sources")
                if not twin:
                    lines[number] = lines[number].replace(f"| {said} |", f"| {size} |", 1)

    for number, line in enumerate(lines):
        if REACH.match(line):
            if rows:
                end_part()
            part, rows = next(it[3:] for it in reversed(lines[:number]) if it.startswith("## ")), {}
            roots = REACH.match(line)[1].split()
            partly = roots[0] == "partly:"
            here = [it for it in reached(found, roots[partly:]) if it not in before]
        elif ROW.match(line):
            row = ROW.match(line)
            rows[number] = (row[1], modules_of(row[1]), int(row[2].replace(",", "")))
    if rows:
        end_part()
    right = summed(lines)
    wrong += [f"a sum of lines is wrong: {line}" for line, it in zip(lines, right) if line != it]
    if write:
        with open(PAGE, "w", encoding="utf-8") as it:
            it.write("\n".join(right))
    return wrong


def main():
    found = files()
    if sys.argv[1:2] != ["--list"]:
        wrong = page(found, sys.argv[1:] == ["--write"])
        print("\n".join([*wrong, f"{len(wrong)} differences between docs/BELIEVE.md and the sources"]))
        sys.exit(bool(wrong))
    with open(f"{TOP}/crates.txt", encoding="utf-8") as it:
        order = [line.split(":")[0].split()[0] for line in it if line.strip() and not line.startswith("#")]
    seen = reached(found, sys.argv[2:] or HEADLINE)
    total = 0
    for module in sorted({module for module, _ in seen}, key=lambda it: (order.index(it.split(".")[0]), it)):
        names = sorted(name for it, name in seen if it == module)
        lines = sum(len(found[module].definitions[name]) for name in names)
        total += lines
        print(f"{module.replace('.specs.', ' '):32} {lines:4}  {' '.join(names)}")
    print(f"{total} lines")


if __name__ == "__main__":
    main()
