#!/usr/bin/env python3
"""Which names of the pages aren't in the sources: python3 checks/names.py [PAGE ..]

Looks in docs/PROVED.md, docs/PROOFS.md, docs/BELIEVE.md, docs/ARCHITECTURE.md, docs/CHANGING.md, docs/DECISIONS.md, docs/PARSING.md and docs/BYPASS.md, or in
the given pages, at each name of a crate, and at each identifier, lemma (`File.lemma`), path and edit that must fail in backticks. Prints those
that no source has, with their lines; the status is 0 where there are none. Names with placeholders, as `r_R` or `f_F`, and wires, as `n26`, are left out.
"""
import os
import re
import sys
from itertools import chain

TOP = os.path.dirname(os.path.dirname(os.path.abspath(__file__)))
PAGES = [f"docs/{it}.md" for it in ("PROVED", "PROOFS", "BELIEVE", "ARCHITECTURE", "CHANGING", "DECISIONS", "PARSING", "BYPASS")]
NAME = re.compile(r"[A-Za-z_][\w'-]*(?:(?:\.|::)[A-Za-z_][\w'-]*)*")
WORD = re.compile(r"[A-Za-z_](?:[\w'-]*\w'*)?")
FREE = re.compile(r"[rfsq]_\w|n\d+|kp_\w+_|File|lemma|X|antt|decreases-loop-x")


def sources():
    """All identifiers, the paths of all files below crates/, and the crates."""
    words, paths = set(), set()
    for folder, folders, files in chain(os.walk(f"{TOP}/crates"), os.walk(f"{TOP}/checks/edits")):
        folders[:] = [it for it in folders if it != "out"]
        for file in files:
            path = os.path.join(folder, file)
            paths.add(os.path.relpath(path, TOP))
            words.update((file, file.split(".")[0]))
            if file.endswith((".antt", ".rt")):
                with open(path, encoding="utf-8") as it:
                    words.update(part for word in WORD.findall(it.read()) for part in (word, *word.split("-")))
    return words, paths, set(os.listdir(f"{TOP}/crates"))


def unknown(text, words, paths, crates):
    """The names of a line that no source has."""
    yield from (it for it in re.findall(r"\bkp_\w+", text) if it not in crates and not FREE.fullmatch(it))
    for name in re.findall(r"`([^`\s]+)`", text):
        if "/" in name and name.endswith((".antt", ".rt")):
            if not re.search(r"\b[FX]\b|File", name) and not any(it == name or it.endswith(f"/{name}") for it in paths):
                yield name
        elif NAME.fullmatch(name) and not os.path.exists(f"{TOP}/{name}") and not os.path.exists(f"{TOP}/docs/{name}") and name not in words:
            yield from (it for it in re.split(r"\.|::", name) if it not in words and not FREE.fullmatch(it))


def main(pages):
    known, wrong = sources(), 0
    for page in pages:
        with open(f"{TOP}/{page}", encoding="utf-8") as it:
            for number, line in enumerate(it, 1):
                for name in unknown(line, *known) if not line.startswith("    ") else []:
                    print(f"{page}:{number}: {name}")
                    wrong += 1
    return 1 if wrong else 0


if __name__ == "__main__":
    sys.exit(main(sys.argv[1:] or PAGES))
