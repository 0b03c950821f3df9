#!/usr/bin/env python3
"""Which edits can't be applied: python3 checks/edits_apply.py

An edit of crates/NAME/must-fail or of checks/edits/NAME can be applied where each `old:` text is in its file of the crate exactly once, after the pairs before it. The gate tries the first ones
and so finds those that can't; nothing else looks at the second ones as often. Prints each edit that can't be applied, and `N checked, M wrong`; the status is 0 where M is 0.
"""
import glob
import os
import sys

TOP = os.path.dirname(os.path.dirname(os.path.abspath(__file__)))


def faults(edit, crate):
    """What is wrong with the pairs of an edit."""
    with open(edit, encoding="utf-8") as it:
        lines = it.read().splitlines()
    texts, path, old = {}, None, ""
    for line in lines:
        word, _, rest = line.partition(": ")
        if word == "file":
            path = f"{TOP}/crates/{crate}/{rest}"
            if not os.path.isfile(path):
                yield f"there is no {rest}"
                return
            if path not in texts:
                with open(path, encoding="utf-8") as it:
                    texts[path] = it.read()
        elif word == "old":
            old, found = rest, texts[path].count(rest)
            if found != 1:
                yield f"`{rest.strip()}` is there {found} times"
        elif line.startswith("new:"):
            texts[path] = texts[path].replace(old, line[5:], 1)
    if path is None:
        yield "it names no file"


def main():
    gate = {it: it.split("/")[-3] for it in glob.glob(f"{TOP}/crates/*/must-fail/*.edit")}
    beside = {it: it.split("/")[-2] for it in glob.glob(f"{TOP}/checks/edits/*/*.edit")}
    edits = {**gate, **beside}
    wrong = {edit: found for edit, crate in sorted(edits.items()) if (found := list(faults(edit, crate)))}
    for edit, found in wrong.items():
        print(f"{os.path.relpath(edit, TOP)}: {'; '.join(found)}")
    print(f"{len(edits)} checked, {len(wrong)} wrong")
    return 1 if wrong else 0


if __name__ == "__main__":
    sys.exit(main())
