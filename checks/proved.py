#!/usr/bin/env python3
"""docs/PROVED.md, which is made from the sources: python3 checks/proved.py compares it with them, python3 checks/proved.py --write writes it.

For each crate that has laws or a top call, in the order of crates.txt but the top calls first: the clauses of its top call, with the comments above those that not
all of them have, and its laws: the public functions that return and change nothing, whose contracts state a theorem. A law has the first sentence of its comment,
without what explains it after a colon, and the next one where that is a title. Examples and the laws on processors have the name alone, and machines with worked
runs their number. Crates whose laws only proofs of others cite are left out. A comment that several laws of a crate have is printed once.
"""
import os
import re
import sys

TOP = os.path.dirname(os.path.dirname(os.path.abspath(__file__)))
PAGE = f"{TOP}/docs/PROVED.md"
# The top calls of the programs.
CALLS = {"kp_tool": "tool", "kp_view": "view", "kp_view_same": "same_sources", "kp_view_explain": "explain_source", "kp_core": "run_core", "kp_runner": "run_job"}
# The clauses that the page says once, of all top calls.
SHARED = {"due", "unread", "read_fault", "write_fault", "no_memory", "statuses", "complete"}
# Crates whose laws are steps in the proofs of others; docs/PARSING.md has those of kp_grammar.
STEPS = """kp_base kp_bits kp_grammar kp_region kp_ast kp_lex kp_parse kp_view_expected kp_described kp_width kp_stage kp_machine kp_plain kp_isa_rv kp_isa_rvm
kp_isa_dlx kp_isa_dlx5 kp_isa kp_isa_six kp_seq kp_net kp_sched kp_synth_next kp_cycle kp_image kp_gen kp_run kp_vread kp_view_excerpt""".split()
# Laws of other crates that are such steps.
STEP_LAWS = {"one_row_more_counts", "taken_of_a_longer_run_agrees", "to_reset_leads_to_the_last_reset", "the_statements_of_a_stage_join_it_to_the_next"}
HEAD = """# What is proved, crate by crate

Made from the comments of the sources by `python3 checks/proved.py --write`. [README.md](../README.md) has the main promises, [BELIEVE.md](BELIEVE.md) the
definitions that one has to read to believe them.

A promise is a clause of the contract of a top call. A law is a public function that does nothing, whose contract is the theorem: a line is the claim of its comment.
Laws that are steps of other proofs are left out. Every public function has a contract, beside its code, and every function is proved to return, with no index out of
bounds, no overflow and no failed `unwrap`.

A *row* is the record of one cycle: full bits, update enables, rollback. A netlist *shows* a machine if its runs have that machine's rows and visible values.

Top calls have these clauses:

- `due`: any status but 3 (fault of the source), 4 (fault of a sink) and 5 (out of memory) is the specified one, with the specified text for all bytes that were left
  in the source.
- `complete`: if the bytes of the source are known and nothing failed, that is the outcome, unless out of memory.
- `read_fault`, `write_fault`, `no_memory`: 3 or 4 only if the source or a sink failed in this call, and 5 only with nothing written.
- `unread`: what reads nothing leaves the source unchanged.
- `statuses`: a bound of the status.
"""
# The files of laws on processors, and the word in the names of examples, which have the name alone.
PROCESSORS, EXAMPLES = "processors.rt", "examples"
OPENING = re.compile(r"(?:For|In|So|No|As|Whether)\b")
FUNCTION = re.compile(r"^pub fn (\w+)", re.M)
CLAUSE = re.compile(r"^    ensures (\w+) \{")
WIDTH = 160


def wrapped(text, first="", rest=""):
    """The words of the text in lines."""
    lines, line = [], first
    for word in text.split():
        if len(line) + 1 + len(word) > WIDTH and line.strip():
            lines.append(line)
            line = rest + word
        else:
            line += ("" if line.endswith(" ") or not line else " ") + word
    return "\n".join([*lines, line])


def sentence(words):
    """A comment as a text that ends with a period."""
    text = " ".join(words)
    return text if not text or text[-1] in ".:" else text + "."


def files_of(crate):
    for folder, _, names in sorted(os.walk(f"{TOP}/crates/{crate}/src")):
        for name in sorted(names):
            with open(os.path.join(folder, name), encoding="utf-8") as it:
                yield name, it.read()


def comment_above(text, at):
    """The doc comment above a position."""
    lines = []
    for line in reversed(text[:at].rstrip("\n").split("\n")):
        if line.startswith("///"):
            lines.insert(0, line[3:].strip())
        elif not line.startswith("#"):
            break
    return lines


def clauses(text, at):
    """The clauses of the function at a position, each comment with the names of the clauses below it."""
    found, words, fresh = [], [], True
    for line in text[at:].split("\n")[1:]:
        if line.startswith(("{", "}")):
            break
        clause = CLAUSE.match(line)
        if line.startswith("    // "):
            words = words + [line[7:].strip()] if fresh else [line[7:].strip()]
            fresh = True
        elif clause:
            if fresh:
                found.append((words, []))
            if found:
                found[-1][1].append(clause[1])
            fresh, words = False, []
    return [(sentence(words), names) for words, names in found if words]


def first_sentence(text):
    """The first sentence; the next one where it is a short title, and both where it is a long one. What is after a colon only explains a complete claim."""
    first, *others = re.split(r"(?<=\.)\s+(?=[A-Z`])", text)
    words = len(first.split())
    said = first if words > 14 or not others else others[0] if words < 7 else f"{first} {others[0]}"
    claim = said.split(": ")[0]
    return said if claim == said or len(claim.split()) < 5 or OPENING.match(claim) else f"{claim}."


def laws(crate):
    """What is said of the laws of the crate, each with the names of the laws that have these words; and the names of those that have no words, by what they are."""
    said, named = {}, {}
    for name, text in files_of(crate):
        for found in FUNCTION.finditer(text):
            signature = re.compile(r"^    (?:requires|ensures)\b|^\{", re.M).split(text[found.end() :], maxsplit=1)[0]
            comment = sentence(comment_above(text, found.start()))
            states = text[found.end() + len(signature) :].startswith(("    requires", "    ensures"))
            if comment and states and found[1] not in STEP_LAWS and "->" not in signature and "&mut" not in signature:
                if name == PROCESSORS:
                    names = named.setdefault("A processor executes its instruction set ([RISCV.md](RISCV.md#what-is-proved-of-this-processor))", [])
                elif name.endswith("examples.rt"):
                    names = named.setdefault("", [])
                elif EXAMPLES in found[1]:
                    names = named.setdefault("Examples", [])
                else:
                    names = said.setdefault(first_sentence(comment), [])
                names += [found[1]] if found[1] not in names else []
    return said, named


def quoted(names):
    return ", ".join(f"`{it}`" for it in names)


def part(crate):
    said, named = laws(crate)
    if crate not in CALLS and not said:
        return
    yield f"\n## {crate}\n"
    if crate in CALLS:
        for name, text in files_of(crate):
            found = re.search(rf"^pub fn {CALLS[crate]}\b", text, re.M)
            if found:
                said_here = clauses(text, found.start())
                shared = [it for _, names in said_here if SHARED.issuperset(names) for it in names]
                own = [(words, names) for words, names in said_here if not SHARED.issuperset(names)]
                after = f" {quoted(shared)}{', and' if own else '.'}" if shared else ""
                yield wrapped(f"Clauses of `{CALLS[crate]}`:{after}") + "\n"
                yield from (wrapped(f"- {quoted(names)}: {words}", "", "  ") for words, names in own)
                yield ""
    yield from (wrapped(f"- {quoted(names)}: {words}", "", "  ") for words, names in said.items())
    for words, names in named.items():
        yield wrapped(f"- {words}: {quoted(names)}." if words else f"- Machines with worked runs, in `src/examples.rt`: {len(names)}.", "", "  ")
    yield ""


def page():
    with open(f"{TOP}/crates.txt", encoding="utf-8") as it:
        order = [line.split(":")[0].split()[0] for line in it if line.strip() and not line.startswith("#")]
    crates = [*CALLS, *(it for it in order if it not in CALLS)]
    text = "\n".join([HEAD, *(line for it in crates if it not in STEPS for line in part(it))])
    return re.sub(r"\n{3,}", "\n\n", text).rstrip("\n") + "\n"


def main():
    text = page()
    if sys.argv[1:] == ["--write"]:
        with open(PAGE, "w", encoding="utf-8") as it:
            it.write(text)
        return
    with open(PAGE, encoding="utf-8") as it:
        same = it.read() == text
    print("docs/PROVED.md is what the sources say" if same else "docs/PROVED.md isn't what the sources say: python3 checks/proved.py --write")
    sys.exit(not same)


main()
