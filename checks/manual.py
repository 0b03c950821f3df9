#!/usr/bin/env python3
"""Whether the commands of the manual print what the manual says: python3 checks/manual.py [PAGE ..]

In README.md, TUTORIAL.md, LANGUAGE.md, COOKBOOK.md, KPVIEW.md and TOOLS.md, or in the given pages, it runs each command `./kp WORDS < examples/FILE`,
`examples/with-program JOB PROGRAM | ./kp WORDS` and `./kpview WORDS examples/FILE ..`. A command has to print the indented block that follows it, or, where it is a line `$ ./kp ..` of a
block, the rest of that block: the lines of the block are consecutive lines of the output, but where a line of dots is in place of others. A command
that no block follows isn't run. `explain` prints to standard error.

A block of TUTORIAL.md or TOOLS.md that has `tools/kpcut`, `tools/kpasm`, or a file that an earlier block of the page has written, is run as a script for the shell, in a folder
for the page, and what it prints is compared in the same way. TOOLS.md is read for these blocks alone.

Each row of the rules in docs/LANGUAGE.md is an example too: the job at the top of the page with other lines, or a job of examples/. It has to be
rejected as the row says.

KP names another program than ./kp, and KPVIEW another than ./kpview. Without them, and where the two aren't built, it is skipped. The last line is `N commands, M differ`, and the status is 0 where M is 0.
"""
import os
import re
import shlex
import subprocess
import sys
import tempfile

TOP = os.path.dirname(os.path.dirname(os.path.abspath(__file__)))
KP = os.environ.get("KP", f"{TOP}/kp")
KPVIEW = os.environ.get("KPVIEW", f"{TOP}/kpview")
COMMAND = re.compile(r"\./kp ([^<>|`]+?) < (examples/[\w./]+)(?=[`\s]|$)|examples/with-program (\S+) (\S+) \| \./kp ([^<>|`#\n]+?)(?=[`\n]|$)|\./kpview ([^<>|`\n]+?(?: examples/[\w./]+)+)(?=[`\s]|$)")
SCRIPT = re.compile(r"(?:cat|tools/kp\w+|\./kp(?:view)?) [^;&`$]*")
WRITTEN = re.compile(r"> (\w+\.kp)$", re.M)
SCRIPTED = ["docs/TUTORIAL.md", "docs/TOOLS.md"]
ROW = re.compile(r"^\| (E\d+) \| [^|]* \| (.*) \| ([^|]*`refused (E\d+ \d+:\d+)`) \|$", re.M)


def run(words, text, program=KP):
    said = subprocess.STDOUT if words[0] == "explain" else None
    ran = subprocess.run([program, *words], input=text, cwd=TOP if program == KPVIEW else None, stdout=subprocess.PIPE, stderr=said)
    return ran.stdout.decode().rstrip("\n").split("\n")


def file_at(path):
    with open(f"{TOP}/{path}", "rb") as it:
        return it.read()


def is_apart(block, line):
    """Whether a line after a blank line begins a new block: output after a command, or a command after output."""
    after_command = len(block) == 2 and "./kp" in block[0] and not block[0].startswith("$ ")
    return block[-1] == "" and (after_command or line.startswith(("./kp ", "./kpview ")))


def blocks_of(text):
    """The lines of a page, where an indented block is a list of its lines. A command and the output below it are two blocks."""
    found = []
    for line in text.split("\n"):
        if line.startswith("    "):
            if found and isinstance(found[-1], list) and not is_apart(found[-1], line[4:]):
                found[-1].append(line[4:])
            else:
                found.append([line[4:]])
        elif line or not (found and isinstance(found[-1], list)):
            found.append(line)
        else:
            found[-1].append("")
    return [it[: len(it) - next(i for i, line in enumerate(reversed(it)) if line)] if isinstance(it, list) else it for it in found]


def commands_of(blocks):
    """Each command of a page, as the words and the input, and the block of its output."""
    for at, it in enumerate(blocks):
        if isinstance(it, list) and it[0].startswith("$ "):
            for match in COMMAND.finditer(it[0]):
                yield match, it[1:]
            continue
        for match in COMMAND.finditer("\n".join(it) if isinstance(it, list) else it):
            said = output_after(blocks, at)
            if said:
                yield match, said


def output_after(blocks, at):
    """The first block of output after this place, before the next command."""
    for it in blocks[at + 1 :]:
        if isinstance(it, list):
            is_message = re.match(r"examples/\S+:\d+:\d+: ", it[0])
            return None if "./" in it[0] or it[0].startswith("examples/") and not is_message else it
        if COMMAND.search(it) or it.startswith("#"):
            return None
    return None


def is_printed(said, printed):
    """Whether these lines are lines of the output in this order, and consecutive ones but at a line of dots."""
    at = 0
    for number, line in enumerate(said):
        if set(line) == {"."}:
            continue
        is_free = number == 0 or set(said[number - 1]) == {"."}
        if line not in printed[at:] or (not is_free and printed[at : at + 1] != [line]):
            return False
        at = printed.index(line, at) + 1
    return True


def scripts_of(text):
    """Each script of a page, and the indented lines that follow it without other text between them, where there are any."""
    written = set()
    for block in re.findall(r"(?:^(?:    .*)?\n)+", text + "\n", re.M):
        parts = [[line[4:] for line in it.split("\n")] for it in re.split(r"\n\n+", block.strip("\n")) if it]
        for at, it in enumerate(parts):
            script = "\n".join(it)
            if all(map(SCRIPT.fullmatch, it)) and (re.search(r"\btools/kp(?:cut|asm)\b", script) or written & set(re.findall(r"\b\w+\.kp\b", script))):
                written |= set(WRITTEN.findall(script))
                end = next((i for i in range(at + 1, len(parts)) if all(map(SCRIPT.fullmatch, parts[i]))), len(parts))
                yield script, [line for i, said in enumerate(parts[at + 1 : end]) for line in [""] * bool(i) + said]


def run_script(text, folder):
    """What a block of commands prints, in a folder where the commands of the documents are."""
    for name, path in (("kp", KP), ("kpview", KPVIEW), ("tools", f"{TOP}/tools"), ("examples", f"{TOP}/examples")):
        if not os.path.lexists(f"{folder}/{name}"):
            os.symlink(os.path.abspath(path), f"{folder}/{name}")
    environment = {**os.environ, "KP": os.path.abspath(KP), "KPVIEW": os.path.abspath(KPVIEW)}
    ran = subprocess.run(["bash", "-eo", "pipefail", "-c", text], cwd=folder, env=environment, stdout=subprocess.PIPE, stderr=subprocess.STDOUT)
    printed = ran.stdout.decode().rstrip("\n").split("\n")
    return printed if ran.returncode == 0 else [f"status {ran.returncode}", *printed]


def scripts_that_differ(page, text):
    """For each script of a page a line that says what is wrong with it, or an empty one."""
    with tempfile.TemporaryDirectory() as folder:
        for script, said in scripts_of(text):
            printed = run_script(script, folder)
            same = is_printed(said, printed) and not printed[0].startswith("status ")
            yield "" if same else f"{page}: {script.splitlines()[0]} ..: prints something else: {printed[0]}"


def output_of(match):
    words, job, machine, program, more, view = match.groups()
    if view:
        return run(shlex.split(view), b"", KPVIEW)
    if job:
        return run(shlex.split(words), file_at(job))
    made = subprocess.run([f"{TOP}/examples/with-program", machine, program], cwd=TOP, env={**os.environ, "KP": KP}, stdout=subprocess.PIPE)
    return run(shlex.split(more), made.stdout)


def rules_of(text):
    """Each example of a rule, as its words, its input and its answer."""
    top = next(it for it in blocks_of(text) if isinstance(it, list) and it[0].startswith("machine "))
    for rule, example, answer, wanted in ROW.findall(text):
        if rule == "E3":
            continue
        words, lines, script = ["check"], list(top), ""
        job = re.search(r"the job `(examples/[\w./]+)`", example)
        if job:
            lines = file_at(job[1]).decode().rstrip("\n").split("\n")
        elif "the script" in example:
            words, script = ["debug"], re.search(r"the script `([^`]*)`", example)[1] + "\n"
        else:
            for number, line in re.findall(r"(\d+): `([^`]*)`", example):
                lines[int(number) - 1] = line
        other = re.match(r"`(timing \d+)`: ", answer)
        yield rule, words if not other else other[1].split(), "\n".join([*lines, script]), f"refused {wanted}"


def main(pages):
    commands = differ = 0
    for page in pages:
        text = file_at(page).decode()
        for fault in scripts_that_differ(page, text) if page in SCRIPTED else ():
            commands, differ = commands + 1, differ + bool(fault)
            print(fault, end="\n" * bool(fault))
        for match, said in commands_of(blocks_of(text)) if page != "docs/TOOLS.md" else ():
            commands += 1
            if not is_printed(said, output_of(match)):
                differ += 1
                print(f"{page}: {match[0].strip()}: prints something else")
        if page == "docs/LANGUAGE.md":
            for rule, words, job, wanted in rules_of(text):
                commands += 1
                printed = run(words, job.encode())
                if printed != [wanted]:
                    differ += 1
                    print(f"{page}: the example of {rule}: kp {' '.join(words)} prints {printed[0]} and not {wanted}")
    print(f"{commands} commands, {differ} differ")
    return differ > 0


def unbuilt():
    """The programs of these two that neither the environment names nor this folder has."""
    return [it for it in ("kp", "kpview") if it.upper() not in os.environ and not os.access(f"{TOP}/crates/{it}/out/{it}", os.X_OK)]


if __name__ == "__main__":
    if unbuilt():
        print(f"not built: {', '.join(unbuilt())}")
        sys.exit(77)
    sys.exit(main(sys.argv[1:] or ["README.md", "docs/TUTORIAL.md", "docs/LANGUAGE.md", "docs/COOKBOOK.md", "docs/KPVIEW.md", "docs/TOOLS.md"]))
