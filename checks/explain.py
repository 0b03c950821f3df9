#!/usr/bin/env python3
"""Whether `kpview explain` names the rule and the place that `kp` names, on mutated texts: python3 checks/explain.py [COUNT [SEED]]

COUNT texts, 2,000 by default, of the five kinds that `explain` takes, in turn: a job (`check`), a module that `pipe` writes (`read`), a job with that module after its
end (`watch`), a job with a script (`debug`), and an assembler program (`asm`). They are those of examples/ and of checks/random_job.py with one to three random
edits: a byte, a token, a number, a name or a line is changed, exchanged, doubled or left out, or the text is cut off. The text with number I is the same for the same
SEED, 1 by default.

Where `kp` rejects the text, the first line of `explain` has to name that rule and that place, with status 2; where it doesn't, `explain` has to write no error, with
status 0. A text on which they differ is stored in out/explain.

JOBS is the number of texts at a time, 1 by default. KP and KPVIEW name other programs than those built in crates/; without them the check is skipped. The last line is
`N checked, M wrong; rejected: ..`, with the number of rejected texts of each kind and of different rules, and the status is 0 where M is 0.
"""
import collections
import glob
import os
import random
import re
import subprocess
import sys
from concurrent.futures import ThreadPoolExecutor

sys.dont_write_bytecode = True
from random_job import random_job

TOP = os.path.dirname(os.path.dirname(os.path.abspath(__file__)))
KP = os.environ.get('KP', f'{TOP}/crates/kp/out/kp')
KPVIEW = os.environ.get('KPVIEW', f'{TOP}/crates/kpview/out/kpview')
# The kinds: the words of `kp`. Those of `explain` are the first of them, but for a job.
KINDS = {'job': ['check'], 'read': ['read'], 'watch': ['watch', '2'], 'debug': ['debug'], 'asm': ['asm']}
LONGEST_JOB, LONGEST_MODULE = 6_000, 30_000
RANDOM_JOBS = 10
SCRIPTS = ['step 3\nshow\nrow\nback 2\nshow\n', 'until PC 8\'h03 100\nshow\n', 'step 1\nrow\nstep 20\nback 5\nrow\n']

TOKEN = re.compile(r"\d+'[hdb][0-9a-fA-F_]+|\w+|[<>=]+|[^\w\s]")
NAME = re.compile(r'\b[A-Za-z_]\w*')
NUMBER = re.compile(r'\d+')
CHARACTERS = " \n\t;:=()[]{}'+-*&|^~<>?,.#/_$019ahbxXZ\"\\\0\x7f\xff"
NUMBERS = ['0', '1', '2', '3', '15', '16', '17', '63', '64', '65', '255', '256', '65536', '99999999999999999999']


def edit_byte(rng, text):
    at = rng.randrange(len(text))
    return text[:at] + rng.choice(['', rng.choice(CHARACTERS)]) + text[at + rng.randrange(2):]


def exchanged(rng, text, pattern, replacement):
    """The text with something else in the place of one match, or the same text where there is none."""
    found = list(pattern.finditer(text))
    if not found:
        return text
    one, other = rng.choice(found), rng.choice(found)
    return text[:one.start()] + replacement(one[0], other[0]) + text[one.end():]


def edit_token(rng, text):
    return exchanged(rng, text, TOKEN, lambda one, other: rng.choice(['', other, f'{one} {one}', f'{one} {other}']))


def edit_number(rng, text):
    return exchanged(rng, text, NUMBER, lambda one, other: rng.choice([other, str(int(one) + 1), rng.choice(NUMBERS)]))


def edit_name(rng, text):
    return exchanged(rng, text, NAME, lambda one, other: rng.choice([other, other, one + 'x']))


def edit_line(rng, text):
    lines = text.split('\n')
    one, other = rng.randrange(len(lines)), rng.randrange(len(lines))
    edit = rng.randrange(3)
    if edit == 0:
        lines[one], lines[other] = lines[other], lines[one]
    elif edit == 1:
        lines.insert(other, lines[one])
    else:
        del lines[one]
    return '\n'.join(lines)


def edit_end(rng, text):
    return text[:rng.randrange(len(text))]


EDITS = [edit_byte, edit_token, edit_token, edit_number, edit_number, edit_name, edit_name, edit_line]


def mutated(rng, text):
    for _ in range(rng.choice([1, 1, 1, 2, 3])):
        edit = edit_end if rng.randrange(40) == 0 else rng.choice(EDITS)
        text = edit(rng, text) or text
    return text


def text_of(path):
    with open(path, encoding='latin-1') as it:
        return it.read()


def run(program, words, text):
    """(status, standard output, standard error)"""
    ran = subprocess.run([program, *words], input=text.encode('latin-1'), stdout=subprocess.PIPE, stderr=subprocess.PIPE)
    return ran.returncode, ran.stdout.decode('latin-1'), ran.stderr.decode('latin-1')


class Texts:
    """The texts before their edits."""

    def __init__(self, seed):
        self.seed = seed
        paths = sorted(glob.glob(f'{TOP}/examples/*.kp') + glob.glob(f'{TOP}/examples/cookbook/*.kp'))
        jobs = [text_of(it) for it in paths] + [random_job(it) for it in range(RANDOM_JOBS)]
        self.jobs = [it for it in jobs if len(it) <= LONGEST_JOB]
        piped = [(it, run(KP, ['pipe'], it)) for it in self.jobs]
        self.modules = [(job, module) for job, (status, module, _) in piped if status == 0 and len(module) <= LONGEST_MODULE]
        self.programs = [text_of(it) for it in sorted(glob.glob(f'{TOP}/examples/*.dlx'))]

    def number(self, i):
        """(kind, text) with number i."""
        rng = random.Random(f'{self.seed} {i}')
        kind = list(KINDS)[i % len(KINDS)]
        if kind in ('read', 'watch'):
            job, module = rng.choice(self.modules)
            text = mutated(rng, module if kind == 'read' else job + module)
        elif kind == 'debug':
            job, script = rng.choice(self.jobs), rng.choice(SCRIPTS)
            text = job + mutated(rng, script) if rng.randrange(4) else mutated(rng, job) + script
        else:
            text = mutated(rng, rng.choice(self.programs if kind == 'asm' else self.jobs))
        return kind, text


def of_kp(kind, text):
    """The rule and the place, `no error`, or what is wrong with the run."""
    status, out, _ = run(KP, KINDS[kind], text)
    found = re.match(r'refused ([A-Z]\d+ \d+:\d+)\n', out)
    if found and status in (2, 6):
        return found[1]
    return 'no error' if status in (0, 7) else f'status {status}: {out[:60]!r}'


def of_explain(kind, text):
    """The same of the first message of `explain`."""
    status, out, said = run(KPVIEW, ['explain', *([] if kind == 'job' else KINDS[kind][:1])], text)
    found = re.match(r'<stdin>:(\d+:\d+): error ([A-Z]\d+): ', said)
    if found and status == 2 and not out:
        return f'{found[2]} {found[1]}'
    quiet = not said or (kind == 'job' and not re.search(r'^<stdin>:\d+:\d+: error ', said, re.M))
    return 'no error' if status == 0 and quiet and not out else f'status {status}: {said[:60]!r}'


def compared(texts, i):
    """(kind, what kp says, what explain says)"""
    kind, text = texts.number(i)
    due, found = of_kp(kind, text), of_explain(kind, text)
    if due != found:
        os.makedirs(f'{TOP}/out/explain', exist_ok=True)
        with open(f'{TOP}/out/explain/{i}.{kind}', 'w', encoding='latin-1', newline='') as it:
            it.write(text)
    return kind, due, found


def main(words):
    count, seed = int(words[0]) if words else 2000, words[1] if words[1:] else '1'
    for program in (KP, KPVIEW):
        if not os.path.exists(program):
            print(f'{program} is missing')
            return 77
    texts = Texts(seed)
    wrong, rejected, rules = 0, collections.Counter(), set()
    with ThreadPoolExecutor(int(os.environ.get('JOBS', '1'))) as pool:
        for i, (kind, due, found) in enumerate(pool.map(lambda i: compared(texts, i), range(count))):
            if due != found:
                wrong += 1
                print(f'out/explain/{i}.{kind}: kp says {due}, and explain {found}', flush=True)
            if re.match('[A-Z]', due):
                rejected[kind] += 1
                rules.add(due.split()[0])
    print(f"{count} checked, {wrong} wrong; rejected: {', '.join(f'{it} {rejected[it]}' for it in KINDS)}; {len(rules)} rules")
    return 1 if wrong else 0


sys.exit(main(sys.argv[1:]))
