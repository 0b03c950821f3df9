#!/usr/bin/env python3
"""Whether what tools/kpcut writes is the same machine: python3 checks/kpcut.py [RANDOM]

- each example, with --flat and its functions closed and open, is accepted, `kpview same` shows it, and `kp seq` prints the same after 20 instructions;
- mini5, dlx5, dlxs and rv32i, flat, get the five stages of the examples by a few lines, and `kp sim` prints the rows of the example;
- by six lines rv32i, in five stages, sets the loaded word a stage later, and no path is longer than these lines say, but for a tenth;
- RANDOM random jobs, 200 by default, are written flat and with random lines, with the same results, or are rejected by one of K4 to K6;
- each row of `--table` has the longest path of the cut by its stages and its depth;
- each rule K1 to K6 is reported at its place;
- where `kpview same` shows nothing, nothing is written, and the status is 6.

KP and KPVIEW name other programs than ./kp and ./kpview. The last line is `N checked, M wrong`, and the status is 0 where M is 0; without `kpview same` it is 77."""
import concurrent.futures
import functools
import glob
import os
import random
import re
import subprocess
import sys
import tempfile

sys.dont_write_bytecode = True
TOP = os.path.dirname(os.path.dirname(os.path.abspath(__file__)))
from random_job import random_job

KP = os.environ.get('KP', f'{TOP}/kp')
KPVIEW = os.environ.get('KPVIEW', f'{TOP}/kpview')
EXAMPLES = sorted(set(glob.glob(f'{TOP}/examples/*.kp') + glob.glob(f'{TOP}/examples/cookbook/*.kp') + glob.glob(f'{TOP}/examples/riscv/*.kp')) - {f'{TOP}/examples/big.kp'})

# The lines by which the flat form becomes the five stages of the example.
BY_HAND = {
    'mini5': 'a at 1\nb at 1\nsum at 2\nm at 3\nG at 2 3\nM at 3\nNPC at 2\nSAVED at 2\nG writes at 4',
    'dlx5': 'a at 1\nb at 1\np at 1\nNPC at 1\nr at 2\nm at 3\nG at 2 3\nM at 3\nG writes at 4',
    'dlxs': 'a at 1\nb at 1\nNPC at 2\nr at 2\nm at 3\nG at 2 3\nM at 3\nG writes at 4',
    'riscv/rv32i': 'xa at 1\nxb at 1\nr at 2\nNPC at 2\nm at 3\nG at 2 3\nM at 3\nG writes at 4',
}
# Lines after mini5, and the place and the sentence of what is wrong with them; lines are counted from that after `end`.
LINES = [
    ('a at 1', (2, 1), 'K1', 'no line says how many stages there are'),
    ('stages 5\nx y z', (2, 1), 'K1', 'no line begins with `x` and has this form'),
    ('stages 5\nstages 6', (2, 1), 'K1', 'a second line `stages`'),
    ('stages 5\ndepth deep', (2, 1), 'K1', 'no line begins with `depth` and has this form'),
    ('stages 5\n  q at 2 // c', (2, 3), 'K2', 'no statement reads, names, puts, sets or aims `q`'),
    ('stages 5\nop at 2', (2, 1), 'K2', '`op` consists of bits of other values, and has no stage of its own'),
    ('stages 5\nR writes at 4', (2, 1), 'K2', 'there is no result `R`'),
    ('stages 5\nopen f', (2, 6), 'K2', 'there is no function `f`'),
    ('stages 5\nalone sum', (2, 7), 'K2', '`sum` is no read, and `alone` is for reads'),
    ('stages 5\nagain i', (2, 7), 'K2', '`i` is a read, and `again` is for other values'),
    ('stages 13', (1, 8), 'K3', 'a machine has 2 to 12 stages, not 13'),
    ('stages 5\na at 5', (2, 6), 'K3', 'the stages are 0 to 4'),
    ('stages 5\nG at 2', (2, 6), 'K3', '`G` is set 2 times'),
    ('stages 5\nG at 3 2', (2, 8), 'K3', 'the sets of `G` are in rising stages'),
    ('stages 5\na at 0\ni from 1', (2, 6), 'K4', '`a` can be in stage 1 at the earliest'),
    ('stages 5\nG writes at 1', (2, 13), 'K4', '`G` can be written in stage 2 at the earliest'),
    ('stages 3\na from 2\nm from 2\nG at 2 2', (4, 8), 'K3', 'the sets of `G` are in rising stages'),
    ('stages 3\nG from 2 3', (2, 10), 'K3', 'the stages are 0 to 2'),
    ('stages 5\nG from 4 4', (2, 10), 'K3', 'the sets of `G` are in rising stages'),
    ('stages 4\nsum from 3\nalone m', (1, 8), 'K5', 'with these lines 5 stages are needed'),
    ('stages 5\ndepth 9 levels', (2, 1), 'K1', 'no line begins with `depth` and has this form'),
    ('stages 5\ndepth 1 local', (2, 7), 'K5', 'with this depth 7 stages are needed'),
    ('stages 5\ndepth 1', (2, 7), 'K5', 'with this depth 8 stages are needed'),     # the word that is read in the last stage is set in the next
]


def run(words, text='', status=None):
    """Standard output, or `status N: ..` where another status was expected."""
    said = subprocess.run(words, input=text.encode('latin-1'), stdout=subprocess.PIPE, stderr=subprocess.PIPE)
    if said.returncode != (status or 0):
        return f'status {said.returncode}: ' + said.stderr.decode('latin-1').strip()
    return (said.stderr if status else said.stdout).decode('latin-1')


def kpcut(text, *options, status=None):
    return run([sys.executable, f'{TOP}/tools/kpcut', *options], text, status)


def without_sections(text):
    return re.sub(r'\bstalls\s*\{[^}]*\}', '', text)


@functools.lru_cache(64)
def results(job):
    return run([*KP.split(), 'seq', '20'], without_sections(job))


def longest_path(made):
    return re.search(r'longest path ([\d.]+)|$', run([*KPVIEW.split(), 'depth'], made))[1]


def differs(job, made):
    """What is wrong with what was made of a job, or an empty text. That it is the same is checked by kpcut itself, and here by runs."""
    if not made.startswith('status '):
        return '' if results(job) == results(made) and not results(job).startswith('status') else f'other results: {results(made)[:60]}'
    return made


def in_parallel(check, jobs):
    with concurrent.futures.ThreadPoolExecutor(os.cpu_count()) as pool:
        for found in pool.map(check, jobs):
            yield from found


def example(path):
    with open(path, encoding='latin-1') as it:
        job = it.read()
    return [(f'{os.path.relpath(path, TOP)} {lines.strip()}', differs(job, kpcut(job + lines, '--flat'))) for lines in ('', 'open all\n')]


def by_hand():
    for name, lines in BY_HAND.items():
        with open(f'{TOP}/examples/{name}.kp', encoding='latin-1') as it:
            job = it.read()
        made = kpcut(kpcut(job, '--flat') + f'stages 5\n{lines}\n')
        rows = [run([*KP.split(), 'sim', '60'], it) for it in (job, made)]
        yield f'{name} by lines', differs(job, made) or ('' if rows[0] == rows[1] else 'other rows')


def through_bypasses():
    with open(f'{TOP}/examples/riscv/rv32i.kp', encoding='latin-1') as it:
        job = it.read()
    made = kpcut(job + 'stages 5\nxa at 1\nxb at 1\nm at 3\nopen all\ndepth 150\n')
    yield 'rv32i by six lines', differs(job, made) or ('' if float(longest_path(made)) <= 16.5 and ' when GW at 4;' in made else f'has the path {longest_path(made)}')


def random_lines(rng, job):
    names = sorted(set(re.findall(r'\b(?:read|let) (\w+)', job)))
    stages = rng.randrange(3, 13)
    lines = [f'stages {stages}', *([f'depth {rng.randrange(20, 200)}' + rng.choice(('', ' local'))] if rng.random() < 0.4 else [])]
    lines += [f'{it} from {rng.randrange(stages)}' for it in names if rng.random() < 0.2]
    return lines + [f'alone {it}' for it in names if it[0] == 'x' and rng.random() < 0.1]


def random_job_checks(seed):
    job = random_job(seed)
    lines = random_lines(random.Random(seed), job)
    made = kpcut(job + '\n'.join(lines) + '\n')
    rejected = re.match(r'status 2: .*: error (K[2-6]):', made)
    return [(f'random job {seed}, flat', differs(job, kpcut(job, '--flat'))),
            (f"random job {seed}, {'; '.join(lines)}{', rejected' * bool(rejected)}", '' if rejected else differs(job, made))]


def random_jobs(count):
    rejected = 0
    for what, fault in in_parallel(random_job_checks, range(count)):
        rejected += what.endswith(', rejected')
        yield what, fault
    yield 'random lines', '' if 2 * rejected <= count else f'only {count - rejected} of {count} are written'


def rules():
    with open(f'{TOP}/examples/mini5.kp', encoding='latin-1') as it:
        job = it.read()
    first = job.count('\n')
    for lines, (line, column), rule, sentence in LINES:
        said = kpcut(f'{job}{lines}\n', status=2)
        head = f'<stdin>:{first + line}:{column}: error {rule}: {sentence}\n'
        yield f'{lines!r}', '' if said.startswith(head) else f'says {said.strip()}'
    many = ''.join(f'reg R{i} : 8 = 8\'h00;\n' for i in range(64)) + ''.join(f'result C{i} : 8 -> R{i} at 1;\n' for i in range(64))
    reads = ''.join(f'  read a{i} = R{i};\n  let b{i} = a{i} + 8\'h01;\n  let c{i} = a{i} - 8\'h03;\n' for i in range(64))
    sets = ''.join(f'  let d{i} = a{i}[0] ? b{i} : c{i};\n  set C{i} = d{i};\n' for i in range(64))
    wide = f'machine wide;\nstages 2;\n{many}stage 0 {{\n{reads}{sets}}}\nstage 1 {{ }}\nend\n'
    last = wide.count('\n')
    said = kpcut(wide + 'stages 3\n' + ''.join(f'd{i} at 2\n' for i in range(64)), status=2)
    yield 'many pipes', '' if said.startswith(f'<stdin>:{last + 1}:8: error K6: ') else f'says {said.strip()}'
    said = kpcut(job.replace('sum when', 'sum + sum['), status=2)
    yield 'a job that violates a rule', '' if said.startswith('<stdin>:') and 'E' in said else f'says {said.strip()}'


def tables():
    with open(f'{TOP}/examples/cookbook/early.kp', encoding='latin-1') as it:
        job = it.read()
    said = kpcut(job, '--table', '2', '4')
    rows = re.findall(r'^ +(\d+)  (\d+(?: local)?) +([\d.]+) ', said, re.M)
    yield 'a table', '' if [it[0] for it in rows] == ['2', '3', '4'] else f'prints {said}'
    for stages, depth, path in rows:
        longest = longest_path(kpcut(f'{job}stages {stages}\nopen all\ndepth {depth}\n'))
        yield f'a table, {stages} stages', '' if longest == path else f'has the path {path}, and the cut {longest}'


def not_shown(work):
    """kpcut with a `kpview same` that shows nothing."""
    path = f'{work}/kpview'
    with open(path, 'w', encoding='ascii') as it:
        it.write("#!/bin/sh\n[ $1 = explain ] && exit 0\necho 'not shown: PC: value'\nexit 7\n")
    os.chmod(path, 0o755)
    with open(f'{TOP}/examples/acc3.kp', encoding='latin-1') as it:
        job = it.read()
    said = subprocess.run([sys.executable, f'{TOP}/tools/kpcut', '--flat'], input=job.encode(), stdout=subprocess.PIPE, stderr=subprocess.PIPE, env={**os.environ, 'KPVIEW': path})
    right = said.returncode == 6 and not said.stdout and said.stderr == b"kpcut: the cut wasn't shown to be the same: not shown: PC: value\n"
    yield 'not shown', '' if right else f'status {said.returncode}: {said.stderr.decode().strip()}'


def main():
    count = int(sys.argv[1]) if len(sys.argv) > 1 else 200
    checked = wrong = 0
    with tempfile.TemporaryDirectory() as work:
        acc3, late3 = f'{TOP}/examples/acc3.kp', f'{TOP}/examples/late3.kp'
        if subprocess.run([*KPVIEW.split(), 'same', acc3, late3], stdout=subprocess.PIPE, stderr=subprocess.PIPE).returncode:
            print(f'{KPVIEW} has no word `same`')
            return 77
        for part in (in_parallel(example, EXAMPLES), by_hand(), through_bypasses(), rules(), tables(), not_shown(work), random_jobs(count)):
            for what, fault in part:
                checked, wrong = checked + 1, wrong + bool(fault)
                if fault:
                    print(f"{what}: {fault}", flush=True)
    print(f'{checked} checked, {wrong} wrong')
    return wrong > 0


sys.exit(main())
