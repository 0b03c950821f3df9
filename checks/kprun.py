#!/usr/bin/env python3
"""Whether kprun ends as its manual page says: python3 checks/kprun.py

- each condition, option and expectation, with its status and its text;
- each sentence on words that aren't accepted (status 1), on directives and expectation files that violate D1, D4, X1 and X2 (status 2), and on files that can't be
  read (status 3); `-` is standard input;
- examples/each.dlx, on dlx5 and dlxs, and on two machines with a mistake: one whose `sub` adds, and one whose `slt` is without signs.

KP and KPRUN name other programs than ./kp and ./kprun. The last line is `N checked, M wrong`, and the status is 0 where M is 0."""
import os
import subprocess
import sys
import tempfile

TOP = os.path.dirname(os.path.dirname(os.path.abspath(__file__)))
KP = os.environ.get('KP', f'{TOP}/kp')
KPRUN = os.environ.get('KPRUN', f'{TOP}/kprun')
FORMS = '`R = value`, `F[3] = value, value`, `F[..] = value`, `retired = n`, `cycles <= n` or `after n`'
PARTS = 'there is no such register, file, word F[3] or range of words F[0..15]'
HALT = 'halt: retired 15 in 24 cycles, 1.60 cycles per instruction\n'
STATE = "PC = 32'h00000024\nGPR[2] = 32'h00000006\nGPR[3] = 32'h00000006\nGPR[4] = 32'h0000000c\nDM[0] = 32'h00000006\n"

# words, status, text: the job is dlxs with sum.dlx without its delay slots
RUNS = [
    ('', 0, HALT + STATE),
    ('--quiet', 0, HALT),
    ('--quiet --until halt', 0, HALT),
    ('--quiet --until GPR[4]=12 --until halt', 0, 'GPR[4]=12: retired 15 in 24 cycles, 1.60 cycles per instruction\n'),
    ('--quiet --until GPR[4]=0x0c', 0, 'GPR[4]=0x0c: retired 15 in 24 cycles, 1.60 cycles per instruction\n'),
    ("--quiet --until GPR[4]=32'h0000000c", 0, "GPR[4]=32'h0000000c: retired 15 in 24 cycles, 1.60 cycles per instruction\n"),
    ('--quiet --until PC!=0', 0, 'PC!=0: retired 1 in 5 cycles, 5.00 cycles per instruction\n'),
    ('--quiet --until retired=0', 0, 'retired=0: retired 0 in 0 cycles\n'),
    ('--only PC,DM[0..1]', 0, HALT + "PC = 32'h00000024\nDM[0] = 32'h00000006\nDM[1] = 32'h00000000\n"),
    ('--only GPR', 0, HALT + "GPR[2] = 32'h00000006\nGPR[3] = 32'h00000006\nGPR[4] = 32'h0000000c\n"),
    ('--only DM[0]', 0, HALT + "DM[0] = 32'h00000006\n"),
    ('--quiet --limit 5', 8, 'limit: retired 1 in 5 cycles, 5.00 cycles per instruction\n'),
    ('--quiet --limit 0', 8, 'limit: retired 0 in 0 cycles\n'),
]

# a word that isn't accepted, and what is said of it
WORDS = [
    ('--until', 'foo', 'is no condition: halt, retired=100, R=0x80, F[3]=12 or R!=0'),
    ('--until', 'retired=x', 'is no condition: halt, retired=100, R=0x80, F[3]=12 or R!=0'),
    ('--until', 'R=1', f': {PARTS}'),
    ('--until', 'PC[0]=1', f': {PARTS}'),
    ('--until', 'DM[5000]=1', ': the words of DM are 0 to 1023'),
    ('--until', 'GPR=1', 'compares more than one word'),
    ('--until', 'PC=zz', "has no value: 12, 0x0c or 8'h0c"),
    ('--until', 'GPR[2]=0x1ffffffff', ": the value doesn't fit: GPR has 32 bits"),
    ('--until', "PC=8'h01", ": the value doesn't fit: PC has 32 bits"),
    ('--only', 'Q', f': {PARTS}'),
    ('--only', 'DM[0..5000]', ': the words of DM are 0 to 1023'),
    ('--only', 'DM[5..3]', ': the words of DM are 0 to 1023'),
]

# words that kprun doesn't have: the usage text
USAGE = ['--bogus', '--limit 1000000001', '--limit x', '--limit', 'a b', '--until']

# lines of an expectation file, status, text
LINES = [
    ("after 15\nPC = 36\nGPR[2] = 6, 0x6, 32'h0000000c\nGPR[..] = 0 // and no other\n\n// nothing\ncycles <= 24\ncycles = 24\nretired <= 15\nretired = 15\n", 0, HALT + 'expected 8: all met\n'),
    ('GPR[4] = 0\n', 7, HALT + "differs GPR[4] 32'h0000000c 32'h00000000\n"),
    ('DM[..] = 0\n', 7, HALT + "differs DM[0] 32'h00000006 32'h00000000\n"),
    ('cycles <= 23\n', 7, HALT + 'differs cycles 24 <=23\n'),
    ('after 14\nPC = 0\n', 7, HALT + 'differs retired 15 14\n'),
]

# a line that violates a rule, and the sentence
BROKEN = [
    ('PC\n', 1, f'X1: expected {FORMS}'),
    ('PC == 1\n', 1, f'X1: expected {FORMS}'),
    ('cycles < 5\n', 1, f'X1: expected {FORMS}'),
    ('after x\n', 1, f'X1: expected {FORMS}'),
    ('PC = 0\nDM[0..3] = 0\n', 2, f'X1: expected {FORMS}'),
    ('DM[5000] = 0\n', 1, 'X2: the words of DM are 0 to 1023'),
    ('DM[1023] = 0, 0\n', 1, 'X2: the words of DM are 0 to 1023'),
    ('\nGPR[2] = 0x1ffffffff\n', 2, "X2: GPR has 32 bits: a value doesn't fit"),
]

# a directive, and how the line about it goes on after its place, or the text of a run
DIRECTIVES = [
    ('//: expect cycles <= 24', 0, HALT + 'expected 1: all met\n'),
    ('//: expect cycles <= 23', 7, HALT + 'differs cycles 24 <=23\n'),
    ('//: expect cycles < 23', 2, f':2:5: error D4: expected {FORMS}\n'),
    ('//: expect DM[5000] = 0', 2, ':2:5: error D4: the words of DM are 0 to 1023\n'),
    ('//: stage IF', 2, ':2:5: error D1: '),
]

results = []


def run(words, text=b''):
    """(status, standard output, standard error)"""
    done = subprocess.run([KPRUN, *words], input=text, capture_output=True)
    return done.returncode, done.stdout.decode(), done.stderr.decode()


def check(name, is_right, found):
    results.append(is_right)
    if not is_right:
        print(f'{name}: {found}')


def equal(name, found, due):
    check(name, found == due, f'{found!r} and not {due!r}')


def job_with(program):
    """dlxs with these lines of an assembler program."""
    path = f'{work}/program.dlx'
    with open(path, 'w', encoding='ascii') as it:
        it.write(program)
    return subprocess.run([f'{TOP}/examples/with-program', 'dlxs.kp', path], env={**os.environ, 'KP': KP}, stdout=subprocess.PIPE, check=True).stdout.decode()


def written(name, text):
    with open(f'{work}/{name}', 'w', encoding='ascii') as it:
        it.write(text)
    return f'{work}/{name}'


with tempfile.TemporaryDirectory() as work:
    text = job_with('addi r1, r0, 3\naddi r2, r0, 0\nloop: add r2, r2, r1\naddi r1, r1, -1\nbnez r1, loop\nnop\nsw r2, 0(r0)\nlw r3, 0(r0)\nadd r4, r3, r3\nstop: j stop\n')
    job = written('sum.kp', text)
    for words, status, said in RUNS:
        equal(words, run(['run', *words.split(), job]), (status, said, ''))
    for option, word, why in WORDS:
        equal(word, run(['run', option, word, job]), (1, '', f"kprun: `{word}`{'' if why[0] == ':' else ' '}{why}\n"))
    for words in USAGE:
        status, out, said = run(['run', *words.split()])
        check(words, (status, out) == (1, '') and said.startswith('usage: kprun run'), said)
    for lines, status, said in LINES:
        equal(lines, run(['run', '--quiet', '--expect', written('it.expect', lines), job]), (status, said, ''))
    for lines, line, why in BROKEN:
        path = written('it.expect', lines)
        equal(lines, run(['run', '--expect', path, job]), (2, '', f'{path}:{line}:1: error {why}\n'))
    for directive, status, said in DIRECTIVES:
        path = written('own.kp', text.replace('\n', f'\n{directive}\n', 1))
        found, out, err = run(['run', '--quiet', path])
        check(directive, found == status and (out == said and not err if status != 2 else not out and err.startswith(path + said)), (found, out, err))
    equal('-', run(['run', '--quiet', '-'], text.encode()), (0, HALT, ''))
    equal('standard input', run(['run', '--quiet'], text.encode()), (0, HALT, ''))
    status, out, said = run(['run', '-'], b'machine')
    check('a job that violates a rule', status == 2 and not out and said.startswith('<stdin>:1:'), said)
    equal('no file', run(['run', f'{work}/none']), (3, '', f'kprun: {work}/none: there is no such file\n'))
    equal('no expectation file', run(['run', '--expect', f'{work}/none', job]), (3, '', f'kprun: {work}/none: there is no such file\n'))
    equal('a folder', run(['run', work]), (3, '', f'kprun: {work}: it is a folder\n'))
    with open(f'{TOP}/examples/dlxs.kp', encoding='ascii') as it:
        dlxs = it.read()
    adds = dlxs.replace("f == 6'h22 ? a - b", "f == 6'h22 ? a + b")
    unsigned = dlxs.replace("(a ^ 32'h80000000) < (b ^ 32'h80000000)", 'a < b')
    for name, machine, status, said in (('dlx5', 'dlx5', 0, 'expected 89: all met'), ('dlxs', 'dlxs', 0, 'expected 89: all met'),
                                        ('sub adds', written('adds.kp', adds), 7, "differs DM[4] 32'h12355587 32'h12335769"),
                                        ('slt without signs', written('unsigned.kp', unsigned), 7, "differs DM[38] 32'h00000000 32'h00000001")):
        done = subprocess.run([f'{TOP}/examples/run', 'each.dlx', machine], env={**os.environ, 'KP': KP, 'KPRUN': KPRUN}, capture_output=True)
        equal(name, (done.returncode, done.stdout.decode().splitlines()[-1:]), (status, [said]))
print(f'{len(results)} checked, {results.count(False)} wrong')
sys.exit(not all(results))
