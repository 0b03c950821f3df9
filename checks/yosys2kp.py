#!/usr/bin/env python3
"""Whether tools/yosys2kp writes the circuit that it is given: python3 checks/yosys2kp.py [JOB.kp ..]

- The module that `pipe` writes of each job of examples/ and examples/cookbook, or of the given jobs, through Yosys and tools/yosys2kp: `equiv` has to say `same
  roots`, with rst. So Yosys reads the text as `kp` does, and slices and concatenations that it writes in another way are alike. One job is left out, whose
  start words take Yosys 0.23 minutes.
- A module with every kind of cell (checks/yosys2kp/ops.v) and what is made of it have the same registers, words and outputs over 50,000 random cycles in
  Icarus; with one operator exchanged they don't.
- What the subset has no text for is reported with the line of the source and the reason.

Needs Yosys; without Icarus the second is left out. KP names another program than ./kp. The last line is `N checked, M wrong`, and the status is 0 where M is 0,
and 77 without Yosys."""
import glob
import os
import re
import shutil
import subprocess
import sys
import tempfile

TOP = os.path.dirname(os.path.dirname(os.path.abspath(__file__)))
KP = os.environ.get('KP', f'{TOP}/kp')
TOOL = f'{TOP}/tools/yosys2kp'
HERE = f'{TOP}/checks/yosys2kp'
LEFT_OUT = {'big'}

# An edit of examples/byhand/acc3.v, other words for the tool, and what it says.
REJECTED = [
    ('    x = r_X;\n', '', [], 'acc3.v:16: a latch, or a register that no rising edge of one clock sets: an assignment may be missing in a branch (a cell $dlatch)'),
    ('sum1 = a1 + 1', 'sum1 = x + 1', [], 'acc3.v:5: sum1 is used in its own value (a cell $add)'),
    ('posedge clk', 'negedge clk', [], 'acc3.v:23: a register that is set at another time than the rising edge of clk (a cell $dff)'),
    ('posedge clk', 'posedge ext[0]', [], 'acc3.v:23: a register that is set at another time than the rising edge of clk (a cell $dff)'),
    ('r_X', 'x_reg', [], 'no register r_X for X of the job: --name X=NAME says which one it is'),
    ('r_X', 'x_reg', ['--name', 'X=x_reg'], None),
    ('reg [7:0] r_X, a1, c2;', 'reg [6:0] r_X; reg [7:0] a1, c2;', [], 'r_X has 7 bits, and X of the job 8'),
    ('reg [7:0] x;', 'reg [7:0] x, s;', ['--name', 'X=s'], 's is no register'),
    ('sum1 = a1 + 1', 'sum1 = $signed(a1) / $signed(3)', [], 'acc3.v:5: there is no text of the subset for it (a cell $div)'),
    ('sum1 = a1 + 1', 'sum1 = (a1 * 80\'d1) >> 3', [], 'acc3.v:5: a value of 72 bits, and a wire has 1 to 64 (a cell $mul)'),
    ('  assign ue = {v2 && !stall2, v1 && !stall1, !stall0};\n', '', [], 'nothing drives ue'),
    ('output [2:0] ue', 'output [2:0] go', [], 'the module has no output ue, by which instructions are counted'),
    ('input rst', 'input rst, input go', [], 'the job has no sample for the input go'),
    ('input [2:0] ext', 'input [3:0] ext', [], 'the input ext has 4 bits, and the job says 3'),
    ('output [2:0] full', 'output [3:0] full', [], 'the output full has 4 bits, and the job says 3'),
    ('if (ue[2]) r_X <= c2;', 'if (ue[2]) begin r_X <= c2 + m[a1[1:0]]; m[a1[1:0]] <= x; end', [], 'the job has no file for the memory m (a cell $mem_v2)'),
    ('always @(posedge clk)\n', 'always @(posedge clk or posedge rst)\n', [], None),
    ('v2 <= 0;', 'v2 <= 0; a1 <= 0; c2 <= 0;', ['--reset'], None),
    ('always @(posedge clk)\n', 'always @(posedge clk or posedge rst)\n', ['--reset'], 'acc3.v:23: an asynchronous reset (a cell $adff)'),
    ('', '', ['--reset'], "q_a1 (a1) takes no constant, or not its start value, where rst is 1"),
    ('endmodule', '', [], 'Yosys: syntax error, unexpected end of file'),
]


def run(*words, text=None):
    """(status, standard output, the last line of standard error)"""
    ran = subprocess.run(words, input=text and text.encode(), stdout=subprocess.PIPE, stderr=subprocess.PIPE)
    return ran.returncode, ran.stdout.decode(), (ran.stderr.decode().rstrip('\n').split('\n'))[-1]


def text_of(path):
    with open(path, encoding='utf-8') as it:
        return it.read()


def written(path, text):
    with open(path, 'w', encoding='utf-8') as it:
        it.write(text)
    return path


def through_yosys(job, work):
    """What is wrong with the module of a job that went through Yosys, or an empty text."""
    text = text_of(job)
    top = 'm_' + re.search(r'^machine (\w+);', text, re.M)[1]
    status, module, _ = run(KP, 'pipe', text=text)
    if status:
        return f'pipe: status {status}'
    status, back, said = run(TOOL, '--reset', job, top, written(f'{work}/m.v', module))
    if status:
        return said
    said = run(KP, 'equiv', text=text + module + back)[1].strip()
    return '' if said.startswith('same roots') else f'equiv: {said}'


def simulated(work):
    """What is wrong with the module of every kind of cell."""
    status, text, said = run(TOOL, f'{HERE}/ops.kp', 'm_ops', f'{HERE}/ops.v')
    if status:
        return said
    if run(KP, 'read', text=text)[0]:
        return 'kp read rejects the text'
    one = written(f'{work}/one.v', text_of(f'{HERE}/ops.v').replace('module m_ops', 'module m_original'))
    for module, wanted in ((text, True), (re.sub(r'(assign n\d+ = n\d+) \+', r'\1 -', text, 1), False)):
        run('iverilog', '-g2005', '-o', f'{work}/vvp', f'{HERE}/bench.v', one, written(f'{work}/other.v', module))
        said = run('vvp', '-n', f'{work}/vvp')[1].strip()
        if said.endswith(', 0 differences') != wanted:
            return said or 'Icarus fails'
    return ''


def rejected(case, work):
    old, new, words, wanted = case
    text = text_of(f'{TOP}/examples/byhand/acc3.v')
    memory = '  reg [7:0] m [0:3];\n  initial' if ' m[' in new else '  initial'
    path = written(f'{work}/acc3.v', (text.replace(old, new) if old else text).replace('  initial', memory))
    status, module, said = run(TOOL, *words, f'{TOP}/examples/acc3.kp', 'm_acc3', path)
    if wanted is None:
        return '' if status == 0 and run(KP, 'read', text=module)[0] == 0 else said
    return '' if status == 1 and said.startswith('yosys2kp: ') and said.endswith(wanted) else f'says {said}'


def results(jobs, work):
    """(what was tried, what is wrong or an empty text)"""
    for job in jobs:
        if os.path.basename(job)[:-3] not in LEFT_OUT:
            yield job, through_yosys(job, work)
    if shutil.which('iverilog'):
        yield 'ops.v', simulated(work)
    for case in REJECTED:
        yield f'{case[0].strip()} -> {case[1].strip()}', rejected(case, work)


def main(jobs):
    if not shutil.which('yosys'):
        print('yosys isn\'t installed')
        return 77
    checked = wrong = 0
    with tempfile.TemporaryDirectory() as work:
        for what, fault in results(jobs or sorted(glob.glob(f'{TOP}/examples/*.kp') + glob.glob(f'{TOP}/examples/cookbook/*.kp')), work):
            checked, wrong = checked + 1, wrong + bool(fault)
            if fault:
                print(f'{what}: {fault}')
    print(f'{checked} checked, {wrong} wrong' + ('' if shutil.which('iverilog') else '; not installed: iverilog'))
    return 1 if wrong else 0


sys.exit(main(sys.argv[1:]))
