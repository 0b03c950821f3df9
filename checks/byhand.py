#!/usr/bin/env python3
"""Whether `watch` finds the mistakes in pipelines written by hand: python3 checks/byhand.py

examples/byhand/acc3.v and mini5.v go through tools/yosys2kp. As they are, and with edits that are slower but right, no run may differ from the machine; with each
wrong edit a run has to differ: of the job of examples/, or of one of VARIANTS variants of it, 20 by default, which tools/kpvary writes with random programs, stalls
and inputs. For each edit a line says what found it. Each run has 200 cycles.

Needs Yosys. KP names another program than ./kp. The last line is `N checked, M wrong; K mistakes are found by the job alone`, and the status is 0 where M is 0, and
77 without Yosys."""
import os
import shutil
import subprocess
import sys
import tempfile

sys.dont_write_bytecode = True
TOP = os.path.dirname(os.path.dirname(os.path.abspath(__file__)))
sys.path.insert(0, f'{TOP}/tools')
from kptools import netlist
from kptools.job import Job
from kptools.subset import Module

KP = os.environ.get('KP', f'{TOP}/kp')
VARIANTS = int(os.environ.get('VARIANTS', '20'))

RIGHT, WRONG = 'right', 'wrong'
ACC3 = [
    (RIGHT, 'as it is', []),
    (WRONG, 'no bypass from stage 1', [('    if (v1) x = sum1;\n', '')]),
    (WRONG, 'no bypass from stage 2', [('    if (v2) x = c2;\n', '')]),
    (WRONG, 'the oldest bypass first', [('    if (v1) x = sum1;\n', '    if (v1) x = sum1;\n    if (v2) x = c2;\n')]),
    (WRONG, 'stage 1 lost where stage 2 is stalled', [('v1 && (ext[1] || stall2)', 'v1 && ext[1]')]),
    (WRONG, 'stage 0 goes on where stage 1 is stalled', [('stall0 = ext[0] || stall1', 'stall0 = ext[0]')]),
    (WRONG, 'an empty stage counts as full', [('v1 <= ue[0] || stall1', 'v1 <= 1'), ('v2 <= ue[1] || stall2', 'v2 <= v1')]),
    (WRONG, 'a stalled stage takes the next sum', [('if (ue[1]) c2', 'c2')]),
]
MINI5 = [
    (RIGHT, 'as it is', []),
    (RIGHT, 'waits after each load', [('load2 && (d2 == ra || d2 == rb)', 'load2')]),
    (RIGHT, 'flushes again while stage 2 is stalled', [('v2 && !stall2 && next', 'v2 && next')]),
    (RIGHT, 'takes a loaded word from a stalled stage 3', [(' || waits3', '')]),
    (WRONG, 'no bypass from stage 2', [('if (v2 && w2 && d2 == r) operand = x2;', '')]),
    (WRONG, 'no bypass from stage 3', [('if (v3 && w3 && d3 == r) operand = x3;', '')]),
    (WRONG, 'no bypass from stage 4', [('if (v4 && w4 && d4 == r) operand = x4;', '')]),
    (WRONG, 'the oldest bypass first', [('operand = x2;   // the youngest has the last word', 'operand = x2; if (v3 && w3 && d3 == r) operand = x3; if (v4 && w4 && d4 == r) operand = x4;')]),
    (WRONG, 'a bypass of what writes no register', [('v2 && w2 && d2 == r', 'v2 && d2 == r'), ('v3 && w3 && d3 == r', 'v3 && d3 == r'), ('v4 && w4 && d4 == r', 'v4 && d4 == r')]),
    (WRONG, 'a bypass from an empty stage', [('v2 && w2 && d2 == r', 'w2 && d2 == r'), ('v3 && w3 && d3 == r', 'w3 && d3 == r'), ('v4 && w4 && d4 == r', 'w4 && d4 == r')]),
    (WRONG, 'no bypass for the word of a store', [('b2 <= b1;', 'b2 <= op1 == STORE ? qb : b1;')]),
    (WRONG, 'no wait for a load', [('load2 && (d2 == ra || d2 == rb)', '0')]),
    (WRONG, 'a wait for the first operand alone', [('load2 && (d2 == ra || d2 == rb)', 'load2 && d2 == ra')]),
    (WRONG, 'stage 2 lost where stage 3 is stalled', [('v2 && (ext[2] || stall3)', 'v2 && ext[2]')]),
    (WRONG, 'stage 0 goes on in a wait for a load', [('stall0 = ext[0] || stall1', 'stall0 = ext[0] || (v1 && (ext[1] || stall2))')]),
    (WRONG, 'stage 1 runs twice', [('v2 <= ue[1] || stall2', 'v2 <= v1')]),
    (WRONG, 'stage 1 is not flushed', [('v1 && !stall1 && !flush', 'v1 && !stall1')]),
    (WRONG, 'a stalled stage 4 writes', [('ue[4] && w4', 'v4 && w4')]),
    (WRONG, 'an interrupted store still stores', [('op1 == STORE && !s_I', 'op1 == STORE')]),
    (WRONG, 'EPC is the address after it', [('r_EPC <= p2', 'r_EPC <= p2 + 1')]),
]


class Pipeline:
    """A pipeline by hand: the job, its variants, and the netlist of an edited text."""

    def __init__(self, name, files, names, options, work):
        self.name, self.names, self.work, self.top = name, names, work, f'm_{name}'
        self.texts = {it: text_of(f'{TOP}/examples/byhand/{it}') for it in files}
        job = f'{TOP}/examples/{name}.kp'
        subprocess.run([sys.executable, f'{TOP}/tools/kpvary', *options, job, str(VARIANTS), f'{work}/{name}'], check=True)
        self.jobs = [text_of(it) for it in [job, *(f'{work}/{name}/{i}.kp' for i in range(1, VARIANTS + 1))]]

    def netlist(self, edits):
        """Yosys' netlist. An edit may be of any of the files, and has to be of one."""
        texts = dict(self.texts)
        for old, new in edits:
            if sum(old in it for it in self.texts.values()) != 1:
                sys.exit(f'byhand: `{old}` is not in one file of {self.name}')
            texts = {file: it.replace(old, new) for file, it in texts.items()}
        paths = []
        for file, text in texts.items():
            paths.append(f'{self.work}/{file}')
            with open(paths[-1], 'w', encoding='utf-8') as it:
                it.write(text)
        return netlist.read(paths, self.top, self.names.values(), (), False)

    def watch(self, found, text):
        """(status, the last line) of `watch` over a job, with the words of the job in the module."""
        module = Module(found, Job(text), self.names, False, True, lambda it: None).text()
        ran = subprocess.run([KP, 'watch', '200'], input=(text + module).encode(), stdout=subprocess.PIPE)
        return ran.returncode, ran.stdout.decode().rstrip('\n').split('\n')[-1]

    def first(self, edits):
        """(number of the job that finds a difference, 0 for its own, and the line), or None; and what is wrong with the run, or an empty text."""
        found = self.netlist(edits)
        for i, it in enumerate(self.jobs):
            status, line = self.watch(found, it)
            if status == 7:
                return (i, line), ''
            if status:
                return None, f'status {status}: {line}'
        return None, ''


def text_of(path):
    with open(path, encoding='utf-8') as it:
        return it.read()


def main():
    if not shutil.which('yosys'):
        print('yosys isn\'t installed')
        return 77
    checked = wrong = alone = 0
    with tempfile.TemporaryDirectory() as work:
        mini5 = Pipeline('mini5', ['mini5.v', 'forward.v'], {'R': 'rf.mem'}, ['--table', f'IM={TOP}/examples/isa/mini5.isa'], work)
        for pipeline, edits in ((Pipeline('acc3', ['acc3.v'], {}, [], work), ACC3), (mini5, MINI5)):
            for kind, what, edit in edits:
                found, fault = pipeline.first(edit)
                is_wrong = bool(fault) or (found is not None) != (kind == WRONG)
                checked, wrong, alone = checked + 1, wrong + is_wrong, alone + (found is not None and found[0] == 0)
                said = fault or (f"{'the job' if found[0] == 0 else f'variant {found[0]}'}: {found[1]}" if found else 'no difference')
                print(f"{pipeline.name:6} {kind} {what:44} {'WRONG ' * is_wrong}{said}", flush=True)
    print(f'{checked} checked, {wrong} wrong; {alone} mistakes are found by the job alone')
    return 1 if wrong else 0


if __name__ == '__main__':
    sys.exit(main())
