#!/usr/bin/env python3
"""Whether Yosys proves that pipelines written by hand are those of `pipe`, for every program, stall and input: python3 checks/formal.py [acc3] [mini5]

- acc3: examples/byhand/acc3.v and the module of `pipe` have the same full, ue and X in every cycle after a reset, under the same stalls. The proof is by induction over
  an unknown number of cycles.
- mini5: examples/byhand/mini5.v with forward.v, and the module of `pipe`, which follows its stalls, have the same full, ue, registers and words in every cycle after a
  reset, whatever words are in the instruction memory (checks/formal/both_mini5.v). The proof is by induction, with a relation of the pipeline registers, which
  `kpcore --names` names.

A proof says nothing where the compared circuit is empty, or a property is missing. So with each wrong edit of checks/byhand.py Yosys has to find a run that differs,
within 10 cycles.

Needs Yosys. KP and KPCORE name other programs than ./kp and ./kpcore; without kpcore mini5 is left out. The last line is `N checked, M wrong`, and the status is 0 where
M is 0, and 77 where nothing could be checked."""
import os
import re
import shutil
import subprocess
import sys
import tempfile

sys.dont_write_bytecode = True
from byhand import ACC3, KP, MINI5, TOP, WRONG, text_of

KPCORE = os.environ.get('KPCORE', f'{TOP}/crates/kpcore/out/kpcore')
# Right edits by which a stage is full in other cycles than in any run of the module of `pipe`
OTHER_CYCLES = {'flushes again while stage 2 is stalled', 'takes a loaded word from a stalled stage 3'}
DIFFERS = re.compile('proof finished - model found|Base case failed|model found: FAIL')


def output(words, text):
    return subprocess.run(words, input=text.encode(), stdout=subprocess.PIPE, check=True).stdout.decode()


def written(path, text):
    with open(path, 'w', encoding='utf-8') as it:
        it.write(text)


def edited(text, edits):
    for old, new in edits:
        if old not in text:
            sys.exit(f'formal: there is no `{old}`')
        text = text.replace(old, new)
    return text


def replaced(text, *pairs):
    """The text with each pattern replaced, which has to be there."""
    for pattern, new in pairs:
        text, count = re.subn(pattern, new, text, flags=re.M)
        if not count:
            sys.exit(f'formal: nothing is like {pattern}')
    return text


def yosys(commands, work):
    """What Yosys prints."""
    ran = subprocess.run(['yosys', '-p', commands], cwd=work, stdout=subprocess.PIPE, stderr=subprocess.STDOUT)
    return ran.stdout.decode()


def verdict(log):
    """`proved`, `differs`, or why there is no result."""
    if 'Induction step proven: SUCCESS' in log:
        return 'proved'
    failed = re.search('^ERROR: .*|.*proof failed.*', log, re.M)
    return 'differs' if DIFFERS.search(log) else failed[0] if failed else 'no result'


def steps(wanted, depth):
    """Options of `sat`: for a proof the depth of the induction, and else 10 cycles from the first."""
    return f'-tempinduct -maxsteps {depth}' if wanted == 'proved' else '-tempinduct -tempinduct-baseonly -maxsteps 10'


class Acc3:
    def __init__(self, work):
        self.work, self.gate = work, text_of(f'{TOP}/examples/byhand/acc3.v')
        written(f'{work}/gold.v', output([KP, 'pipe'], text_of(f'{TOP}/examples/acc3.kp')))

    def log(self, edits, wanted):
        written(f'{self.work}/gate.v', edited(self.gate, edits))
        return yosys(f'''
            read_verilog gold.v; rename m_acc3 gold; read_verilog gate.v; rename m_acc3 gate; proc
            select -module gold; expose w:r_X; select -module gate; expose w:r_X; select -clear
            cd gold; delete -port o:back; cd ..
            opt_clean; miter -equiv -make_outputs -flatten gold gate miter; hierarchy -top miter
            sat -prove trigger 0 -set-at 1 in_rst 1 -seq 1 {steps(wanted, 10)} miter''', self.work)


class Mini5:
    """Both modules have no instruction memory: its word is the input s_IW, and the address the output ia. The files of the module of `pipe` begin with zeros, and its
    pipeline registers have the names of `kpcore --names`, as in pipe_P_1."""

    def __init__(self, work):
        self.work, job = work, f'{TOP}/examples/mini5.kp'
        byhand = text_of(f'{TOP}/examples/byhand/mini5.v') + text_of(f'{TOP}/examples/byhand/forward.v')
        self.gate = replaced(byhand, (r'^module m_mini5\(', 'module gate(input [15:0] s_IW, output [7:0] ia, '),
                             (r'^  reg \[15:0\] f_IM .*', '  assign ia = fetch;'), (r'f_IM\[fetch\]', 's_IW'))
        written(f'{work}/gold.v', replaced(
            output([KP, 'pipe'], text_of(job)), (r'^module m_mini5\(', 'module gold(input wire [15:0] s_IW, output wire [7:0] ia, '),
            (r'^  assign (n\d+) = f_IM\[(n\d+)\];', r'  assign \1 = s_IW;\n  assign ia = \2;'), (r'^ *reg .* f_IM .*\n', ''),
            (r'^.*f_IM\[i\].*\n', ''), (r'^    f_[A-Z]+\[\d+\] = .*\n', '')))
        names = re.findall(r'^(q_\d+) (.*)', output([KPCORE, '--names', job], ''), re.M)
        written(f'{work}/names.ys', ''.join(f"rename {register} {'_'.join(name.split())}\n" for register, name in names))
        self.gold = yosys('''
            read_verilog gold.v; hierarchy -top gold; proc; memory_map; cd gold; script names.ys
            expose w:r_* w:hint_* w:full_? w:pipe_* w:pending_* w:guess_* w:set_* w:result_* w:f_R* w:f_DM*; cd ..
            write_ilang gold.il''', work)

    def log(self, edits, wanted):
        if not os.path.exists(f'{self.work}/gold.il'):
            return self.gold
        written(f'{self.work}/gate.v', edited(self.gate, edits))
        relation = '-DRELATED' if wanted == 'proved' else ''
        return yosys(f'''
            read_verilog gate.v; hierarchy -top gate; proc; flatten; memory_map; cd gate
            expose w:r_* w:fetch w:v? w:p? w:ir? w:a2 w:b2 w:j2 w:w? w:s2 w:sum3 w:b3 w:d3 w:d4 w:l3 w:s3 w:x4 w:rf.mem* w:f_DM*; cd ..
            read_ilang gold.il; read_verilog {relation} {TOP}/checks/formal/both_mini5.v
            hierarchy -check -top both; proc; flatten; opt; setundef -init -zero
            sat -prove bad 0 {steps(wanted, 2)} both''', self.work)


def main(names):
    if not shutil.which('yosys'):
        print('yosys isn\'t installed')
        return 77
    missing = '' if shutil.which(KPCORE) else f'; not there: {KPCORE}'
    checked = wrong = 0
    with tempfile.TemporaryDirectory() as work:
        for name, made, edits in (('acc3', Acc3, ACC3), ('mini5', Mini5, MINI5)):
            if (names and name not in names) or (made == Mini5 and missing):
                continue
            pipeline = made(work)
            for kind, what, edit in edits:
                if what in OTHER_CYCLES:
                    continue
                wanted = 'differs' if kind == WRONG else 'proved'
                found = verdict(pipeline.log(edit, wanted))
                checked, wrong = checked + 1, wrong + (found != wanted)
                print(f"{name:6} {what:44} {'WRONG ' * (found != wanted)}{found}", flush=True)
    print(f'{checked} checked, {wrong} wrong{missing}')
    return 1 if wrong else 0 if checked else 77


sys.exit(main(sys.argv[1:]))
