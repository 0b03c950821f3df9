#!/usr/bin/env python3
"""Runs the scripts of benches/, and prints a table of what they measure: python3 benches/table.py [NAME ..], as in python3 benches/table.py seq sim

A row has the name of the script, what was run, seconds and MiB. The seconds are those in the program, and for the races of `sim` and for `hostile` those by the clock.
With the variable OLD, which names the program kp of another version, each script is run with it too, and the row ends with its seconds and the ratio of the new ones to
them; SLOWER marks a ratio over 1.25 where that is more than 0.1 s. `nodes` and `synth` don't run kp, and have no ratio.

What the scripts print is in out/benches/NAME.log, and with OLD in out/benches/NAME.old.log. KP names another program than the one that is built here. The last line is
`N measured, M slower`, and the status is 0 where all scripts end with it and find no other output."""
import os
import re
import subprocess
import sys

TOP = os.path.dirname(os.path.dirname(os.path.abspath(__file__)))
ALL = 'asm seq sim watch synth nodes read hostile'.split()
WITHOUT_KP = {'synth', 'nodes'}
RATIO, SECONDS = 1.25, 0.1

# What `measured` of checks/common.sh prints, and the rows of sim.sh and of hostile.sh
MEASURED = re.compile(r'^(?P<what>.*): \S+ s by the clock, (?P<seconds>[\d.]+) s in the program, (?P<kib>\d+) KiB$', re.M)
RACE = re.compile(r'^(?P<what>\w+) +\d+ +(?P<seconds>[\d.]+)(?: +(?:-|[\d.]+)){6}$', re.M)
HOSTILE = re.compile(r'^(?P<text>\S+) +(?P<what>[a-z]+(?: 1)?) +(?P<seconds>[\d.]+) +(?P<mib>\d+)  ', re.M)
OTHER = re.compile(r'^.*(?:ANOTHER TEXT|OTHER ROWS).*$', re.M)


def rows(name, log):
    """What was run -> (seconds, MiB or None)."""
    found = {it['what']: (float(it['seconds']), int(it['kib']) // 1024) for it in MEASURED.finditer(log)}
    if name == 'sim':
        found |= {f"race of {it['what']}": (float(it['seconds']), None) for it in RACE.finditer(log)}
    if name == 'hostile':
        found |= {f"{it['what']} of {it['text']}": (float(it['seconds']), int(it['mib'])) for it in HOSTILE.finditer(log)}
    return found


def run(name, program=None):
    """(the rows of a script, what is wrong with it), with another program kp where one is given."""
    path = f"{TOP}/out/benches/{name}{'.old' * bool(program)}.log"
    os.makedirs(os.path.dirname(path), exist_ok=True)
    more = {'KP': os.path.abspath(program)} if program else {}
    with open(path, 'wb') as it:
        status = subprocess.run(['sh', f'{TOP}/benches/{name}.sh'], env={**os.environ, **more}, stdout=it, stderr=subprocess.STDOUT).returncode
    with open(path, encoding='utf-8', errors='replace') as it:
        log = it.read()
    return rows(name, log), [f'status {status}, {path}'] * bool(status) + OTHER.findall(log)


def line(name, what, row, old):
    """(the line, whether it is slower)"""
    seconds, mib = row
    text = f"{name:8} {what:44} {seconds:8.2f} {'-' if mib is None else mib:>6}"
    if old is None:
        return text, False
    slower = seconds > RATIO * old[0] and seconds > old[0] + SECONDS
    ratio = f'{seconds / old[0]:.2f}' if old[0] else '-'
    return f"{text} {old[0]:8.2f} {ratio:>6}{' SLOWER' * slower}", slower


def main(names):
    old, count, slow, failed = os.environ.get('OLD'), 0, 0, False
    unknown = [it for it in names if it not in ALL]
    if unknown:
        sys.exit(f"table: no script {' '.join(unknown)}: there are {' '.join(ALL)}")
    print(f"{'script':8} {'run':44} {'seconds':>8} {'MiB':>6}" + f" {'before':>8} {'ratio':>6}" * bool(old), flush=True)
    for name in names or ALL:
        new, faults = run(name)
        before, more = run(name, old) if old and name not in WITHOUT_KP else ({}, [])
        for what, row in new.items():
            text, slower = line(name, what, row, before.get(what))
            count, slow = count + 1, slow + slower
            print(text, flush=True)
        for it in faults + more:
            failed = True
            print(f'{name}: {it}', flush=True)
    print(f'{count} measured, {slow} slower')
    return failed


sys.exit(main(sys.argv[1:]))
