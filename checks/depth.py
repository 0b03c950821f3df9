#!/usr/bin/env python3
"""How well the model of `kpview depth` orders designs, beside Yosys: python3 checks/depth.py [JOB.kp ..]

For each job, or each of examples/, examples/cookbook/ and examples/riscv/ but big.kp, it prints the longest path of `kpview depth --files 0` and the longest paths in
look-up tables of checks/hardware.sh --outside, by Yosys' default script and by the balanced one. Then the rank correlations of the first with each of the others. The
status is 0 where both are at least 0.9, and 77 without Yosys. KP and KPVIEW name other programs than ./kp and ./kpview."""
import glob
import os
import re
import shutil
import subprocess
import sys

TOP = os.path.dirname(os.path.dirname(os.path.abspath(__file__)))
KPVIEW = os.environ.get('KPVIEW', f'{TOP}/kpview')
PATHS = re.compile(r'ok: \d+ LUT4, \d+ FF, path (\d+); balanced: \d+ LUT4, path (\d+)')
LONGEST = re.compile(r'longest path ([\d.]+)')


def examples():
    found = [it for folder in ('', 'cookbook/', 'riscv/') for it in sorted(glob.glob(f'{TOP}/examples/{folder}*.kp'))]
    return [it for it in found if os.path.basename(it) != 'big.kp']


def measured(path):
    """(the model's path, Yosys', Yosys' balanced), or None where Yosys takes too long or a design has no path."""
    said = subprocess.run([KPVIEW, 'depth', '--files', '0', path], stdout=subprocess.PIPE, check=True).stdout.decode()
    mapped = subprocess.run(['bash', f'{TOP}/checks/hardware.sh', '--outside', path], stdout=subprocess.PIPE).stdout.decode()
    found = PATHS.search(mapped)
    return found and (float(LONGEST.search(said)[1]), int(found[1]), int(found[2]))


def ranks(values):
    """The rank of each value; equal ones share the mean of theirs."""
    order = sorted(values)
    return [order.index(it) + (order.count(it) - 1) / 2 for it in values]


def correlation(one, other):
    """Spearman's rank correlation."""
    a, b = ranks(one), ranks(other)
    mean = (len(a) - 1) / 2
    product = sum((x - mean) * (y - mean) for x, y in zip(a, b))
    return product / (sum((x - mean) ** 2 for x in a) * sum((y - mean) ** 2 for y in b)) ** 0.5


def main(jobs):
    if not shutil.which('yosys'):
        print("yosys isn't installed")
        return 77
    rows = []
    print(f"{'job':14} {'depth':>6} {'levels':>6} {'balanced':>8}")
    for it in jobs or examples():
        row = measured(it)
        if row:
            rows.append(row)
        print(f"{os.path.basename(it)[:-3]:14} {row[0]:6.2f} {row[1]:6} {row[2]:8}" if row else f'{it}: left out', flush=True)
    depths, *levels = zip(*rows)
    by_default, balanced = (correlation(depths, it) for it in levels)
    print(f'{len(rows)} jobs; rank correlation {by_default:.2f}, balanced {balanced:.2f}')
    return min(by_default, balanced) < 0.9


sys.exit(main(sys.argv[1:]))
