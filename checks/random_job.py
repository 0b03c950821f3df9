#!/usr/bin/env python3
"""A random job: python3 checks/random_job.py SEED

Prints a machine that breaks no rule: 2 to 7 stages, registers, files, pipes, results with and without address and enable, hints, guesses and samples,
with an image of random words. One seed always gives the same job.
"""
import random
import sys

WIDTHS = [1, 1, 2, 3, 4, 5, 8, 8, 13, 16, 32, 64]


def literal(rng, width):
    value = rng.choice([0, 1, (1 << width) - 1, rng.getrandbits(width), rng.getrandbits(width)]) & (1 << width) - 1
    return f"{width}'h{value:x}"


def sized(rng, name, have, want):
    """The named value of `have` bits as an expression of `want` bits."""
    if have == want:
        return name
    if have > want:
        low = rng.randrange(have - want + 1)
        return f"{name}[{low + want - 1}:{low}]"
    return f"{rng.choice(['zext', 'sext'])}({name}, {want})"


def expression(rng, names, width, depth):
    """An expression of this width over the names, a list of pairs of a name and its width."""
    if depth == 0 or rng.random() < 0.15:
        if not names or rng.random() < 0.15:
            return literal(rng, width)
        return sized(rng, *rng.choice(names), width)
    below = lambda it: expression(rng, names, it, depth - 1)
    form = rng.choice(["sum", "sum", "bits", "bits", "not", "shift", "choice", "cat", "test", "slice", "extend"])
    if form == "sum":
        return f"({below(width)} {rng.choice('+-*')} {below(width)})"
    if form == "bits":
        return f"({below(width)} {rng.choice('&|^')} {below(width)})"
    if form == "not":
        return f"~({below(width)})"
    if form == "shift":
        return f"({below(width)} {rng.choice(['<<', '>>'])} {below(rng.choice([1, 3, 6, width]))})"
    if form == "choice":
        return f"({below(1)} ? {below(width)} : {below(width)})"
    if form == "cat" and width > 1:
        high = rng.randrange(1, width)
        return f"{{{below(high)}, {below(width - high)}}}"
    if form == "test" and width == 1:
        compared = rng.choice(WIDTHS)
        return f"({below(compared)} {rng.choice(['==', '<'])} {below(compared)})"
    if form == "slice" and width < 60:
        low = rng.randrange(4)
        return f"({below(width + 4)})[{low + width - 1}:{low}]"
    if form == "extend" and width > 1:
        return f"{rng.choice(['zext', 'sext'])}({below(rng.randrange(1, width))}, {width})"
    return below(width)


def machine(rng, name):
    stages = rng.randrange(2, 8)
    top = stages - 1
    declared, statements = [], [[] for _ in range(stages)]
    pipes, puts = [], [[] for _ in range(stages)]      # (name, width, stage of its put); the pipes that a stage puts
    samples, targets, hints = [], [], []               # (name, width, stage); (target, width, address width, write stage)

    # The write stage of guessed registers, below which neither a write stage nor a sample may be by more than one.
    guessed = rng.randrange(2, stages) if stages > 2 and rng.random() < 0.6 else None
    lowest = guessed - 1 if guessed else 0

    def pipe(prefix, width, at):
        it = f"{prefix}{len(pipes)}"
        pipes.append((it, width, at))
        puts[at].append((it, width))
        return it

    for i in range(rng.randrange(1, 5)):
        width = rng.choice(WIDTHS)
        at = guessed if guessed and i == 0 else rng.choice([None] + [rng.randrange(lowest, stages)] * 4)
        targets.append((f"R{i}", width, None, at))
        declared.append(f"reg R{i} : {width} = {literal(rng, width)};")
    for i in range(rng.randrange(3)):
        width, address = rng.choice(WIDTHS), rng.randrange(1, 5)
        at = rng.choice([None] + [rng.randrange(max(lowest, 1), stages)] * 4)
        targets.append((f"F{i}", width, address, at))
        declared.append(f"file F{i} : {width} [{address}];")
    for _ in range(rng.randrange(1, 5)):
        pipe("P", rng.choice(WIDTHS), rng.randrange(top))
    for i in range(rng.choice([0, 0, 1, 2])):
        samples.append((f"S{i}", rng.choice(WIDTHS), rng.randrange(lowest, stages)))

    results, sets = [], [[] for _ in range(stages)]
    for i, (target, width, address, at) in enumerate(targets):
        if at is None:
            continue
        place = f"[{pipe('A', address, rng.randrange(at))}]" if address else ""
        enable = f" when {pipe('E', 1, rng.randrange(at))}" if at > 0 and rng.random() < 0.4 else ""
        results.append(f"result C{i} : {width} -> {target}{place}{enable} at {at};")
        for k in sorted(rng.sample(range(at + 1), rng.randrange(1, min(at + 1, 3) + 1))):
            sets[k].append((f"C{i}", width))
    if guessed:
        width = targets[0][1]
        hints.append(("H0", width))
        declared.append(f"hint H0 : {width} = {literal(rng, width)};")

    for k in range(stages):
        names = [(it, width) for it, width, at in pipes if at < k] + [(it, width) for it, width, at in samples if at == k]
        readable = [it for it in targets if it[3] is None or k <= it[3]]
        body = statements[k]
        for i in range(rng.randrange(3) + (k == 0)):
            if not readable:
                break
            target, width, address, at = rng.choice(readable)
            if guessed and k == 0 and i == 0:
                target, width, address, at = targets[0]
            place = f"[{expression(rng, names, address, 1)}]" if address else ""
            more = f" when {expression(rng, names, 1, 1)}" if rng.random() < 0.3 else ""
            if address is None and at is not None and at == guessed and k + 2 <= at:
                more = f" guess {expression(rng, names + hints, width, 1)}"
            body.append(f"read x{k}_{i} = {target}{place}{more};")
            names.append((f"x{k}_{i}", width))
        if rng.random() < 0.4:
            width = rng.choice(WIDTHS)
            body.append(f"let y{k} = {expression(rng, names, width, 2)};")
            names.append((f"y{k}", width))
        for it, width in puts[k]:
            body.append(f"put {it} = {expression(rng, names, width, 2)};")
        for it, width in sets[k]:
            more = f" when {expression(rng, names, 1, 1)}" if rng.random() < 0.4 else ""
            body.append(f"set {it} = {expression(rng, names, width, 2)}{more};")
        if hints and k == guessed - 1:
            body.append(f"aim H0 = {expression(rng, names + hints, hints[0][1], 1)};")

    lines = [f"machine {name};", f"stages {stages};", *declared]
    lines += [f"pipe {it} : {width};" for it, width, _ in pipes]
    lines += results + [f"sample {it} : {width} at {at};" for it, width, at in samples]
    for k, body in enumerate(statements):
        lines += [f"stage {k} {{", *(f"  {it}" for it in body), "}"]
    lines.append("image {")
    for target, width, address, _ in targets:
        if address:
            lines.append(f"  {target}[0] = {', '.join(literal(rng, width) for _ in range(1 << address))};")
    lines.append("}")
    return "\n".join(lines + ["end", ""])


def random_job(seed):
    return machine(random.Random(f"job {seed}"), f"random_{seed}")


if __name__ == "__main__":
    if len(sys.argv) != 2 or not sys.argv[1].isdecimal():
        sys.exit(__doc__)
    sys.stdout.write(random_job(int(sys.argv[1])))
