"""Stages for the values and results of an instruction: each as early as its operands, the rules of the language, bounds and a depth allow."""
from math import inf
from typing import NamedTuple

from kptools.instruction import BYPASS

MOST_STAGES = 12
LATE = BYPASS + 0.6                 # levels from a value that is set in a stage to its use in an earlier one
TOO_DEEP = 1.1                      # for each 1 of a depth: a path through a bypass may have a tenth more, since a set in the next stage costs a cycle


class Bounds(NamedTuple):
    """The earliest stages: of nodes, of the sets of a result, of aims (by hint), and of writes (by result)."""
    nodes: dict
    sets: dict
    aims: dict
    writes: dict
    alone: frozenset = frozenset()      # reads from which nothing is computed in their stage


NO_BOUNDS = Bounds({}, {}, {}, {})


class Depth(NamedTuple):
    """What would make a stage deeper than these tenths of a level begins the next one. Paths through bypasses count, unless it is local."""
    tenths: float
    is_local: bool = False

    def __str__(self):
        return f"{self.tenths}{' local' * self.is_local}"


NO_DEPTH = Depth(inf)


class Stages:
    """Where the rules and bounds need more than `count` stages, `needed` is greater. Guesses are dropped from a machine of two stages.

    A path may go from a set through a bypass into the stage of a read. A set without a bound that would make it too deep is in the next stage, where the path
    begins in a register."""

    def __init__(self, instruction, count, bounds=NO_BOUNDS, depth=NO_DEPTH):
        self.instruction, self.count, self.bounds = instruction, count, bounds
        self.depth, self.is_local = depth.tenths / 10, depth.is_local
        self.live, self.delays = instruction.live, instruction.delays
        self.lowest = 0                 # W - 1: below it are neither write stages nor samples
        for _ in range(MOST_STAGES + 1):
            self._nodes()
            self._tails()
            self._sets()
            self._writes()
            guessed = [self.write[instruction.result_of[self._target(it)]] - 1 for it in self.live if instruction.part(it, 'guess') is not None]
            if max(guessed, default=0) <= self.lowest:
                break
            self.lowest = max(guessed)
        used = [*self.of.values(), *self.set_stages.values(), *self.aim.values(), *self.write.values()]
        self.needed = max(used, default=0) + 1

    def _target(self, it):
        return self.instruction.nodes[it].detail.target

    def _nodes(self):
        graph, self.of, self.time = self.instruction, {}, {}
        time = self.time
        for it, node in enumerate(graph.nodes):
            if node.kind == 'sample':
                self.of[it] = max(self.lowest, self.bounds.nodes.get(it, 0))
                time[it] = 0.0
                continue
            stage = max([self.of[a] + (a in self.bounds.alone) for a in node.operands], default=0)
            if not graph.is_wire(it):
                stage = max(stage, self.bounds.nodes.get(it, 0))
            begin = max([time[a] for a in node.operands if self.of[a] == stage], default=0.0)
            if begin > 0 and begin + self.delays[it] > self.depth and not graph.is_wire(it) and not graph.hinted[it]:
                stage, begin = stage + 1, 0.0
            self.of[it], time[it] = stage, begin + self.delays[it]

    def _tails(self):
        """The longest path from each read on to the end of its stage."""
        nodes, tails = self.instruction.nodes, dict.fromkeys(self.live, 0.0)
        for it in reversed(self.live):
            for a in nodes[it].operands:
                if self.of[a] == self.of[it]:
                    tails[a] = max(tails[a], tails[it] + self.delays[it])
        self.tails = {it: tails[it] for it in self.live if nodes[it].kind == 'read'}

    def _sets(self):
        """The sets of a result are in rising stages, in the order of the text."""
        self.set_stages = {}
        for result in self.instruction.machine.results:
            last = -1
            for i, it in enumerate(self.instruction.sets.get(result.name, [])):
                values = [a for a in it if a is not None]
                last = max(last + 1, self.bounds.sets.get((result.name, i), 0), *(self.of[a] for a in values))
                if not self.is_local and (result.name, i) not in self.bounds.sets:
                    last += self._is_late(result.target, values, last)
                self.set_stages[result.name, i] = last
        self.aim = {hint: max(self.of[it], self.bounds.aims.get(hint, 0)) for hint, it in self.instruction.aims.items()}

    def _is_late(self, target, values, stage):
        """Whether a path from these values, set in the stage, through a bypass of the target is too deep."""
        begin = max([self.time[a] for a in values if self.of[a] == stage], default=0.0)
        tails = [tail for it, tail in self.tails.items() if self._target(it) == target and self.of[it] < stage]
        return begin > 0 and begin + LATE + max(tails, default=-inf) > TOO_DEEP * self.depth

    def _writes(self):
        graph, self.write = self.instruction, {}
        for it in graph.machine.results:
            stages = [self.lowest, self.bounds.writes.get(it.name, 0)]
            stages += [stage for (name, _), stage in self.set_stages.items() if name == it.name]
            stages += [self.of[place[it.name]] + 1 for place in (graph.address, graph.enable) if it.name in place]
            stages += [self.of[a] + (2 if graph.part(a, 'guess') is not None else 0)
                       for a in self.live if graph.nodes[a].kind == 'read' and self._target(a) == it.target]
            self.write[it.name] = max(stages)


def depths(instruction):
    """The depths to try, in tenths, up to the longest path through an instruction."""
    delays, arrival = instruction.delays, []
    for it, node in enumerate(instruction.nodes):
        arrival.append(max([arrival[a] for a in node.operands], default=0.0) + delays[it])
    return range(10, round(10 * max(arrival, default=0.0)) + 1)


def guesses_in(machine):
    return any('guess' in it.parts for block in machine.blocks for it in block)
