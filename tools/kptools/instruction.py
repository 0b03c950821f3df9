"""What an instruction of a machine does, as a graph of values. All reads see the state before the instruction, so stages have no part in it."""
from functools import cached_property
from math import log2
from typing import NamedTuple, Optional

BYPASS = 2.2                                                     # levels of the choice of the nearest result in a read
WIRES = frozenset(('literal', '~', '[]', '{}', 'zext', 'sext'))  # no gates of their own: made again where they are used


class Node(NamedTuple):
    """A value: an expression's kind, or sample, hint (detail: name) or read (detail: Source). Operands are numbers of earlier nodes."""
    kind: str
    width: int
    detail: object = None
    operands: tuple = ()


class Source(NamedTuple):
    """What a read reads, in which block of the text, and what its operands are. Equal reads of one block are one node."""
    target: str
    block: int
    roles: tuple


class Set(NamedTuple):
    """The value that a result is set to, and the condition."""
    value: int
    when: Optional[int]


class Graph:
    """Values, with the calls of `opened` functions written out. A value that depends on a hint is no argument of an opened function, since no `let` can name it."""

    def __init__(self, machine, opened=()):
        self.machine, self.opened = machine, set(machine.functions) if 'all' in opened else set(opened)
        self.nodes, self.numbers, self.hinted = [], {}, []

    def node(self, kind, width, detail=None, operands=()):
        it = Node(kind, width, detail, tuple(operands))
        if it not in self.numbers:
            self.numbers[it] = len(self.nodes)
            self.nodes.append(it)
            self.hinted.append(kind == 'hint' or kind != 'read' and any(self.hinted[a] for a in operands))
        return self.numbers[it]

    def value(self, it, env):
        """The node of an expression."""
        if it.kind == 'literal':
            return self.node('literal', *it.detail)
        if it.kind == 'name':
            return env[it.detail]
        parts = [self.value(part, env) for part in it.parts]
        widths = [self.nodes[part].width for part in parts]
        if it.kind == 'call':
            function = self.machine.functions[it.detail]
            if it.detail in self.opened and not any(self.hinted[part] for part in parts):
                return self.value(function.body, {name: part for (name, _), part in zip(function.parameters, parts)})
            return self.node('call', function.width, it.detail, parts)
        if it.kind == '[]':
            return self.node('[]', it.detail[0] - it.detail[1] + 1, it.detail, parts)
        width = {'{}': sum(widths), 'zext': it.detail, 'sext': it.detail, '==': 1, '<': 1}.get(it.kind, widths[min(1, len(widths) - 1)])
        return self.node(it.kind, widths[0] if it.kind in ('<<', '>>') else width, None, parts)

    def is_wire(self, it):
        return self.nodes[it].kind in WIRES


class Instruction(Graph):
    def __init__(self, machine, opened=(), guesses=True):
        super().__init__(machine, opened)
        self.names, self.pipe_names = {}, {}         # node -> its first name as a read or a let, and as a pipe
        self.values = {}                             # the name of a read, let, pipe or sample -> its nodes
        self.sets, self.aims = {}, {}
        common, pipes = {}, {}
        for it in machine.of_kind('sample', 'hint'):
            common[it.name] = self.node(it.kind, it.width, it.name)
            if it.kind == 'sample':
                self.values[it.name] = [common[it.name]]
        for k, block in enumerate(machine.blocks):
            env, put = {**common, **pipes}, {}
            for it in block:
                self._statement(k, it, env, put, guesses)
            pipes.update(put)
        self.address = {it.name: pipes[it.address] for it in machine.results if it.address}
        self.enable = {it.name: pipes[it.enable] for it in machine.results if it.enable}
        self.result_of = {it.target: it.name for it in machine.results}

    def _statement(self, k, it, env, put, guesses):
        parts = {role: self.value(part, env) for role, part in it.parts.items() if guesses or role != 'guess'}
        if it.kind == 'read':
            node = self.node('read', self.machine.declared[it.target].width, Source(it.target, k, tuple(parts)), parts.values())
        else:
            node = self.value(it.value, env)
        if it.kind == 'set':
            self.sets.setdefault(it.name, []).append(Set(node, parts.get('when')))
        elif it.kind == 'aim':
            if guesses:
                self.aims[it.name] = node
        else:
            if node not in self.values.setdefault(it.name, []):
                self.values[it.name].append(node)
            (put if it.kind == 'put' else env)[it.name] = node
            (self.pipe_names if it.kind == 'put' else self.names).setdefault(node, it.name)

    def part(self, it, role):
        """The address, the condition or the guess of a read, or None."""
        node = self.nodes[it]
        return dict(zip(node.detail.roles, node.operands)).get(role) if node.kind == 'read' else None

    @cached_property
    def delays(self):
        """Levels of each node."""
        return Delays(self).of

    @cached_property
    def live(self):
        """The nodes on which a result, an address, an enable or a hint depends, in their order."""
        todo = [a for sets in self.sets.values() for it in sets for a in it if a is not None]
        todo += [*self.address.values(), *self.enable.values(), *self.aims.values()]
        found = set()
        while todo:
            it = todo.pop()
            if it not in found:
                found.add(it)
                todo += self.nodes[it].operands
        return sorted(found)


def lg(width):
    return log2(max(width, 2))


def operator_delay(kind, width, other, constant):
    """Levels of an operator whose operands have these widths; `constant` where one of them is a literal."""
    if kind in ('+', '-'):
        return max(1.0, lg(width) - 1 if constant else 1.55 * lg(width) - 0.9)
    if kind == '*':
        return max(1.0, 4 * lg(width) - 5)
    if kind == '<':
        return lg(width) - constant
    if kind == '==':
        return lg(width) / 2 + (0.0 if constant else 0.5)
    if kind in ('<<', '>>'):
        return 0.0 if constant else 1.15 * min(other, int(lg(width)) + 2)
    if kind in ('&', '|', '^'):
        return 0.3 if constant else 0.55
    return {'?': 0.6 if constant else 0.85}.get(kind, 0.0)


class Delays:
    """Levels of each node of an instruction, about those of tables with four inputs. A read of a target with a result has its bypass."""

    def __init__(self, instruction):
        self.machine, self.functions = instruction.machine, {}
        self.written = {it.target for it in self.machine.results}
        self.of = [self._node(instruction, it) for it in instruction.nodes]

    def _node(self, graph, it):
        if it.kind == 'call':
            return self._function(it.detail)
        if it.kind == 'read':
            bits = self.machine.declared[it.detail.target].bits
            return (0.8 * bits if bits <= 6 else 6.0) + (BYPASS if it.detail.target in self.written else 0.0)
        operands = [graph.nodes[a] for a in it.operands]
        if not operands or it.kind in WIRES:
            return 0.0
        last = [graph.nodes[a] for a in operands[-1].operands] if operands[-1].kind == '{}' else operands[-1:]
        free = sum(a.width for a in last if a.kind != 'literal')
        return operator_delay(it.kind, operands[0].width, free, any(a.kind == 'literal' for a in operands))

    def _function(self, name):
        if name not in self.functions:
            function, graph, arrival = self.machine.functions[name], Graph(self.machine), []
            graph.value(function.body, {it: graph.node('sample', width, it) for it, width in function.parameters})
            for it in graph.nodes:
                arrival.append(max([arrival[a] for a in it.operands], default=0.0) + self._node(graph, it))
            self.functions[name] = max(arrival)
        return self.functions[name]
