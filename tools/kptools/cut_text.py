"""The text of a machine whose instruction is cut into given stages."""
from kptools.description import KEYWORDS, LEVELS

TERNARY, UNARY, POST = -1, len(LEVELS), len(LEVELS) + 1          # levels of binding beside those of LEVELS
LEVEL = {operator: i for i, level in enumerate(LEVELS) for operator in level.split()}
LONG = 12                                                        # so many open brackets and operators give a value a name
PIPE_COST = 4                                                    # a pipe more has to save so many bits


class CutText:
    def __init__(self, stages, again=()):
        self.stages, self.graph, self.again = stages, stages.instruction, set(again)
        self.machine, self.nodes = self.graph.machine, self.graph.nodes
        self.uses = {}                   # (node, stage) -> how often it is written there
        self.later = {}                  # node -> {(stage, node): the field of it, or itself, that a later stage uses}
        self.puts = {}                   # node -> the stage in which it is put into a pipe of its own
        self._find_uses()
        self._carry()
        self._name_pipes()
        self.blocks = [self._block(k) for k in range(stages.count)]

    # what each stage uses

    def _is_open(self, it, k):
        """Whether the text of the node in stage k is made of those of its operands."""
        return self.graph.is_wire(it) or self.graph.hinted[it] or (it in self.again and self.stages.of[it] < k)

    def _field(self, it):
        """The node of which this is a field of bits in one step, or None."""
        node = self.nodes[it]
        return node.operands[0] if node.kind == '[]' else None

    def _use(self, it, k):
        first = (it, k) not in self.uses
        self.uses[it, k] = self.uses.get((it, k), 0) + 1
        base = self._field(it)
        if base is not None and not self._is_open(base, k):
            self._use_of(base, it, k)
        elif not self._is_open(it, k):
            self._use_of(it, it, k)
        elif first or it not in self.graph.names:
            for a in self.nodes[it].operands:
                self._use(a, k)

    def _use_of(self, base, it, k):
        if base != it:
            self.uses[base, k] = self.uses.get((base, k), 0) + 1
        if self.stages.of[base] < k:
            self.later.setdefault(base, set()).add((k, it))

    def _find_uses(self):
        stages, graph = self.stages, self.graph
        for it in stages.live:
            if not graph.is_wire(it) and not graph.hinted[it]:
                for a in self.nodes[it].operands:
                    self._use(a, stages.of[it])
        for (name, i), k in stages.set_stages.items():
            for a in graph.sets[name][i]:
                if a is not None:
                    self._use(a, k)
        for hint, k in stages.aim.items():
            self._use(graph.aims[hint], k)
        # An address and an enable go into a pipe where they are computed.
        for place in (graph.address, graph.enable):
            for it in place.values():
                if it not in self.puts:
                    self.puts[it] = stages.of[it]
                    self._use(it, stages.of[it])

    # pipes

    def _carry(self):
        """A value goes into a pipe up to the last stage that uses all of it, or longer where its fields together aren't smaller."""
        early = set(self.puts)
        for base, later in self.later.items():
            first, last = self.stages.of[base], max(k for k, _ in later)
            all_of_it = max((k for k, it in later if it == base or it in early and k <= self.puts[it]), default=first)
            ends = {end: self._cost(base, later, first, end) for end in range(all_of_it, last + 1)}
            end = max(ends, key=lambda it: (-ends[it], it))
            if end > first:
                self.puts[base] = first
            for k, it in later:
                if k > end:
                    self.puts.setdefault(it, end)
        for it, k in self.puts.items():
            if it not in early:
                base = self._field(it)
                for a in {it} | ({base} if base is not None and not self._is_open(base, k) else set()):
                    self.uses[a, k] = self.uses.get((a, k), 0) + 1

    def _cost(self, base, later, first, end):
        fields = {}
        for k, it in later:
            if k > end and it not in self.puts:
                fields[it] = max(fields.get(it, 0), k)
        bits = sum(self.nodes[it].width * (k - end) + PIPE_COST for it, k in fields.items())
        return self.nodes[base].width * (end - first) + PIPE_COST * (end > first) + bits

    def _name_pipes(self):
        graph, declared = self.graph, self.machine.declarations + self.machine.results
        self.taken = KEYWORDS | {it.name for it in declared if it in self.machine.results or it.kind != 'pipe'} | set(self.machine.functions)
        parameters = {name for it in self.machine.functions.values() for name, _ in it.parameters}
        self.pipes, self.locals = {}, {}
        for it, k in sorted(self.puts.items(), key=lambda put: (put[1], put[0])):
            base = self._field(it)
            name = graph.pipe_names.get(it) or graph.names.get(it, '').upper()
            if not name and base is not None:
                high, low = self.nodes[it].detail
                name = f"{(graph.pipe_names.get(base) or graph.names.get(base, 'V')).upper()}_{high}" + (f'_{low}' if low < high else '')
            self.pipes[it] = self._fresh(name or 'V', parameters)

    def _fresh(self, wanted, also=()):
        name, i = wanted[:56], 1
        while name in self.taken or name in also:
            i += 1
            name = f'{wanted[:56]}_{i}'
        self.taken = self.taken | {name}
        return name

    # expressions: (text, level of binding, how many brackets and operators are open at once at most)

    def _at_least(self, written, level):
        text, own, weight = written
        return (text, weight) if own >= level else (f'({text})', weight + 1)

    def _write(self, it, k, at_top=False):
        """The value in stage k. A value of the stage that has a name in the text, or is used twice, or is long, gets a `let`, unless it is `at_top` of one."""
        node = self.nodes[it]
        if node.kind == 'literal':
            return f"{node.width}'h{node.detail:x}", POST, 0
        if node.kind == 'hint':
            return node.detail, POST, 0
        if self.puts.get(it, k) < k:
            return self.pipes[it], POST, 0
        if node.kind == 'sample':
            return node.detail, POST, 0
        if (it, k) in self.locals:
            return self.locals[it, k], POST, 0
        if node.kind == 'read':
            self._read(it, k)
            return self.locals[it, k], POST, 0
        written = self._operation(node, k)
        named = not self.graph.hinted[it] and (self.uses.get((it, k), 0) > 1 and (not self.graph.is_wire(it) or it in self.graph.names)
                                               or written[2] > LONG or it in self.graph.names and not self.graph.is_wire(it))
        if not named or at_top and self.uses.get((it, k), 0) <= 1:
            return written
        self._let(it, k, written)
        return self.locals[it, k], POST, 0

    def _name(self, it, k):
        self.locals[it, k] = self._fresh(self.graph.names.get(it) or self.graph.pipe_names.get(it, 'v').lower())
        return self.locals[it, k]

    def _let(self, it, k, written):
        self.lines.append(f'let {self._name(it, k)} = {written[0]};')

    def _operation(self, node, k):
        write = lambda it, level: self._at_least(self._write(it, k), level)
        kind, operands = node.kind, node.operands
        if kind == '?':
            (test, a), (yes, b), (no, c) = write(operands[0], 0), write(operands[1], TERNARY), write(operands[2], TERNARY)
            return f'{test} ? {yes} : {no}', TERNARY, a + b + c + 2
        if kind in LEVEL:
            level = LEVEL[kind]
            (left, a), (right, b) = write(operands[0], level + (kind in ('==', '<'))), write(operands[1], level + 1)
            return f'{left} {kind} {right}', level, a + b + 1
        if kind == '~':
            text, weight = write(operands[0], UNARY)
            return f'~{text}', UNARY, weight + 1
        if kind == '[]':
            high, low = node.detail
            text, weight = write(operands[0], POST)
            return f'{text}[{high}]' if high == low else f'{text}[{high}:{low}]', POST, weight + 1
        written = [write(it, TERNARY) for it in operands]
        inner, weight = ', '.join(text for text, _ in written), 1 + max(it for _, it in written)
        if kind == '{}':
            return f'{{{inner}}}', POST, weight
        return (f'{kind}({inner}, {node.width})' if kind in ('zext', 'sext') else f'{node.detail}({inner})'), POST, weight

    # statements

    def _read(self, it, k):
        node = self.nodes[it]
        text = {role: self._write(a, k)[0] for role, a in zip(node.detail.roles, node.operands)}
        place = f"[{text.pop('address')}]" if 'address' in text else ''
        self.lines.append(f'read {self._name(it, k)} = {node.detail.target}{place}' + ''.join(f' {role} {part}' for role, part in text.items()) + ';')

    def _block(self, k):
        self.lines = []
        stages, graph = self.stages, self.graph
        for it in stages.live:
            if stages.of[it] == k and self.nodes[it].kind == 'read' and (it, k) not in self.locals:
                self._read(it, k)
        for it, stage in sorted(self.puts.items(), key=lambda put: put[0]):
            if stage == k:
                text = self._write(it, k, True)[0]
                self.lines.append(f'put {self.pipes[it]} = {text};')
        for (name, i), stage in sorted(stages.set_stages.items()):
            if stage == k:
                value, when = (a if a is None else self._write(a, k, True)[0] for a in graph.sets[name][i])
                self.lines.append(f'set {name} = {value}' + (f' when {when}' if when is not None else '') + ';')
        for hint, stage in stages.aim.items():
            if stage == k:
                self.lines.append(f'aim {hint} = {self._write(graph.aims[hint], k, True)[0]};')
        return self.lines

    # the job

    def _called(self):
        """The functions that are called still, in their order."""
        found, todo = set(), [self.nodes[it].detail for it in self.stages.live if self.nodes[it].kind == 'call']
        while todo:
            name = todo.pop()
            if name not in found:
                found.add(name)
                bodies = [self.machine.functions[name].body]
                while bodies:
                    it = bodies.pop()
                    bodies += it.parts
                    todo += [it.detail] if it.kind == 'call' else []
        return [it.text for name, it in self.machine.functions.items() if name in found]

    def text(self):
        stages, graph = self.stages, self.graph
        kinds = ['reg', 'file'] + (['hint'] if stages.count > 2 else [])
        lines = [f'machine {self.machine.name};', f'stages {stages.count};', *(it.text for it in self.machine.of_kind(*kinds))]
        for it in self.machine.of_kind('sample'):
            lines.append(f"sample {it.name} : {it.width} at {stages.of[graph.values[it.name][0]]};")
        for k in range(stages.count):
            row = [f'pipe {self.pipes[it]} : {self.nodes[it].width};' for it, stage in self.puts.items() if stage == k]
            lines += [' '.join(row[i:i + 4]) for i in range(0, len(row), 4)]
        for it in self.machine.results:
            place = f'[{self.pipes[graph.address[it.name]]}]' if it.address else ''
            enable = f' when {self.pipes[graph.enable[it.name]]}' if it.enable else ''
            lines.append(f'result {it.name} : {it.width} -> {it.target}{place}{enable} at {stages.write[it.name]};')
        lines += self._called()
        for k, block in enumerate(self.blocks):
            lines += [f'stage {k} {{', *(f'  {it}' for it in block), '}']
        lines += [it for name, it in self.machine.sections.items() if name != 'stalls']
        return f'{self.machine.front}// Cut into {stages.count} stages by kpcut.\n' + '\n'.join(lines) + '\nend\n'
