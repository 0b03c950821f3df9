"""The lines after the `end` of a job that say how its instruction is cut, and their rules K1 to K6."""
import re
from typing import NamedTuple

from kptools.instruction import Instruction
from kptools.stages import MOST_STAGES, NO_DEPTH, Bounds, Depth, Stages, depths, guesses_in

MOST_PIPES = 128


class Word(NamedTuple):
    text: str
    line: int
    column: int
    source: str                 # the line


class Refused(Exception):
    """A line violates a rule, at a word."""

    def __init__(self, rule, word, sentence, help=None):
        super().__init__(sentence)
        self.rule, self.word, self.sentence, self.help = rule, word, sentence, help

    def message(self, name, text):
        """As the messages of `kpview explain`."""
        lines = text.split('\n')
        it = self.word or Word('', len(lines), len(lines[-1]) + 1, lines[-1])
        margin = ' ' * len(str(it.line))
        said = [f'{name}:{it.line}:{it.column}: error {self.rule}: {self.sentence}', f'{margin} |', f'{it.line} | {it.source}',
                f"{margin} | {' ' * (it.column - 1)}{'^' * max(1, len(it.text))}"]
        return '\n'.join(said + ([f'{margin} = {self.help}'] if self.help else [])) + '\n'


class Place(NamedTuple):
    """A line `x at k`, `x from k` or `C writes at k`."""
    name: Word
    word: str
    stages: tuple               # of Word


def lines_of(text, begin):
    """The words of each line after `begin` that has any."""
    first = text.count('\n', 0, begin)
    for i, source in enumerate(text.split('\n')[first:]):
        skipped = begin - text.rfind('\n', 0, begin) - 1 if i == 0 else 0
        code = ' ' * skipped + source[skipped:].split('//')[0]
        words = [Word(it[0], first + i + 1, it.start() + 1, source.rstrip('\r')) for it in re.finditer(r'[^ \t\r]+', code)]
        if words:
            yield words


class Lines:
    def __init__(self, machine, text, begin, is_flat):
        self.machine, self.is_flat = machine, is_flat
        self.count_word = self.depth_word = None
        self.depth = NO_DEPTH
        self.opened, self.again, self.alone, self.places = [], [], [], []
        lines = list(lines_of(text, begin))
        counts = [it[1] for it in lines if it[0].text == 'stages' and len(it) == 2 and it[1].text.isdigit()]
        self.count = int(counts[0].text) if counts and not is_flat else None
        self.instruction = Instruction(machine, [it[1].text for it in lines if it[0].text == 'open' and len(it) == 2], self.count != 2)
        for words in lines:
            self._line(words)
        if self.count_word is None and not is_flat:
            raise Refused('K1', None, 'no line says how many stages there are', 'a line `stages 5` is missing, or the option --flat')

    def _line(self, words):
        head, texts = words[0], [it.text for it in words]
        if len(words) > 2 and texts[1] in ('at', 'from') and all(it.isdigit() for it in texts[2:]):
            self._place(Place(head, texts[1], tuple(words[2:])))
        elif len(words) == 4 and texts[1:3] == ['writes', 'at'] and texts[3].isdigit():
            self._write(Place(head, 'writes', tuple(words[3:])))
        elif len(words) == 2 and texts[0] in ('again', 'alone'):
            self._again_or_alone(*words)
        elif len(words) == 2 and texts[0] == 'open':
            self._open(words[1])
        elif len(words) == 2 and texts[0] == 'stages' and texts[1].isdigit() and not self.is_flat:
            self._stages(*words)
        elif texts[0] == 'depth' and texts[2:] in ([], ['local']) and texts[1:2] and texts[1].isdigit() and not self.is_flat:
            self.depth_word, self.depth = words[1], Depth(int(texts[1]), len(words) == 3)
        else:
            raise Refused('K1', head, f'no line begins with `{head.text}` and has this form', 'the forms are listed by kpcut --help')

    def _stages(self, head, number):
        if self.count_word is not None:
            raise Refused('K1', head, 'a second line `stages`', f'line {self.count_word.line} has the first')
        self.count_word = number
        if not 2 <= self.count <= MOST_STAGES:
            raise Refused('K3', number, f'a machine has 2 to {MOST_STAGES} stages, not {number.text}')

    def _open(self, name):
        if name.text != 'all' and name.text not in self.machine.functions:
            raise Refused('K2', name, f'there is no function `{name.text}`')
        self.opened.append(name.text)

    def _value(self, name):
        """The node of a value, which has to be the only one of this name."""
        found = self.instruction.values.get(name.text)
        if not found:
            raise Refused('K2', name, f'no statement reads, names, puts, sets or aims `{name.text}`')
        if len(found) > 1:
            raise Refused('K2', name, f'`{name.text}` is the name of {len(found)} different values', 'the output of kpcut --flat has a name for each')
        if self.instruction.is_wire(found[0]):
            raise Refused('K2', name, f'`{name.text}` consists of bits of other values, and has no stage of its own')
        return found[0]

    def _again_or_alone(self, head, name):
        it = self._value(name)
        is_read = self.instruction.nodes[it].kind == 'read'
        if is_read != (head.text == 'alone'):
            raise Refused('K2', name, f"`{name.text}` is {'a' if is_read else 'no'} read, and `{head.text}` is for " + ('other values' if is_read else 'reads'))
        getattr(self, head.text).append(it)

    def _below(self, words):
        for it in words:
            if self.count is not None and int(it.text) >= self.count:
                raise Refused('K3', it, f'the stages are 0 to {self.count - 1}')

    def _place(self, it):
        sets = self.instruction.sets.get(it.name.text)
        if sets is None and it.name.text not in self.instruction.aims:
            self._value(it.name)
        self._below(it.stages)
        if len(it.stages) != len(sets or [0]):
            raise Refused('K3', it.stages[-1], f'`{it.name.text}` ' + (f'is set {len(sets)} times' if sets else 'is in one stage'))
        for one, two in zip(it.stages, it.stages[1:]):
            if int(two.text) <= int(one.text):
                raise Refused('K3', two, f'the sets of `{it.name.text}` are in rising stages')
        self.places.append(it)

    def _write(self, it):
        if it.name.text not in {result.name for result in self.machine.results}:
            raise Refused('K2', it.name, f'there is no result `{it.name.text}`')
        self._below(it.stages)
        self.places.append(it)

    def bounds(self):
        found = Bounds({}, {}, {}, {}, frozenset(self.alone))
        for it in self.places:
            for i, word in enumerate(it.stages):
                table, key = self._key(it, i, found)
                table[key] = max(table.get(key, 0), int(word.text))
        return found

    def _key(self, it, i, tables):
        """Where the stage of a line is in `Bounds`."""
        name = it.name.text
        if it.word == 'writes':
            return tables.writes, name
        if name in self.instruction.sets:
            return tables.sets, (name, i)
        return (tables.aims, name) if name in self.instruction.aims else (tables.nodes, self._value(it.name))

    def keep(self, stages):
        """Ends with K4 where a line says `at` and the statement can't be there."""
        made = Bounds(stages.of, stages.set_stages, stages.aim, stages.write)
        for it in self.places:
            for i, word in enumerate(it.stages):
                table, key = self._key(it, i, made)
                if it.word != 'from' and table[key] > int(word.text):
                    what = f'`{it.name.text}` can be written' if it.word == 'writes' else f'this set of `{it.name.text}` can be' if len(it.stages) > 1 else f'`{it.name.text}` can be'
                    raise Refused('K4', word, f'{what} in stage {table[key]} at the earliest', self._reason(it, i, stages, table[key]))

    def _reason(self, it, i, stages, stage):
        """An operand that is in this stage, if there is one with a name."""
        graph, name = self.instruction, it.name.text
        if it.word == 'writes':
            return 'a set, a read of its target, its address and enable, and the write stages of guessed registers decide that'
        if name in graph.sets:
            if i > 0 and stages.set_stages[name, i - 1] == stage - 1:
                return f'the set before it is in stage {stage - 1}'
            todo = [a for a in graph.sets[name][i] if a is not None]
        else:
            todo = [graph.aims[name]] if name in graph.aims else list(graph.nodes[self._value(it.name)].operands)
        while todo:
            a = todo.pop(0)
            if stages.of[a] == stage:
                called = graph.names.get(a) or graph.pipe_names.get(a) or (graph.nodes[a].detail if graph.nodes[a].kind == 'sample' else None)
                if called and not graph.is_wire(a):
                    line = next((p.name.line for p in self.places if p.name.text == called), None)
                    return f'it needs `{called}`, which is in stage {stage}' + (f' by line {line}' if line else '')
                todo += graph.nodes[a].operands
        return f'stage {stage - 1} is as deep as the line `depth` allows' if self.depth_word else None


def flat(lines):
    """The fewest stages that keep the lines."""
    guesses = guesses_in(lines.machine)
    for count in range(3 if guesses else 2, MOST_STAGES + 1):
        if count == 2:
            lines.instruction = Instruction(lines.machine, lines.opened, False)
        stages = Stages(lines.instruction, count, lines.bounds())
        if stages.needed <= count:
            lines.keep(stages)
            return stages
        lines.instruction = Instruction(lines.machine, lines.opened)
    raise Refused('K5', None, f'more than {MOST_STAGES} stages are needed')


def cut(lines):
    """The stages that the lines ask for."""
    bounds = lines.bounds()
    make = lambda depth: Stages(lines.instruction, lines.count, bounds, depth)
    tried = [] if lines.places or lines.depth_word else (make(Depth(it, True)) for it in depths(lines.instruction))
    stages = next((it for it in tried if it.needed <= lines.count), None) or make(lines.depth)
    if stages.needed > lines.count:
        free = make(NO_DEPTH)
        lines.keep(free)
        word = lines.depth_word if lines.depth_word and free.needed <= lines.count else lines.count_word
        raise Refused('K5', word, f"with {'this depth' if word is lines.depth_word else 'these lines'} {stages.needed} stages are needed")
    lines.keep(stages)
    return stages
