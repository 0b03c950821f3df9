"""What a job declares, and the literals of its image. A job that `kp check` rejects may be read as anything."""
import re
from typing import NamedTuple

SECTION = re.compile(r'\b(image|stalls|inputs)\s*\{([^}]*)\}')
LITERAL = re.compile(r"(\d+)'([bodh])([0-9a-f_]+)", re.I)
BASES = {'b': 2, 'o': 8, 'd': 10, 'h': 16}


class Register(NamedTuple):
    name: str
    width: int
    start: str          # a literal


class File(NamedTuple):
    name: str
    width: int
    bits: int           # of an address

    @property
    def words(self):
        return 1 << self.bits


class Sample(NamedTuple):
    name: str
    width: int


def literal(width, value):
    """The literal as `kp` writes it."""
    return f"{width}'h{value:0{(width + 3) // 4}x}"


def value_of(text):
    """The value of a literal."""
    _, base, digits = LITERAL.fullmatch(text).groups()
    return int(digits.replace('_', ''), BASES[base.lower()])


def without_comments(text):
    return re.sub(r'//[^\n]*', '', text)


def entries(image):
    for entry in image.split(';'):
        target, _, values = entry.partition('=')
        name, *number = re.findall(r'\w+', target) or ['']
        for i, it in enumerate(values.split(',') if name else []):
            yield name, int(number[0]) + i if number else None, it.strip()


def entries_of(text):
    """(name, number of the word or None, literal) of the image section in a text."""
    return entries(dict(SECTION.findall(without_comments(text))).get('image', ''))


class Job:
    def __init__(self, text):
        bare = without_comments(text)
        self.head = re.split(r'\b(?:image|stalls|inputs|end)\b', bare)[0]
        self.sections = dict(SECTION.findall(bare))
        self.name = self._one(r'\bmachine\s+(\w+)')
        self.stages = int(self._one(r'\bstages\s+(\d+)'))
        self.registers = [Register(it, int(width), start) for it, width, start in self._all(r"\breg\s+(\w+)\s*:\s*(\d+)\s*=\s*([\w']+)")]
        self.files = [File(it, int(width), int(bits)) for it, width, bits in self._all(r'\bfile\s+(\w+)\s*:\s*(\d+)\s*\[\s*(\d+)')]
        self.samples = [Sample(it, int(width)) for it, width in self._all(r'\bsample\s+(\w+)\s*:\s*(\d+)')]
        self.written = set(self._all(r'\bresult\s+\w+\s*:\s*\d+\s*->\s*(\w+)'))

    def _all(self, pattern):
        return re.findall(pattern, self.head)

    def _one(self, pattern):
        found = self._all(pattern)
        if not found:
            raise ValueError('no description of a machine begins here')
        return found[0]

    def image(self):
        """(name, number of the word or None, literal) of each start value that the image sets, in the order of the text."""
        return entries(self.sections.get('image', ''))

    def start_words(self):
        """(file, number) -> literal of the words that the image sets."""
        return {(name, number): it for name, number, it in self.image() if number is not None}

    def start_values(self):
        """Register -> its start value."""
        found = {it.name: value_of(it.start) for it in self.registers}
        found.update((name, value_of(it)) for name, number, it in self.image() if number is None)
        return found
