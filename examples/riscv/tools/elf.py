"""Reads 32-bit ELF programs, and writes them as the `image` section of a machine description."""
import re
import struct

IM_BASE, DM_BASE = 0x00100000, 0x00200000
SPAN = 4 << 16                        # bytes of each memory at its full size
LOADED = 1                            # p_type of a loaded segment


class BadProgram(Exception):
    """An ELF file that doesn't fit the machines."""


def segments(elf):
    """(address, bytes) of each loaded segment."""
    if elf[:6] != b'\x7fELF\x01\x01':
        raise BadProgram('not a 32-bit little-endian ELF file')
    offset, = struct.unpack_from('<I', elf, 28)
    size, count = struct.unpack_from('<HH', elf, 42)
    for i in range(count):
        kind, at, address, _, length, _ = struct.unpack_from('<6I', elf, offset + i * size)
        if kind == LOADED and length:
            yield address, elf[at:at + length]


def words(elf, base, bits):
    """Index -> value of the nonzero words of the memory at `base`, of 2^bits words."""
    memory = bytearray(4 << bits)
    for address, data in segments(elf):
        if not any(start <= address < start + SPAN for start in (IM_BASE, DM_BASE)):
            raise BadProgram(f'the segment at {address:#x} is in neither memory')
        if base <= address < base + SPAN:
            if address - base + len(data) > len(memory):
                raise BadProgram(f'the segment at {address:#x} is too long for the memory')
            memory[address - base:address - base + len(data)] = data
    values = struct.unpack(f'<{1 << bits}I', memory)
    return {i: value for i, value in enumerate(values) if value}


def entries(name, found):
    """Lines of an image section: runs of consecutive words, at most eight in a line."""
    run = []
    for i in sorted(found) + [None]:
        if run and (i != run[-1] + 1 or len(run) == 8):
            values = ', '.join(f"32'h{found[j]:08x}" for j in run)
            yield f'  {name}[{run[0]}] = {values};'
            run = []
        run.append(i)


def image(elf, im_bits=16, dm_bits=16):
    """The image section of a program."""
    lines = [*entries('IM', words(elf, IM_BASE, im_bits)), *entries('DM', words(elf, DM_BASE, dm_bits))]
    return '\n'.join(['image {', *lines, '}', ''])


def resized(machine, im_bits, dm_bits):
    """The description with memories of 2^im_bits and 2^dm_bits words. The language has no names for numbers, so this edits the text."""
    machine = re.sub(r'(file IM *: 32) \[16\]', rf'\1 [{im_bits}]', machine)
    machine = re.sub(r'(file DM *: 32) \[16\]', rf'\1 [{dm_bits}]', machine)
    machine = re.sub(r'pipe MA *: 16;', f'pipe MA : {dm_bits};', machine)
    machine = re.sub(r'IM\[(\w+)\[17:2\]\]', rf'IM[\1[{im_bits + 1}:2]]', machine)
    return re.sub(r'put MA = (\w+)\[17:2\]', rf'put MA = \1[{dm_bits + 1}:2]', machine)


def with_image(machine, section):
    """The description with an image section."""
    body, mark, _ = machine.rpartition('\nend')
    if not mark:
        raise BadProgram('the description has no end')
    return f'{body}\n{section}end\n'
