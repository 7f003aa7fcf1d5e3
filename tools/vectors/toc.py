#!/usr/bin/env python3
"""Writes crates/replay_toc/stdin and stdout: the vectors of the crate `toc`, and what is due for each; behind them the sample of oracle/sample.

Run it at the project's root. What is due comes from the rules ("Refusal numbers", "Grid", "Sections"), by Python's own means: whole
numbers without bounds, bits as a list, offsets by a running sum in sent order. Sources are named at each vector.
"""
import struct
import sys

sys.dont_write_bytecode = True
from stored import store

BYTES, ROOM, UNTOUCHED = 270000, 65540, 7
CHOICES = [(0, 10), (1024, 14), (17408, 22), (4211712, 30)]


class Refused(Exception):
    def __init__(self, number, place=0):
        self.number, self.place = number, place


# ---- the frame: sizes and counts, as the rules for the grid have them

def up(a, b):
    return -(-a // b)


class Grid:
    """The counts of a frame, or refusal 8, 9 or 10."""

    def __init__(self, frame):
        width, height, upsampling, level, shift, passes = frame
        if upsampling not in (1, 2, 4, 8) or level > 4 or shift > 3 or not 1 <= passes <= 11 or max(width, height) > 1073760511:
            raise Refused(8)
        if 0 in (width, height):
            raise Refused(9)
        self.width, self.height = (up(up(n, upsampling), 8 ** level) for n in (width, height))
        self.side, self.passes = 128 << shift, passes
        self.columns = up(self.width, self.side)
        self.groups = self.columns * up(self.height, self.side)
        self.lf = up(self.width, 8 * self.side) * up(self.height, 8 * self.side)
        # LfGlobal, LfGroups, HfGlobal, then for each pass its groups; a kind is (number, pass, group)
        few = 1 if self.groups == 1 and passes == 1 else 1 + self.lf + 1 + self.groups * passes
        if few > 65536:
            raise Refused(10)
        self.kinds = [(0, 0, 0)]
        if few > 1:
            self.kinds = [(1, 0, 0)] + [(2, 0, i) for i in range(self.lf)] + [(3, 0, 0)]
            self.kinds += [(4, p, i) for p in range(passes) for i in range(self.groups)]
        self.count = len(self.kinds)
        assert self.count == few

    def section_of_sample(self, x, y, pass_):
        if x >= self.width or y >= self.height or pass_ >= self.passes:
            raise Refused(14)
        group = y // self.side * self.columns + x // self.side
        return 0 if self.count == 1 else self.kinds.index((4, pass_, group))

    def section_of_kind(self, kind):
        if kind not in self.kinds:
            raise Refused(14)
        return self.kinds.index(kind)


# ---- the table, as the rules for sections have it

class Bits:
    def __init__(self, data, place):
        self.data, self.at = data, place

    def take(self, n, start):
        if self.at + n > 8 * len(self.data):
            raise Refused(4, start)
        value = 0
        for i in range(n):
            value |= (self.data[(self.at + i) // 8] >> (self.at + i) % 8 & 1) << i
        self.at += n
        return value

    def size(self):
        start = self.at
        base, n = CHOICES[self.take(2, start)]
        return base + self.take(n, start)

    def pad(self):
        start = self.at
        if self.take(-self.at % 8, start):
            raise Refused(12, start)


def entry(which, frame, place, data, lent, tables):
    """The answer, as its printed numbers; the four tables are changed where a table is accepted."""
    g = Grid(frame)
    if any(len(t) < g.count for t in tables):
        raise Refused(3)
    if place > 8 * len(data):
        raise Refused(11)
    if which == 1 and sorted(lent) != list(range(g.count)):
        raise Refused(13)
    bits = Bits(data, place)
    if which == 0:
        if bits.take(1, place):
            return [1, bits.at]
        lent = list(range(g.count))
    bits.pad()
    sent = [bits.size() for _ in range(g.count)]
    bits.pad()
    section_of = {k: j for j, k in enumerate(lent)}
    offset = bits.at // 8
    for k, size in enumerate(sent):
        j = section_of[k]
        tables[0][j], tables[1][j], tables[2][j], tables[3][k] = offset, size, k, j
        offset += size
    return [0, g.count, bits.at // 8, sum(sent)]


def refusable(f, *values):
    """The refusal number, then the values: zeros beside a refusal."""
    try:
        got = f()
        return [0] + (list(got) if isinstance(got, (list, tuple)) else [got])
    except Refused as e:
        return [e.number] + [0] * (len(values) or 1)


def mixed(table):
    total = 0
    for word in table:
        total = total % 1000003 * 31 + word
    return total


def section_at(frame, tables, section):
    g = Grid(frame)
    if any(len(t) < g.count for t in tables[:2]):
        raise Refused(3)
    if section >= g.count:
        raise Refused(14)
    return tables[0][section], tables[1][section]


def through(frame, table, number):
    g = Grid(frame)
    if sorted(table) != list(range(g.count)):
        raise Refused(13)
    if number >= g.count:
        raise Refused(14)
    return table[number]


def rule(i, step):
    return ((i % 1048576) * 40503 + step) // 16 % 256 if step else 0


def line(which, frame, place, data, size=None, step=0, room=None, order=(), reverse=None, section=0, sample=(0, 0, 0), kind=(0, 0, 0)):
    """A record and its line. `size`: how many bytes there are, those after `data` by the rule; `room`: the four tables' lengths."""
    size = len(data) if size is None else size
    order = list(order)
    lent = order if reverse is None else [reverse - 1 - i for i in range(reverse)]
    if room is None:
        try:
            room = [Grid(frame).count] * 4
        except Refused:
            room = [8] * 4
    words = [which, *frame, place % 2**32, place >> 32, len(data), size, step, *room, 0 if reverse is None else 1, len(lent), section, *sample, *kind]
    assert len(words) == 25 and len(data) <= 64 and len(order) <= 16 and size <= BYTES
    record = struct.pack('<25I', *words) + bytes(28) + bytes(data) + bytes(64 - len(data))
    record += struct.pack('<16I', *order, *[0] * (16 - len(order)))
    assert len(record) == 256
    bytes_ = list(data) + [rule(i, step) for i in range(len(data), size)]
    tables = [[UNTOUCHED] * n for n in room]
    try:
        out = entry(which, frame, place, bytes_, lent, tables)
    except Refused as e:
        out = [2, e.number, e.place]
    out += [mixed(t) for t in tables]
    out += refusable(lambda: Grid(frame).section_of_kind(kind))

    def kind_of():
        g = Grid(frame)
        if section >= g.count:
            raise Refused(14)
        return g.kinds[section]
    out += refusable(kind_of, 0, 0, 0)
    out += refusable(lambda: Grid(frame).section_of_sample(*sample))
    out += refusable(lambda: section_at(frame, tables, section), 0, 0)
    out += refusable(lambda: through(frame, tables[2], section))
    out += refusable(lambda: through(frame, tables[3], section))
    return record, ''.join(f'{n}\t' for n in out) + '\n'


# ---- writing a table, for the vectors

def pack(sizes, place=0, flag=None):
    """The bits from bit 0 on: zeros up to the place, a flag, padding, the sizes, padding; and how many bytes."""
    out = [0] * place
    if flag is not None:
        out.append(flag)
    out += [0] * (-len(out) % 8)
    for size in sizes:
        k = max(i for i, (base, n) in enumerate(CHOICES) if base <= size)
        base, n = CHOICES[k]
        out += [k & 1, k >> 1] + [(size - base) >> i & 1 for i in range(n)]
    out += [0] * (-len(out) % 8)
    return [sum(out[8 * i + j] << j for j in range(8)) for i in range(len(out) // 8)]


LISTED = (300, 100, 1, 0, 1, 1)          # the listing's frame: shift 1, five sections
TWICE = (300, 100, 1, 0, 1, 2)           # the same with two passes: seven sections
ONE = (100, 100, 1, 0, 1, 1)             # one group and one pass: one section, All
FIVE = (100, 100, 1, 0, 1, 2)            # one group, two passes: five sections
EIGHT = (640, 128, 1, 0, 0, 1)           # five groups of 128: eight sections
MANY = (7456256, 128, 1, 0, 0, 1)        # P7: 65,536 sections
BYTES_P4 = [0x01, 0x28, 0x00, 0x00, 0x0C, 0x00, 0xFA, 0x50, 0x00]


def kinds():
    """Every section and kind of some frames, and those just past the end."""
    for frame in (LISTED, TWICE, ONE, FIVE, (3000, 2000, 2, 1, 2, 3)):
        g = Grid(frame)
        # each section, one past, and the largest number; with every kind of the frame, and samples over its corners
        asked = g.kinds + [(0, 0, 0), (1, 0, 0), (2, 0, g.lf), (3, 0, 0), (4, 0, g.groups), (4, g.passes, 0), (4, 2**32 - 1, 2**32 - 1), (2, 0, 2**32 - 1)]
        spots = [(0, 0), (g.width - 1, 0), (0, g.height - 1), (g.width - 1, g.height - 1), (g.width, 0), (0, g.height), (g.side, 0), (g.side - 1, 0), (2**32 - 1, 0)]
        numbers = list(range(g.count + 1)) + [2**32 - 1]
        for i in range(max(len(asked), len(numbers), 2 * len(spots))):
            sample = (*spots[i % len(spots)], i // len(spots) % (g.passes + 1))
            yield line(0, frame, 0, [], section=numbers[i % len(numbers)], sample=sample, kind=asked[i % len(asked)])


def frames():
    """Refusals 8, 9 and 10, each beside its good neighbour; P8 and the count that wraps at 32 bits."""
    for frame in [(300, 100, 3, 0, 1, 1), (300, 100, 1, 5, 1, 1), (300, 100, 1, 0, 4, 1), (300, 100, 1, 0, 1, 0), (300, 100, 1, 0, 1, 12), (1073760512, 1, 1, 0, 3, 1),
                  (0, 100, 1, 0, 1, 1), (300, 0, 1, 0, 1, 1), (7456257, 128, 1, 0, 0, 1), (67108864, 67108864, 1, 0, 0, 1), (1073760511, 1, 8, 4, 3, 11)]:
        for which in (0, 1):
            # 8, 9, 10 stand before 3, 11 and 13
            yield line(which, frame, 999, [0], room=[0, 0, 0, 0])


def sections():
    # P4: the listing's sections, after its header's one bit, with a word of each table behind the used ones
    for section in range(6):
        yield line(0, LISTED, 1, BYTES_P4, room=[6] * 4, section=section, sample=(60 * section, 50, 0))
    # P5: the second entry at place 8 with order 2, 0, 1, 3, 4
    for section in range(6):
        yield line(1, LISTED, 8, BYTES_P4, order=[2, 0, 1, 3, 4], section=section)
    # P6, a repeat; then too short, too long, a number equal to the count; the identity, the inverse of P5's order, a reversed one
    for order in ([0, 0, 1, 2, 3], [0, 1, 2, 3], [0, 1, 2, 3, 4, 5], [5, 1, 2, 3, 4], [0, 1, 2, 3, 2**32 - 1], [], [0, 1, 2, 3, 4], [1, 2, 0, 3, 4], [4, 3, 2, 1, 0]):
        yield line(1, LISTED, 8, BYTES_P4, order=order, section=1)
    # each table one short, in both entries; 3 stands before 11 and 13
    for i in range(4):
        room = [5] * 4
        room[i] = 4
        yield line(0, LISTED, 7, BYTES_P4, room=room, section=4)
        yield line(1, LISTED, 999, BYTES_P4, order=[0, 0, 0, 0, 0], room=room, section=4)
    # places at the end and past it: 11 exactly past; 11 stands before 13
    for place in (71, 72, 73, 2**32, 2**32 + 8, 2**64 - 1):
        yield line(0, LISTED, place, BYTES_P4)
        yield line(1, LISTED, place, BYTES_P4, order=[2, 0, 1, 3, 4])
        yield line(1, LISTED, place, BYTES_P4, order=[0, 0, 1, 3, 4])
    # the flag: 1 gives the place after it, and nothing is written; at every bit of a byte of ones
    for place in range(9):
        yield line(0, LISTED, place, [0xFF], room=[9] * 4)
    # every cut of a table, in both entries
    table = pack([10, 1023, 1024, 5000000, 20000], flag=0)
    for n in range(len(table) + 1):
        yield line(0, LISTED, 0, table[:n])
        yield line(1, FIVE, 1, table[:n], order=[3, 1, 4, 0, 2])
    # the table begins at each bit of a byte; the first padding bad at each bit, and the last
    for place in range(17):
        yield line(0, LISTED, place, pack([10, 0, 3, 1000, 20], place=place, flag=0), section=place % 5)
        yield line(1, LISTED, place, pack([10, 0, 3, 1000, 20], place=place), order=[4, 0, 3, 1, 2], section=place % 5)
        good = pack([1, 2, 3, 4, 5], place=8)
        yield line(1, LISTED, place, [1 << (place % 8)] + good[1:], order=[4, 0, 3, 1, 2])
        yield line(0, LISTED, 0, [1 << (place % 8)] + good[1:])
    for bit in range(4, 8):
        good = pack([1, 2, 3, 4, 5], flag=0)
        yield line(0, LISTED, 0, good[:-1] + [good[-1] | 1 << bit])
        yield line(1, LISTED, 0, good[:-1] + [good[-1] | 1 << bit], order=[4, 0, 3, 1, 2])
    # one section, with sizes at both ends of each choice; eight sections with all of them
    ends = [0, 1023, 1024, 17407, 17408, 4211711, 4211712, 1077953535]
    for size in ends:
        yield line(0, ONE, 0, pack([size], flag=0), section=0, sample=(99, 99, 0))
        yield line(1, ONE, 3, pack([size], place=3), order=[0], section=1)
    for order in ([0, 1, 2, 3, 4, 5, 6, 7], [7, 6, 5, 4, 3, 2, 1, 0], [3, 7, 0, 2, 6, 1, 5, 4]):
        for section in (0, 3, 7):
            yield line(1, EIGHT, 0, pack(ends), order=order, section=section, sample=(128 * section % 640, 5, 0))
    # zero-size sections at both ends, and all zero
    for sizes in ([0, 5, 6, 7, 0], [0, 0, 0, 0, 0], [0, 0, 9, 0, 0]):
        for order in ([0, 1, 2, 3, 4], [4, 3, 2, 1, 0], [2, 4, 0, 1, 3]):
            yield line(1, LISTED, 0, pack(sizes), order=order, section=2)
        yield line(0, LISTED, 0, pack(sizes, flag=0), section=4)


def full():
    # P7's table at full size: all zero; sizes by the rule in all four choices, as sent and reversed; and one byte short
    yield line(0, MANY, 0, [], size=98305, section=65535, sample=(7456255, 127, 0), kind=(4, 0, 58251))
    bits = 0
    for step in range(1, 100000):
        data = [rule(i, step) for i in range(BYTES)]
        reader = Bits(data, 0)
        try:
            for _ in range(65536):
                reader.size()
            reader.pad()
        except Refused:
            continue
        bits = reader.at
        break
    yield line(1, MANY, 0, [], size=bits // 8, step=step, reverse=65536, section=40000, room=[65537] * 4)
    yield line(1, MANY, 0, [], size=bits // 8 - 1, step=step, reverse=65536, section=40000)


def main():
    pairs = [*kinds(), *frames(), *sections(), *full()]
    store('toc', b''.join(r for r, _ in pairs), ''.join(t for _, t in pairs))
    print(len(pairs), 'records')


main()
