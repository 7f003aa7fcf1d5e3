#!/usr/bin/env python3
"""Writes the vectors of crates/replay_grid: stdin, what the program reads, and stdout, what it must write; behind them the sample of oracle/sample.

Run it at the project's root: python3 tools/vectors/grid.py

What is due is computed here from the rules ("Grid", "Sections", the refusal table), not from the Rattle code: sizes as exact fractions
rounded up, groups as the steps of Python ranges. The vectors are P3, P7, P8 and the errors of the rules, each bound of refusal 8 from
both sides, sizes around each group side and eight times it, all LF levels and upsamplings, and numbers drawn from a fixed seed.

A record is 18 words of 32 bits, low byte first: width, height, upsampling, lf_level, group_size_shift, num_passes; the upsampling that the
sample sizes are asked for; a group number; a point x, y; a region left, top, width, height; and another.
"""
import math
import random
import struct
import sys
from fractions import Fraction

sys.dont_write_bytecode = True
from stored import store

TOP = 2 ** 32 - 1
WIDEST = 1073760511


def sample(n, upsampling, level):
    """Divide by upsampling rounding up (0 and 1 change nothing), then by 8^lf_level rounding up."""
    if upsampling > 1:
        n = math.ceil(Fraction(n, upsampling))
    return math.ceil(Fraction(n, 8 ** level))


class Tiles:
    """The squares of a side that cover a picture, row by row."""

    def __init__(self, w, h, side):
        self.w, self.h, self.side = w, h, side
        self.lefts, self.tops = range(0, w, side), range(0, h, side)
        self.columns, self.rows = len(self.lefts), len(self.tops)
        self.count = self.columns * self.rows

    def origin(self, i):
        return self.lefts[i % self.columns], self.tops[i // self.columns]

    def rect(self, i):
        left, top = self.origin(i)
        return left, top, min(left + self.side, self.w) - left, min(top + self.side, self.h) - top

    def at(self, x, y):
        """The square that a point lies in, unclipped, or None."""
        if x >= self.columns * self.side or y >= self.rows * self.side:
            return None
        return y // self.side * self.columns + x // self.side


def collides(a, b):
    """The four strict comparisons, in exact sums."""
    return a[0] < b[0] + b[2] and a[0] + a[2] > b[0] and a[1] < b[1] + b[3] and a[1] + a[3] > b[1]


def judge(frame):
    """The refusal of a frame, and its groups, LF groups and number of sections where there is none."""
    width, height, upsampling, level, shift, passes = frame
    if upsampling not in (1, 2, 4, 8) or level > 4 or shift > 3 or not 1 <= passes <= 11 or width > WIDEST or height > WIDEST:
        return 8, None, None, 0
    if width == 0 or height == 0:
        return 9, None, None, 0
    w, h = sample(width, upsampling, level), sample(height, upsampling, level)
    side = 128 * 2 ** shift
    groups, lf = Tiles(w, h, side), Tiles(w, h, side * 8)
    sections = 1 if groups.count == 1 and passes == 1 else 1 + lf.count + 1 + groups.count * passes
    if sections > 65536:
        return 10, None, None, 0
    return 0, groups, lf, sections


def due(record):
    """The line of a record: every function's answer, each with its refusal number."""
    frame, upsampling, i, x, y, region, other = record[:6], record[6], record[7], record[8], record[9], record[10:14], record[14:18]
    refusal, groups, lf, sections = judge(frame)
    ok = refusal == 0
    numbers = [groups.w, groups.h, groups.side, lf.side, groups.columns, groups.rows, lf.columns, lf.rows, groups.count, lf.count, sections] if ok else [0] * 11
    out = numbers + [refusal, 0]
    for n in frame[:2]:
        out += [sample(n, upsampling, frame[3]) if ok else 0, refusal]
    for k in (0, 1, 2, 3, 4, 6, 8, 9, 10):
        out += [numbers[k], refusal]
    for tiles in (groups, lf):
        known = ok and i < tiles.count
        own = refusal or (0 if known else 14)
        rect = tiles.rect(i) if known else (0, 0, 0, 0)
        out += [*rect, own, rect[2], rect[3], own]
        out += [int(known and collides(region, (*tiles.origin(i), tiles.side, tiles.side))), own]
    known = ok and i < groups.count
    # the LF group whose unclipped square holds the group's origin
    out += [lf.at(*groups.origin(i)) if known else 0, refusal or (0 if known else 14)]
    found = groups.at(x, y) if ok else None
    out += [found or 0, refusal or (14 if found is None else 0)]
    out += [int(collides(region, other))]
    return out


def spots(frame):
    """Group numbers and points at the edges of a frame's grid."""
    refusal, groups, lf, _ = judge(frame)
    if refusal:
        return [(0, 0, 0), (1, 5, 7)]
    last = groups.count - 1
    ends = [(groups.w - 1, groups.h - 1), (groups.w, groups.h), (groups.columns * groups.side - 1, groups.rows * groups.side - 1)]
    ends += [(groups.columns * groups.side, 0), (0, groups.rows * groups.side)]
    numbers = [0, last, last + 1, lf.count, groups.columns - 1, groups.columns]
    return [(n, *ends[k % len(ends)]) for k, n in enumerate(numbers)]


def regions(frame, i):
    """Regions that meet, touch and miss a group, and one whose sums pass 32 bits."""
    refusal, groups, _, _ = judge(frame)
    if refusal or i >= groups.count:
        return [(0, 0, 1, 1)]
    left, top = groups.origin(i)
    side = groups.side
    near = [(left, top, 1, 1), (left, top, 0, 0), (left + side, top, 1, 1), (left + side - 1, top + side - 1, 1, 1), (0, 0, left, top), (0, 0, left + 1, top + 1),
            (0, 0, TOP, TOP), (TOP, TOP, TOP, TOP), (left, top + side, TOP, 1)]
    return near


def frames():
    yield from [(300, 100, 1, 0, 0, 1), (7456256, 128, 1, 0, 0, 1), (7456257, 128, 1, 0, 0, 1)]  # P3, P7, P8
    yield (300, 100, 1, 0, 1, 1)  # the listing's frame
    yield from [(67108864, 67108864, 1, 0, 0, 1), (128, 128, 1, 0, 0, 2), (128, 128, 1, 0, 0, 11), (1, 1, 1, 0, 0, 1), (1, 1, 8, 4, 3, 1)]
    yield from [(0, 100, 1, 0, 0, 1), (300, 0, 1, 0, 0, 1), (0, 0, 1, 0, 0, 1), (0, 100, 3, 0, 0, 1), (0, 67108864, 1, 0, 0, 12)]
    for u in (0, 1, 2, 3, 4, 5, 6, 7, 8, 9, 16, TOP):
        yield (300, 100, u, 0, 0, 1)
    for level in (3, 4, 5, TOP):
        yield (300, 100, 1, level, 0, 1)
    for shift in (2, 3, 4, 32, TOP):
        yield (300, 100, 1, 0, shift, 1)
    for passes in (0, 1, 2, 10, 11, 12, TOP):
        yield (300, 100, 1, 0, 0, passes)
    for n in (WIDEST - 1, WIDEST, WIDEST + 1, 1073741824, TOP):
        yield from [(n, 1, 8, 4, 3, 1), (1, n, 8, 4, 3, 1), (n, n, 8, 4, 3, 1), (n, n, 1, 0, 0, 1)]
    for shift in range(4):
        side = 128 << shift
        for n in (side - 1, side, side + 1, 2 * side, 8 * side - 1, 8 * side, 8 * side + 1):
            yield from [(n, side, 1, 0, shift, 1), (side + 1, n, 1, 0, shift, 3)]
    for level in range(5):
        for u in (1, 2, 4, 8):
            yield (9 * 128 * u * 8 ** level - 1, 3 * 128 * u * 8 ** level + 1, u, level, 0, 2)
    # the most sections that are allowed, and one more, by groups, by passes and by LF groups
    yield from [(128 * 255, 128 * 256, 1, 0, 0, 1), (128 * 256, 128 * 256, 1, 0, 0, 1), (1024 * 77, 1024 * 77, 1, 0, 3, 11), (1024 * 78, 1024 * 76, 1, 0, 3, 11)]


def records():
    draw = random.Random(4)
    upsamplings = [0, 1, 2, 3, 7, 8, 128, TOP]
    k = 0
    for frame in frames():
        for i, x, y in spots(frame):
            near = regions(frame, i)
            k += 1
            yield (*frame, upsamplings[k % len(upsamplings)], i, x, y, *near[k % len(near)], *near[(k * 5 + 1) % len(near)])
    for _ in range(120):
        bits = draw.choice([4, 9, 13, 20, 30])
        frame = (draw.randrange(1, 2 ** bits), draw.randrange(1, 2 ** draw.choice([4, 9, 13])), draw.choice([1, 2, 4, 8]), draw.choice([0, 0, 1, 2, 3, 4]),
                 draw.randrange(4), draw.randrange(1, 12))
        _, groups, _, _ = judge(frame)
        i = draw.randrange(groups.count + 1) if groups else draw.randrange(9)
        x, y = (draw.randrange(groups.w + 130), draw.randrange(groups.h + 130)) if groups else (3, 4)
        near = regions(frame, i)
        yield (*frame, draw.randrange(2 ** draw.choice([3, 31])), i, x, y, *draw.choice(near), *draw.choice(near))


def main():
    lines, data = [], b''
    for record in records():
        record = tuple(min(n, TOP) for n in record)
        data += struct.pack('<18I', *record)
        lines.append('\t'.join(str(n) for n in due(record)))
    store('grid', data, '\n'.join(lines) + '\n')
    print(len(lines), 'records')


main()
