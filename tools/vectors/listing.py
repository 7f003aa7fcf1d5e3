#!/usr/bin/env python3
"""Writes crates/replay_listing/stdin and stdout: inputs of the listing program, and what is due for each.

Run it at the project's root. What is due comes from the rules ("Listing program", "Grid", "Sections"), by Python's own means: text, whole numbers without bounds,
bits as one number. Headers are read and made by header_reading.py and header_writing.py. Nothing is taken from the Rattle code.
"""
import pathlib
import random
import re
import struct
import sys

sys.path.insert(0, str(pathlib.Path(__file__).parent))
from header_reading import Facts, Reader, Refuse, answer  # noqa: E402
from header_writing import make  # noqa: E402

CHOICES = ((0, 10), (1024, 14), (17408, 22), (4211712, 30))
HEADING = 'section kind pass group sent offset size left top width height'.split()
ROOM = 131072


def up(a, b):
    return -(-a // b)


def text(*fields):
    return '\t'.join(str(x) for x in fields) + '\n'


def clipped(grid, side, i):
    columns = up(grid[0], side)
    left, top = i % columns * side, i // columns * side
    return [left, top, min(side, grid[0] - left), min(side, grid[1] - top)]


def padding(r):
    start = r.at
    if r.take(-r.at % 8, start):
        raise Refuse(12, start)


def listing(h, end, data):
    """The listing of a frame whose header was read, or what comes instead."""
    if 0 in (h['width'], h['height']):
        raise Refuse(9, 0)
    width, height = (up(up(n, h['upsampling']), 8 ** h['lf_level']) for n in (h['width'], h['height']))
    side, passes = 128 << h['group_size_shift'], h['passes'][0]
    groups = up(width, side) * up(height, side)
    lf = up(width, 8 * side) * up(height, 8 * side)
    count = 1 if groups == passes == 1 else 1 + lf + 1 + groups * passes
    if count > 65536:
        raise Refuse(10, 0)
    if count > 1024:
        raise Refuse(3, 0)
    grid = (width, height)
    if count == 1:
        kinds = [('All', '-', '-', [0, 0, width, height])]
    else:
        none = ['-'] * 4
        kinds = [('LfGlobal', '-', '-', none)] + [('LfGroup', '-', i, clipped(grid, 8 * side, i)) for i in range(lf)] + [('HfGlobal', '-', '-', none)]
        kinds += [('GroupPass', p, i, clipped(grid, side, i)) for p in range(passes) for i in range(groups)]
    r = Reader(data)
    r.at = end
    if r.u(1):
        return text('order', r.at)
    padding(r)
    sizes = [r.u32(CHOICES) for _ in range(count)]
    padding(r)
    at, rows = r.at // 8, text(*HEADING)
    for i, (kind, size) in enumerate(zip(kinds, sizes)):
        rows += text(i, kind[0], kind[1], kind[2], i, at, size, *kind[3])
        at += size
    return rows + text('total', sum(sizes))


def due(data):
    line = re.match(rb'(0|[1-9][0-9]*)\t(0|[1-9][0-9]*)\t([01])\t([01])\t(0|[1-9][0-9]*)\t([01])\t([01])\n', data)
    if not line:
        return text('refused', 1, 0)
    f, frame = Facts(*(int(x) for x in line.groups())), data[line.end():][:32768]
    number, place, end, h = answer(f, (1071, 256, 1024), frame)
    try:
        return text('refused', number, place) if number else listing(h, end, frame)
    except Refuse as e:
        return text('refused', *e.args)


def record(data, room=ROOM):
    """The record, and the lines that are due for it: answer, sum behind, then the text."""
    given = data.rstrip(b'\0')
    out = due(data).encode()
    fits = len(out) <= room
    behind = 0
    for _ in range(room - (len(out) if fits else 0)):
        behind = behind % 1000003 * 31 + 7
    lines = f'{len(out) if fits else 0}\t{0 if fits else 3}\t0\t{behind}\t\n'
    return struct.pack('<III', len(data), len(given), room) + given, lines + (out.decode() if fits else '')


def facts(f):
    return text(f.width, f.height, f.xyb, f.grey, f.extra, f.animation, f.timecodes).encode()


def table(w, sizes, flag=0):
    """Goes on at the header's end: the flag, padding, the sizes, padding."""
    w.u('flag', 1, flag)
    if not flag:
        w.raw(-len(w.bits) % 8, 0)
        for x in sizes:
            w.u32('size', CHOICES, x)
        w.raw(-len(w.bits) % 8, 0)
    return w.bytes()


def plain(f, sizes, flag=0, **want):
    """A frame of chosen values whose other fields are the simplest."""
    simple = dict(frame_type=0, encoding=1, flags=0, do_ycbcr=0, upsampling=1, group_size_shift=0, num_passes=1, crop=None, mode=0, is_last=1, name=0, lengths={})
    w, _ = make(f, **{**simple, **want})
    return facts(f) + table(w, sizes, flag)


SHOWN = b'300\t100\t0\t0\t0\t0\t0\n'
FRAME = bytes([0x01, 0x28, 0x00, 0x00, 0x0C, 0x00, 0xFA, 0x50, 0x00])


def lines():
    # the rules' example, cut at every byte, and with bytes behind it
    whole = SHOWN + FRAME
    for n in range(len(whole) + 1):
        yield record(whole[:n])
    yield record(whole + b'\xff' * 40)
    # the lent bytes: one too few, just enough, none; and for a line `refused` and a line `order`
    size = len(due(whole))
    for room in (0, 1, size - 1, size, size + 1):
        yield record(whole, room)
    for data in (b'', SHOWN + b'\x03'):
        n = len(due(data))
        for room in (0, n - 1, n, n + 1):
            yield record(data, room)
    # order needed
    yield record(SHOWN + b'\x03')
    yield record(SHOWN + b'\x03' + FRAME)
    # bad lines
    for bad in (b'\n', b'300\n', b'300\t100\t0\t0\t0\t0\n', b'300\t100\t0\t0\t0\t0\t0\t0\n', b'300\t100\t0\t0\t0\t0\t0', b'300\t100\t0\t0\t0\t0\t0\r\n', b'300\t100\t0\t0\t0\t0\t0 \n',
                b' 300\t100\t0\t0\t0\t0\t0\n', b'0300\t100\t0\t0\t0\t0\t0\n', b'300\t0100\t0\t0\t0\t0\t0\n', b'300\t100\t00\t0\t0\t0\t0\n', b'300\t100\t0\t0\t00\t0\t0\n',
                b'+300\t100\t0\t0\t0\t0\t0\n', b'-1\t100\t0\t0\t0\t0\t0\n', b'300\t\t0\t0\t0\t0\t0\n', b'\t100\t0\t0\t0\t0\t0\n', b'300\t100\t2\t0\t0\t0\t0\n',
                b'300\t100\t0\t2\t0\t0\t0\n', b'300\t100\t0\t0\t0\t2\t0\n', b'300\t100\t0\t0\t0\t0\t2\n', b'300\t100\t0\t0\t0\t0\t10\n', b'3e2\t100\t0\t0\t0\t0\t0\n',
                b'300 100 0 0 0 0 0\n', b'300,100,0,0,0,0,0\n', b'/00\t100\t0\t0\t0\t0\t0\n', b':\t100\t0\t0\t0\t0\t0\n', b'300\t100\t0\t0\t0\t0\n0\n', b'9' * 3000):
        yield record(bad + FRAME)
    # bounds, numbers past 32 and 64 bits, and of 30 digits
    for n in (0, 1, 1073741824, 1073741825, 4294967295, 4294967296, 4294967596, 18446744073709551615, 18446744073709551616, 18446744073709551916, 10 ** 29, 10 ** 30 - 1):
        for at in (0, 1, 4):
            fields = [300, 100, 0, 0, 0, 0, 0]
            fields[at] = n
            yield record(text(*fields).encode() + FRAME)
    for n in (255, 256, 257):
        yield record(text(300, 100, 0, 0, n, 0, 0).encode() + FRAME)
    for flags in ((1, 0, 0, 0), (0, 1, 0, 0), (0, 0, 1, 0), (0, 0, 1, 1), (1, 1, 1, 1)):
        yield record(text(300, 100, flags[0], flags[1], 3, flags[2], flags[3]).encode() + FRAME)


def frames():
    small = Facts(100, 100)
    yield record(plain(small, [77]))                                       # one section: All, the whole rectangle
    yield record(plain(small, [0]))
    yield record(plain(Facts(1, 1), [1077953535]))
    yield record(plain(small, [3, 0, 0, 0, 5], num_passes=2))              # one group, two passes
    yield record(plain(Facts(300, 100), list(range(1, 7))))                # three groups
    yield record(plain(Facts(300, 100), [0] * 9, num_passes=2))            # sizes of zero stay
    yield record(plain(Facts(300, 100), [1023, 1024, 17407, 17408, 4211711, 4211712, 1077953535, 0, 1, 2, 3, 4], num_passes=3))
    yield record(plain(Facts(1025, 130), [i * 7 % 1500 for i in range(22)]))          # two LF groups
    yield record(plain(Facts(1025, 1025), [i * i % 3000 for i in range(6 + 81)]))     # four LF groups
    yield record(plain(Facts(1500, 700), [i for i in range(2 + 2 + 72 * 11)], num_passes=11))
    yield record(plain(Facts(300, 100), list(range(6)), upsampling=1, group_size_shift=0, crop=[0, 0, 300, 100]))
    yield record(plain(Facts(300, 100), list(range(6)), crop=[0, 0, 257, 1]))
    yield record(plain(Facts(4096, 128), [5] * 6, upsampling=8, group_size_shift=1))
    yield record(plain(Facts(9000, 100), [6] * 20, frame_type=1, lf_level=0, encoding=1))
    yield record(plain(Facts(300, 100), [1], flag=1))
    # zero width or height (9), too many (10), 1,024 and 1,025 sections, 3
    yield record(plain(Facts(300, 100), [1], crop=[0, 0, 0, 100]))
    yield record(plain(Facts(300, 100), [1], crop=[0, 0, 100, 0]))
    yield record(plain(Facts(7456256, 128), [1]))
    yield record(plain(Facts(7456257, 128), [1]))
    yield record(plain(Facts(67108864, 67108864), [1]))
    for width in (908 * 128, 908 * 128 + 1, 909 * 128 + 1):
        groups, lf = up(width, 128), up(width, 1024)
        count = 2 + lf + groups
        yield record(plain(Facts(width, 128), [i * 37 % 1400 for i in range(min(count, 1024))]))
    # the header's faults: 4, 5, 6, 7 and 12
    yield record(plain(Facts(300, 100), list(range(6)))[:-3])
    yield record(facts(small) + b'\x00' * 2)
    w, _ = make(small, frame_type=0, encoding=0, flags=0, do_ycbcr=0, upsampling=1, num_passes=1, crop=None)
    bad = w.bits[:w.place('mode')] + [1, 1, 0, 1] + [0] * 40
    yield record(facts(small) + bytes(sum(bad[i + j] << j for j in range(8)) for i in range(0, len(bad) - 7, 8)))
    for weights in ([0x7C00, 0, 0, 0, 0, 0], [0, 0, 0xB400, 0, 0, 0], [0, 0, 0xB400, 1, 0, 0]):
        yield record(plain(small, [9], filter='custom', weights=weights))
    padded = plain(Facts(300, 100), list(range(6)))
    for i in range(len(facts(Facts(300, 100))), len(padded)):
        for bit in (1, 128):
            yield record(padded[:i] + bytes([padded[i] ^ bit]) + padded[i + 1:])
    # headers at random, with a table behind them
    for _ in range(60):
        f = Facts(random.randrange(1, 1500), random.randrange(1, 1500), random.getrandbits(1), random.getrandbits(1), random.randrange(3), random.getrandbits(1), random.getrandbits(1))
        w, h = make(f)
        yield record(facts(f) + table(w, [random.randrange(2000) for _ in range(40)], int(random.random() < 0.1)))
    # more than 32,768 bytes: a header that skips to the last bit used, one further, and bytes behind the bound
    for skipped in (262030, 262060, 262080, 262100):
        w, _ = make(small, frame_type=0, encoding=0, flags=0, do_ycbcr=0, upsampling=1, num_passes=1, crop=None, mode=0, is_last=1, name=0, lengths={})
        w.bits, tail = w.bits[:-2], [1, 0] + [0, 0, 0, 0]
        w.bits += tail
        w.u64('length', skipped)
        data = facts(small) + w.bytes()
        yield record(data + b'\0' * (len(facts(small)) + 32768 - len(data)))
        yield record(data + b'\0' * (len(facts(small)) + 34000 - len(data)))
    yield record(SHOWN + FRAME + b'\0' * 33000)
    yield record(SHOWN + FRAME + b'\0' * 33000 + b'\1')


def main():
    random.seed(20261115)
    pairs = [*lines(), *frames()]
    home = pathlib.Path('crates/replay_listing')
    (home / 'stdin').write_bytes(b''.join(r for r, _ in pairs))
    (home / 'stdout').write_text(''.join(t for _, t in pairs))
    seen = sorted({tuple(t.split('\n')[1].split('\t')[:2]) for _, t in pairs if t.count('\n') > 1 and t.split('\n')[1].startswith(('refused', 'order'))})
    print(len(pairs), 'records', sum(len(r) for r, _ in pairs), 'bytes in,', sum(len(t) for _, t in pairs), 'out;', sorted({s[1] for s in seen if s[0] == 'refused'}, key=int))


main()
