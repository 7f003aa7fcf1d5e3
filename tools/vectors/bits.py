#!/usr/bin/env python3
"""Writes crates/replay_bits/stdin and stdout: vectors of the bit reader, and what is due for each.

What is due is computed here by a reader of its own, written from the rules ("Bits and numbers") on a string of bits, and never by the code
under test. Run at the project's root: python3 tools/vectors/bits.py

A record has 128 bytes, numbers of 32 bits with the low byte first: kind, on, place, fault before it, n, default, then 8 numbers (four choices of base and bits;
or a 64-bit default; or a skip's low and high half), the number of input bytes, one spare, and at byte 64 the input.
Kinds: 0 u(n), 1 Bool, 2 U32, 3 enum of n cases, 4 U64, 5 signed, 6 f16 as its pattern, 7 f16 as f32 (its 32-bit pattern), 8 padding, 9 skip, 10 extensions.
A line has: value, place after it, refusal's number, refusal's place. A fault before it has place 7; a signed number below 0 is shown as ~k for -1 - k.
"""
import random, struct, pathlib

random.seed(20261115)
records, lines = [], []


def bits_of(data):
    return [(byte >> i) & 1 for byte in data for i in range(8)]


class Cut(Exception):
    pass


class Refuse(Exception):
    pass


class Reader:
    """Takes bits off a list; every field is refused where it began."""

    def __init__(self, data, at):
        self.bits, self.at = bits_of(data), at

    def u(self, n):
        if n > 32 or self.at + n > len(self.bits):
            raise Cut
        part = self.bits[self.at:self.at + n]
        self.at += n
        return sum(b << i for i, b in enumerate(part))

    def u32(self, d):
        base, n = d[self.u(2)]
        return (base + self.u(n)) % 2 ** 32

    def u64(self):
        k = self.u(2)
        if k == 0:
            return 0
        if k == 1:
            return 1 + self.u(4)
        if k == 2:
            return 17 + self.u(8)
        v, shift = self.u(12), 12
        while self.u(1):
            if shift == 60:
                return v + (self.u(4) << 60)
            v += self.u(8) << shift
            shift += 8
        return v

    def f16(self):
        h = self.u(16)
        if h >> 10 & 31 == 31:
            raise Refuse(6)
        return h

    def padding(self):
        if self.u(-self.at % 8):
            raise Refuse(12)
        return 0

    def skip(self, n):
        if self.at + n > len(self.bits):
            raise Cut
        self.at += n
        return 0

    def enum(self, d, n):
        v = self.u32(d)
        if v >= n:
            raise Refuse(5)
        return v


def field(data, at, fault, on, default, take):
    """(value, place, number, where) of one field."""
    if not on or fault:
        return default, at, fault, 7
    r = Reader(data, at)
    try:
        return take(r), r.at, 0, 0
    except Cut:
        return 0, at, 4, at
    except Refuse as e:
        return 0, at, e.args[0], at


def put(kind, data=b'', on=1, at=0, fault=0, n=0, default=0, words=(), due=None):
    words = list(words) + [0] * (8 - len(words))
    assert len(data) <= 64
    records.append(struct.pack('<16I', kind, on, at, fault, n, default, *words, len(data), 0) + data + bytes(64 - len(data)))
    lines.append('\t'.join(str(x) for x in due))


def u(data, at, n, on=1, fault=0, default=0):
    put(0, data, on, at, fault, n, default, due=field(data, at, fault, on, default, lambda r: r.u(n)))


def boolean(data, at, on=1, fault=0, default=0):
    put(1, data, on, at, fault, 0, default, due=field(data, at, fault, on, default, lambda r: r.u(1)))


def u32(data, at, d, on=1, fault=0, default=0):
    put(2, data, on, at, fault, 0, default, [x for c in d for x in c], field(data, at, fault, on, default, lambda r: r.u32(d)))


def enum(data, at, d, n, on=1, fault=0, default=0):
    put(3, data, on, at, fault, n, default, [x for c in d for x in c], field(data, at, fault, on, default, lambda r: r.enum(d, n)))


def u64(data, at, on=1, fault=0, default=0):
    put(4, data, on, at, fault, 0, 0, [default % 2 ** 32, default >> 32], field(data, at, fault, on, default, lambda r: r.u64()))


def signed(n):
    z = n // 2 if n % 2 == 0 else -((n + 1) // 2)
    put(5, n=n, due=[z if z >= 0 else f'~{-1 - z}'])


def f16(data, at, on=1, fault=0, default=0):
    put(6, data, on, at, fault, 0, default, due=field(data, at, fault, on, default, lambda r: r.f16()))


def half(h):
    # an f16 is exact as a Python float, and as an f32
    due = struct.unpack('<I', struct.pack('<f', struct.unpack('<e', struct.pack('<H', h))[0]))[0]
    put(7, n=h, due=[due])


def padding(data, at, fault=0):
    put(8, data, 1, at, fault, due=field(data, at, fault, 1, 0, lambda r: r.padding())[1:])


def skip(data, at, n, on=1, fault=0):
    put(9, data, on, at, fault, words=[n % 2 ** 32, n >> 32 & 0xffffffff, n >> 64 & 0xffffffff, n >> 96], due=field(data, at, fault, on, 0, lambda r: r.skip(n))[1:])


def extensions(data, at, on=1, fault=0):
    """A mask, a length for each set bit, and one skip: each a field of its own."""
    v, at, number, where = field(data, at, fault, on, 0, lambda r: r.u64())
    total = 0
    for i in range(64):
        if v >> i & 1:
            n, at, number, w = field(data, at, number, 1, 0, lambda r: r.u64())
            where = w if number and not fault and where == 0 or number and w != 7 else where
            total += n
    if number == 0:
        x, at, number, where = field(data, at, 0, on, 0, lambda r: r.skip(total))
    put(10, data, on, *START, due=(at, number, where))


def pack(fields):
    """Bytes of (value, width) pairs, low bits first."""
    bits = [(v >> i) & 1 for v, n in fields for i in range(n)]
    bits += [0] * (-len(bits) % 8)
    return bytes(sum(b << i for i, b in enumerate(bits[k:k + 8])) for k in range(0, len(bits), 8))


def u64_fields(v, k, chunks=0):
    """The fields of a U64 with selector k; for 3, so many u(8) and then, at 7, the u(4)."""
    if k == 0:
        return [(0, 2)]
    if k == 1:
        return [(1, 2), (v - 1, 4)]
    if k == 2:
        return [(2, 2), (v - 17, 8)]
    out = [(3, 2), (v & 0xfff, 12)]
    for i in range(min(chunks, 6)):
        out += [(1, 1), (v >> 12 + 8 * i & 255, 8)]
    if chunks == 7:
        out += [(1, 1), (v >> 60, 4)]
    else:
        out += [(0, 1)]
    return out


data = bytes(random.randrange(256) for _ in range(24))

# fields across byte borders, widths 0 to 33, at every place in a byte, up to the very end and past it
for n in range(34):
    for at in range(9):
        u(data, at, n)
for at in range(160, 200):
    u(data, at, 17)
for n in (0, 1, 8, 32):
    u(b'', 0, n)
    u(data, 8 * len(data), n)
    u(data, 8 * len(data) - n, n)
    u(data, 5, n, on=0, default=99)
    u(data, 5, n, fault=6, default=77)
u(data, 4294967295, 8)
for at in range(16):
    boolean(b'\xa5\x3c', at)
boolean(b'\x01', 8)
boolean(b'\x01', 0, on=0, default=1)

# every choice of every U32 that the frame header and the table of contents have, at both ends of its range
TABLES = [
    [(1, 0), (2, 0), (4, 0), (8, 0)],
    [(0, 8), (256, 11), (2304, 14), (18688, 30)],
    [(1, 0), (2, 0), (3, 0), (4, 3)],
    [(0, 0), (1, 0), (2, 0), (3, 1)],
    [(0, 0), (1, 0), (2, 0), (0, 3)],
    [(0, 0), (1, 0), (2, 0), (3, 3)],
    [(0, 0), (1, 0), (0, 8), (0, 32)],
    [(0, 0), (0, 4), (16, 5), (48, 10)],
    [(0, 10), (1024, 14), (17408, 22), (4211712, 30)],
    [(4294967295, 1), (4294967290, 4), (1, 32), (7, 33)],
]
for d in TABLES:
    for k in range(4):
        n = d[k][1]
        for v in {0, 1, (1 << n) - 1, (1 << n) >> 1}:
            if v >> n == 0:
                for lead in (0, 3, 7):
                    u32(pack([(0, lead), (k, 2), (v, n)]), lead, d)
        whole = pack([(k, 2), ((1 << n) - 1, n)])
        for cut in range(len(whole)):
            u32(whole[:cut], 0, d)
        u32(pack([(0, 6), (k, 2)]), 6, d)
        u32(pack([(0, 7), (k & 1, 1)]), 7, d)
u32(b'\xff' * 8, 3, TABLES[1], on=0, default=5)
u32(b'\xff' * 8, 3, TABLES[1], fault=12, default=5)

# blend modes: 0, 1, 2, 3 + u(2); five cases (selector 3 with 0 and 1 is MulAdd and Mul, with 2 and 3 it is refused)
MODES = [(0, 0), (1, 0), (2, 0), (3, 2)]
for k in range(4):
    for x in range(4):
        enum(pack([(0, 5), (k, 2), (x, 2)]), 5, MODES, 5)
enum(b'\x07', 0, MODES, 0)
enum(b'\xff', 6, MODES, 5)
enum(b'\xff', 7, MODES, 5)
enum(b'\xff', 0, MODES, 5, on=0, default=4)
enum(b'\xff', 0, MODES, 5, fault=4, default=2)

# U64 in each form, up to 73 bits, at both ends, and every cut of the longest
for v, k in [(0, 0), (1, 1), (16, 1), (17, 2), (272, 2)]:
    for lead in (0, 5):
        u64(pack([(0, lead)] + u64_fields(v, k)), lead)
for chunks in range(8):
    width = 12 + 8 * min(chunks, 6) + (4 if chunks == 7 else 0)
    for v in (0, (1 << width) - 1, random.getrandbits(width), 1 << width - 1):
        for lead in (0, 1, 7):
            u64(pack([(0, lead)] + u64_fields(v, 3, chunks) + [(1, 1)]), lead)
longest = pack(u64_fields((1 << 64) - 1, 3, 7))
for cut in range(len(longest) + 1):
    u64(longest[:cut], 0)
for at in range(65, 74):
    u64(pack([(0, at)] + u64_fields((1 << 64) - 1, 3, 7))[:17], at)
u64(longest, 0, on=0, default=(1 << 64) - 2)
u64(longest, 0, fault=5, default=12345678901234)

# signed: P9, both zeros' neighbours and the ends of 32 bits
for n in (0, 1, 2, 3, 4, 5, 255, 256, 1073760511, 1073760510, 2147483647, 2147483648, 4294967294, 4294967295):
    signed(n)

# f16: both zeros, smallest and largest subnormal, smallest normal, 1, -1, largest finite, the weights of P10 and P11, exponent 31 (infinities and NaNs)
HALVES = [0x0000, 0x8000, 0x0001, 0x8001, 0x03ff, 0x83ff, 0x0400, 0x8400, 0x3c00, 0xbc00, 0x7bff, 0xfbff, 0xb400, 0x3555, 0x7c00, 0xfc00, 0x7c01, 0xffff, 0x7e00]
for h in HALVES:
    f16(pack([(h, 16)]), 0)
    f16(pack([(5, 3), (h, 16)]), 3)
    if h >> 10 & 31 != 31:
        half(h)
for at in range(16):
    f16(pack([(0, 16)]), at)
f16(pack([(0x7c00, 16)])[:1] + b'', 0)
f16(pack([(1, 1), (0x7c00, 15)]), 1)
f16(pack([(0x7c00, 16)]), 0, on=0, default=0x3c00)
f16(pack([(0x7c00, 16)]), 0, fault=4, default=0x3c00)
for h in sorted(random.sample([h for h in range(65536) if h >> 10 & 31 != 31], 300)):
    half(h)
for e in range(31):
    for m in (0, 1, 1023):
        half(e << 10 | m)
        half(1 << 15 | e << 10 | m)

# padding clean and not, at every place in a byte and at the very end
for at in range(17):
    padding(b'\x00\x00', at)
    padding(b'\xff\x00', at)
    padding(b'\x80\x80', at)
    padding(b'\x7f\x01', at)
padding(b'', 0)
padding(b'\xff', 1, fault=6)

# skips at the very end and past it, and sums that pass 2^64
for n in (0, 1, 7, 8, 9, 15, 16, 17, 1 << 32, (1 << 64) - 1, 1 << 64, (1 << 64) + 8, 64 * ((1 << 64) - 1)):
    for at in (0, 1, 8, 16, 17):
        skip(b'\x12\x34', at, n)
skip(b'\x12\x34', 3, 99, on=0)
skip(b'\x12\x34', 3, 99, fault=4)


def ext(data, at=0, on=1, fault=0):
    global START
    START = (at, fault)
    extensions(data, at, on, fault)


# extensions: none, one, the highest bit, several, lengths that sum past the end or past 2^64, cut in the mask, in a length and in the skip
ext(pack([(0, 2)]))
ext(b'')
ext(pack(u64_fields(1, 1) + u64_fields(5, 1) + [(21, 5)]))
ext(pack(u64_fields(1, 1) + u64_fields(5, 1) + [(5, 4)]))
ext(pack([(0, 3)] + u64_fields(6, 1) + u64_fields(16, 1) + u64_fields(17, 2) + [(0, 33)]), 3)
ext(pack([(0, 3)] + u64_fields(6, 1) + u64_fields(16, 1) + u64_fields(17, 2) + [(0, 24)]), 3)
ext(pack(u64_fields(1 << 63, 3, 7) + u64_fields(0, 0)))
ext(pack(u64_fields(1 << 63, 3, 7) + u64_fields(9, 1)))
ext(pack(u64_fields(3, 1) + u64_fields((1 << 64) - 1, 3, 7) + u64_fields(1, 1)))
ext(pack(u64_fields(3, 1) + u64_fields((1 << 64) - 1, 3, 7) * 2))
ext(pack(u64_fields(3, 1) + u64_fields((1 << 64) - 1, 3, 7))[:12])
ext(longest)
ext(pack(u64_fields((1 << 20) - 1, 3, 1) + [(0, 40)]) + b'\x00' * 4)
ext(longest, on=0)
ext(longest, fault=6)

here = pathlib.Path('crates/replay_bits')
(here / 'stdin').write_bytes(b''.join(records))
(here / 'stdout').write_text(''.join(line + '\n' for line in lines))
print(len(records), 'vectors')
