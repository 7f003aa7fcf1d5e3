#!/usr/bin/env python3
"""Vectors for the crate `filter`: writes crates/replay_filter/stdin and stdout.

Run it at the project's root. What is due is computed here from the rules ("Bits and numbers", "Filter fields") and the text of
src/filter.rs: a reader over a string of bits, exact fractions for floats and for the weights test. Nothing is taken from the Rattle code.
The bits come from a writer of its own, and for whatever is accepted the values written are compared with the values read.

A record is 96 bytes: four 32-bit words and 80 bytes of input.
  word 0: 0 to 3 the bundle (1: asked for, 2: Modular); 4 the weights test on words 1 and 2
  word 1: the bit place, word 2: how many bytes are lent, word 3: a fault that the cursor has already, 0 for none
A line of the bundle: fault, its place, the cursor's place, where nothing was refused the 25 values, and all of them in one number.
What stands beside a fault: the refused field is 0, each field after it its default.
"""
import pathlib
import random
import struct
from fractions import Fraction

random.seed(20)
SIZE = 80


# f32, by exact fractions

def nearest(q):
    """The bit pattern of the f32 nearest to a fraction that is 0 or normal; ties to even."""
    sign, q = (1 << 31 if q < 0 else 0), abs(q)
    if q == 0:
        return sign
    e = 0
    while q >= 2 ** (e + 1):
        e += 1
    while q < Fraction(2) ** e:
        e -= 1
    m = q / Fraction(2) ** (e - 23)
    n, rest = divmod(m.numerator, m.denominator)
    if 2 * rest > m.denominator or (2 * rest == m.denominator and n % 2):
        n += 1
    if n == 1 << 24:
        n, e = 1 << 23, e + 1
    return sign | (e + 127) << 23 | (n - (1 << 23))


def value(b):
    return Fraction(struct.unpack('<f', struct.pack('<I', b))[0])


def decimal(text):
    return nearest(Fraction(text))


def divided(a, b):
    return nearest(Fraction(a, b))


ZERO = 0
ONE = decimal('1.0')
GABOR = [decimal('0.115169525'), decimal('0.061248592')] * 3
SHARP = [ZERO] + [divided(k, 7) for k in range(1, 7)] + [ONE]
SCALE = [decimal('40.0'), decimal('5.0'), decimal('3.5')]
SIGMA = [decimal('0.46'), decimal('0.9'), decimal('6.5'), divided(2, 3)]
EPSILON = Fraction(1, 2 ** 23)


# f16

def half_value(h):
    e, m = h >> 10 & 31, h & 1023
    size = Fraction(m, 2 ** 24) if e == 0 else (1024 + m) * Fraction(2) ** (e - 25)
    return -size if h >> 15 else size


def half_bits(h):
    """The f32 of an f16, the sign of zero kept."""
    b = nearest(half_value(h)) | (h >> 15) << 31
    assert struct.pack('<I', b) == struct.pack('<f', struct.unpack('<e', struct.pack('<H', h))[0])
    return b


def unbalanced(a, b):
    exact = half_value(a) + half_value(b) == Fraction(-1, 4)
    total = value(nearest(half_value(a) + half_value(b)))
    rust = abs(value(nearest(1 + value(nearest(4 * total))))) < EPSILON
    assert exact == rust
    return exact


# reading, as the Rust does, with the first fault kept

class Reader:
    def __init__(self, bits, at, fault):
        self.bits, self.at, self.fault, self.place = bits, at, fault, 0

    def stop(self, number, at):
        self.fault, self.place, self.at = number, at, at
        return 0

    def u(self, n, on=True, default=0):
        if not on or self.fault:
            return default
        if self.at + n > len(self.bits):
            return self.stop(4, self.at)
        x = sum(self.bits[self.at + i] << i for i in range(n))
        self.at += n
        return x

    def f16(self, on, default=0):
        if not on or self.fault:
            return default
        at = self.at
        h = self.u(16)
        if not self.fault and h >> 10 & 31 == 31:
            return self.stop(6, at)
        return h

    def u64(self, on):
        if not on or self.fault:
            return 0
        at = self.at
        k = self.u(2)
        if self.fault:
            return 0
        x = 0
        if k == 1:
            x = 1 + self.u(4)
        elif k == 2:
            x = 17 + self.u(8)
        elif k == 3:
            x, shift = self.u(12), 12
            while not self.fault and self.u(1):
                n = 4 if shift == 60 else 8
                x |= self.u(n) << shift
                shift += n
                if shift == 64:
                    break
        return self.stop(4, at) if self.fault else x

    def extensions(self, on):
        mask, total = self.u64(on), 0
        for i in range(64):
            total += self.u64(mask >> i & 1)
        if on and not self.fault:
            if self.at + total > len(self.bits):
                self.stop(4, self.at)
            else:
                self.at += total


def read_gabor(r, on):
    enabled = r.u(1, on, 1)
    custom = r.u(1, on and enabled, 0)
    weights = []
    for channel in range(3):
        a, b = r.f16(custom), r.f16(custom)
        if not r.fault and unbalanced(a, b):
            r.fault, r.place = 7, r.at - 32
        weights += [half_bits(a), half_bits(b)]
    if not enabled:
        return [0] + [ZERO] * 6
    return [1] + (weights if custom else GABOR)


def read_epf(r, on, modular):
    iters = r.u(2, on, 2)
    on = on and iters != 0
    custom = r.u(1, on and not modular)
    lut = [half_bits(r.f16(custom)) for _ in range(8)]
    lut = lut if custom else SHARP
    custom = r.u(1, on)
    scale = [half_bits(r.f16(custom)) for _ in range(3)]
    r.u(32, custom)
    scale = scale if custom else SCALE
    custom = r.u(1, on)
    quant = half_bits(r.f16(custom and not modular))
    sigma = [quant if not modular else SIGMA[0]] + [half_bits(r.f16(custom)) for _ in range(3)]
    sigma = sigma if custom else SIGMA
    own = half_bits(r.f16(on and modular, 0x3C00))
    if iters == 0:
        return [0, 0] + [ZERO] * 16
    return [1, iters] + lut + scale + sigma + [own]


def read_filter(r, on, modular):
    all_default = r.u(1, on, 1)
    on = on and not all_default
    out = read_gabor(r, on) + read_epf(r, on, modular)
    r.extensions(on)
    return out


# writing: a list of (name, width, number), so that a test can reach every field

def u64(name, x):
    if x == 0:
        return [(name, 2, 0)]
    if x <= 16:
        return [(name, 2, 1), (name, 4, x - 1)]
    if x <= 272:
        return [(name, 2, 2), (name, 8, x - 17)]
    out, shift = [(name, 2, 3), (name, 12, x & 4095)], 12
    while shift < 60 and x >> shift:
        out += [(name, 1, 1), (name, 8, x >> shift & 255)]
        shift += 8
    return out + ([(name, 1, 1), (name, 4, x >> 60)] if shift == 60 and x >> 60 else [(name, 1, 0)])


def write_filter(modular, gabor, iters, sharp, scale, sigma, own, lengths=()):
    """gabor: None, 'default' or six f16; sharp, scale, sigma: None or f16 values; own: the modular sigma; lengths: of the extensions."""
    f = [('all_default', 1, 0), ('gab', 1, 0 if gabor is None else 1)]
    due = [0] + [ZERO] * 6
    if gabor is not None:
        f.append(('gab_custom', 1, 0 if gabor == 'default' else 1))
        due = [1] + GABOR
        if gabor != 'default':
            f += [('weight', 16, h) for h in gabor]
            due = [1] + [half_bits(h) for h in gabor]
    f.append(('iters', 2, iters))
    if iters == 0:
        due += [0, 0] + [ZERO] * 16
    else:
        if not modular:
            f.append(('sharp_custom', 1, 1 if sharp else 0))
            f += [('sharp', 16, h) for h in sharp or []]
        f.append(('scale_custom', 1, 1 if scale else 0))
        if scale:
            f += [('scale', 16, h) for h in scale] + [('ignored', 32, random.getrandbits(32))]
        f.append(('sigma_custom', 1, 1 if sigma else 0))
        f += [('sigma', 16, h) for h in (sigma or [])[1 if modular else 0:]]
        if modular:
            f.append(('own', 16, own))
        due += [1, iters] + ([half_bits(h) for h in sharp] if sharp and not modular else SHARP)
        due += [half_bits(h) for h in scale] if scale else SCALE
        four = [half_bits(h) for h in sigma] if sigma else SIGMA
        due += [SIGMA[0]] + four[1:] if modular else four
        due += [half_bits(own)] if modular else [ONE]
    f += u64('mask', (1 << len(lengths)) - 1)
    for n in lengths:
        f += u64('length', n)
    f += [('skipped', 1, random.getrandbits(1)) for _ in range(sum(lengths))]
    return f, due


def bits_of(fields):
    return [x >> i & 1 for _, n, x in fields for i in range(n)]


# records

RECORDS, LINES = [], []


def emit(words, data):
    assert len(data) <= SIZE
    RECORDS.append(struct.pack('<4I', *words) + data + bytes(SIZE - len(data)))


def bundle(bits, place, on=1, modular=0, fault=0, due=None):
    """The bits from a place on, what is before them and after them in the last byte at random."""
    bits = [random.getrandbits(1) for _ in range(place)] + bits
    bits = bits + [random.getrandbits(1) for _ in range(-len(bits) % 8)]
    data = bytes(sum(bits[i + j] << j for j in range(8)) for i in range(0, len(bits), 8))
    emit((on + 2 * modular, place, len(data), fault), data)
    r = Reader(bits, place, fault)
    out = read_filter(r, on, modular)
    if due is not None:
        assert r.fault == 0 and out == due
    total = 0
    for x in out:
        total = total % 1000003 * 31 + x
    LINES.append('\t'.join(map(str, [r.fault, r.place, r.at] + ([] if r.fault else out) + [total])))
    return r


def pair(a, b):
    emit((4, a, b, 0), b'')
    LINES.append(str(int(unbalanced(a, b))))


def halves(n):
    """f16 that are finite, both signs, subnormal ones among them."""
    return [random.getrandbits(1) << 15 | random.choice([0, 1, 12, 13, 14, 15, 16, 30]) << 10 | random.getrandbits(10) for _ in range(n)]


def weights():
    while True:
        w = halves(6)
        if not any(unbalanced(w[i], w[i + 1]) for i in (0, 2, 4)):
            return w


def long_filter(modular, lengths=(3, 0, 20)):
    return write_filter(modular, weights(), 3, halves(8), halves(3), halves(4), halves(1)[0], lengths)


def main():
    # nothing sent: not asked for, or all_default; a cursor with a fault stays as it is
    for modular in (0, 1):
        bundle([], 5 + modular, on=0, modular=modular, due=[1] + GABOR + [1, 2] + SHARP + SCALE + SIGMA + [ONE])
        bundle([1], 3, modular=modular, due=[1] + GABOR + [1, 2] + SHARP + SCALE + SIGMA + [ONE])
        bundle([], 8, modular=modular)
        bundle(bits_of(long_filter(modular)[0]), 2, modular=modular, fault=9)

    # every default and custom combination, in both encodings
    place = 0
    for modular in (0, 1):
        for gabor in (None, 'default', 'custom'):
            combos = [(0, 0, 0, 0)] + [(1, a, b, c) for a in ((0, 1), (0,))[modular] for b in (0, 1) for c in (0, 1)]
            for some, a, b, c in combos:
                place += 1
                f, due = write_filter(modular, weights() if gabor == 'custom' else gabor, some * (1 + place % 3), halves(8) if a else None,
                                      halves(3) if b else None, halves(4) if c else None, halves(1)[0], ((), (0,), (7, 1), (2, 300 % 40))[place % 4])
                bundle(bits_of(f), place % 13, modular=modular, due=due)

    # values at the ends of f16, and -0.0
    ends = [0x0000, 0x8000, 0x0001, 0x03FF, 0x0400, 0x7BFF, 0xFBFF, 0x3C00]
    f, due = write_filter(0, [0x8000, 0x0000, 0x7BFF, 0xFBFF, 0x0001, 0x8001], 1, ends, ends[3:6], ends[4:], 0)
    bundle(bits_of(f), 1, due=due)
    f, due = write_filter(1, [0x8000, 0x8000, 0x03FF, 0x83FF, 0x7BFF, 0x7BFF], 2, None, ends[:3], ends[:4], 0x8000)
    bundle(bits_of(f), 1, modular=1, due=due)

    # each f16 refused at its place
    for modular in (0, 1):
        f = long_filter(modular)[0]
        for i, (name, n, x) in enumerate(f):
            if n == 16:
                bad = f[:i] + [(name, 16, random.choice([0x7C00, 0xFC00, 0x7E01, 0x7FFF]))] + f[i + 1:]
                place = i % 8
                r = bundle(bits_of(bad), place, modular=modular)
                assert (r.fault, r.place) == (6, place + len(bits_of(f[:i])))

    # every cut of a long filter: the end falls after each of its bits
    for modular in (0, 1):
        bits = bits_of(long_filter(modular)[0])
        for n in range(len(bits)):
            r = bundle(bits[:n], -n % 8, modular=modular)
            assert r.fault == 4

    # the weights test: P10, P11, both orders, each channel, cut and refused second weights
    pairs = [(0xB400, 0x0000), (0xB400, 0x0001), (0xB400, 0x8001), (0xB400, 0x8000), (0x0000, 0xB400), (0x0001, 0xB400), (0xB000, 0xB000),
             (0x3400, 0xB800), (0xB800, 0x3400), (0xB3FF, 0x8001), (0xB3FF, 0x8000), (0x3400, 0x0000), (0x7BFF, 0xFBFF), (0xB400, 0xB400)]
    for channel in range(3):
        for a, b in pairs:
            w = weights()
            w[2 * channel:2 * channel + 2] = [a, b]
            f = write_filter(0, w, 0, None, None, None, 0)[0]
            r = bundle(bits_of(f), channel)
            assert r.fault == (7 if unbalanced(a, b) else 0) and (r.fault == 0 or r.place == channel + 3 + 32 * channel)
        w[2 * channel:2 * channel + 2] = [0xB400, 0x0000]
        f = write_filter(0, w, 0, None, None, None, 0)[0]
        second = 4 + 2 * channel
        assert bundle(bits_of(f[:second] + [('weight', 16, 0x7C00)] + f[second + 1:]), 1).fault == 6
        cut = bits_of(f)[:3 + 32 * channel + 21]
        assert bundle(cut, -len(cut) % 8).fault == 4
    for a, b in pairs:
        pair(a, b)
    for _ in range(60):
        a = halves(1)[0]
        q = Fraction(-1, 4) - half_value(a)
        pair(a, halves(1)[0])
        if abs(q) < 65504:
            b = struct.unpack('<H', struct.pack('<e', float(q)))[0]
            pair(a, b)
            pair(b, a ^ 1)

    # extensions: cut masks and lengths, a long sum, a mask of all ones
    for fields in ([(0, 2, 3)], [(0, 2, 1), (0, 4, 1), (0, 2, 3), (0, 12, 5)], [(0, 2, 1), (0, 4, 0)] + u64(0, 2 ** 63 + 5), u64(0, 2 ** 64 - 1) + [(0, 2, 0)] * 64,
                   u64(0, 1) + u64(0, 100), u64(0, 2 ** 40) + u64(0, 9) + [(0, 9, 77)]):
        f = write_filter(0, None, 0, None, None, None, 0)[0][:-1] + fields
        bundle(bits_of(f), 4)

    here = pathlib.Path('crates/replay_filter')
    here.mkdir(parents=True, exist_ok=True)
    (here / 'stdin').write_bytes(b''.join(RECORDS))
    (here / 'stdout').write_text('\n'.join(LINES) + '\n')
    print(len(RECORDS), 'records')


main()
