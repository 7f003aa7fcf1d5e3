"""The entropy coding of ISO/IEC 18181-1 (annex C), as far as frames before their pixels need it: the order of sections in a table of
contents, and an ICC profile that stands before the first frame. A convenience, not proved, and read by no proved code: the proved
reader is handed the order that comes out of here.

`Bits` of jxl_frame.py is what it reads from.
"""


class Refused(Exception):
    """What can't be taken, or isn't allowed by the standard."""


def ceil_log2(n):
    """The least k with 2^k >= n."""
    return (n - 1).bit_length()


# ---- numbers out of tokens

class Config:
    """How a token and the bits after it make a number."""

    def __init__(self, split, msb, lsb):
        self.split, self.msb, self.lsb = split, msb, lsb

    @staticmethod
    def read(b, log_alphabet):
        split = b.u(ceil_log2(log_alphabet + 1))
        if split == log_alphabet:
            return Config(split, 0, 0)
        msb = b.u(ceil_log2(split + 1))
        if msb > split:
            raise Refused('an integer configuration is out of bounds')
        lsb = b.u(ceil_log2(split - msb + 1))
        if msb + lsb > split:
            raise Refused('an integer configuration is out of bounds')
        return Config(split, msb, lsb)

    def number(self, b, token):
        if token < 1 << self.split:
            return token
        kept = self.msb + self.lsb
        n = self.split - kept + ((token - (1 << self.split)) >> kept)
        low = token & (1 << self.lsb) - 1
        high = token >> self.lsb & (1 << self.msb) - 1 | 1 << self.msb
        return (high << n | b.u(n)) << self.lsb | low


# ---- prefix codes, as in RFC 7932

class Prefix:
    def __init__(self, lengths):
        """Canonical codes of symbols with these lengths; one symbol alone takes no bits."""
        used = [s for s, n in enumerate(lengths) if n]
        self.single = used[0] if len(used) == 1 else 0 if not used else None
        self.codes, code = {}, 0
        for n in range(1, 16):
            for s in used:
                if lengths[s] == n:
                    self.codes[n, code] = s
                    code += 1
            code <<= 1

    def symbol(self, b):
        if self.single is not None:
            return self.single
        code = 0
        for n in range(1, 16):
            code = code << 1 | b.u(1)
            if (n, code) in self.codes:
                return self.codes[n, code]
        raise Refused('bits that no prefix code has')

    @staticmethod
    def read(b, size):
        if size == 1:
            return Prefix([1])
        skip = b.u(2)
        return Prefix(simple_lengths(b, size) if skip == 1 else complex_lengths(b, size, skip))


def simple_lengths(b, size):
    count = b.u(2) + 1
    symbols = [b.u(ceil_log2(size)) for _ in range(count)]
    depths = {1: [1], 2: [1, 1], 3: [1, 2, 2]}.get(count) or ([1, 2, 3, 3] if b.u(1) else [2, 2, 2, 2])
    if max(symbols) >= size or len(set(symbols)) < count:
        raise Refused('a simple prefix code names a symbol twice or one that is not there')
    lengths = [0] * size
    for s, n in zip(symbols, depths):
        lengths[s] = n
    return lengths


def length_code(b):
    """One length of a code for lengths: 00 is 0, 10 is 3, 01 is 4, 011 is 2, 0111 is 1, 1111 is 5, read from the right."""
    two = b.u(2)
    if two < 3:
        return {0: 0, 1: 4, 2: 3}[two]
    if not b.u(1):
        return 2
    return 5 if b.u(1) else 1


def complex_lengths(b, size, skip):
    order = [1, 2, 3, 4, 0, 5, 17, 6, 16, 7, 8, 9, 10, 11, 12, 13, 14, 15]
    depths, space = [0] * 18, 32
    for s in order[skip:]:
        if space <= 0:
            break
        depths[s] = length_code(b)
        space -= 32 >> depths[s] if depths[s] else 0
    code = Prefix(depths)
    lengths, space, before, repeat, repeated = [], 32768, 8, 0, None
    while len(lengths) < size and space > 0:
        s = code.symbol(b)
        if s < 16:
            lengths.append(s)
            repeat = 0
            if s:
                before = s
                space -= 32768 >> s
            continue
        extra, value = (2, before) if s == 16 else (3, 0)
        if repeated != value:
            repeat, repeated = 0, value
        old = repeat
        repeat = (repeat - 2 << extra if repeat else 0) + b.u(extra) + 3
        more = repeat - old
        lengths += [value] * more
        if value:
            space -= more * (32768 >> value)
    if len(lengths) > size or space < 0:
        raise Refused('lengths of a prefix code that do not fit')
    return lengths + [0] * (size - len(lengths))


# ---- ANS distributions

def u8(b):
    if not b.u(1):
        return 0
    n = b.u(3)
    return b.u(n) + (1 << n)


LOGS = {(3, 0): 10, (3, 2): 7, (3, 4): 6, (3, 5): 8, (3, 6): 9, (4, 3): 3, (4, 7): 5, (4, 9): 4, (4, 11): 1, (4, 15): 2, (5, 17): 0, (6, 33): 11,
        (7, 1): 12, (7, 65): 13}


def log_count(b):
    value = b.u(3)
    for n in range(3, 8):
        if (n, value) in LOGS:
            return LOGS[n, value]
        value |= b.u(1) << n
    raise Refused('a count that has no code')


def distribution(b):
    """How often each symbol comes, of 4,096."""
    if b.u(1):
        if b.u(1):
            first, second = u8(b), u8(b)
            d = [0] * (max(first, second) + 1)
            d[first] = b.u(12)
            d[second] = 4096 - d[first]
        else:
            first = u8(b)
            d = [0] * first + [4096]
        return d
    if b.u(1):
        size = u8(b) + 1
        return [4096 // size + (i < 4096 % size) for i in range(size)]
    return counted(b)


def counted(b):
    n = 0
    while n < 3 and b.u(1):
        n += 1
    shift = b.u(n) + (1 << n) - 1
    size = u8(b) + 3
    logs, same = [0] * size, [0] * size
    i, omitted = 0, -1
    while i < size:
        logs[i] = log_count(b)
        if logs[i] == 13:
            same[i] = u8(b) + 5
            i += same[i] - 2
        elif omitted < 0 or logs[i] > logs[omitted]:
            omitted = i
            i += 1
            continue
        i += 1
    d, left, before = [0] * size, 0, 0
    for i in range(size):
        if same[i]:
            left, before = same[i] - 1, d[i - 1] if i else 0
        if left:
            d[i] = before
            left -= 1
        elif i != omitted and logs[i] == 1:
            d[i] = 1
        elif i != omitted and logs[i] > 1:
            n = min(max(0, shift - ((12 - logs[i] + 1) >> 1)), logs[i] - 1)
            d[i] = (1 << logs[i] - 1) + (b.u(n) << logs[i] - 1 - n)
    d[omitted] = 4096 - sum(d)
    return d


class Alias:
    """From the low twelve bits of a state to a symbol and an offset."""

    def __init__(self, d, log_alphabet):
        size = 1 << log_alphabet
        self.d = d = d + [0] * (size - len(d))
        self.log = 12 - log_alphabet
        bucket = 1 << self.log
        if 4096 in d:
            self.cut, self.symbols, self.offsets = [0] * size, [d.index(4096)] * size, [bucket * i for i in range(size)]
            return
        self.cut, self.symbols, self.offsets = list(d), list(range(size)), [0] * size
        over, under = [i for i in range(size) if d[i] > bucket], [i for i in range(size) if d[i] < bucket]
        while over:
            o, u = over.pop(), under.pop()
            self.cut[o] -= bucket - self.cut[u]
            self.symbols[u], self.offsets[u] = o, self.cut[o]
            if self.cut[o] < bucket:
                under.append(o)
            elif self.cut[o] > bucket:
                over.append(o)
        for i in range(size):
            if self.cut[i] == bucket:
                self.symbols[i], self.offsets[i], self.cut[i] = i, 0, 0
            else:
                self.offsets[i] -= self.cut[i]

    def look(self, x):
        i, at = x >> self.log, x & (1 << self.log) - 1
        if at >= self.cut[i]:
            return self.symbols[i], self.offsets[i] + at
        return i, at


# ---- a whole stream of numbers

class Decoder:
    def __init__(self, b, contexts, may_copy=True):
        self.b, self.window, self.copies, self.source = b, [], 0, 0
        self.copying = may_copy and b.u(1) == 1
        if not may_copy and b.u(1):
            raise Refused('a copy where none may be')
        if self.copying:
            self.least = b.u32(224, 512, 4096, (8, 15))
            self.shortest = b.u32(3, 4, (5, 2), (9, 8))
            self.lengths = Config.read(b, 8)
            contexts += 1
        self.clusters = clusters(b, contexts)
        many = max(self.clusters) + 1
        self.prefix = b.u(1) == 1
        log_alphabet = 15 if self.prefix else 5 + b.u(2)
        self.configs = [Config.read(b, log_alphabet) for _ in range(many)]
        if self.prefix:
            sizes = [self.size() for _ in range(many)]
            self.codes = [Prefix.read(b, n) for n in sizes]
        else:
            self.codes = [Alias(distribution(b), log_alphabet) for _ in range(many)]
        self.state = None

    def size(self):
        if not self.b.u(1):
            return 1
        n = self.b.u(4)
        return 1 + (1 << n) + self.b.u(n)

    def begin(self):
        if not self.prefix:
            self.state = self.b.u(32)
        return self

    def symbol(self, cluster):
        code = self.codes[cluster]
        if self.prefix:
            return code.symbol(self.b)
        s, offset = code.look(self.state & 4095)
        self.state = code.d[s] * (self.state >> 12) + offset
        if self.state < 1 << 16:
            self.state = self.state << 16 | self.b.u(16)
        return s

    def number(self, context):
        if not self.copies:
            cluster = self.clusters[context]
            token = self.symbol(cluster)
            if not self.copying or token < self.least:
                self.window.append(self.configs[cluster].number(self.b, token))
                return self.window[-1]
            self.copies = self.lengths.number(self.b, token - self.least) + self.shortest
            far = self.clusters[-1]
            distance = self.configs[far].number(self.b, self.symbol(far)) + 1
            self.source = len(self.window) - min(distance, len(self.window), 1 << 20)
        self.copies -= 1
        self.window.append(self.window[self.source] if self.window else 0)
        self.source += 1
        return self.window[-1]

    def end(self):
        if not self.prefix and self.state != 0x130000:
            raise Refused('a coded stream does not end as it should')


def clusters(b, contexts):
    """Which distribution each context has."""
    if contexts == 1:
        return [0]
    if b.u(1):
        n = b.u(2)
        return [b.u(n) for _ in range(contexts)]
    moving = b.u(1)
    d = Decoder(b, 1, contexts > 2).begin()
    found = [d.number(0) for _ in range(contexts)]
    d.end()
    if moving:
        front = list(range(256))
        for i, n in enumerate(found):
            found[i] = front.pop(n)
            front.insert(0, found[i])
    return found


# ---- what is read with it

def context(n):
    return min(7, ceil_log2(n + 1))


def section_order(b, count):
    """The order of a table of contents from after its flag on: order[section] = sent number."""
    d = Decoder(b, 8).begin()
    many = d.number(context(count))
    if many > count:
        raise Refused('an order of more sections than there are')
    skips, before = [0] * count, 0
    for i in range(many):
        before = skips[i] = d.number(context(before))
        if before >= count - i:
            raise Refused('a skip count past the unused numbers')
    d.end()
    left = list(range(count))
    return [left.pop(n) for n in skips]


def icc_profile(b):
    """The bytes of an encoded ICC profile; they are passed over, not made into a profile."""
    size = b.u64()
    d = Decoder(b, 41).begin()
    out = [0, 0]
    for i in range(size):
        out.append(d.number(icc_context(i, out[-1], out[-2])))
    d.end()
    return bytes(out[2:])


def icc_context(i, one, two):
    if i <= 128:
        return 0

    def plain(n):
        c = chr(n)
        return 0 if c.isascii() and c.isalpha() else 1 if c.isascii() and (c.isdigit() or c in '.,') else None
    first, second = plain(one), plain(two)
    if first is None:
        first = 2 + one if one <= 1 else 4 if one < 16 else 5 if 240 < one < 255 else 6 if one == 255 else 7
    if second is None:
        second = 2 if two < 16 else 3 if two > 240 else 4
    return 1 + first + 8 * second
