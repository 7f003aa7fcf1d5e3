#!/usr/bin/env python3
"""Takes the first frame out of a .jxl file, for the listing program.

    tools/jxl_frame.py FILE.jxl > input          the facts line, then the frame's bytes (32,768 of them, or all there are)
    tools/jxl_frame.py --all FILE.jxl > input    the same with every byte up to the end of the codestream
    tools/jxl_frame.py --list FILE.jxl           hands that to the listing program (crates/list/out/list) and shows what it writes
    tools/jxl_frame.py --facts FILE.jxl          the facts, and where the frame begins, in words

FILE is a bare codestream or a container, as encoders write them. This script is a convenience written from ISO/IEC 18181-1. It isn't
proved, and nothing that is proved depends on it. What it can't take it refuses with a message and exit status 1: a preview frame
(another frame stands before the first one) and a codestream that ends too soon. An ICC profile is passed over by decoding it.
"""
import dataclasses
import pathlib
import subprocess
import sys

sys.dont_write_bytecode = True
from jxl_entropy import Refused, icc_profile

USED = 32768                      # as many bytes of a frame as the listing program uses
LISTING = pathlib.Path(__file__).resolve().parent.parent / 'crates/list/out/list'


@dataclasses.dataclass
class Image:
    width: int
    height: int
    xyb: bool
    grey: bool
    extra: int
    animation: bool
    timecodes: bool
    frame: int                    # the byte of the codestream at which the first frame begins
    icc: int                      # how many bytes of an encoded ICC profile were passed over

    def line(self):
        numbers = [self.width, self.height, self.xyb, self.grey, self.extra, self.animation, self.timecodes]
        return ('\t'.join(str(int(n)) for n in numbers) + '\n').encode()


# ---- the file

def codestream(data):
    """The codestream of a file: the file itself, or the boxes of a container that hold it, one after the other."""
    if data[:2] == b'\xff\x0a':
        return data
    if data[:12] != b'\0\0\0\x0cJXL \r\n\x87\n':
        raise Refused('this is neither a JPEG XL codestream nor a container of one')
    parts, at = [], 0
    while at < len(data):
        length, kind = int.from_bytes(data[at:at + 4], 'big'), data[at + 4:at + 8]
        head = 8
        if length == 1:
            length, head = int.from_bytes(data[at + 8:at + 16], 'big'), 16
        end = len(data) if length == 0 else at + length
        if end < at + head or end > len(data):
            raise Refused(f'the container is cut: a box at byte {at} goes to byte {end}, the file to {len(data)}')
        if kind == b'jxlc':
            parts.append(data[at + head:end])
        elif kind == b'jxlp':                          # a number of the part, then the part
            parts.append(data[at + head + 4:end])
        at = end
    found = b''.join(parts)
    if found[:2] != b'\xff\x0a':
        raise Refused('the container has no codestream')
    return found


# ---- bits and numbers

class Bits:
    def __init__(self, data, at=0):
        self.data, self.at = data, at

    def u(self, n):
        if self.at + n > 8 * len(self.data):
            raise Refused('the codestream ends before the first frame')
        first, last = self.at // 8, (self.at + n + 7) // 8
        value = int.from_bytes(self.data[first:last], 'little') >> self.at % 8 & (1 << n) - 1
        self.at += n
        return value

    def flag(self):
        return self.u(1) == 1

    def u32(self, *choices):
        """Each choice is a number, or a pair of a number and how many bits are added to it."""
        choice = choices[self.u(2)]
        base, n = choice if isinstance(choice, tuple) else (choice, 0)
        return base + self.u(n)

    def u64(self):
        selector = self.u(2)
        if selector < 3:
            return [lambda: 0, lambda: 1 + self.u(4), lambda: 17 + self.u(8)][selector]()
        value, shift = self.u(12), 12
        while self.flag():
            if shift == 60:
                return value | self.u(4) << 60
            value |= self.u(8) << shift
            shift += 8
        return value

    def enum(self):
        return self.u32(0, 1, (2, 4), (18, 6))

    def f16(self, n=1):
        self.u(16 * n)

    def pad(self):
        if self.u(-self.at % 8):
            raise Refused('a padding bit before the first frame is 1')


# ---- the bundles before the first frame, field by field

def ratio(height, which):
    up, down = [(1, 1), (12, 10), (4, 3), (3, 2), (16, 9), (5, 4), (2, 1)][which - 1]
    return height * up // down


def size(b):
    """SizeHeader: width and height."""
    sizes = ((1, 9), (1, 13), (1, 18), (1, 30))
    small = b.flag()

    def side():
        return 8 * (1 + b.u(5)) if small else b.u32(*sizes)
    height = side()
    which = b.u(3)
    return (ratio(height, which) if which else side()), height


def animation(b):
    """AnimationHeader: whether frames have timecodes."""
    b.u32(100, 1000, (1, 10), (1, 30))
    b.u32(1, 1001, (1, 8), (1, 10))
    b.u32(0, (0, 3), (0, 16), (0, 32))
    return b.flag()


def bit_depth(b):
    if b.flag():
        b.u32(32, 16, 24, (1, 6))
        b.u(4)
    else:
        b.u32(8, 10, 12, (1, 6))


def extra_channel(b):
    if b.flag():
        return
    kind = b.enum()
    bit_depth(b)
    b.u32(0, 3, 4, (1, 3))
    b.u(8 * b.u32(0, (0, 4), (16, 5), (48, 10)))
    if kind == 0:                                      # alpha
        b.flag()
    elif kind == 2:                                    # a spot colour
        b.f16(4)
    elif kind == 5:                                    # a colour filter array
        b.u32(1, (0, 2), (3, 4), (19, 8))


def colour_encoding(b):
    """Whether an ICC profile follows, and whether the colour space is grey."""
    if b.flag():
        return False, False
    icc = b.flag()
    space = b.enum()
    grey, xyb = space == 1, space == 2
    if icc:
        return True, grey

    def xy():
        for _ in range(2):
            b.u32((0, 19), (524288, 19), (1048576, 20), (2097152, 21))
    if not xyb and b.enum() == 2:                      # the white point
        xy()
    if not xyb and not grey and b.enum() == 2:         # the primaries
        for _ in range(3):
            xy()
    if not xyb:                                        # the transfer function
        if b.flag():
            b.u(24)
        else:
            b.enum()
    b.enum()
    return False, grey


def tone_mapping(b):
    if not b.flag():
        b.f16(2)
        b.flag()
        b.f16()


def extensions(b):
    lengths = [b.u64() for _ in range(b.u64().bit_count())]
    b.u(sum(lengths))


def transforms(b, xyb):
    """default_m, and where it is 0 the opsin matrix and the upsampling weights."""
    if b.flag():
        return
    if xyb and not b.flag():
        b.f16(16)
    mask = b.u(3)
    for k, weights in enumerate((15, 55, 210)):
        if mask >> k & 1:
            b.f16(weights)


def image(data):
    """Everything before the first frame of a codestream."""
    b = Bits(data, 16)
    width, height = size(b)
    moving, timecodes, extra, xyb, icc, grey = False, False, 0, True, False, False
    if not b.flag():
        more = b.flag()
        if more:
            b.u(3)                                     # the orientation
            if b.flag():
                size(b)
            if b.flag():
                raise Refused('the file has a preview: its frame stands before the first one')
            moving = b.flag()
            timecodes = moving and animation(b)
        bit_depth(b)
        b.flag()
        extra = b.u32(0, 1, (2, 4), (1, 12))
        for _ in range(extra):
            extra_channel(b)
        xyb = b.flag()
        icc, grey = colour_encoding(b)
        if more:
            tone_mapping(b)
        extensions(b)
    transforms(b, xyb)
    passed = 0
    if icc:
        passed = len(icc_profile(b))
    b.pad()
    return Image(width, height, xyb, grey, extra, moving, timecodes, b.at // 8, passed)


def load(path):
    """The codestream of a file, and what stands before its first frame."""
    data = codestream(pathlib.Path(path).read_bytes())
    return data, image(data)


def main(words):
    flags, files = [w for w in words if w.startswith('--')], [w for w in words if not w.startswith('--')]
    if len(files) != 1 or len(flags) > 1 or not set(flags) <= {'--all', '--list', '--facts'}:
        raise Refused(__doc__)
    data, found = load(files[0])
    if flags == ['--facts']:
        print(found)
        return
    frame = data[found.frame:]
    out = found.line() + (frame if flags == ['--all'] else frame[:USED])
    if flags != ['--list']:
        sys.stdout.buffer.write(out)
    elif not LISTING.exists():
        raise Refused('crates/list/out/list is not there: `rt run` in crates/list makes it')
    else:
        sys.exit(subprocess.run([LISTING], input=out).returncode)


if __name__ == '__main__':
    try:
        main(sys.argv[1:])
    except (Refused, OSError) as e:
        sys.exit(f'{e}')
