"""The reader of frame headers that tools/vectors/header.py computes what is due with.

Written from the rules ("Bounds", "Refusal numbers", "Bits and numbers", "Header fields", "Filter fields") and the bundles of src/header.rs, going down their
fields in order; nothing is taken from the Rattle code.
"""
import struct

P = 4294967291


class Refuse(Exception):
    pass


# f32 by their patterns. Divisions and decimals are rounded once from 53 bits, which is exact enough for 24.

def f32(x):
    return struct.unpack('<I', struct.pack('<f', x))[0]


def half(h):
    return f32(struct.unpack('<e', struct.pack('<H', h))[0])


def scaled(h):
    """An f16 times 2^24, a whole number."""
    e, m = h >> 10 & 31, h & 1023
    return (-1 if h >> 15 else 1) * (m if e == 0 else (1024 + m) << (e - 1))


GABOR = [f32(0.115169525), f32(0.061248592)] * 3
SHARP = [f32(k / 7) for k in range(8)]
SCALE = [f32(40.0), f32(5.0), f32(3.5)]
SIGMA = [f32(0.46), f32(0.9), f32(6.5), f32(2 / 3)]

UPSAMPLINGS = ((1, 0), (2, 0), (4, 0), (8, 0))
PASSES = ((1, 0), (2, 0), (3, 0), (4, 3))
DOWNSAMPLES = ((0, 0), (1, 0), (2, 0), (3, 1))
LASTS = ((0, 0), (1, 0), (2, 0), (0, 3))
PLACES = ((0, 8), (256, 11), (2304, 14), (18688, 30))
MODES = ((0, 0), (1, 0), (2, 0), (3, 2))
ALPHAS = ((0, 0), (1, 0), (2, 0), (3, 3))
DURATIONS = ((0, 0), (1, 0), (0, 8), (0, 32))
NAMES = ((0, 0), (0, 4), (16, 5), (48, 10))
REGULAR, LF, REFERENCE, SKIP = range(4)


class Facts:
    def __init__(self, width=300, height=100, xyb=0, grey=0, extra=0, animation=0, timecodes=0):
        self.width, self.height, self.xyb, self.grey, self.extra, self.animation, self.timecodes = width, height, xyb, grey, extra, animation, timecodes

    def flags(self):
        return self.xyb + 2 * self.grey + 4 * self.animation + 8 * self.timecodes


# reading

class Reader:
    def __init__(self, data):
        self.data, self.at, self.end = int.from_bytes(data, 'little'), 0, 8 * len(data)

    def take(self, n, start):
        if self.at + n > self.end:
            raise Refuse(4, start)
        x = self.data >> self.at & (1 << n) - 1
        self.at += n
        return x

    def u(self, n):
        return self.take(n, self.at)

    def u32(self, choices):
        start = self.at
        base, n = choices[self.take(2, start)]
        return base + self.take(n, start)

    def u64(self):
        start = self.at
        selector = self.take(2, start)
        if selector == 0:
            return 0
        if selector == 1:
            return 1 + self.take(4, start)
        if selector == 2:
            return 17 + self.take(8, start)
        x, shift = self.take(12, start), 12
        while self.take(1, start):
            if shift == 60:
                return x | self.take(4, start) << 60
            x |= self.take(8, start) << shift
            shift += 8
        return x

    def f16(self):
        start = self.at
        h = self.u(16)
        if h >> 10 & 31 == 31:
            raise Refuse(6, start)
        return h

    def mode(self):
        start = self.at
        m = self.u32(MODES)
        if m > 4:
            raise Refuse(5, start)
        return m

    def extensions(self):
        mask = self.u64()
        total = sum(self.u64() for i in range(64) if mask >> i & 1)
        self.take(total, self.at)


def unpacked(n):
    return n // 2 if n % 2 == 0 else -(n + 1) // 2


def full_image(f, h):
    if h['x0'] > 0 or h['y0'] > 0:
        return False
    return h['x0'] + h['width'] >= f.width and h['y0'] + h['height'] >= f.height


def resets(mode, f, h):
    return mode == 0 and (not h['have_crop'] or full_image(f, h))


def read_blending(r, f, h, decider):
    b = dict(mode=r.mode(), alpha=0, clamp=0, source=0)
    if f.extra and b['mode'] in (2, 3):
        b['alpha'] = r.u32(ALPHAS)
    if (f.extra and b['mode'] in (2, 3)) or b['mode'] == 4:
        b['clamp'] = r.u(1)
    if not resets(b['mode'] if decider is None else decider, f, h):
        b['source'] = r.u(2)
    return b


def read_filter(r, modular):
    """Gabor's flag, the edge filter's, iterations, then 6 + 8 + 3 + 4 + 1 patterns."""
    gabor, weights, iters = 1, GABOR, 2
    sharp, scale, sigma, own = SHARP, SCALE, SIGMA, f32(1.0)
    if r.u(1):
        return [gabor, 1, iters] + weights + sharp + scale + sigma + [own]
    gabor = r.u(1)
    if gabor and r.u(1):
        weights = []
        for channel in range(3):
            start = r.at
            a, b = r.f16(), r.f16()
            if scaled(a) + scaled(b) == -4194304:
                raise Refuse(7, start)
            weights = weights + [half(a), half(b)]
    iters = r.u(2)
    if iters:
        if not modular and r.u(1):
            sharp = [half(r.f16()) for _ in range(8)]
        if r.u(1):
            scale = [half(r.f16()) for _ in range(3)]
            r.u(32)
        if r.u(1):
            first = SIGMA[0] if modular else half(r.f16())
            sigma = [first] + [half(r.f16()) for _ in range(3)]
        if modular:
            own = half(r.f16())
    r.extensions()
    return [gabor, int(iters > 0), iters] + (weights if gabor else [0] * 6) + (sharp + scale + sigma + [own] if iters else [0] * 16)


def read_header(data, f):
    """The record, and what goes into the lent buffers."""
    r = Reader(data)
    all_default = r.u(1)
    sent = not all_default
    h = {}
    h['frame_type'] = r.u(2) if sent else REGULAR
    h['encoding'] = r.u(1) if sent else 0
    h['flags'] = r.u64() if sent else 0
    h['do_ycbcr'] = r.u(1) if sent and not f.xyb else 0
    grey = h['encoding'] == 1 and not h['do_ycbcr'] and not f.xyb and f.grey
    h['encoded_color_channels'] = 1 if grey else 3
    use_lf = h['flags'] & 0x20
    h['jpeg_upsampling'] = [r.u(2) for _ in range(3)] if h['do_ycbcr'] and not use_lf else [0, 0, 0]
    h['upsampling'] = r.u32(UPSAMPLINGS) if sent and not use_lf else 1
    h['ec_upsampling'] = [r.u32(UPSAMPLINGS) if sent and not use_lf else 1 for _ in range(f.extra)]
    h['group_size_shift'] = r.u(2) if h['encoding'] == 1 else 1
    scales = f.xyb and h['encoding'] == 0
    h['x_qm_scale'] = r.u(3) if sent and scales else 3 if scales else 2
    h['b_qm_scale'] = r.u(3) if sent and scales else 2
    n, ds, shift, downsample, last = 1, 0, [], [], []
    if sent and h['frame_type'] != REFERENCE:
        n = r.u32(PASSES)
        if n != 1:
            ds = r.u32(DOWNSAMPLES)
            shift = [r.u(2) for _ in range(n - 1)]
            downsample = [r.u32(UPSAMPLINGS) for _ in range(ds)]
            last = [r.u32(LASTS) for _ in range(ds)]
    h['passes'] = [n, ds] + shift + [0] * (10 - len(shift)) + downsample + [0] * (4 - ds) + last + [0] * (4 - ds)
    h['lf_level'] = 1 + r.u(2) if h['frame_type'] == LF else 0
    h['have_crop'] = r.u(1) if sent and h['frame_type'] != LF else 0
    placed = h['have_crop'] and h['frame_type'] != REFERENCE
    h['x0'] = unpacked(r.u32(PLACES)) if placed else 0
    h['y0'] = unpacked(r.u32(PLACES)) if placed else 0
    h['width'] = r.u32(PLACES) if h['have_crop'] else f.width
    h['height'] = r.u32(PLACES) if h['have_crop'] else f.height
    normal = h['frame_type'] in (REGULAR, SKIP)
    none = dict(mode=0, alpha=0, clamp=0, source=0)
    h['blending'] = read_blending(r, f, h, None) if sent and normal else none
    h['ec_blending'] = [read_blending(r, f, h, h['blending']['mode']) if sent and normal else none for _ in range(f.extra)]
    h['duration'] = r.u32(DURATIONS) if sent and normal and f.animation else 0
    h['timecode'] = r.u(32) if sent and normal and f.animation and f.timecodes else 0
    h['is_last'] = r.u(1) if sent and normal else int(h['frame_type'] == REGULAR)
    h['save_as_reference'] = r.u(2) if sent and h['frame_type'] != LF and not h['is_last'] else 0
    h['resets_canvas'] = int(resets(h['blending']['mode'], f, h))
    h['can_reference'] = int(not h['is_last'] and (h['duration'] == 0 or h['save_as_reference'] != 0) and h['frame_type'] != LF)
    asked = h['frame_type'] == REFERENCE or (h['resets_canvas'] and h['can_reference'])
    h['save_before_ct'] = r.u(1) if sent and asked else int(not normal)
    h['name'] = [r.u(8) for _ in range(r.u32(NAMES))] if sent else []
    h['filter'] = read_filter(r, h['encoding'] == 1) if sent else [1, 1, 2] + GABOR + SHARP + SCALE + SIGMA + [f32(1.0)]
    if sent:
        r.extensions()
    h['is_keyframe'] = int(normal and (h['is_last'] == 1 or h['duration'] != 0))
    return h, r.at


def flag_numbers(flags):
    return [flags] + [int(flags & bit != 0) for bit in (0x1, 0x2, 0x10, 0x20, 0x80)]


def signed(z):
    return [0, z] if z >= 0 else [1, -1 - z]


def numbers(h):
    """The printed numbers, and the patterns that are in the sum alone."""
    b = h['blending']
    out = [h['frame_type'], h['encoding']] + flag_numbers(h['flags']) + [h['do_ycbcr'], h['encoded_color_channels']] + h['jpeg_upsampling']
    out += [h['upsampling'], h['group_size_shift'], h['x_qm_scale'], h['b_qm_scale']] + h['passes']
    out += [h['lf_level'], h['have_crop']] + signed(h['x0']) + signed(h['y0']) + [h['width'], h['height']]
    out += [b['mode'], b['alpha'], b['clamp'], b['source'], h['duration'], h['timecode'], h['is_last'], h['save_as_reference']]
    out += [h['resets_canvas'], h['save_before_ct'], len(h['name']), h['is_keyframe'], h['can_reference'], h['encoded_color_channels'], h['resets_canvas']]
    out += [h['width'], h['height'], h['upsampling'], h['lf_level'], h['group_size_shift'], h['passes'][0]]
    return out + h['filter'][:3], h['filter'][3:]


# Beside a refusal all is 0; of a record of zeros, `can_reference` is true.
ZERO_BLENDING = dict(mode=0, alpha=0, clamp=0, source=0)
ZERO = dict(frame_type=0, encoding=0, flags=0, do_ycbcr=0, encoded_color_channels=0, jpeg_upsampling=[0] * 3, upsampling=0, group_size_shift=0, x_qm_scale=0,
            b_qm_scale=0, passes=[0] * 20, lf_level=0, have_crop=0, x0=0, y0=0, width=0, height=0, blending=ZERO_BLENDING, duration=0, timecode=0, is_last=0,
            save_as_reference=0, resets_canvas=0, save_before_ct=0, name=[], filter=[0] * 25, is_keyframe=0, can_reference=1, ec_upsampling=[], ec_blending=[])


def mixed(xs):
    total = 0
    for x in xs:
        total = total % P * 1000003 + x % P
    return total


def answer(f, lent, data):
    """(refusal, place, end, record)"""
    if len(data) > 16777216:
        return 2, 0, 0, ZERO
    if not (1 <= f.width <= 1073741824 and 1 <= f.height <= 1073741824 and f.extra <= 256):
        return 1, 0, 0, ZERO
    if lent[0] < 1071 or lent[1] < f.extra or lent[2] < 4 * f.extra:
        return 3, 0, 0, ZERO
    try:
        h, end = read_header(data, f)
        return 0, 0, end, h
    except Refuse as e:
        return e.args[0], e.args[1], 0, ZERO
