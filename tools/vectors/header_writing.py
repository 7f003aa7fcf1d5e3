"""The writer of frame headers that tools/vectors/header.py makes its inputs with: chosen values, and what isn't chosen at random."""
import random

from header_reading import (ALPHAS, DOWNSAMPLES, DURATIONS, GABOR, LASTS, LF, MODES, NAMES, PASSES, PLACES, REFERENCE, REGULAR, SCALE, SHARP, SIGMA, SKIP,
                            UPSAMPLINGS, ZERO_BLENDING, f32, full_image, half, scaled)


class Writer:
    def __init__(self):
        self.bits, self.fields = [], []

    def raw(self, n, x):
        assert 0 <= x < 1 << n
        self.bits += [x >> i & 1 for i in range(n)]

    def begin(self, name):
        self.fields.append((name, len(self.bits)))

    def u(self, name, n, x):
        self.begin(name)
        self.raw(n, x)
        return x

    def u32(self, name, choices, x):
        """By one of the selectors that can say it."""
        self.begin(name)
        able = [k for k, (base, n) in enumerate(choices) if base <= x < base + (1 << n)]
        k = random.choice(able)
        self.raw(2, k)
        self.raw(choices[k][1], x - choices[k][0])
        return x

    def u64(self, name, x, chunks=None):
        """In the shortest way, or by selector 3 with so many chunks after the first twelve bits."""
        self.begin(name)
        if chunks is None:
            if x == 0:
                self.raw(2, 0)
                return x
            if x <= 16:
                self.raw(2, 1)
                self.raw(4, x - 1)
                return x
            if x <= 272:
                self.raw(2, 2)
                self.raw(8, x - 17)
                return x
            chunks = max(0, -(-(x.bit_length() - 12) // 8))
        self.raw(2, 3)
        self.raw(12, x & 4095)
        for i in range(chunks):
            self.raw(1, 1)
            self.raw(4 if i == 6 else 8, x >> 12 + 8 * i & (15 if i == 6 else 255))
        if chunks < 7:
            self.raw(1, 0)
        return x

    def extensions(self, lengths):
        self.u64('mask', sum(1 << i for i in lengths))
        for i in sorted(lengths):
            self.u64('length', lengths[i])
        self.begin('skipped')
        for _ in range(sum(lengths.values())):
            self.raw(1, random.getrandbits(1))

    def bytes(self):
        bits = self.bits + [random.getrandbits(1) for _ in range(-len(self.bits) % 8)]
        return bytes(sum(bits[i + j] << j for j in range(8)) for i in range(0, len(bits), 8))

    def cut_at(self, n):
        """Where the field begins that the first n bits do not hold whole."""
        ends = [at for _, at in self.fields[1:]] + [len(self.bits)]
        return next(at for (_, at), end in zip(self.fields, ends) if end > n)

    def place(self, name, k=0):
        return [at for n, at in self.fields if n == name][k]


def some_place():
    base, n = random.choice(PLACES)
    return base + random.getrandbits(n)


def some_half():
    return random.getrandbits(1) << 15 | random.choice([0, 1, 12, 14, 15, 16, 30]) << 10 | random.getrandbits(10)


def some_weights():
    while True:
        w = [some_half() for _ in range(6)]
        if all(scaled(w[i]) + scaled(w[i + 1]) != -4194304 for i in (0, 2, 4)):
            return w


def write_blending(w, f, name, mode, deciding, h, want):
    b = dict(ZERO_BLENDING, mode=mode)
    w.u32(name, MODES, mode)
    if mode > 4:
        return b
    if f.extra and mode in (2, 3):
        b['alpha'] = w.u32(name + '.alpha', ALPHAS, want.get(name + '.alpha', random.randrange(11)))
    if f.extra and mode in (2, 3) or mode == 4:
        b['clamp'] = w.u(name + '.clamp', 1, random.getrandbits(1))
    if deciding != 0 or (h['have_crop'] and not full_image(f, h)):
        b['source'] = w.u(name + '.source', 2, want.get(name + '.source', random.getrandbits(2)))
    return b


def write_filter(w, modular, want):
    kind = want.get('filter', random.choice(['default', 'plain', 'custom', 'some']))
    own, weights, iters = f32(1.0), GABOR, 2
    sharp, scale, sigma = SHARP, SCALE, SIGMA
    if w.u('filter', 1, int(kind == 'default')):
        return [1, 1, 2] + weights + sharp + scale + sigma + [own]
    coin = {'plain': lambda: 0, 'custom': lambda: 1, 'some': lambda: random.getrandbits(1)}[kind]

    def halves(name, n):
        hs = want.get(name) or [some_half() for _ in range(n)]
        return [half(w.u(name, 16, x)) for x in hs]

    gabor = w.u('gab', 1, coin())
    if gabor and w.u('gab_custom', 1, coin()):
        weights = [half(w.u('weight', 16, x)) for x in want.get('weights') or some_weights()]
    iters = w.u('iters', 2, coin() and random.randrange(1, 4))
    if iters:
        if not modular and w.u('sharp_custom', 1, coin()):
            sharp = halves('sharp', 8)
        if w.u('scale_custom', 1, coin()):
            scale = halves('scale', 3)
            w.u('ignored', 32, random.getrandbits(32))
        if w.u('sigma_custom', 1, coin()):
            sigma = halves('sigma', 3 if modular else 4)
            sigma = SIGMA[:1] + sigma if modular else sigma
        if modular:
            own = halves('own', 1)[0]
    w.extensions(want.get('filter_lengths', {} if coin() == 0 else {3: random.randrange(40)}))
    return [gabor, int(iters > 0), iters] + (weights if gabor else [0] * 6) + (sharp + scale + sigma + [own] if iters else [0] * 16)


def make(f, **want):
    """A header of chosen values; what isn't chosen is taken at random. Gives the writer and the record that is due."""
    def choose(name, draw):
        return want[name] if name in want else draw()

    w, h = Writer(), {}
    w.u('all_default', 1, 0)
    kind = h['frame_type'] = w.u('frame_type', 2, choose('frame_type', lambda: random.randrange(4)))
    modular = h['encoding'] = w.u('encoding', 1, choose('encoding', lambda: random.getrandbits(1)))
    h['flags'] = w.u64('flags', choose('flags', lambda: random.choice([0, 1, 16, 32, 128, 131, random.getrandbits(8), random.getrandbits(64)])), want.get('chunks'))
    h['do_ycbcr'] = 0 if f.xyb else w.u('do_ycbcr', 1, choose('do_ycbcr', lambda: random.getrandbits(1)))
    h['encoded_color_channels'] = 1 if modular and f.grey and not f.xyb and not h['do_ycbcr'] else 3
    lf_frame = h['flags'] >> 5 & 1
    h['jpeg_upsampling'], h['upsampling'], h['ec_upsampling'] = [0] * 3, 1, [1] * f.extra
    if not lf_frame:
        if h['do_ycbcr']:
            h['jpeg_upsampling'] = [w.u('jpeg', 2, x) for x in choose('jpeg', lambda: [random.getrandbits(2) for _ in range(3)])]
        h['upsampling'] = w.u32('upsampling', UPSAMPLINGS, choose('upsampling', lambda: random.choice([1, 2, 4, 8])))
        h['ec_upsampling'] = [w.u32('ec_upsampling', UPSAMPLINGS, random.choice([1, 2, 4, 8])) for _ in range(f.extra)]
    h['group_size_shift'] = w.u('group_size_shift', 2, choose('group_size_shift', lambda: random.getrandbits(2))) if modular else 1
    h['x_qm_scale'] = h['b_qm_scale'] = 2
    if f.xyb and not modular:
        h['x_qm_scale'] = w.u('x_qm_scale', 3, random.getrandbits(3))
        h['b_qm_scale'] = w.u('b_qm_scale', 3, random.getrandbits(3))
    n, ds, shift, downsample, last = 1, 0, [], [], []
    if kind != REFERENCE:
        n = w.u32('num_passes', PASSES, choose('num_passes', lambda: random.randrange(1, 12)))
        if n > 1:
            ds = w.u32('num_ds', DOWNSAMPLES, choose('num_ds', lambda: random.randrange(5)))
            shift = [w.u('shift', 2, random.getrandbits(2)) for _ in range(n - 1)]
            downsample = [w.u32('downsample', UPSAMPLINGS, random.choice([1, 2, 4, 8])) for _ in range(ds)]
            last = [w.u32('last_pass', LASTS, random.randrange(8)) for _ in range(ds)]
    h['passes'] = [n, ds] + (shift + [0] * 10)[:10] + (downsample + [0] * 4)[:4] + (last + [0] * 4)[:4]
    h['lf_level'] = 1 + w.u('lf_level', 2, choose('lf_level', lambda: random.getrandbits(2))) if kind == LF else 0
    h['have_crop'], h['x0'], h['y0'], h['width'], h['height'] = 0, 0, 0, f.width, f.height
    if kind != LF:
        crop = choose('crop', lambda: random.choice([None, [some_place() for _ in range(4)], [random.randrange(4), random.randrange(4), f.width + 1, f.height + 1]]))
        h['have_crop'] = w.u('have_crop', 1, int(crop is not None))
        if crop:
            if kind != REFERENCE:
                h['x0'], h['y0'] = [-(n + 1) // 2 if n % 2 else n // 2 for n in (w.u32('x0', PLACES, crop[0]), w.u32('y0', PLACES, crop[1]))]
            h['width'], h['height'] = w.u32('width', PLACES, min(crop[2], 1073760511)), w.u32('height', PLACES, min(crop[3], 1073760511))
    h['blending'], h['ec_blending'] = ZERO_BLENDING, [ZERO_BLENDING] * f.extra
    h['duration'] = h['timecode'] = 0
    h['is_last'] = 0
    covers = not h['have_crop'] or full_image(f, h)
    if kind in (REGULAR, SKIP):
        mode = choose('mode', lambda: random.choice([0, 0, 1, 2, 3, 4]))
        h['blending'] = write_blending(w, f, 'mode', mode, mode, h, want)
        modes = choose('ec_modes', lambda: [random.randrange(5) for _ in range(f.extra)])
        h['ec_blending'] = [write_blending(w, f, 'ec_mode', m, mode, h, want) for m in modes]
        if f.animation:
            h['duration'] = w.u32('duration', DURATIONS, choose('duration', lambda: random.choice([0, 0, 1, 255, 4294967295])))
        if f.animation and f.timecodes:
            h['timecode'] = w.u('timecode', 32, random.getrandbits(32))
        h['is_last'] = w.u('is_last', 1, choose('is_last', lambda: random.getrandbits(1)))
    h['save_as_reference'] = 0
    if kind != LF and not h['is_last']:
        h['save_as_reference'] = w.u('save_as_reference', 2, choose('save_as_reference', lambda: random.getrandbits(2)))
    h['resets_canvas'] = int(h['blending']['mode'] == 0 and covers)
    h['can_reference'] = int(kind != LF and not h['is_last'] and not (h['duration'] and not h['save_as_reference']))
    h['save_before_ct'] = int(kind in (LF, REFERENCE))
    if kind == REFERENCE or h['resets_canvas'] and h['can_reference']:
        h['save_before_ct'] = w.u('save_before_ct', 1, choose('save_before_ct', lambda: random.getrandbits(1)))
    length = choose('name', lambda: random.choice([0, 0, 1, 15, 16, 47, 48, 60]))
    w.u32('name_length', NAMES, length)
    h['name'] = [w.u('name', 8, random.getrandbits(8)) for _ in range(length)]
    h['filter'] = write_filter(w, modular, want)
    w.extensions(want.get('lengths', random.choice([{}, {}, {0: 5}, {2: 0, 63: 17}])))
    h['is_keyframe'] = int(kind in (REGULAR, SKIP) and (h['is_last'] or h['duration'] > 0))
    return w, h
