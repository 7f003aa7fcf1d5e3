#!/usr/bin/env python3
"""Vectors for the crate `header`: writes crates/replay_header/stdin and stdout, behind them the sample of oracle/sample.

Run it at the project's root. What is due is computed by a reader of its own (header_reading.py), written from the rules ("Bounds", "Refusal numbers", "Bits and numbers",
"Header fields", "Filter fields") and the bundles of src/header.rs, going down their fields in order. Nothing is taken from the Rattle code. The bits come from
a writer of its own (header_writing.py) that is handed chosen values; for whatever is accepted, what was chosen is compared with what was read, and for every cut the place of the
refusal is compared with where the writer began the field that is cut. P1, P2, P3, P9, P12 and the blend selectors are those of the rules.

A record is 16 words of 32 bits and then its input bytes. Word 0: 0 one run, 1 a run on every prefix of the input, 2 the questions on enums and flags.
  runs: width, height, flags (1 XYB, 2 grey, 4 animation, 8 timecodes), extra channels, lent bytes of name, lent words of upsampling and of blending, input bytes
  questions: a number, and the low and high half of 64 bits of flags
A line of a run: refusal, place, end, every number of the record where nothing was refused, all numbers of the record in one, and each buffer in one.
"""
import random
import struct
import sys

sys.dont_write_bytecode = True
from header_reading import LF, REFERENCE, REGULAR, SKIP, Facts, answer, flag_numbers, mixed, numbers
from header_writing import Writer, make, some_half, some_weights
from stored import store

random.seed(5)
ROOM = (1080, 260, 1030)
FILL, FILLS = 0xA5, 0xA5A5A5A5
RECORDS, LINES = [], []


def line(f, lent, data):
    number, place, end, h = answer(f, lent, data)
    shown, rest = numbers(h)
    words = [x for b in h['ec_blending'] for x in (b['mode'], b['alpha'], b['clamp'], b['source'])]
    buffers = []
    for room, fill, used in zip(ROOM, (FILL, FILLS, FILLS), (h['name'], h['ec_upsampling'], words)):
        buffers.append(mixed(used + [fill] * (room - len(used))))
    out = [number, place, end] + ([] if number else shown) + [mixed(shown + rest)] + buffers
    LINES.append('\t'.join(map(str, out)))
    return number, place, end, h


def emit(what, words, data=b''):
    assert len(data) <= 4096
    head = [what] + words
    RECORDS.append(struct.pack('<16I', *head, *[0] * (16 - len(head))) + data)


def lengths_for(f):
    return [1071 + random.choice([0, 0, 9]), min(260, f.extra + random.choice([0, 0, 1, 4])), min(1030, 4 * f.extra + random.choice([0, 0, 1, 6]))]


def go(f, data, lent=None):
    lent = lent or lengths_for(f)
    emit(0, [f.width, f.height, f.flags(), f.extra] + lent + [len(data)], data)
    return line(f, lent, data)


def good(f, tail=True, **want):
    """A header that is accepted, in bytes that may go on."""
    w, due = make(f, **want)
    number, place, end, h = go(f, w.bytes() + (random.randbytes(random.randrange(3)) if tail else b''))
    assert (number, place, end) == (0, 0, len(w.bits)), (number, place, end, len(w.bits))
    assert h == due, [(k, h[k], due[k]) for k in h if h[k] != due[k]]
    return h


def bad(number, place, f, w):
    got = go(f, w.bytes())
    assert got[:3] == (number, place, 0), (got[:3], number, place)


def cuts(f, w):
    """Every prefix: 4, where the writer began the field that is cut; the whole is accepted."""
    data, lent = w.bytes(), lengths_for(f)
    emit(1, [f.width, f.height, f.flags(), f.extra] + lent + [len(data)], data)
    for k in range(len(data)):
        assert line(f, lent, data[:k])[:3] == (4, w.cut_at(8 * k), 0)
    assert line(f, lent, data)[0] == 0


def question(n, flags):
    emit(2, [n, flags & 0xFFFFFFFF, flags >> 32])
    t, m = min(n, 3), min(n, 4)
    names = [t, int(t in (0, 3)), int(t == 1), int(t in (0, 1)), min(n, 1), m, int(m in (2, 3))]
    five = flag_numbers(flags)
    LINES.append('\t'.join(map(str, names + five + [mixed(names + five)])))


def some_facts(extra=None):
    sizes = [1, 100, 300, 16384, 1073741824, random.randrange(1, 1 << 30)]
    extra = random.choice([0, 0, 1, 2, 5]) if extra is None else extra
    return Facts(random.choice(sizes), random.choice(sizes), *[random.getrandbits(1) for _ in range(2)], extra, *[random.getrandbits(1) for _ in range(2)])


def document():
    # P1, P2, P3, the header of the listing
    f = Facts()
    assert go(f, b'')[:3] == (4, 0, 0)
    number, _, end, h = go(f, b'\x01')
    assert (number, end, h['width'], h['height'], h['is_last'], h['frame_type']) == (0, 1, 300, 100, 1, REGULAR)
    number, _, end, h = go(f, b'\x08\x00\x09')
    assert (number, end, h['encoding'], h['group_size_shift'], h['is_last']) == (0, 22, 1, 0, 1)
    assert go(f, bytes([0x01, 0x28, 0, 0, 0x0C, 0, 0xFA, 0x50, 0]))[2] == 1
    # P9, through crops: x0 and y0
    for n, z in ((1, -1), (2, 1), (3, -2), (1073760511, -536880256)):
        assert good(f, frame_type=REGULAR, crop=[n, 0, 5, 5])['x0'] == z
        assert good(f, frame_type=SKIP, crop=[0, n, 5, 5])['y0'] == z
    # P12 and its neighbours, on both sides: origin, size, and the image's size at the edge of the exact sums
    for n, size, image, covers in ((1, 301, 300, 1), (2, 301, 300, 0), (0, 300, 300, 1), (0, 299, 300, 0), (1, 300, 300, 0), (2, 300, 300, 0), (1, 302, 300, 1),
                                   (1073760511, 1073760511, 536880255, 1), (1073760511, 1073760511, 536880256, 0), (1073760511, 536880256, 1, 0),
                                   (1073760511, 536880257, 1, 1), (1073760510, 1073760511, 1, 0), (0, 1073760511, 1073741824, 1), (0, 0, 1, 0)):
        for across in (0, 1):
            for extra in (0, 2):
                for mode in (0, 2):
                    g = Facts(image if across else 100, 100 if across else image, extra=extra)
                    crop = [n, 0, size, 100] if across else [0, n, 100, size]
                    h = good(g, frame_type=REGULAR, crop=crop, mode=mode, is_last=0, **{'mode.source': 3, 'ec_mode.source': 2})
                    assert h['resets_canvas'] == (covers if mode == 0 else 0) and h['blending']['source'] == 3 * (1 - h['resets_canvas'])
    # a reference-only frame has no origin, and may be small
    assert good(f, frame_type=REFERENCE, crop=[9, 9, 300, 100])['resets_canvas'] == 1
    assert good(f, frame_type=REFERENCE, crop=[9, 9, 299, 100])['resets_canvas'] == 0
    # blend selectors: 3 with 0 and 1, MulAdd and Mul; with 2 and 3, 5 at the selector; of the colour channels and of the extra channels
    for extra in (0, 1, 3):
        g = Facts(extra=extra)
        for mode in range(7):
            want = dict(frame_type=REGULAR, encoding=0, name=3)
            if mode < 5:
                assert good(g, mode=mode, **want)['blending']['mode'] == mode
            else:
                w, _ = make(g, mode=mode, **want)
                bad(5, w.place('mode'), g, w)
            for k in range(extra):
                for own in (0, 1):
                    modes = [1] * extra
                    modes[k] = mode
                    if mode < 5:
                        h = good(g, mode=own, ec_modes=modes, crop=None, **want, **{'ec_mode.source': 3})
                        # by the colour mode: Replace without a crop leaves out every source
                        assert [b['source'] for b in h['ec_blending']] == [3 * own] * extra
                    else:
                        w, _ = make(g, mode=own, ec_modes=modes, **want)
                        bad(5, w.place('ec_mode', k), g, w)


def kinds():
    # every frame type, encoding, and use of an LF frame, with 0, 1 and 3 extra channels, on XYB, YCbCr and grey images
    for kind in range(4):
        for modular in (0, 1):
            for flags in (0, 32, 3, 2 ** 64 - 1, 2 ** 64 - 33):
                for extra in (0, 1, 3):
                    f = some_facts(extra)
                    good(f, frame_type=kind, encoding=modular, flags=flags)
            for xyb in (0, 1):
                for grey in (0, 1):
                    for ycbcr in (0, 1):
                        good(Facts(xyb=xyb, grey=grey), frame_type=kind, encoding=modular, do_ycbcr=ycbcr, flags=0)
        for level in range(4):
            good(Facts(), frame_type=kind, lf_level=level, name=level)
    # what is sent at the end: animation, timecodes, last, saved
    for kind in (REGULAR, SKIP, REFERENCE):
        for times in range(4):
            for duration in (0, 1, 255, 256, 4294967295):
                for last in (0, 1):
                    for saved in (0, 2):
                        f = Facts(animation=times & 1, timecodes=times >> 1)
                        good(f, frame_type=kind, mode=0, crop=None, duration=duration, is_last=last, save_as_reference=saved, filter='default', lengths={}, name=1)
    # passes: each count, with each number of downsamplings
    for n in range(1, 12):
        for ds in range(5):
            good(Facts(), frame_type=REGULAR, num_passes=n, num_ds=ds)
    # names and U64 flags of each length
    for n in (0, 1, 15, 16, 47, 48, 49, 1070, 1071):
        good(some_facts(), name=n)
    for chunks in range(8):
        good(Facts(), flags=random.getrandbits(12 + 8 * chunks if chunks < 7 else 64), chunks=chunks)
    # filters in both encodings, each kind
    for modular in (0, 1):
        for filters in ('default', 'plain', 'custom', 'some', 'some', 'some'):
            good(some_facts(), encoding=modular, filter=filters)
    # all_default: the defaults of every kind of image, and 0, 1 and 256 extra channels written
    for extra in (0, 1, 256):
        for _ in range(6):
            f = some_facts(extra)
            got = go(f, bytes([random.getrandbits(7) * 2 + 1]))
            assert got[0] == 0 and got[2] == 1 and got[3]['ec_upsampling'] == [1] * extra and got[3]['width'] == f.width
    # 256 extra channels
    for kind in range(4):
        for flags in (0, 32):
            good(some_facts(256), frame_type=kind, flags=flags, name=(0, 1071)[flags == 0], mode=kind % 2 * 2, crop=None, filter='custom')


def refused():
    # each cut of long headers, begun at every place in a byte through flags of different lengths, in both encodings
    for k, (chunks, flags) in enumerate(((None, 3), (0, 17), (1, 4096), (2, 2 ** 20), (3, 2 ** 28), (4, 2 ** 36), (5, 2 ** 44), (6, 2 ** 52), (7, 2 ** 60))):
        f = Facts(300, 100, k == 8, 0, 3, 1, 1)
        w, _ = make(f, frame_type=(REGULAR, SKIP)[k % 2], encoding=k // 4 % 2, flags=flags, chunks=chunks, do_ycbcr=1, num_passes=11, num_ds=4,
                    crop=[256 + k, 18688, 2304, 10 ** 9], mode=2, ec_modes=[4, 3, 2], duration=300, is_last=0, name=17, filter='custom',
                    filter_lengths={1: 20, 5: 300}, lengths={0: 9, 40: 21})
        cuts(f, w)
    for kind in (LF, REFERENCE):
        f = Facts(extra=2)
        w, _ = make(f, frame_type=kind, encoding=1, flags=0, do_ycbcr=1, num_passes=9, num_ds=3, crop=[0, 0, 300, 5000], name=16, filter='custom')
        cuts(f, w)
    f = Facts(extra=256, animation=1)
    w, _ = make(f, frame_type=REGULAR, flags=0, mode=1, name=1071, lengths={7: 100})
    data = w.bytes()
    for k in list(range(0, len(data), 41)) + [len(data) - 1]:
        assert go(f, data[:k])[:3] == (4, w.cut_at(8 * k), 0)
    # a skip to the very end, and one bit past it; a sum that needs more than 64 bits
    f = Facts()
    w, _ = make(f, frame_type=REGULAR, filter='default', lengths={})
    for past in (0, 1):
        v = Writer()
        v.bits = w.bits[:w.place('mask')]
        v.u64('mask', 1)
        place = len(v.bits) + 6
        total = -place % 8 + 8 + past
        v.u64('length', total)
        assert go(f, v.bytes() + b'\x5A')[:3] == ((0, 0, place + total), (4, place, 0))[past]
    v = Writer()
    v.bits = w.bits[:w.place('mask')]
    v.u64('mask', 3)
    v.u64('length', 2 ** 64 - 1, 7)
    v.u64('length', 2 ** 64 - 1, 7)
    assert go(f, v.bytes() + bytes(9))[:3] == (4, len(v.bits), 0)
    # 6 at each f16, 7 at each channel's weights (P10, P11), inside a header
    for modular in (0, 1):
        f = Facts(extra=1)
        for name, count in (('weight', 6), ('sharp', 0 if modular else 8), ('scale', 3), ('sigma', 3 if modular else 4), ('own', modular)):
            for k in range(count):
                values = some_weights() if name == 'weight' else [some_half() for _ in range(count)]
                values[k] = random.choice([0x7C00, 0xFC00, 0x7E01, 0xFFFF])
                w, _ = make(f, encoding=modular, filter='custom', **{'weights' if name == 'weight' else name: values})
                bad(6, w.place(name, k), f, w)
        for channel in range(3):
            for a, b in ((0xB400, 0), (0, 0xB400), (0xB000, 0xB000), (0xB400, 0x8000)):
                weights = some_weights()
                weights[2 * channel:2 * channel + 2] = [a, b]
                w, _ = make(f, encoding=modular, filter='custom', weights=weights)
                bad(7, w.place('weight', 2 * channel), f, w)
            weights[2 * channel:2 * channel + 2] = [0xB400, 0x0001]
            good(f, encoding=modular, filter='custom', weights=weights)
    # 3: each buffer one short, also where the frame uses none of it; and just long enough
    for extra in (0, 1, 3, 256):
        f = Facts(extra=extra)
        enough = [1071, extra, 4 * extra]
        for data in (b'\x01', make(f, name=2)[0].bytes(), b''):
            go(f, data, list(enough))
            for k in range(3):
                short = [n - (i == k) for i, n in enumerate(enough)]
                if short[k] >= 0:
                    assert go(f, data, short)[:3] == (3, 0, 0)
    # 1: facts at each bound and past it; before 3, and before any reading
    for f, number in ((Facts(width=0), 1), (Facts(width=1), 0), (Facts(width=1073741824), 0), (Facts(width=1073741825), 1), (Facts(width=4294967295), 1),
                      (Facts(height=0), 1), (Facts(height=1), 0), (Facts(height=1073741824), 0), (Facts(height=1073741825), 1), (Facts(height=4294967295), 1),
                      (Facts(extra=256), 0), (Facts(extra=257), 1), (Facts(extra=4294967295), 1)):
        for data in (b'\x01', b''):
            n = min(f.extra, 257)
            assert go(f, data, [1071, n, 4 * n])[0] == (number or (0 if data else 4))
        assert go(f, b'\x01', [1070, n, 4 * n])[0] == (number or 3)
        assert go(f, b'\x01', [0, 0, 0])[0] == (number or 3)


def main():
    document()
    kinds()
    refused()
    # random headers, random bytes
    for _ in range(150):
        good(some_facts())
    for _ in range(200):
        f = some_facts()
        data = bytearray(random.randbytes(random.randrange(1, 60)))
        data[0] &= 0xFE
        go(f, bytes(data))
    for _ in range(40):
        go(some_facts(), bytes([random.getrandbits(8) & 0xFE]) + bytes(random.choice([0, 0, 0, 255, random.getrandbits(8)]) for _ in range(80)))
    for n in list(range(8)) + [255, 65536, 4294967295]:
        question(n, random.choice([0, 2 ** 64 - 1, random.getrandbits(64)]))
    for k in range(64):
        question(k % 5, 1 << k)

    store('header', b''.join(RECORDS), '\n'.join(LINES) + '\n')
    print(len(RECORDS), 'records', sum(map(len, RECORDS)), 'bytes', len(LINES), 'lines')


main()
