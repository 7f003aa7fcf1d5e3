#!/usr/bin/env python3
"""Reads the frames of .jxl files as an encoder writes them, and checks that what is read fits the file to the byte.

    tools/real_frames.py [FOLDER]         makes files there with cjxl (target/real unless named), reads and checks them
    tools/real_frames.py --store          stores the frames' beginnings as vectors of crates/replay_frames, with what is due

Every frame is read three times: by the proved reader and by the Rust files (oracle/compare's `frame`, which wants the same of both), and
by the Python of tools/vectors. Then: the first frame begins where the image's header ends; each frame after it begins where the data of
the one before ends; the data of the last one ends where the codestream ends. Where a table has another order of sending, the order is
decoded by tools/jxl_entropy.py, and where the same picture was also written without, each section has the same bytes in both files.
Where the listing program is built (`rt run` in crates/list), its listing of each file's first frame is compared too.

Needs cjxl (libjxl-tools), for `--store` nothing else; for the first form also a built oracle:
    tools/staticlib && cargo build --release --offline --manifest-path oracle/Cargo.toml
"""
import pathlib
import shutil
import struct
import subprocess
import sys

sys.dont_write_bytecode = True
HOME = pathlib.Path(__file__).resolve().parent.parent
sys.path[:0] = [str(HOME / 'tools'), str(HOME / 'tools/vectors')]
import header_reading
import jxl_entropy
import jxl_frame
import pictures

TOOL = HOME / 'oracle/target/release/frame'
ROOM = [1071, 256, 1024]
SIZES = ((0, 10), (1024, 14), (17408, 22), (4211712, 30))

MOVING = [(0, 0, 300, 200, 0), (20, 30, 100, 90, 1), (50, 60, 200, 100, 0), (0, 0, 300, 200, 1), (299, 199, 1, 1, 0)]
PICTURES = {
    'rgb': lambda: pictures.png(700, 500),
    'large': lambda: pictures.png(1100, 700),
    'grey': lambda: pictures.png(300, 200, 1),
    'greyalpha': lambda: pictures.png(300, 200, 2),
    'alpha': lambda: pictures.png(600, 300, 4),
    'icc': lambda: pictures.png(300, 200, icc=pictures.profile()),
    'letters': lambda: pictures.letters(600, 400),
    'tiny': lambda: pictures.png(1, 1),
    'line': lambda: pictures.png(2100, 3),
    'moving': lambda: pictures.apng(300, 200, MOVING),
    'movingrgb': lambda: pictures.apng(300, 200, MOVING, 3),
}
# A name, a picture and the encoder's options. Files of the second list have another order of sending; what follows the + names the twin.
FILES = [(f'lossless{g}', 'rgb', f'-d 0 -g {g}') for g in range(4)]
FILES += [('groups0', 'large', '-d 0 -g 0'), ('groups1', 'large', '-d 0 -g 1'), ('lossy', 'large', '-d 2')]
FILES += [(f'centre+{name}', picture, f'{options} --group_order=1') for name, picture, options in FILES[-3:]]
FILES += [('corner+groups0', 'large', '-d 0 -g 0 --group_order=1 --center_x=1 --center_y=650'), ('edge+lossy', 'large', '-d 2 --group_order=1 --center_x=1099 --center_y=300')]
FILES += [
    ('lf1', 'rgb', '-d 1 --progressive_dc=1'), ('lf2', 'large', '-d 1 --progressive_dc=2'),
    ('responsive', 'rgb', '-d 1 -m 1 -R 1'), ('noise', 'rgb', '-d 1 --photon_noise=ISO3200'), ('filters', 'rgb', '-d 1 --epf=3 --gaborish=0'), ('nofilter', 'rgb', '-d 1 --epf=0'),
    ('extra', 'alpha', '-d 1 --resampling=1 --ec_resampling=4'), ('quarter', 'alpha', '-d 1 --resampling=4 --ec_resampling=8'), ('eighth', 'large', '-d 1 --resampling=8'),
    ('grey', 'grey', '-d 0'), ('greylossy', 'grey', '-d 1'), ('greyalpha', 'greyalpha', '-d 0'), ('alpha', 'alpha', '-d 0 -g 0'), ('alphalossy', 'alpha', '-d 1'),
    ('boxed', 'alpha', '-d 0 --container=1'), ('tiny', 'tiny', '-d 0'), ('tinylossy', 'tiny', '-d 1'), ('line', 'line', '-d 0 -g 0'), ('linelossy', 'line', '-d 1'),
    ('icc', 'icc', '-d 0'), ('letters', 'letters', '-e 7 -d 1 --patches=1'), ('letters0', 'letters', '-e 7 -d 0 --patches=1'),
    ('moving', 'moving', '-d 0'), ('movinglossy', 'moving', '-d 1'), ('movingrgb', 'movingrgb', '-d 0 -g 0'),
]


class Wrong(Exception):
    """Something that doesn't fit."""


def want(ok, text):
    if not ok:
        raise Wrong(text)


# ---- making the files

def make(folder):
    """Encodes every picture; those of a JPEG file where cjpeg is there too."""
    folder.mkdir(parents=True, exist_ok=True)
    for name, picture in PICTURES.items():
        (folder / f'{name}.png').write_bytes(picture())
    jobs = [(folder / f'{name}.jxl', folder / f'{picture}.png', options) for name, picture, options in FILES]
    if shutil.which('cjpeg'):
        (folder / 'photo.ppm').write_bytes(b'P6 500 300 255\n' + bytes(pictures.pixel(x, y, c, 1) for y in range(300) for x in range(500) for c in range(3)))
        for sampling in ('1x1', '2x1', '2x2'):
            jpeg = folder / f'photo{sampling}.jpg'
            subprocess.run(['cjpeg', '-sample', sampling, '-outfile', jpeg, folder / 'photo.ppm'], check=True)
            jobs.append((folder / f'jpeg{sampling}.jxl', jpeg, '-j 1'))
    for out, source, options in jobs:
        subprocess.run(['cjxl', '--quiet', '-e', '3', *options.split(), source, out], check=True, capture_output=True)
    return [out for out, _, _ in jobs]


# ---- one frame, by Python

class Frame:
    """A frame that begins at a byte of the codestream, read by the rules."""

    def __init__(self, image, data, start):
        self.image, self.data, self.start = image, data, start
        self.facts = header_reading.Facts(image.width, image.height, image.xyb, image.grey, image.extra, image.animation, image.timecodes)
        number, place, self.end, self.header = header_reading.answer(self.facts, ROOM, data[start:start + 4096])
        want(number == 0, f'the header at byte {start} is refused: {number} at {place}')
        self.kinds = kinds(self.header)
        b = jxl_frame.Bits(data, 8 * start + self.end)
        self.order = self.place = None
        if b.flag():
            self.order = jxl_entropy.section_order(b, len(self.kinds))
            self.place = b.at - 8 * start
        b.pad()
        self.sent = [b.u32(*SIZES) for _ in self.kinds]
        b.pad()
        self.begins, self.total = b.at // 8 - start, sum(self.sent)
        self.last = self.header['is_last'] == 1
        offsets = [self.begins + sum(self.sent[:k]) for k in range(len(self.sent))]
        self.sections = [(*kind, k, offsets[k], self.sent[k]) for kind, k in zip(self.kinds, self.order or range(len(self.kinds)))]

    def next(self):
        return self.start + self.begins + self.total

    def bytes_of(self, section):
        *_, offset, size = section
        return self.data[self.start + offset:self.start + offset + size]

    def lines(self):
        """What the tool `frame` has to say."""
        h = self.header
        out = [['header', self.end, h['frame_type'], h['encoding'], h['is_last'], h['have_crop'], h['width'], h['height']]]
        out.append(['table', len(self.kinds), self.begins, self.total])
        names = ['All', 'LfGlobal', 'LfGroup', 'HfGlobal', 'GroupPass']
        for kind, pass_, group, *rest in self.sections:
            out.append([names[kind], pass_ if kind == 4 else '-', group if kind in (2, 4) else '-', *rest])
        return [[str(n) for n in line] for line in out]


def up(a, b):
    return -(-a // b)


def samples(h):
    """The colour sample size."""
    return [up(up(h[k], h['upsampling']), 8 ** h['lf_level']) for k in ('width', 'height')]


def kinds(h):
    """Number, pass and group of each section."""
    width, height = samples(h)
    side, passes = 128 << h['group_size_shift'], h['passes'][0]
    groups, lf = (up(width, n) * up(height, n) for n in (side, 8 * side))
    if groups == passes == 1:
        return [(0, 0, 0)]
    return [(1, 0, 0)] + [(2, 0, i) for i in range(lf)] + [(3, 0, 0)] + [(4, p, i) for p in range(passes) for i in range(groups)]


def frames(path):
    """All frames of a file, up to the end of the codestream."""
    data, image = jxl_frame.load(path)
    out, at = [], image.frame
    while not out or not out[-1].last:
        out.append(Frame(image, data, at))
        at = out[-1].next()
    want(at == len(data), f'the last frame ends at byte {at}, the codestream at {len(data)}')
    return out


# ---- one frame, by the proved reader and the Rust files

def asked(frame):
    """The tool's lines, cut into fields; a table of another order is asked for twice, first without the order."""
    text = frame.image.line() + frame.data[frame.start:][:16777216]

    def run(*words):
        done = subprocess.run([TOOL, *words], input=text, capture_output=True)
        want(done.returncode == 0, done.stderr.decode())
        return [line.split('\t') for line in done.stdout.decode().splitlines()]
    if frame.order is None:
        return run()
    first = run()
    want(first[1] == ['order', str(frame.end + 1)], f'an order was expected to be needed: {first[1]}')
    return run(str(frame.place), ','.join(map(str, frame.order)))


def listing(frame):
    """What the listing program has to write of a frame."""
    if frame.order is not None:
        return f'order\t{frame.end + 1}\n'
    width, height = samples(frame.header)

    def rect(side, i):
        left, top = i % up(width, side) * side, i // up(width, side) * side
        return [left, top, min(side, width - left), min(side, height - top)]
    side = 128 << frame.header['group_size_shift']
    rows = ['section kind pass group sent offset size left top width height'.split()]
    for i, (section, words) in enumerate(zip(frame.sections, frame.lines()[2:])):
        kind, _, group = section[:3]
        place = {0: [0, 0, width, height], 2: rect(8 * side, group), 4: rect(side, group)}.get(kind, ['-'] * 4)
        rows.append([i, *words, *place])
    rows.append(['total', frame.total])
    return ''.join('\t'.join(map(str, row)) + '\n' for row in rows)


def check(path):
    read = frames(path)
    if jxl_frame.LISTING.exists():
        done = subprocess.run([sys.executable, HOME / 'tools/jxl_frame.py', '--list', path], capture_output=True, text=True)
        want(done.stdout == listing(read[0]), f'another listing: {done.stdout[:300]} {done.stderr[:300]}')
    for frame in read:
        got, due = asked(frame), frame.lines()
        for a, b in zip(got, due):
            want(a == b, f'frame at byte {frame.start}: {a} and by the rules {b}')
        want(len(got) == len(due), 'another count of sections')
    return read


def twins(path, read):
    """A file with another order of sending, and the same picture without: the same bytes in each section."""
    plain = frames(path.with_name(path.name.split('+')[1]))
    moved = 0
    for a, b in zip(read, plain):
        want(len(a.sections) == len(b.sections), 'the twin has another count of sections')
        for s, t in zip(a.sections, b.sections):
            want(a.bytes_of(s) == b.bytes_of(t), f'section {s[:3]} has other bytes than in the twin')
            moved += s[3] != t[3]
    return moved


# ---- vectors

def store(folder, home):
    """The beginning of every frame, up to its data, and what is due for it, as crates/replay_frames wants them."""
    records, lines = [], []
    for path in make(folder):
        for frame in frames(path):
            f, order = frame.facts, frame.order or []
            data = frame.data[frame.start:frame.start + frame.begins]
            words = [len(order), f.width, f.height, f.flags(), f.extra, frame.place or 0, 0, 0, len(data)]
            want(len(data) <= 4096 and len(order) <= 1024, 'a frame too long to be stored')
            records.append(struct.pack(f'<16I{len(data)}s{len(order)}I', *words, *[0] * 7, data, *order))
            h = frame.header
            lines.append([0, 0, frame.end, h['width'], h['height'], h['upsampling'], h['lf_level'], h['group_size_shift'], h['passes'][0]])
            if order:
                lines.append([1, frame.end + 1])
            lines.append([0, len(frame.kinds), frame.begins, frame.total])
            lines += frame.sections
    (home / 'stdin').write_bytes(b''.join(records))
    (home / 'stdout').write_text(''.join(''.join(f'{n}\t' for n in line) + '\n' for line in lines))
    print(f'{len(records)} frames stored')


def main(folder):
    if not shutil.which('cjxl'):
        sys.exit('cjxl is not there: apt-get install libjxl-tools')
    if not TOOL.exists():
        sys.exit(f'{TOOL.relative_to(HOME)} is not there; see the head of this script for how it is built')
    wrong = count = 0
    paths = make(folder)
    for path in paths:
        try:
            read = check(path)
            count += len(read)
            text = ', '.join(f'{len(f.kinds)} sections' for f in read)
            if '+' in path.name:
                text += f', same bytes as its twin, {twins(path, read)} sections sent elsewhere'
            print(f'{path.name}: {len(read)} frames ({text}), {len(read[0].data)} bytes, ends fit')
        except (Wrong, jxl_frame.Refused) as e:
            wrong += 1
            print(f'{path.name}: WRONG: {e}')
    print(f'{len(paths)} files, {count} frames, {wrong} wrong')
    return 1 if wrong else 0


if __name__ == '__main__':
    words = sys.argv[1:]
    if words == ['--store']:
        store(HOME / 'target/real', HOME / 'crates/replay_frames')
    else:
        sys.exit(main(pathlib.Path(words[0]) if words else HOME / 'target/real'))
