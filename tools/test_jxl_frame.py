#!/usr/bin/env python3
"""Tests of jxl_frame.py and of what reads whole files by it: `python3 tools/test_jxl_frame.py`.

tools/files has small files that cjxl 0.7 wrote of the pictures in pictures.py; where cjxl is installed, new ones are made and read too.
"""
import pathlib
import shutil
import subprocess
import sys
import tempfile
import unittest

sys.dont_write_bytecode = True
HERE = pathlib.Path(__file__).resolve().parent
sys.path[:0] = [str(HERE), str(HERE / 'vectors')]
import jxl_frame
import pictures
import real_frames

# The facts line of each stored file, known from how it was made, and the sections of its frames.
STORED = {
    'tiny': ('1 1 0 0 0 0 0', [1]),
    'tinylossy': ('1 1 1 0 0 0 0', [1]),
    'boxed': ('20 10 0 1 1 0 0', [1]),
    'grey': ('24 16 0 1 0 0 0', [1]),
    'icc': ('16 16 0 0 0 0 0', [1]),
    'letters': ('400 300 0 0 0 0 0', [1, 7]),
    'moving': ('40 30 0 0 1 1 0', [1, 1, 1]),
    'row': ('1100 300 0 1 0 0 0', [31]),
}


def bits(*fields):
    """A codestream of fields: pairs of a width and a value."""
    value = at = 0
    for n, x in fields:
        value |= x << at
        at += n
    return b'\xff\x0a' + value.to_bytes(at // 8 + 8, 'little')


SMALL = [(1, 1), (5, 0), (3, 1)]                       # 8 by 8


class Stored(unittest.TestCase):
    def test_facts_and_frames(self):
        for name, (facts, sections) in STORED.items():
            with self.subTest(name):
                read = real_frames.frames(HERE / f'files/{name}.jxl')
                self.assertEqual(read[0].image.line(), facts.replace(' ', '\t').encode() + b'\n')
                self.assertEqual([len(f.kinds) for f in read], sections)

    def test_output(self):
        done = subprocess.run([sys.executable, HERE / 'jxl_frame.py', HERE / 'files/boxed.jxl'], capture_output=True, check=True)
        data, image = jxl_frame.load(HERE / 'files/boxed.jxl')
        self.assertEqual(done.stdout, b'20\t10\t0\t1\t1\t0\t0\n' + data[image.frame:])

    def test_no_more_than_is_used(self):
        with tempfile.TemporaryDirectory() as folder:
            path = pathlib.Path(folder) / 'long.jxl'
            path.write_bytes((HERE / 'files/tiny.jxl').read_bytes() + bytes(100000))
            done = subprocess.run([sys.executable, HERE / 'jxl_frame.py', path], capture_output=True, check=True)
            self.assertEqual(len(done.stdout), len(b'1\t1\t0\t0\t0\t0\t0\n') + jxl_frame.USED)


class Headers(unittest.TestCase):
    """Fields that the encoder at hand doesn't write, by hand."""

    def read(self, *fields):
        return jxl_frame.image(bits(*SMALL, *fields))

    def test_all_default(self):
        image = self.read((1, 1), (1, 1))
        self.assertEqual((image.width, image.height, image.xyb, image.frame), (8, 8, True, 4))

    def test_ratios(self):
        for which, width in zip(range(1, 8), (80, 96, 106, 120, 142, 100, 160)):
            image = jxl_frame.image(bits((1, 1), (5, 9), (3, which), (1, 1), (1, 1)))
            self.assertEqual((image.width, image.height), (width, 80))

    def test_large_sizes(self):
        image = jxl_frame.image(bits((1, 0), (2, 3), (30, 2**30 - 1), (3, 0), (2, 1), (13, 8191), (1, 1), (1, 1)))
        self.assertEqual((image.width, image.height), (8192, 2**30))

    def test_animation_and_extra_fields(self):
        more = [(1, 0), (1, 1), (3, 5), (1, 1), *SMALL, (1, 0), (1, 1), (2, 2), (10, 23), (2, 1), (2, 3), (32, 9), (1, 1)]
        rest = [(1, 0), (2, 3), (6, 15), (1, 1), (2, 0), (1, 0), (1, 1), (1, 0), (16, 1), (16, 2), (1, 1), (16, 3), (2, 0), (1, 1)]
        image = self.read(*more, *rest)
        self.assertEqual((image.animation, image.timecodes, image.xyb, image.extra), (True, True, False, 0))

    def test_extra_channels(self):
        head = [(1, 0), (1, 0), (1, 0), (2, 0), (1, 1), (2, 2), (4, 2)]                    # four channels
        default = [(1, 1)]
        alpha = [(1, 0), (2, 0), (1, 0), (2, 0), (2, 0), (2, 1), (4, 2), (16, 0x4141), (1, 1)]
        spot = [(1, 0), (2, 2), (4, 0), (1, 1), (2, 1), (4, 7), (2, 3), (3, 2), (2, 0), (64, 5)]
        cfa = [(1, 0), (2, 2), (4, 3), (1, 0), (2, 3), (6, 5), (2, 1), (2, 0), (2, 3), (8, 200)]
        image = self.read(*head, *default, *alpha, *spot, *cfa, (1, 1), (1, 1), (2, 0), (1, 1))
        self.assertEqual((image.extra, image.xyb), (4, True))

    def test_colour_encodings(self):
        head = [(1, 0), (1, 0), (1, 0), (2, 0), (1, 1), (2, 0), (1, 0), (1, 0), (1, 0)]
        xy = [(2, 0), (19, 7), (2, 3), (21, 9)]
        tail = [(2, 0), (1, 1)]
        for name, fields, grey in [
            ('own points', [(2, 0), (2, 2), (4, 0), *xy, (2, 2), (4, 0), *xy, *xy, *xy, (1, 1), (24, 4545454), (2, 1)], False),
            ('grey', [(2, 1), (2, 1), (1, 0), (2, 2), (4, 11), (2, 0)], True),
            ('xyb', [(2, 2), (4, 0), (2, 0)], False),
        ]:
            with self.subTest(name):
                image = self.read(*head, *fields, *tail)
                self.assertEqual((image.grey, image.xyb, image.frame), (grey, False, image.frame))

    def test_own_weights(self):
        image = self.read((1, 1), (1, 0), (1, 0), (256, 3), (3, 5), (240, 1), (3360, 1))
        self.assertEqual(image.frame, 2 + -(-(9 + 3 + 256 + 3 + 240 + 3360) // 8))

    def test_extensions(self):
        head = [(1, 0), (1, 0), (1, 0), (2, 0), (1, 1), (2, 0), (1, 1), (1, 1)]
        image = self.read(*head, (2, 1), (4, 4), (2, 1), (4, 2), (2, 2), (8, 3), (23, 0x55555), (1, 1))
        self.assertEqual(image.frame, 2 + -(-(9 + 10 + 6 + 6 + 10 + 23 + 1) // 8))

    def test_refused(self):
        preview = [(1, 0), (1, 1), (3, 0), (1, 0), (1, 1)]
        with self.assertRaisesRegex(jxl_frame.Refused, 'preview'):
            self.read(*preview)
        with self.assertRaisesRegex(jxl_frame.Refused, 'padding'):
            self.read((1, 1), (1, 1), (5, 1))
        with self.assertRaisesRegex(jxl_frame.Refused, 'ends before'):
            jxl_frame.image(b'\xff\x0a')
        with self.assertRaisesRegex(jxl_frame.Refused, 'neither'):
            jxl_frame.codestream(b'\x89PNG')
        whole = (HERE / 'files/boxed.jxl').read_bytes()
        with self.assertRaisesRegex(jxl_frame.Refused, 'cut'):
            jxl_frame.codestream(whole[:-1])

    def test_parts(self):
        whole = (HERE / 'files/tiny.jxl').read_bytes()
        signature = b'\0\0\0\x0cJXL \r\n\x87\n'

        def box(kind, data):
            return (8 + len(data)).to_bytes(4, 'big') + kind + data
        parts = box(b'jxlp', b'\0\0\0\0' + whole[:9]) + box(b'Exif', b'no') + b'\0\0\0\0jxlp\x80\0\0\1' + whole[9:]
        self.assertEqual(jxl_frame.codestream(signature + parts), whole)


@unittest.skipUnless(shutil.which('cjxl'), 'cjxl is not installed')
class Encoded(unittest.TestCase):
    def test_new_files(self):
        with tempfile.TemporaryDirectory() as folder:
            source, out = pathlib.Path(folder) / 'p.png', pathlib.Path(folder) / 'p.jxl'
            for picture, options, facts in [
                (pictures.png(130, 70), '-d 0 -g 0', '130 70 0 0 0 0 0'),
                (pictures.png(130, 70, 4), '-d 1', '130 70 1 0 1 0 0'),
                (pictures.png(130, 70, 1), '-d 1 --container=1', '130 70 1 1 0 0 0'),
                (pictures.apng(60, 50, [(0, 0, 60, 50, 0), (9, 9, 30, 20, 1)], 3), '-d 0', '60 50 0 0 0 1 0'),
            ]:
                source.write_bytes(picture)
                subprocess.run(['cjxl', '--quiet', '-e', '3', *options.split(), source, out], check=True, capture_output=True)
                with self.subTest(options):
                    self.assertEqual(real_frames.frames(out)[0].image.line().split(), facts.encode().split())


if __name__ == '__main__':
    unittest.main()
