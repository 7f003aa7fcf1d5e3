#!/usr/bin/env python3
"""Shows that the comparison would find a difference: each line below makes a copy of the Rust wrong in one place, and `compare` must say so.

    python3 oracle/wrong.py [WORDS]      after `tools/staticlib`; some minutes, or those alone whose line has the words

The copies are made under target/wrong; nothing under oracle/ is changed.
"""
import os
import pathlib
import shutil
import subprocess
import sys

HOME = pathlib.Path(__file__).resolve().parent.parent
PLACE = HOME / 'target/wrong'
HEADER, FILTER, TOC = 'src/header.rs', 'src/filter.rs', 'src/data/toc.rs'

# What is wrong, the file, a piece of its text that stands there once (or the first of several), and what stands there instead.
WRONG = [
    ('an extra channel decides on its source by itself', HEADER, 'Some(blending_info.mode)', 'None::<BlendMode>'),
    ('the scale of VarDct under XYB is 2 by default', HEADER, '            3\n        } else {', '            2\n        } else {'),
    ('a crop is judged by its left side alone', HEADER, 'if x0 > 0 || y0 > 0 {', 'if x0 > 0 {'),
    ('a frame must reach past the image', HEADER, '(right >= size.width as i64)', '(right > size.width as i64)'),
    ('an LF frame is not saved before the colour transform', HEADER, 'default(!frame_type.is_normal_frame())', 'default(false)'),
    ('a saved frame of some duration has no save_before_ct', HEADER, '(duration == 0 || save_as_reference != 0) && frame_type', '(duration == 0) && frame_type'),
    ('the group side is 128 by default', HEADER, 'cond(encoding == Encoding::Modular) default(1)', 'cond(encoding == Encoding::Modular) default(0)'),
    ('a reference frame has a place', HEADER, 'cond(have_crop && frame_type != FrameType::ReferenceOnly)', 'cond(have_crop)'),
    ('LF levels count from 0', HEADER, 'ty(1 + u(2))', 'ty(0 + u(2))'),
    ('sizes are rounded down by the LF level', HEADER, 'width = (width + div - 1) >> (3 * lf_level);', 'let _ = div; width >>= 3 * lf_level;'),
    ('a point right of the picture is in the next row', HEADER, 'if group_x >= self.groups_per_row() || group_idx', 'if group_idx'),
    ('rectangles that touch collide', HEADER, '(x0 < x1 + w1)', '(x0 <= x1 + w1)'),
    ('LF groups have four columns of groups', HEADER, '(group_idx % groups_per_row) / 8', '(group_idx % groups_per_row) / 4'),
    ('31 bits are ignored after custom scales', FILTER, 'bitstream.read_bits(32)?; // ignored', 'bitstream.read_bits(31)?; // ignored'),
    ('2 / 3 in two digits', FILTER, 'border_sad_mul: 2.0 / 3.0', 'border_sad_mul: 0.67'),
    ('the weights test is one bit wider', FILTER, '< f32::EPSILON {\n                return', '< 3.0 * f32::EPSILON {\n                return'),
    ('a Modular frame has a quant_mul', FILTER, 'quant_mul: if encoding == Encoding::VarDct {', 'quant_mul: if encoding != Encoding::VarDct || true {'),
    ('sizes stay in sent order', TOC, 'sizes_out.push(sizes[perm]);', 'sizes_out.push(sizes[idx]);'),
    ('the order is turned round', TOC, 'permutation\n        } else {', 'let mut turned = permutation.clone(); permutation.iter().enumerate().for_each(|(i, &p)| turned[p] = i); turned\n        } else {'),
    ('a size choice is off by one', TOC, '17408 + U(22)', '17409 + U(22)'),
    ('65,536 sections are too many', TOC, 'entry_count > 65536', 'entry_count > 65535'),
    ('no padding after the sizes', TOC, '?;\n        bitstream.zero_pad_to_byte()?;\n\n        let mut offsets', '?;\n\n        let mut offsets'),
    ('one group is one section, whatever the passes', TOC, 'if num_groups == 1 && num_passes == 1 {', 'if num_groups == 1 {'),
    ('the total counts the table', TOC, 'let mut total_size = 0usize;', 'let mut total_size = acc;'),
]


def copy():
    shutil.rmtree(PLACE / 'oracle', ignore_errors=True)
    shutil.copytree(HOME / 'oracle', PLACE / 'oracle', ignore=shutil.ignore_patterns('target'))
    if not (PLACE / 'bindings').is_symlink():
        (PLACE / 'bindings').symlink_to(HOME / 'bindings')


def found(file, old, new):
    """Whether `compare` differs on the copy that is made wrong, and the first thing it says."""
    text = (HOME / 'oracle/original' / file).read_text()
    if old not in text:
        return False, 'its text is not there'
    (PLACE / 'oracle/original' / file).write_text(text.replace(old, new, 1))
    command = ['cargo', 'run', '--quiet', '--release', '--offline', '--manifest-path', PLACE / 'oracle/Cargo.toml', '--bin', 'compare', '--', '--scale', '1']
    done = subprocess.run(command, capture_output=True, text=True, env={**os.environ, 'CARGO_TARGET_DIR': str(PLACE / 'target'), 'RUST_BACKTRACE': '0'})
    (PLACE / 'oracle/original' / file).write_text(text)
    said = [line for line in done.stdout.splitlines() if line.startswith('DIFFERENCE')]
    if done.returncode == 1 and said:
        return True, said[0]
    if done.returncode == 101 and 'panicked at' in done.stderr and 'error: could not compile' not in done.stderr:
        return True, 'the Rust ends in a panic'
    return False, done.stderr[-600:] or done.stdout[-200:]


def main():
    copy()
    missed = 0
    chosen = [w for w in WRONG if not sys.argv[1:] or sys.argv[1] in w[0]]
    for name, *change in chosen:
        ok, said = found(*change)
        missed += not ok
        print(f'{"found" if ok else "MISSED"}: {name}\n    {said[:200]}', flush=True)
    print(f'{len(chosen)} wrong copies, {missed} missed')
    return 1 if missed else 0


if __name__ == '__main__':
    sys.exit(main())
