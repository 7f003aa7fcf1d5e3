//! Frame records by chance and at their limits, and what the rules say of one before any geometry.

use crate::random::Random;
use hingevale::Frame;

pub const WIDEST: u32 = 1_073_760_511;

/// Exact counts of a good record: groups, LF groups, sections.
pub fn counts(f: &Frame) -> (u64, u64, u64) {
    let sample = |n: u32| (n as u64).div_ceil(f.upsampling.max(1) as u64).div_ceil(8u64.pow(f.lf_level));
    let tiles = |side: u64| sample(f.width).div_ceil(side) * sample(f.height).div_ceil(side);
    let side = 128u64 << f.group_size_shift;
    let (groups, lf) = (tiles(side), tiles(8 * side));
    let passes = f.num_passes as u64;
    (groups, lf, if groups == 1 && passes == 1 { 1 } else { 1 + lf + 1 + groups * passes })
}

/// 8, 9 or 10, as the rules give them.
pub fn refusal(f: &Frame) -> Option<u32> {
    let good = [1, 2, 4, 8].contains(&f.upsampling) && f.lf_level <= 4 && f.group_size_shift <= 3 && (1..=11).contains(&f.num_passes);
    if !good || f.width > WIDEST || f.height > WIDEST {
        Some(8)
    } else if f.width == 0 || f.height == 0 {
        Some(9)
    } else if counts(f).2 > 65536 {
        Some(10)
    } else {
        None
    }
}

/// Few sections.
pub fn small(r: &mut Random) -> Frame {
    let shift = r.within(0, 3);
    let upsampling = r.of(&[1, 1, 1, 2, 4, 8]);
    let lf_level = r.of(&[0, 0, 0, 1, 2, 3, 4]);
    let unit = (128 << shift) * upsampling * 8u32.pow(lf_level);
    let (columns, rows) = (r.within(1, 6), r.within(1, 4));
    let mut size = |n: u32| match r.below(4) {
        0 => n * unit,
        1 => (n - 1) * unit + 1,
        _ => (n - 1) * unit + r.within(1, unit),
    };
    let (width, height) = (size(columns), size(rows));
    Frame { width, height, upsampling, lf_level, group_size_shift: shift, num_passes: if r.coin() { 1 } else { r.within(1, 11) } }
}

/// Any record, numbers at and about their limits.
pub fn edge(r: &mut Random) -> Frame {
    let sizes = [
        0, 1, 2, 127, 128, 129, 255, 256, 257, 1023, 1024, 1025, 8191, 8192, 8193, 7456256, 7456257, 1 << 26, 1 << 30, WIDEST - 1, WIDEST,
        WIDEST + 1, u32::MAX,
    ];
    let mut size = || match r.below(4) {
        0 => r.within(1, 3000),
        1 => { let n = r.within(1, 30); r.bits(n) as u32 }
        _ => r.of(&sizes),
    };
    let (width, height) = (size(), size());
    Frame {
        width,
        height,
        upsampling: if r.once_in(12) { r.of(&[0, 3, 5, 7, 9, 16, u32::MAX]) } else { r.of(&[1, 2, 4, 8]) },
        lf_level: if r.once_in(12) { r.of(&[5, 6, u32::MAX]) } else { r.within(0, 4) },
        group_size_shift: if r.once_in(12) { r.of(&[4, 5, u32::MAX]) } else { r.within(0, 3) },
        num_passes: if r.once_in(12) { r.of(&[0, 12, u32::MAX]) } else { r.within(1, 11) },
    }
}

/// About 65,536 sections.
pub fn full(r: &mut Random) -> Frame {
    let shift = r.within(0, 3);
    let passes = r.within(1, 11);
    let rows = r.within(1, 40);
    let columns = 64000 / passes / rows;
    let columns = columns + r.within(0, columns / 40);
    let side = 128 << shift;
    Frame { width: columns * side - r.within(0, side - 1), height: rows * side, upsampling: 1, lf_level: 0, group_size_shift: shift, num_passes: passes }
}

/// For each side and number of passes the longest row of groups that has no more than 65,536 sections, and the next one.
pub fn brink() -> Vec<Frame> {
    let mut out = Vec::new();
    for (group_size_shift, num_passes) in (0..4).flat_map(|s| (1..12).map(move |p| (s, p))) {
        let row = |columns: u32| Frame { width: columns * (128 << group_size_shift), height: 128, upsampling: 1, lf_level: 0, group_size_shift, num_passes };
        let last = (1..65536).rev().find(|&c| counts(&row(c)).2 <= 65536).expect("a row that is short enough");
        out.extend([row(last), row(last + 1)]);
    }
    out
}

/// Smaller records, for minimising.
pub fn smaller(f: &Frame) -> Vec<Frame> {
    let half = |n: u32| [1.min(n), n / 2, n.saturating_sub(1)];
    let mut out = Vec::new();
    out.extend(half(f.width).map(|width| Frame { width, ..*f }));
    out.extend(half(f.height).map(|height| Frame { height, ..*f }));
    out.extend(half(f.num_passes).map(|num_passes| Frame { num_passes, ..*f }));
    out.push(Frame { upsampling: 1, ..*f });
    out.push(Frame { lf_level: 0, ..*f });
    out.push(Frame { group_size_shift: 0, ..*f });
    out.retain(|g| g != f);
    out
}

/// How many sections to write a table for: of a refused record any number.
pub fn written(f: &Frame) -> u32 {
    if refusal(f).is_none() { counts(f).2 as u32 } else { 5 }
}
