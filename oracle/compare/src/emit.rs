//! A sample of the Rust's answers as files for the replay programs, so that they are compared without any Rust at hand. What is due is
//! made of the Rust's answers alone; of the proved reader only the types are used. The forms are those of crates/replay_header,
//! replay_toc and replay_grid, whose files have the sample behind the vectors of tools/vectors; the scripts there put it in. Where a line
//! also asks something that the Rust has no answer to, the rules' answer stands there: the refused header's zero record, the numbers 14 for
//! an index that isn't there, and 13 for a table that was never filled.

use crate::frames;
use crate::grid_case::{self, GridCase, four, wraps};
use crate::header_case::{self, HeaderCase};
use crate::random::Random;
use crate::theirs::{self, Read, Sections, header_of};
use crate::toc_case::{self, TocCase};
use hingevale::{Facts, Frame, FrameHeader, Kind, Refusal};
use std::fs;
use std::path::Path;

/// A file of records and the lines that are due.
#[derive(Default)]
struct Pair {
    records: Vec<u8>,
    lines: String,
    count: usize,
}

impl Pair {
    fn word(&mut self, n: u32) {
        self.records.extend(n.to_le_bytes());
    }

    fn line(&mut self, cells: &[u64], end: &str) {
        let text: Vec<String> = cells.iter().map(u64::to_string).collect();
        self.lines += &text.join("\t");
        self.lines += end;
        self.count += 1;
    }

    fn store(&self, folder: &str, name: &str) -> std::io::Result<()> {
        let home = Path::new(folder);
        fs::create_dir_all(home)?;
        fs::write(home.join(format!("{name}.stdin")), &self.records)?;
        fs::write(home.join(format!("{name}.stdout")), &self.lines)?;
        println!("{name}: {} answers, {} and {} bytes", self.count, self.records.len(), self.lines.len());
        Ok(())
    }
}

// ---- headers

/// All numbers of a zero record in one, as the replay program makes it of what stands beside a refusal.
const ZERO_RECORD: u64 = 3947225321640440;

fn mixed(words: impl IntoIterator<Item = u64>) -> u64 {
    words.into_iter().fold(0, |sum, n| sum % 4294967291 * 1000003 + n % 4294967291)
}

/// A buffer of the program: what is due, then its pattern.
fn buffer(used: impl Iterator<Item = u64>, room: usize, fill: u64) -> u64 {
    mixed(used.chain(std::iter::repeat(fill)).take(room))
}

/// 0 and the number, or 1 and k for -1 - k.
fn signed(z: i32) -> [u64; 2] {
    if z < 0 { [1, (-1 - z as i64) as u64] } else { [0, z as u64] }
}

/// The numbers of a record that a line shows.
fn shown(h: &FrameHeader, answers: &[bool; 7]) -> Vec<u64> {
    let mut out = vec![h.frame_type as u64, h.encoding as u64, h.flags];
    out.extend(answers[2..].iter().map(|&b| b as u64));
    let mut more = |words: &[u32]| out.extend(words.iter().map(|&w| w as u64));
    more(&[h.do_ycbcr as u32, h.encoded_color_channels]);
    more(&h.jpeg_upsampling);
    more(&[h.upsampling, h.group_size_shift, h.x_qm_scale, h.b_qm_scale, h.num_passes, h.num_ds]);
    more(&h.shift);
    more(&h.downsample);
    more(&h.last_pass);
    more(&[h.lf_level, h.have_crop as u32]);
    out.extend(signed(h.x0));
    out.extend(signed(h.y0));
    let mut more = |words: &[u32]| out.extend(words.iter().map(|&w| w as u64));
    more(&[h.width, h.height, h.blend_mode, h.alpha_channel, h.clamp as u32, h.source, h.duration, h.timecode, h.is_last as u32]);
    more(&[h.save_as_reference, h.resets_canvas as u32, h.save_before_ct as u32, h.name_length]);
    more(&[answers[0] as u32, answers[1] as u32, h.encoded_color_channels, h.resets_canvas as u32]);
    more(&[h.width, h.height, h.upsampling, h.lf_level, h.group_size_shift, h.num_passes]);
    more(&[h.gabor_enabled as u32, h.epf_enabled as u32, h.epf_iters]);
    out
}

fn floats(h: &FrameHeader) -> impl Iterator<Item = u64> {
    let all = [&h.gabor[..], &h.epf_sharp, &h.epf_scale, &h.epf_sigma, &[h.epf_sigma_modular]].concat();
    all.into_iter().map(|x| x.to_bits() as u64)
}

fn flags(f: &Facts) -> u32 {
    f.xyb as u32 | (f.grey as u32) << 1 | (f.animation as u32) << 2 | (f.timecodes as u32) << 3
}

/// A run on the input, or where `cut` on each of its prefixes and then on the whole.
fn header(out: &mut Pair, c: &HeaderCase, cut: bool) {
    let f = &c.facts;
    let lent = [c.lent[0], c.lent[1].min(260), c.lent[2].min(1030)].map(|n| n as u32);
    let words = [cut as u32, f.width, f.height, flags(f), f.extra, lent[0], lent[1], lent[2], c.bytes.len() as u32, 0, 0, 0, 0, 0, 0, 0];
    words.into_iter().for_each(|w| out.word(w));
    out.records.extend(&c.bytes);
    let first = if cut { 0 } else { c.bytes.len() };
    (first..=c.bytes.len()).for_each(|n| header_line(out, f, &c.bytes[..n]));
}

fn header_line(out: &mut Pair, f: &Facts, bytes: &[u8]) {
    let (mut cells, name, upsampling, blending) = match theirs::read_frame_header(bytes, f) {
        Ok(h) => {
            let numbers = shown(&h.header, &h.answers);
            let mut cells = vec![0, 0, h.end];
            cells.extend(&numbers);
            cells.push(mixed(numbers.into_iter().chain(floats(&h.header))));
            (cells, h.name, h.upsampling, h.blending)
        }
        Err(r) => (vec![r.number as u64, r.place, 0, ZERO_RECORD], vec![], vec![], vec![]),
    };
    cells.push(buffer(name.iter().map(|&b| b as u64), 1080, 0xA5));
    cells.push(buffer(upsampling.iter().map(|&w| w as u64), 260, 0xA5A5A5A5));
    cells.push(buffer(blending.iter().map(|&w| w as u64), 1030, 0xA5A5A5A5));
    out.line(&cells, "\n");
}

// ---- tables of contents

fn table_sum(words: impl IntoIterator<Item = u64>) -> u64 {
    words.into_iter().fold(0, |sum, w| sum % 1000003 * 31 + w)
}

fn numbers_of(k: Kind) -> [u32; 3] {
    match k {
        Kind::All => [0, 0, 0],
        Kind::LfGlobal => [1, 0, 0],
        Kind::LfGroup(i) => [2, 0, i],
        Kind::HfGlobal => [3, 0, 0],
        Kind::GroupPass { pass_idx, group_idx } => [4, pass_idx, group_idx],
    }
}

/// The sums of the four tables, and a section's offset, size, sent number, and the section of that sent number.
fn tables(s: Option<&Sections>, count: usize, section: usize) -> (Vec<u64>, Vec<u64>) {
    let wide = |v: &[u32]| table_sum(v.iter().map(|&w| w as u64));
    match s {
        Some(s) => {
            let sums = vec![table_sum(s.offsets.iter().copied()), wide(&s.sizes), wide(&s.order), wide(&s.inverse)];
            let found = [0, s.offsets[section], s.sizes[section] as u64, 0, s.order[section] as u64, 0, s.inverse[section] as u64];
            (sums, found.to_vec())
        }
        None => (vec![table_sum(std::iter::repeat_n(7, count)); 4], vec![0, 7, 7, 13, 0, 13, 0]),
    }
}

fn toc(out: &mut Pair, c: &TocCase, r: &mut Random) {
    let f = &c.frame;
    let h = header_of(f);
    let kinds = theirs::kinds(&h);
    let count = kinds.len();
    let section = r.below(count as u64) as usize;
    let kind = r.below(count as u64) as usize;
    let (x, y) = (r.below(h.color_sample_width() as u64) as u32, r.below(h.color_sample_height() as u64) as u32);
    let pass_idx = r.below(f.num_passes as u64) as u32;
    let group_idx = h.group_idx_from_coord(x, y).expect("a sample inside");
    let sampled = kinds.iter().position(|k| *k == Kind::GroupPass { pass_idx, group_idx }).unwrap_or(0);
    let (which, place, order) = match &c.lent {
        None => (0, c.flag, &[][..]),
        Some((order, place)) => (1, *place, &order[..]),
    };
    let [k, kp, kg] = numbers_of(kinds[kind]);
    let (bytes, n) = (c.bytes.len() as u32, count as u32);
    let words = [
        which, f.width, f.height, f.upsampling, f.lf_level, f.group_size_shift, f.num_passes, place as u32, (place >> 32) as u32, bytes, bytes, 0,
        n, n, n, n, 0, order.len() as u32, section as u32, x, y, pass_idx, k, kp, kg, 0, 0, 0, 0, 0, 0, 0,
    ];
    words.into_iter().for_each(|w| out.word(w));
    out.records.extend(&c.bytes);
    out.records.resize(out.records.len() + 64 - c.bytes.len(), 0);
    (0..16).for_each(|i| out.word(order.get(i).copied().unwrap_or(0)));
    let read = theirs::read_toc(&c.bytes, &h, c.flag, c.lent.as_ref().map(|(o, p)| (&o[..], *p)));
    let (answer, filled) = match &read {
        Read::Table(s) => (vec![0, s.toc.count as u64, s.toc.bookmark, s.toc.total_byte_size], Some(s)),
        Read::OrderNeeded(p) => (vec![1, *p], None),
        Read::Refused(Refusal { number, place }) => (vec![2, *number as u64, *place], None),
    };
    let (sums, found) = tables(filled, count, section);
    let [a, b, d] = numbers_of(kinds[section]).map(|n| n as u64);
    let asked = vec![0, kind as u64, 0, a, b, d, 0, sampled as u64];
    out.line(&[answer, sums, asked, found].concat(), "\t\n");
}

/// Fits a record: at most 64 bytes, 16 numbers of an order, tables as long as they need be; and the Rust can be asked.
fn fits(c: &mut TocCase) -> bool {
    let count = frames::counts(&c.frame).2 as usize;
    c.room = [count; 4];
    let bit = |p: u64| c.bytes.get(p as usize / 8).is_some_and(|b| b >> (p % 8) & 1 == 1);
    c.bytes.len() <= 64 && (c.lent.is_none() || count <= 16 && bit(c.flag)) && c.flag <= 8 * c.bytes.len() as u64 && c.rules().is_none()
}

// ---- grids

fn grid(out: &mut Pair, c: &GridCase, other: (u32, u32, u32, u32)) {
    let (f, i, region) = (&c.frame, c.index, four(&c.region));
    let words = [f.width, f.height, f.upsampling, f.lf_level, f.group_size_shift, f.num_passes, c.upsampling, i, c.x, c.y];
    words.into_iter().for_each(|w| out.word(w));
    [region.0, region.1, region.2, region.3, other.0, other.1, other.2, other.3].into_iter().for_each(|w| out.word(w));
    let h = header_of(f);
    let (w, t, side, lf_side) = (h.color_sample_width(), h.color_sample_height(), h.group_dim(), h.lf_group_dim());
    let (columns, lf_columns, groups, lf) = (h.groups_per_row(), h.lf_groups_per_row(), h.num_groups(), h.num_lf_groups());
    let sections = theirs::kinds(&h).len() as u32;
    let mut cells = vec![w, t, side, lf_side, columns, groups / columns, lf_columns, lf / lf_columns, groups, lf, sections, 0, 0];
    let counts = [h.sample_width(c.upsampling), h.sample_height(c.upsampling), w, t, side, lf_side, columns, lf_columns, groups, lf, sections];
    cells.extend(counts.into_iter().flat_map(|n| [n, 0]));
    let mut tile = |known: bool, side: u32, columns: u32, size: &dyn Fn() -> (u32, u32), touches: &dyn Fn() -> bool| {
        if !known {
            cells.extend([0, 0, 0, 0, 14, 0, 0, 14, 0, 14]);
            return;
        }
        let (width, height) = size();
        cells.extend([i % columns * side, i / columns * side, width, height, 0, width, height, 0, touches() as u32, 0]);
    };
    tile(i < groups, side, columns, &|| h.group_size_for(i), &|| h.is_group_collides_region(i, region));
    tile(i < lf, lf_side, lf_columns, &|| h.lf_group_size_for(i), &|| h.is_lf_group_collides_region(i, region));
    cells.extend(if i < groups { [h.lf_group_idx_from_group_idx(i), 0] } else { [0, 14] });
    cells.extend(h.group_idx_from_coord(c.x, c.y).map_or([0, 14], |n| [n, 0]));
    cells.push(jxl_frame::header::aabb(region, other) as u32);
    out.line(&cells.into_iter().map(|n| n as u64).collect::<Vec<_>>(), "\n");
}

/// The Rust can be asked everything: no sum or product of its wraps.
fn asks(c: &GridCase, other: (u32, u32, u32, u32)) -> bool {
    if frames::refusal(&c.frame).is_some() {
        return false;
    }
    let (f, i, region) = (&c.frame, c.index, four(&c.region));
    let h = header_of(f);
    let shift = 7 + f.group_size_shift;
    let far = (c.y >> shift) as u64 * h.groups_per_row() as u64 + (c.x >> shift) as u64 > u32::MAX as u64;
    let group = |side: u32, columns: u32| (i % columns * side, i / columns * side, side, side);
    let wide = i < h.num_groups() && wraps(region, group(h.group_dim(), h.groups_per_row()))
        || i < h.num_lf_groups() && wraps(region, group(h.lf_group_dim(), h.lf_groups_per_row()));
    !far && !wide && !wraps(region, other)
}

/// Records until a file of this many bytes is full.
fn fill(limit: usize, mut one: impl FnMut(&mut Pair)) -> Pair {
    let mut out = Pair::default();
    while out.records.len() < limit {
        one(&mut out);
    }
    out
}

pub fn emit(folder: &str, seed: u64) -> std::io::Result<()> {
    let r = &mut Random::new(seed);
    let headers = fill(65_000, |out| {
        let c = match r.below(4) {
            0 => header_case::written(r),
            1 => header_case::random(r),
            _ => header_case::damaged(r),
        };
        if c.bytes.len() <= 90 && c.facts.extra <= 20 {
            header(out, &c, r.once_in(10));
        }
    });
    headers.store(folder, "header")?;
    let tocs = fill(65_300, |out| {
        let frame: Frame = frames::small(r);
        let permuted = r.coin();
        let mut c = match r.below(3) {
            0 => toc_case::good(r, frame, permuted),
            1 => toc_case::random(r),
            _ => toc_case::damaged(r, frame),
        };
        if fits(&mut c) {
            toc(out, &c, r);
        }
    });
    tocs.store(folder, "toc")?;
    let grids = fill(64_800, |out| {
        let frame = if r.coin() { frames::small(r) } else { frames::edge(r) };
        let c = grid_case::about(r, frame);
        let other = four(&grid_case::about(r, frame).region);
        if asks(&c, other) {
            grid(out, &c, other);
        }
    });
    grids.store(folder, "grid")
}
