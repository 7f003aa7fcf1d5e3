//! One table of contents: both entries, the four lent tables to their last word, and the look-ups on what was read.

use crate::frames;
use crate::random::Random;
use crate::theirs::{self, Read, Sections, header_of};
use crate::verdict::{Case, Verdict, due, hex, refused, ruled, same};
use crate::write;
use hingevale::{Frame, Kind, Refusal, Tables, TocRead};

const LONGEST: usize = 16_777_216;
const FILL: u32 = 0xA5A5A5A5;
const FILLS: u64 = 0xA5A5A5A5_A5A5A5A5;

#[derive(Clone)]
pub struct TocCase {
    pub frame: Frame,
    pub bytes: Vec<u8>,
    /// Where the flag is.
    pub flag: u64,
    /// An order, and the place at which reading goes on: the second entry.
    pub lent: Option<(Vec<u32>, u64)>,
    /// How many words are lent of offsets, sizes, order, inverse.
    pub room: [usize; 4],
    /// Sections and samples that are asked for afterwards.
    pub asked: u64,
}

fn is_order(order: &[u32], count: usize) -> bool {
    let mut seen = vec![false; count];
    order.len() == count && order.iter().all(|&n| (n as usize) < count && !std::mem::replace(&mut seen[n as usize], true))
}

/// The same order of the first sections alone, as far as there are as many.
fn shorter(order: &[u32], count: u32) -> Vec<u32> {
    let first = &order[..order.len().min(count as usize)];
    first.iter().map(|n| first.iter().filter(|m| *m < n).count() as u32).collect()
}

/// The four tables, filled with a pattern before they are lent.
struct Words {
    offsets: Vec<u64>,
    sizes: Vec<u32>,
    order: Vec<u32>,
    inverse: Vec<u32>,
}

fn behind<T: PartialEq>(what: &str, now: &[T], used: &[T], fill: T) -> Result<(), String> {
    if now[..used.len()] != *used {
        let i = (0..used.len()).find(|&i| now[i] != used[i]).unwrap();
        return Err(format!("{what}: another word than the Rust's at {i}"));
    }
    if now[used.len()..].iter().any(|w| *w != fill) {
        return Err(format!("{what}: a word is written that isn't used"));
    }
    Ok(())
}

impl Words {
    fn new(room: &[usize; 4]) -> Self {
        Words { offsets: vec![FILLS; room[0]], sizes: vec![FILL; room[1]], order: vec![FILL; room[2]], inverse: vec![FILL; room[3]] }
    }

    fn lend(&mut self) -> Tables<'_> {
        Tables { offsets: &mut self.offsets, sizes: &mut self.sizes, order: &mut self.order, inverse: &mut self.inverse }
    }

    fn hold(&self, s: &Sections) -> Result<(), String> {
        behind("offsets", &self.offsets, &s.offsets, FILLS)?;
        behind("sizes", &self.sizes, &s.sizes, FILL)?;
        behind("order", &self.order, &s.order, FILL)?;
        behind("inverse", &self.inverse, &s.inverse, FILL)
    }

    fn untouched(&self) -> Result<(), String> {
        behind("offsets", &self.offsets, &[], FILLS)?;
        behind("sizes", &self.sizes, &[], FILL)?;
        behind("order", &self.order, &[], FILL)?;
        behind("inverse", &self.inverse, &[], FILL)
    }
}

impl TocCase {
    fn place(&self) -> u64 {
        self.lent.as_ref().map_or(self.flag, |l| l.1)
    }

    /// What the rules refuse before the table is read: 2, 8, 9, 10, 3, 11, 13. Of these the Rust gives 10 alone, where its counts don't wrap.
    pub fn rules(&self) -> Option<u32> {
        if self.bytes.len() > LONGEST {
            return Some(2);
        }
        match frames::refusal(&self.frame) {
            Some(10) if !self.wraps() => return None,
            Some(n) => return Some(n),
            None => {}
        }
        let count = frames::counts(&self.frame).2 as usize;
        if self.room.iter().any(|&n| n < count) {
            Some(3)
        } else if self.place() > 8 * self.bytes.len() as u64 {
            Some(11)
        } else if self.lent.as_ref().is_some_and(|(order, _)| !is_order(order, count)) {
            Some(13)
        } else {
            None
        }
    }

    fn wraps(&self) -> bool {
        let (groups, lf, all) = frames::counts(&self.frame);
        groups.max(lf).max(all) > u32::MAX as u64
    }

    fn flag_is_one(&self) -> bool {
        self.bytes.get(self.flag as usize / 8).is_some_and(|b| b >> (self.flag % 8) & 1 == 1)
    }

    fn ours(&self, words: &mut Words) -> TocRead {
        match &self.lent {
            None => hingevale::read_toc(&self.bytes, &self.frame, self.flag, words.lend()),
            Some((order, place)) => hingevale::read_toc_with_order(&self.bytes, &self.frame, *place, order, words.lend()),
        }
    }

    /// Every section of a small table, some of a large one: place, size, kind, sent number, and back.
    fn look_up(&self, words: &Words, s: &Sections) -> Result<(), String> {
        let f = &self.frame;
        let count = s.toc.count as usize;
        let kinds = theirs::kinds(&header_of(f));
        let mut r = Random::new(self.asked);
        let asked: Vec<usize> = if count <= 6 { (0..count).collect() } else { (0..4).map(|_| r.below(count as u64) as usize).collect() };
        for i in asked {
            let n = i as u32;
            same("section_at", hingevale::section_at(f, &words.offsets, &words.sizes, n), Ok((s.offsets[i], s.sizes[i])))?;
            same("kind_of", hingevale::kind_of(f, n), Ok(kinds[i]))?;
            same("section_of_kind", hingevale::section_of_kind(f, kinds[i]), Ok(n))?;
            same("sent_of_section", hingevale::sent_of_section(f, &words.order[..count], n), Ok(s.order[i]))?;
            same("section_of_sent", hingevale::section_of_sent(f, &words.inverse[..count], s.order[i]), Ok(n))?;
        }
        self.samples(&mut r, &kinds)
    }

    /// A sample inside is looked up through the Rust's `group_idx_from_coord` to its kind's section; kinds and samples that aren't there are 14.
    fn samples(&self, r: &mut Random, kinds: &[Kind]) -> Result<(), String> {
        let f = &self.frame;
        let h = header_of(f);
        let (w, t, passes) = (h.color_sample_width(), h.color_sample_height(), f.num_passes);
        let layout = hingevale::Layout::of(f).expect("an accepted frame");
        for _ in 0..3 {
            let (x, y, pass_idx) = (r.below(w as u64) as u32, r.below(t as u64) as u32, r.below(passes as u64) as u32);
            let group_idx = h.group_idx_from_coord(x, y).expect("a sample inside");
            let kind = if kinds.len() == 1 { Kind::All } else { Kind::GroupPass { pass_idx, group_idx } };
            let section = kinds.iter().position(|k| *k == kind).unwrap() as u32;
            same("section_of_sample", hingevale::section_of_sample(f, x, y, pass_idx), Ok(section))?;
            same("section_of_sample by the layout", layout.section_of_sample(x, y, pass_idx), Ok(section))?;
            for (x, y, p) in [(w, y, pass_idx), (x, t, pass_idx), (x, y, passes), (u32::MAX, y, 0)] {
                due("section_of_sample", hingevale::section_of_sample(f, x, y, p), Err(refused(14)))?;
                due("section_of_sample by the layout", layout.section_of_sample(x, y, p), Err(refused(14)))?;
            }
        }
        let (groups, lf, count) = (h.num_groups(), h.num_lf_groups(), kinds.len() as u32);
        let past = |group_idx, pass_idx| Kind::GroupPass { pass_idx, group_idx };
        let absent = if count == 1 { Kind::LfGlobal } else { Kind::All };
        for kind in [absent, Kind::LfGroup(lf), past(groups, 0), past(0, passes), past(u32::MAX, u32::MAX)] {
            due("section_of_kind", hingevale::section_of_kind(f, kind), Err(refused(14)))?;
        }
        due("kind_of", hingevale::kind_of(f, count), Err(refused(14)))
    }
}

impl Case for TocCase {
    fn judge(&self) -> Verdict {
        let mut words = Words::new(&self.room);
        let ours = self.ours(&mut words);
        if let Some(number) = self.rules() {
            due("answer", ours, TocRead::Refused(refused(number)))?;
            words.untouched()?;
            return Ok(ruled(number));
        }
        if self.lent.is_some() && !self.flag_is_one() {
            return Ok("outside, no flag before the order".into());
        }
        let lent = self.lent.as_ref().map(|(order, place)| (&order[..], *place));
        let entry = match &lent {
            None => "no order lent",
            Some((order, _)) if order.iter().enumerate().all(|(i, &n)| order.get(n as usize) == Some(&(i as u32))) => "an order lent that is its own inverse",
            Some(_) => "an order lent that isn't its own inverse",
        };
        match theirs::read_toc(&self.bytes, &header_of(&self.frame), self.flag, lent) {
            Read::Table(s) => {
                same("answer", ours, TocRead::Table(s.toc))?;
                words.hold(&s)?;
                self.look_up(&words, &s)?;
                Ok(format!("{entry}: both accept"))
            }
            Read::OrderNeeded(place) => {
                same("answer", ours, TocRead::OrderNeeded(place))?;
                words.untouched()?;
                Ok(format!("{entry}: both want an order"))
            }
            Read::Refused(r @ Refusal { number, .. }) => {
                same("answer", ours, TocRead::Refused(r))?;
                words.untouched()?;
                Ok(format!("{entry}: both refuse, {number}"))
            }
        }
    }

    fn smaller(&self) -> Vec<Self> {
        let mut out = Vec::new();
        let n = self.bytes.len();
        for keep in [n / 2, n.saturating_sub(1)] {
            if keep < n {
                out.push(TocCase { bytes: self.bytes[..keep].to_vec(), ..self.clone() });
            }
        }
        for frame in frames::smaller(&self.frame) {
            let lent = self.lent.as_ref().map(|(order, place)| (shorter(order, frames::written(&frame)), *place));
            out.push(TocCase { frame, lent, ..self.clone() });
        }
        for i in (0..(8 * n).min(2000)).rev().filter(|i| self.bytes[i / 8] >> (i % 8) & 1 == 1) {
            let mut bytes = self.bytes.clone();
            bytes[i / 8] ^= 1 << (i % 8);
            out.push(TocCase { bytes, ..self.clone() });
        }
        out
    }

    fn show(&self) -> String {
        let bytes = hex(&self.bytes[..self.bytes.len().min(400)]);
        let lent = self.lent.as_ref().map(|(order, place)| (&order[..order.len().min(50)], order.len(), *place));
        format!("{:?}, flag at {}, lent (order, length, place) {lent:?}, room {:?}, {} bytes {bytes}", self.frame, self.flag, self.room, self.bytes.len())
    }
}

fn tables(r: &mut Random, count: usize) -> [usize; 4] {
    [0; 4].map(|_| count + r.below(3) as usize)
}

/// A table of this frame as it should be; with an order where asked.
pub fn good(r: &mut Random, frame: Frame, permuted: bool) -> TocCase {
    let count = frames::written(&frame);
    let place = r.within(0, 40);
    let coded = if permuted { r.within(0, 30) } else { 0 };
    let tame = r.coin();
    let (w, after) = write::table(r, count, place, permuted as u64, coded, tame);
    let mut bytes = w.bytes;
    let more = r.below(3) as usize;
    bytes.extend(r.bytes(more));
    let lent = permuted.then(|| (r.order(count), after));
    TocCase { frame, bytes, flag: place as u64, lent, room: tables(r, count as usize), asked: r.next() }
}

/// Cut short, bits turned over, padding set, an order that is none, tables one short, places past the end, flags of 1 with no order.
pub fn damaged(r: &mut Random, frame: Frame) -> TocCase {
    let permuted = r.coin();
    let mut case = good(r, frame, permuted);
    let bits = 8 * case.bytes.len() as u64;
    match r.below(8) {
        0 | 1 => case.bytes.truncate(r.below(bits / 8 + 1) as usize),
        2 | 3 => (0..r.within(1, 3)).for_each(|_| { let b = r.below(bits) as usize; case.bytes[b / 8] ^= 1 << (b % 8) }),
        4 => { let b = case.place().max(1) + r.below(8); if b < bits { case.bytes[b as usize / 8] |= 1 << (b % 8) } }
        5 => spoil_order(r, &mut case),
        6 => { let k = r.below(4) as usize; case.room[k] = case.room[k].saturating_sub(3) }
        _ => {
            let past = r.of(&[bits - 1, bits, bits + 1, bits + 8, u64::MAX]);
            match &mut case.lent {
                Some(l) => l.1 = past,
                None if r.coin() => case.flag = past,
                None => { let b = case.flag as usize; case.bytes[b / 8] |= 1 << (b % 8) }
            }
        }
    }
    case
}

fn spoil_order(r: &mut Random, case: &mut TocCase) {
    let Some((order, _)) = &mut case.lent else { return };
    let n = order.len() as u64;
    match r.below(4) {
        0 => order[r.below(n) as usize] = r.below(n) as u32,
        1 => order[r.below(n) as usize] = r.of(&[n as u32, u32::MAX]),
        2 => _ = order.pop(),
        _ => order.push(n as u32),
    }
}

/// Any bytes, at any place.
pub fn random(r: &mut Random) -> TocCase {
    let frame = if r.coin() { frames::small(r) } else { Frame { width: r.within(1, 256), height: r.within(1, 128), upsampling: 1, lf_level: 0, group_size_shift: 0, num_passes: 1 } };
    let count = frames::counts(&frame).2 as u32;
    let n = r.within(0, 3 * count.min(40) + 4) as usize;
    let mut bytes = r.bytes(n);
    if r.coin() {
        // Small sizes, so that some get to the end.
        bytes.iter_mut().skip(1).step_by(2).for_each(|b| *b &= 0xF0);
    }
    let lent = r.coin().then(|| (r.order(count), r.below(8 * n as u64 + 2)));
    let mut flag = r.below(16);
    if lent.is_some() && n > 0 {
        // The Rust asks for an order where the flag is 1.
        flag = r.below(8 * n as u64);
        bytes[flag as usize / 8] |= 1 << (flag % 8);
    }
    TocCase { frame, bytes, flag, lent, room: tables(r, count as usize), asked: r.next() }
}
