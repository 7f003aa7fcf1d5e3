//! One frame header: the record, its end, refusals with their place, and every word of the three lent buffers.

use crate::random::Random;
use crate::theirs::{self, Headed};
use crate::verdict::{Case, Verdict, due, hex, refused, ruled, same};
use crate::words::differ;
use crate::write;
use hingevale::{Facts, FrameHeader, Refusal};

const LONGEST: usize = 16_777_216;
const LARGEST: u32 = 1_073_741_824;
const NAME: usize = 1071;
const FILL: u8 = 0xA5;
const FILLS: u32 = 0xA5A5A5A5;

#[derive(Clone)]
pub struct HeaderCase {
    pub facts: Facts,
    pub bytes: Vec<u8>,
    /// How much is lent of name, upsampling and blending.
    pub lent: [usize; 3],
}

impl HeaderCase {
    pub fn new(facts: Facts, bytes: Vec<u8>) -> Self {
        let n = facts.extra as usize;
        HeaderCase { facts, bytes, lent: [NAME, n, 4 * n] }
    }

    /// With room behind what is needed.
    pub fn roomy(mut self, r: &mut Random) -> Self {
        self.lent.iter_mut().for_each(|n| *n += r.below(6) as usize);
        self
    }

    /// 2, 1 and 3 are judged before anything is read; the Rust has no such bounds.
    fn rules(&self) -> Option<u32> {
        let f = &self.facts;
        let n = f.extra as usize;
        let sized = |x: u32| (1..=LARGEST).contains(&x);
        if self.bytes.len() > LONGEST {
            Some(2)
        } else if !sized(f.width) || !sized(f.height) || f.extra > 256 {
            Some(1)
        } else if self.lent[0] < NAME || self.lent[1] < n || self.lent[2] < 4 * n {
            Some(3)
        } else {
            None
        }
    }
}

/// Each buffer begins with what is due, and goes on as it was lent.
fn buffer<T: PartialEq + Copy>(what: &str, now: &[T], used: &[T], fill: T) -> Result<(), String> {
    if now[..used.len()] != *used {
        return Err(format!("{what}: other words than the Rust's"));
    }
    if now[used.len()..].iter().any(|x| *x != fill) {
        return Err(format!("{what}: a place is written that isn't used"));
    }
    Ok(())
}

fn compare(ours: &Result<(FrameHeader, u64), Refusal>, theirs: &Result<Headed, Refusal>) -> Result<(), String> {
    match (ours, theirs) {
        (Ok((a, end)), Ok(b)) => {
            if let Some(field) = differ(a, &b.header) {
                return Err(field);
            }
            same("end", *end, b.end)?;
            same("is_keyframe", a.is_keyframe(), b.answers[0])?;
            same("can_reference", a.can_reference(), b.answers[1])?;
            let flags = [a.noise(), a.patches(), a.splines(), a.use_lf_frame(), a.skip_adaptive_lf_smoothing()];
            same("flag questions", &flags[..], &b.answers[2..])
        }
        (Err(a), Err(b)) => same("refusal", *a, *b),
        (Ok(_), Err(b)) => Err(format!("accepted, and the Rust {b:?}")),
        (Err(a), Ok(_)) => Err(format!("{a:?}, and the Rust accepts")),
    }
}

fn accepted(h: &Headed) -> String {
    let kind = ["regular", "LF", "reference", "skip progressive"][h.header.frame_type as usize];
    let name = if std::str::from_utf8(&h.name).is_err() { ", its name not UTF-8" } else { "" };
    format!("both accept, {kind} frame{name}")
}

impl Case for HeaderCase {
    fn judge(&self) -> Verdict {
        let [a, b, c] = self.lent;
        let (mut name, mut upsampling, mut blending) = (vec![FILL; a], vec![FILLS; b], vec![FILLS; c]);
        let ours = hingevale::read_frame_header(&self.bytes, &self.facts, &mut name, &mut upsampling, &mut blending);
        let checked = |used: (&[u8], &[u32], &[u32])| {
            buffer("name", &name, used.0, FILL)?;
            buffer("upsampling", &upsampling, used.1, FILLS)?;
            buffer("blending", &blending, used.2, FILLS)
        };
        if let Some(number) = self.rules() {
            due("refusal", ours.err(), Some(refused(number)))?;
            checked((&[], &[], &[]))?;
            return Ok(ruled(number));
        }
        let theirs = theirs::read_frame_header(&self.bytes, &self.facts);
        compare(&ours, &theirs)?;
        match &theirs {
            Ok(h) => checked((&h.name, &h.upsampling, &h.blending))?,
            Err(_) => checked((&[], &[], &[]))?,
        }
        Ok(match &theirs {
            Err(r) => format!("both refuse, {}", r.number),
            Ok(h) => accepted(h),
        })
    }

    fn smaller(&self) -> Vec<Self> {
        let mut out = Vec::new();
        let n = self.bytes.len();
        for keep in [n / 2, n.saturating_sub(1)] {
            if keep < n {
                out.push(HeaderCase { bytes: self.bytes[..keep].to_vec(), ..self.clone() });
            }
        }
        let f = self.facts;
        let mut simpler = vec![
            Facts { width: 1, ..f }, Facts { height: 1, ..f }, Facts { extra: f.extra / 2, ..f }, Facts { extra: f.extra.saturating_sub(1), ..f },
            Facts { xyb: false, ..f }, Facts { grey: false, ..f }, Facts { animation: false, ..f }, Facts { timecodes: false, ..f },
        ];
        simpler.retain(|g| *g != f);
        out.extend(simpler.into_iter().map(|facts| HeaderCase { facts, ..self.clone() }));
        for i in (0..8 * n).rev().filter(|i| self.bytes[i / 8] >> (i % 8) & 1 == 1) {
            let mut bytes = self.bytes.clone();
            bytes[i / 8] ^= 1 << (i % 8);
            out.push(HeaderCase { bytes, ..self.clone() });
        }
        out
    }

    fn show(&self) -> String {
        format!("{:?}, lent {:?}, {} bytes {}", self.facts, self.lent, self.bytes.len(), hex(&self.bytes[..self.bytes.len().min(400)]))
    }
}

/// Facts by chance: small sizes and those at the bounds, few extra channels, rarely many.
pub fn facts(r: &mut Random) -> Facts {
    let edges = [1, 2, 7, 8, 100, 255, 256, 257, 300, 2303, 2304, 18687, 18688, LARGEST - 1, LARGEST];
    let mut size = || if r.coin() { r.of(&edges) } else { r.within(1, 5000) };
    let (width, height) = (size(), size());
    let extra = match r.below(16) {
        0..=7 => 0,
        8..=11 => 1,
        12 | 13 => r.within(2, 4),
        14 => r.within(5, 20),
        _ if r.once_in(8) => r.of(&[255, 256]),
        _ => 2,
    };
    Facts { width, height, xyb: r.coin(), grey: r.coin(), extra, animation: r.coin(), timecodes: r.coin() }
}

/// A header whose every field is written, in bytes that may go on.
pub fn written(r: &mut Random) -> HeaderCase {
    let f = facts(r);
    let w = write::header(r, &f);
    let mut bytes = w.bytes;
    let more = r.below(3) as usize;
    bytes.extend(r.bytes(more));
    HeaderCase::new(f, bytes).roomy(r)
}

/// A written one with bits turned over, cut short, or both.
pub fn damaged(r: &mut Random) -> HeaderCase {
    let mut case = written(r);
    let how = r.below(3);
    if how != 0 {
        for _ in 0..r.within(1, 3) {
            let bit = r.below(8 * case.bytes.len() as u64) as usize;
            case.bytes[bit / 8] ^= 1 << (bit % 8);
        }
    }
    if how != 1 {
        let keep = r.below(case.bytes.len() as u64 + 1) as usize;
        case.bytes.truncate(keep);
    }
    case
}

pub fn random(r: &mut Random) -> HeaderCase {
    let n = if r.once_in(50) { r.within(60, 1400) } else { r.within(0, 60) } as usize;
    let f = facts(r);
    let mut bytes = r.bytes(n);
    if !r.once_in(8) {
        // Not all default.
        bytes.iter_mut().take(1).for_each(|b| *b &= 0xFE);
    }
    HeaderCase::new(f, bytes).roomy(r)
}

/// Facts and buffers on both sides of their bounds.
pub fn bounds(r: &mut Random) -> HeaderCase {
    let mut case = if r.coin() { written(r) } else { random(r) };
    match r.below(6) {
        0 => case.facts.width = r.of(&[0, LARGEST, LARGEST + 1, u32::MAX]),
        1 => case.facts.height = r.of(&[0, LARGEST, LARGEST + 1, u32::MAX]),
        2 => {
            case.facts.extra = r.of(&[256, 257, u32::MAX]);
            case.lent[1..].copy_from_slice(&[256, 1024]);
        }
        k => {
            let needed = [NAME, case.facts.extra as usize, 4 * case.facts.extra as usize][k as usize - 3];
            case.lent[k as usize - 3] = r.of(&[needed, needed.saturating_sub(1), needed / 2]);
        }
    }
    case
}
