//! A writer of frame headers and tables of contents whose fields are chosen by chance, so that every field is reached. It follows
//! the order of the fields, and judges nothing: what comes out may be refused (a blend mode 5, a weights' sum of -1/4).

use crate::random::Random;
use hingevale::Facts;

/// Base and bits of each choice of a U32.
type Choices = [(u32, u32); 4];

const UPSAMPLINGS: Choices = [(1, 0), (2, 0), (4, 0), (8, 0)];
const PLACES: Choices = [(0, 8), (256, 11), (2304, 14), (18688, 30)];
const PASSES: Choices = [(1, 0), (2, 0), (3, 0), (4, 3)];
const DOWNSAMPLES: Choices = [(0, 0), (1, 0), (2, 0), (3, 1)];
const LASTS: Choices = [(0, 0), (1, 0), (2, 0), (0, 3)];
const MODES: Choices = [(0, 0), (1, 0), (2, 0), (3, 2)];
const ALPHAS: Choices = [(0, 0), (1, 0), (2, 0), (3, 3)];
const DURATIONS: Choices = [(0, 0), (1, 0), (0, 8), (0, 32)];
const NAMES: Choices = [(0, 0), (0, 4), (16, 5), (48, 10)];
pub const SIZES: Choices = [(0, 10), (1024, 14), (17408, 22), (4211712, 30)];

#[derive(Default)]
pub struct Writer {
    pub bytes: Vec<u8>,
    pub bits: usize,
}

impl Writer {
    pub fn u(&mut self, n: u32, x: u64) -> u64 {
        for i in 0..n {
            if self.bits % 8 == 0 {
                self.bytes.push(0);
            }
            *self.bytes.last_mut().unwrap() |= ((x >> i & 1) as u8) << (self.bits % 8);
            self.bits += 1;
        }
        x
    }

    fn flag(&mut self, b: bool) -> bool {
        self.u(1, b as u64) == 1
    }

    fn coin(&mut self, r: &mut Random) -> bool {
        self.flag(r.coin())
    }

    fn some(&mut self, r: &mut Random, n: u32) -> u64 {
        let x = some_bits(r, n);
        self.u(n, x)
    }

    /// Any of the four choices.
    pub fn any(&mut self, r: &mut Random, c: &Choices) -> u32 {
        let k = r.below(4) as usize;
        self.choose(r, c, k)
    }

    fn choose(&mut self, r: &mut Random, c: &Choices, k: usize) -> u32 {
        self.u(2, k as u64);
        c[k].0 + self.some(r, c[k].1) as u32
    }

    /// A value, by the first choice that can say it.
    fn value(&mut self, c: &Choices, x: u32) -> u32 {
        let k = (0..4).find(|&k| c[k].0 <= x && ((x - c[k].0) as u64) < 1 << c[k].1).expect("a value of this field");
        self.u(2, k as u64);
        c[k].0 + self.u(c[k].1, (x - c[k].0) as u64) as u32
    }

    /// The shortest form, or at times the one with chunks.
    fn u64(&mut self, r: &mut Random, x: u64) -> u64 {
        let long = r.once_in(4);
        if x == 0 && !long {
            self.u(2, 0);
        } else if (1..=16).contains(&x) && !long {
            self.u(2, 1);
            self.u(4, x - 1);
        } else if (17..=272).contains(&x) && !long {
            self.u(2, 2);
            self.u(8, x - 17);
        } else {
            self.u(2, 3);
            self.u(12, x & 4095);
            let mut shift = 12;
            while shift < 64 && (x >> shift != 0 || r.once_in(4)) {
                self.u(1, 1);
                self.u(if shift == 60 { 4 } else { 8 }, x >> shift & if shift == 60 { 15 } else { 255 });
                shift += 8;
            }
            if shift < 64 {
                self.u(1, 0);
            }
        }
        x
    }

    fn half(&mut self, r: &mut Random) {
        let x = match r.below(8) {
            0 => r.of(&[0, 0x8000, 0xB400, 1, 0x8001, 0x3400, 0x7BFF, 0xFBFF, 0x0400, 0x03FF]),
            1 if r.once_in(6) => 0x7C00 | r.bits(1) << 15 | r.bits(10),
            _ => r.bits(1) << 15 | r.below(31) << 10 | r.bits(10),
        };
        self.u(16, x);
    }

    fn extensions(&mut self, r: &mut Random) {
        let mask = if r.once_in(4) { 1 << r.below(64) | r.bits(8) & r.bits(8) } else { 0 };
        self.u64(r, mask);
        let mut sum = 0u64;
        for _ in 0..mask.count_ones() {
            let length = if r.once_in(100) { r.next() } else { r.below(30) };
            sum = sum.saturating_add(self.u64(r, length));
        }
        for _ in 0..sum.min(200) {
            self.some(r, 1);
        }
    }

    fn pad(&mut self) {
        while self.bits % 8 != 0 {
            self.u(1, 0);
        }
    }
}

/// All bits 0, all 1, one 1, or any.
fn some_bits(r: &mut Random, n: u32) -> u64 {
    match r.below(6) {
        _ if n == 0 => 0,
        0 => 0,
        1 => (1u64 << n) - 1,
        2 => 1 << r.below(n as u64),
        _ => r.bits(n),
    }
}

/// Two weights whose sum is -1/4 or close to it.
fn near_quarter(w: &mut Writer, r: &mut Random) {
    let pairs = [
        (0xB400, 0), (0xB400, 1), (0xB400, 0x8001), (0, 0xB400), (0xB000, 0xB000), (0xB800, 0x3400), (0xB400, 0x8000),
        (0xB3FF, 0x8001), (0xB401, 0x0C00), (0xB200, 0xAC00), (0xB400, 0x0400), (0xBC00, 0x3A00),
    ];
    let (a, b) = r.of(&pairs);
    w.u(16, a);
    w.u(16, b);
}

fn blending(w: &mut Writer, r: &mut Random, extra: bool, colour: Option<u32>, covers: bool) -> u32 {
    let mode = if r.once_in(2) { w.value(&MODES, 0) } else { w.any(r, &MODES) };
    let alpha = extra && (mode == 2 || mode == 3);
    if alpha {
        w.any(r, &ALPHAS);
    }
    if alpha || mode == 4 {
        w.coin(r);
    }
    if colour.unwrap_or(mode) != 0 || !covers {
        w.some(r, 2);
    }
    mode
}

fn filter(w: &mut Writer, r: &mut Random, modular: bool) {
    if w.coin(r) {
        return;
    }
    if w.coin(r) && w.coin(r) {
        for _ in 0..3 {
            if r.once_in(8) {
                near_quarter(w, r);
            } else {
                w.half(r);
                w.half(r);
            }
        }
    }
    if w.some(r, 2) != 0 {
        if !modular && w.coin(r) {
            (0..8).for_each(|_| w.half(r));
        }
        if w.coin(r) {
            (0..3).for_each(|_| w.half(r));
            w.some(r, 32);
        }
        if w.coin(r) {
            (0..if modular { 3 } else { 4 }).for_each(|_| w.half(r));
        }
        if modular {
            w.half(r);
        }
    }
    w.extensions(r);
}

/// The crop: any, or about the image's own size. Answers whether it covers the image.
fn crop(w: &mut Writer, r: &mut Random, f: &Facts, reference: bool) -> bool {
    let own = r.coin();
    let mut corner = [0i64; 2];
    if !reference {
        for c in &mut corner {
            let u = if own { w.value(&PLACES, r.within(0, 5)) } else { w.any(r, &PLACES) };
            *c = if u % 2 == 1 { -(u as i64 + 1) / 2 } else { u as i64 / 2 };
        }
    }
    let mut covers = true;
    for (size, at) in [f.width, f.height].into_iter().zip(corner) {
        let n = if own { w.value(&PLACES, (size + r.within(0, 3)).saturating_sub(1)) } else { w.any(r, &PLACES) };
        covers &= at <= 0 && at + n as i64 >= size as i64;
    }
    covers
}

fn passes(w: &mut Writer, r: &mut Random) {
    let n = w.any(r, &PASSES);
    if n == 1 {
        return;
    }
    let ds = w.any(r, &DOWNSAMPLES);
    (1..n).for_each(|_| _ = w.some(r, 2));
    (0..ds).for_each(|_| _ = w.any(r, &UPSAMPLINGS));
    (0..ds).for_each(|_| _ = w.any(r, &LASTS));
}

/// A header that isn't all default.
pub fn header(r: &mut Random, f: &Facts) -> Writer {
    let mut w = Writer::default();
    w.u(1, 0);
    let kind = if r.coin() { w.u(2, 0) } else { w.some(r, 2) };
    let (lf, reference) = (kind == 1, kind == 2);
    let modular = w.coin(r);
    let flags = match r.below(4) {
        0 => 0,
        1 => r.of(&[1, 2, 16, 32, 128, 131, 272, 273, 4095, 4096]),
        2 => r.bits(8),
        _ => { let n = r.within(1, 64); r.bits(n) }
    };
    w.u64(r, flags);
    let ycbcr = !f.xyb && w.coin(r);
    if flags & 32 == 0 {
        if ycbcr {
            (0..3).for_each(|_| _ = w.some(r, 2));
        }
        (0..1 + f.extra).for_each(|_| _ = w.any(r, &UPSAMPLINGS));
    }
    if modular {
        w.some(r, 2);
    }
    if f.xyb && !modular {
        w.some(r, 3);
        w.some(r, 3);
    }
    if !reference {
        passes(&mut w, r);
    }
    let mut covers = true;
    if lf {
        w.some(r, 2);
    } else if w.coin(r) {
        covers = crop(&mut w, r, f, reference);
    }
    closing(&mut w, r, f, kind, covers);
    name(&mut w, r);
    filter(&mut w, r, modular);
    w.extensions(r);
    w
}

/// From the blending to save_before_ct.
fn closing(w: &mut Writer, r: &mut Random, f: &Facts, kind: u64, covers: bool) {
    let normal = kind == 0 || kind == 3;
    let (mut mode, mut duration, mut last, mut saved) = (0, 0, false, 0);
    if normal {
        mode = blending(w, r, f.extra > 0, None, covers);
        (0..f.extra).for_each(|_| _ = blending(w, r, true, Some(mode), covers));
        if f.animation {
            duration = if r.coin() { w.value(&DURATIONS, 0) } else { w.any(r, &DURATIONS) };
            if f.timecodes {
                w.some(r, 32);
            }
        }
        last = w.coin(r);
    }
    if kind != 1 && !last {
        saved = w.some(r, 2);
    }
    let referred = !last && (duration == 0 || saved != 0) && kind != 1;
    if kind == 2 || (mode == 0 && covers && referred) {
        w.coin(r);
    }
}

/// Often none, sometimes UTF-8, sometimes any bytes, rarely a long one.
fn name(w: &mut Writer, r: &mut Random) {
    let n = match r.below(8) {
        0..=3 => w.value(&NAMES, 0),
        4..=6 => { let k = 1 + r.below(2) as usize; w.choose(r, &NAMES, k) }
        _ if r.once_in(20) => w.value(&NAMES, r.of(&[47, 48, 49, 1070, 1071])),
        _ => w.value(&NAMES, r.within(1, 60)),
    };
    let plain = r.coin();
    for _ in 0..n {
        let byte = if plain { r.within(32, 126) as u64 } else { r.bits(8) };
        w.u(8, byte);
    }
}

/// A table: any bits before the place, the flag, bits of an order, padding, sizes, padding. Answers the writer and the place after the order.
pub fn table(r: &mut Random, count: u32, place: u32, flag: u64, coded: u32, tame: bool) -> (Writer, u64) {
    let mut w = Writer::default();
    for _ in 0..place {
        w.some(r, 1);
    }
    w.u(1, flag);
    for _ in 0..coded {
        w.some(r, 1);
    }
    let after = w.bits as u64;
    w.pad();
    for _ in 0..count {
        if tame {
            w.value(&SIZES, r.below(40) as u32);
        } else {
            w.any(r, &SIZES);
        }
    }
    w.pad();
    (w, after)
}
