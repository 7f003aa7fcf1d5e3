//! What both sides read: headers and tables, written bit by bit.
use hingevale::{Facts, Frame};

/// Bits, from the low end of each byte.
#[derive(Default)]
pub struct Bits {
    bytes: Vec<u8>,
    at: usize,
}

impl Bits {
    pub fn put(&mut self, n: u32, value: u64) {
        for i in 0..n {
            if self.at % 8 == 0 {
                self.bytes.push(0);
            }
            if value >> i & 1 == 1 {
                self.bytes[self.at / 8] |= 1 << (self.at % 8);
            }
            self.at += 1;
        }
    }

    /// A U32's selector and what follows it.
    fn choice(&mut self, selector: u64, n: u32, value: u64) {
        self.put(2, selector);
        self.put(n, value);
    }

    fn pad(&mut self) {
        while self.at % 8 != 0 {
            self.put(1, 0);
        }
    }
}

pub fn facts(width: u32, height: u32, extra: u32) -> Facts {
    Facts {
        width,
        height,
        xyb: false,
        grey: false,
        extra,
        animation: true,
        timecodes: true,
    }
}

/// A header with four extra channels, eight passes, a crop, a name of 40 bytes, own filter values and two extensions.
pub fn rich() -> (Vec<u8>, Facts) {
    let mut b = Bits::default();
    b.put(1, 0); // all_default
    b.put(2, 0); // a regular frame
    b.put(1, 0); // VarDCT
    b.choice(2, 8, 0x83 - 17); // flags
    b.put(1, 0); // do_ycbcr
    b.put(2, 1); // upsampling
    for selector in [0, 1, 2, 3] {
        b.put(2, selector);
    }
    b.choice(3, 3, 4); // eight passes
    b.choice(3, 1, 1); // num_ds 4
    for shift in [0, 1, 2, 3, 0, 1, 2] {
        b.put(2, shift);
    }
    for selector in [3, 2, 1, 0] {
        b.put(2, selector);
    }
    for last in [0, 1, 2] {
        b.put(2, last);
    }
    b.choice(3, 3, 7);
    b.put(1, 1); // have_crop
    b.choice(0, 8, 3); // x0
    b.choice(1, 11, 9); // y0
    b.choice(2, 14, 4000); // width
    b.choice(1, 11, 1000); // height
    for _ in 0..5 {
        b.put(2, 2); // Blend, for the colour and four channels
        b.put(2, 1); // alpha channel
        b.put(1, 1); // clamp
        b.put(2, 2); // source
    }
    b.choice(2, 8, 77); // duration
    b.put(32, 123456); // timecode
    b.put(1, 0); // is_last
    b.put(2, 1); // save_as_reference
    b.choice(2, 5, 24); // a name of 40 bytes
    for i in 0..40 {
        b.put(8, b'a' as u64 + i % 26);
    }
    b.put(1, 0); // own filters
    b.put(1, 1);
    b.put(1, 1); // own Gabor weights
    for i in 0..6 {
        b.put(16, 0x2C00 + i);
    }
    b.put(2, 3); // three iterations
    b.put(1, 1); // own sharpness
    for i in 0..8 {
        b.put(16, 0x3000 + i);
    }
    b.put(1, 1); // own scales
    for i in 0..3 {
        b.put(16, 0x4000 + i);
    }
    b.put(32, 0);
    b.put(1, 1); // own sigma
    for i in 0..4 {
        b.put(16, 0x3800 + i);
    }
    b.choice(0, 0, 0); // no extensions of the filters
    b.choice(1, 4, 2); // two extensions: mask 3
    b.choice(1, 4, 15);
    b.choice(2, 8, 100);
    b.put(16 + 117, 0);
    b.pad();
    (b.bytes, facts(6000, 4000, 4))
}

/// A frame of so many sections: one group of one pass, or a row of groups.
pub fn frame(sections: u32) -> Frame {
    let mut groups = sections;
    if sections > 1 {
        groups = sections - 2;
        while 2 + groups.div_ceil(8) + groups > sections {
            groups -= 1;
        }
    }
    Frame {
        width: groups * 128,
        height: 128,
        upsampling: 1,
        lf_level: 0,
        group_size_shift: 0,
        num_passes: 1,
    }
}

/// An order that isn't the identity: every number times an odd number that has no divisor in common with the count.
pub fn order(count: u32) -> Vec<u32> {
    let mut step = 40503u64;
    let gcd = |mut a: u64, mut b: u64| {
        while b != 0 {
            (a, b) = (b, a % b);
        }
        a
    };
    while gcd(step, count as u64) != 1 {
        step += 1;
    }
    (0..count as u64)
        .map(|i| (i * step % count as u64) as u32)
        .collect()
}

/// How the choices of a table's sizes follow each other: one pattern over and over, which a processor learns, or none.
#[derive(Clone, Copy, PartialEq)]
pub enum Choices {
    Even,
    Uneven,
}

/// A table of so many sizes of all four choices, at place 0: the flag, padding, sizes, padding.
pub fn table(count: u32, permuted: bool, choices: Choices) -> Vec<u8> {
    let mut b = Bits::default();
    b.put(1, permuted as u64);
    b.pad();
    for i in 0..count as u64 {
        let turn = match choices {
            Choices::Even => i % 8,
            Choices::Uneven => {
                (i.wrapping_mul(0x9E3779B97F4A7C15) ^ (i << 7)).wrapping_mul(0xBF58476D1CE4E5B9)
                    >> 61
            }
        };
        match turn {
            7 => b.choice(2, 22, i * 31 % (1 << 22)),
            3 | 5 => b.choice(1, 14, i * 17 % (1 << 14)),
            6 if i % 64 == 6 => b.choice(3, 30, i),
            _ => b.choice(0, 10, i % 1024),
        }
    }
    b.pad();
    b.bytes
}
