//! Stand-in for `jxl_bitstream`, written from the rules: bits from the low end of each byte, U32, U64, f16, padding, skips.
//! It keeps up to 63 bits in a word, and where the last field began, so that a driver can say at which place a fault lies.

use std::ops::Add;

#[derive(Debug)]
pub enum Error {
    /// A field needs bits past the end.
    Io(std::io::Error),
    /// A padding bit is 1.
    NonZeroPadding,
    /// f16 exponent 31.
    InvalidFloat,
    InvalidEnum { name: &'static str, value: u32 },
    ValidationFailed(&'static str),
}

impl std::fmt::Display for Error {
    fn fmt(&self, f: &mut std::fmt::Formatter<'_>) -> std::fmt::Result {
        write!(f, "{self:?}")
    }
}

impl std::error::Error for Error {}

type Result<T> = std::result::Result<T, Error>;

#[cold]
fn out_of_bits() -> Error {
    Error::Io(std::io::ErrorKind::UnexpectedEof.into())
}

/// So many bits: a choice of a U32.
#[derive(Clone, Copy)]
pub struct U(pub usize);

/// A choice of a U32: a constant, and bits that are added to it.
#[derive(Clone, Copy)]
pub struct Choice {
    base: u32,
    bits: usize,
}

impl Add<U> for u32 {
    type Output = Choice;

    fn add(self, u: U) -> Choice {
        Choice { base: self, bits: u.0 }
    }
}

impl From<U> for Choice {
    fn from(u: U) -> Self {
        Choice { base: 0, bits: u.0 }
    }
}

impl From<u32> for Choice {
    fn from(base: u32) -> Self {
        Choice { base, bits: 0 }
    }
}

/// Signed: an even u means u / 2, an odd u means minus (u + 1) / 2.
pub fn unpack_signed(u: u32) -> i32 {
    let bit = u & 1;
    (u >> 1) as i32 ^ -(bit as i32)
}

#[derive(Clone)]
pub struct Bitstream<'a> {
    whole: &'a [u8],
    bytes: &'a [u8],
    buffer: u64,
    held: usize,
    read: usize,
    field: usize,
}

impl<'a> Bitstream<'a> {
    pub fn new(bytes: &'a [u8]) -> Self {
        Bitstream { whole: bytes, bytes, buffer: 0, held: 0, read: 0, field: 0 }
    }

    /// How many bits have been passed: the place of the next one.
    pub fn num_read_bits(&self) -> usize {
        self.read
    }

    /// The first bit of the field that was begun last (a U32's or U64's selector).
    pub fn field(&self) -> usize {
        self.field
    }

    /// Goes to a place, forward or back.
    pub fn seek(&mut self, place: usize) {
        let byte = (place / 8).min(self.whole.len());
        let field = self.field;
        *self = Bitstream { whole: self.whole, bytes: &self.whole[byte..], buffer: 0, held: 0, read: byte * 8, field };
        let _ = self.take(place - byte * 8);
    }

    #[inline]
    fn refill(&mut self) {
        if let Some((eight, _)) = self.bytes.split_first_chunk::<8>() {
            self.buffer |= u64::from_le_bytes(*eight) << self.held;
            self.bytes = &self.bytes[(63 - self.held) >> 3..];
            self.held |= 56;
        } else {
            self.refill_slowly();
        }
    }

    #[cold]
    fn refill_slowly(&mut self) {
        while self.held < 56 {
            let Some((&byte, rest)) = self.bytes.split_first() else { return };
            self.buffer |= (byte as u64) << self.held;
            self.held += 8;
            self.bytes = rest;
        }
    }

    /// The next n bits, up to 32, the earliest least significant.
    #[inline]
    fn take(&mut self, n: usize) -> Result<u32> {
        if self.held < n {
            self.refill();
            if self.held < n {
                return Err(out_of_bits());
            }
        }
        let value = (self.buffer & ((1 << n) - 1)) as u32;
        self.buffer >>= n;
        self.held -= n;
        self.read += n;
        Ok(value)
    }

    #[inline]
    fn begin(&mut self) {
        self.field = self.read;
    }

    #[inline]
    pub fn read_bits(&mut self, n: usize) -> Result<u32> {
        self.begin();
        self.take(n)
    }

    #[inline]
    pub fn read_bool(&mut self) -> Result<bool> {
        Ok(self.read_bits(1)? != 0)
    }

    /// U32: a selector of two bits, then that choice.
    #[inline]
    pub fn read_u32(
        &mut self,
        d0: impl Into<Choice>,
        d1: impl Into<Choice>,
        d2: impl Into<Choice>,
        d3: impl Into<Choice>,
    ) -> Result<u32> {
        self.begin();
        let choice = match self.take(2)? {
            0 => d0.into(),
            1 => d1.into(),
            2 => d2.into(),
            _ => d3.into(),
        };
        Ok(choice.base.wrapping_add(self.take(choice.bits)?))
    }

    /// U64: 0; 1 + u(4); 17 + u(8); or u(12), then while a one bit follows u(8) at shift 12, 20 .. 52, and u(4) at shift 60, which ends it.
    pub fn read_u64(&mut self) -> Result<u64> {
        self.begin();
        Ok(match self.take(2)? {
            0 => 0,
            1 => 1 + self.take(4)? as u64,
            2 => 17 + self.take(8)? as u64,
            _ => {
                let mut value = self.take(12)? as u64;
                let mut shift = 12;
                while self.take(1)? == 1 {
                    if shift == 60 {
                        value |= (self.take(4)? as u64) << shift;
                        break;
                    }
                    value |= (self.take(8)? as u64) << shift;
                    shift += 8;
                }
                value
            }
        })
    }

    /// f16: exponent 0 is m / 2^24, 1 to 30 is (1024 + m) * 2^(e - 25), 31 is refused; the sign of zero is kept.
    #[inline]
    pub fn read_f16_as_f32(&mut self) -> Result<f32> {
        let bits = self.read_bits(16)?;
        let sign = (bits & 0x8000) << 16;
        let exponent = bits >> 10 & 31;
        let fraction = bits & 1023;
        Ok(match exponent {
            31 => return Err(Error::InvalidFloat),
            0 => f32::from_bits(sign | (fraction as f32 / 16777216.0).to_bits()),
            _ => f32::from_bits(sign | (exponent + 112) << 23 | fraction << 13),
        })
    }

    /// Padding runs to the next byte boundary, none if already there.
    #[inline]
    pub fn zero_pad_to_byte(&mut self) -> Result<()> {
        if self.read_bits(self.read.wrapping_neg() % 8)? != 0 {
            return Err(Error::NonZeroPadding);
        }
        Ok(())
    }

    /// A skip is one field, of an exact length.
    pub fn skip_bits(&mut self, n: u128) -> Result<()> {
        self.begin();
        let left = 8 * self.whole.len() - self.read;
        if n > left as u128 {
            return Err(out_of_bits());
        }
        self.seek(self.read + n as usize);
        Ok(())
    }
}
