//! Stand-in for `jxl_image`: the facts about the image that a frame header asks for, and the extensions bundle.

use jxl_bitstream::Bitstream;
use jxl_oxide_common::Bundle;

#[derive(Debug, Clone)]
pub struct ImageHeader {
    pub size: SizeHeader,
    pub metadata: ImageMetadata,
}

#[derive(Debug, Clone)]
pub struct SizeHeader {
    pub width: u32,
    pub height: u32,
}

#[derive(Debug, Clone)]
pub struct ImageMetadata {
    pub xyb_encoded: bool,
    pub grey: bool,
    pub ec_info: Vec<ExtraChannelInfo>,
    pub animation: Option<AnimationHeader>,
    pub bit_depth: BitDepth,
}

impl ImageMetadata {
    pub fn grayscale(&self) -> bool {
        self.grey
    }
}

/// Only how many there are counts.
#[derive(Debug, Clone, Copy)]
pub struct ExtraChannelInfo;

#[derive(Debug, Clone, Copy)]
pub struct AnimationHeader {
    pub have_timecodes: bool,
}

/// Left out of the comparison: a frame header copies it from the image and reads none.
#[derive(Debug, Clone, Copy, Default)]
pub struct BitDepth;

impl<Ctx> Bundle<Ctx> for BitDepth {
    type Error = jxl_bitstream::Error;

    fn parse(_: &mut Bitstream, _: Ctx) -> Result<Self, Self::Error> {
        Ok(BitDepth)
    }
}

/// Extensions: a U64 mask, a U64 bit length per set bit from the lowest up, then the exact sum is skipped; it isn't kept.
#[derive(Debug, Clone, Copy, Default)]
pub struct Extensions;

impl<Ctx> Bundle<Ctx> for Extensions {
    type Error = jxl_bitstream::Error;

    fn parse(bitstream: &mut Bitstream, _: Ctx) -> Result<Self, Self::Error> {
        let mask = bitstream.read_u64()?;
        let mut sum = 0u128;
        for _ in 0..mask.count_ones() {
            sum += bitstream.read_u64()? as u128;
        }
        bitstream.skip_bits(sum)?;
        Ok(Extensions)
    }
}
