//! header.rs, filter.rs and data/toc.rs of jxl-frame 0.13.3, whose text is taken in unchanged from ../original, over stand-ins for the
//! crates beside it. What is written here is the error type, and a look at the two things that the text keeps private.

pub mod header {
    include!("../../original/src/header.rs");

    impl FrameFlags {
        /// All 64 bits.
        pub fn all(&self) -> u64 {
            self.0
        }
    }

    /// The private test of two rectangles.
    pub fn aabb(a: (u32, u32, u32, u32), b: (u32, u32, u32, u32)) -> bool {
        is_aabb_collides(a, b)
    }
}

pub mod filter {
    include!("../../original/src/filter.rs");
}

#[allow(dead_code)]
pub mod data {
    include!("../../original/src/data/toc.rs");
}

pub use header::FrameHeader;

#[derive(Debug)]
pub enum Error {
    Bitstream(jxl_bitstream::Error),
    Decoder(jxl_coding::Error),
}

impl From<jxl_bitstream::Error> for Error {
    fn from(e: jxl_bitstream::Error) -> Self {
        Error::Bitstream(e)
    }
}

impl From<jxl_coding::Error> for Error {
    fn from(e: jxl_coding::Error) -> Self {
        Error::Decoder(e)
    }
}

pub type Result<T> = std::result::Result<T, Error>;
