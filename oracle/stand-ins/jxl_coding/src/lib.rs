//! Stand-in for `jxl_coding`. The entropy-coded order of sections isn't decoded: a caller lends the order and the bit place after its
//! coded form, and reading goes on there. What the order means is left to the text of data/toc.rs.

use jxl_bitstream::Bitstream;
use std::cell::RefCell;

#[derive(Debug)]
pub enum Error {
    Bitstream(jxl_bitstream::Error),
    /// No order was lent, or not one of that many numbers.
    NoOrder,
}

impl From<jxl_bitstream::Error> for Error {
    fn from(e: jxl_bitstream::Error) -> Self {
        Error::Bitstream(e)
    }
}

thread_local! {
    static LENT: RefCell<Option<(Vec<usize>, usize)>> = const { RefCell::new(None) };
}

/// Lends an order to the next table of this thread, and the place after its coded form; or takes back what was lent.
pub fn lend(order: Option<(Vec<usize>, usize)>) {
    LENT.set(order);
}

pub struct Decoder {
    order: Vec<usize>,
}

impl Decoder {
    pub fn parse(bitstream: &mut Bitstream, _contexts: u32) -> Result<Self, Error> {
        let (order, place) = LENT.take().ok_or(Error::NoOrder)?;
        bitstream.seek(place);
        Ok(Decoder { order })
    }

    pub fn begin(&mut self, _: &mut Bitstream) -> Result<(), Error> {
        Ok(())
    }

    pub fn finalize(&self) -> Result<(), Error> {
        Ok(())
    }
}

pub fn read_permutation(_: &mut Bitstream, decoder: &mut Decoder, size: u32, _skip: u32) -> Result<Vec<usize>, Error> {
    let order = std::mem::take(&mut decoder.order);
    if order.len() != size as usize {
        return Err(Error::NoOrder);
    }
    Ok(order)
}
