//! The stand-ins against the rules: the worked examples that the files' text can answer, and every f16.

use jxl_bitstream::{Bitstream, Error as Bits, unpack_signed};
use jxl_frame::data::{Toc, TocGroupKind};
use jxl_frame::header::Encoding;
use jxl_frame::{Error, FrameHeader};
use jxl_image::{BitDepth, ImageHeader, ImageMetadata, SizeHeader};
use jxl_oxide_common::Bundle;

const LISTED: [u8; 9] = [0x01, 0x28, 0x00, 0x00, 0x0C, 0x00, 0xFA, 0x50, 0x00];

fn image() -> ImageHeader {
    let metadata = ImageMetadata { xyb_encoded: false, grey: false, ec_info: vec![], animation: None, bit_depth: BitDepth };
    ImageHeader { size: SizeHeader { width: 300, height: 100 }, metadata }
}

/// The header, and the place after it or that of the field at fault.
fn read(bytes: &[u8]) -> (Result<FrameHeader, Error>, usize) {
    let mut b = Bitstream::new(bytes);
    let h = FrameHeader::parse(&mut b, &image());
    let place = if h.is_ok() { b.num_read_bits() } else { b.field() };
    (h, place)
}

#[test]
fn no_bytes_are_out_of_bits() {
    let (h, place) = read(&[]);
    assert!(matches!(h, Err(Error::Bitstream(Bits::Io(_)))));
    assert_eq!(place, 0);
}

#[test]
fn one_bit_is_all_default() {
    let (h, place) = read(&[1]);
    let h = h.unwrap();
    assert_eq!((place, h.upsampling, h.group_size_shift, h.passes.num_passes, h.width, h.height), (1, 1, 1, 1, 300, 100));
    assert!(h.is_last && h.resets_canvas && !h.save_before_ct && h.restoration_filter.gab.enabled() && h.restoration_filter.epf.enabled());
}

#[test]
fn a_modular_frame_of_six_sections() {
    let (h, place) = read(&[0x08, 0x00, 0x09]);
    let h = h.unwrap();
    assert_eq!((place, h.encoding, h.group_size_shift, h.is_last), (22, Encoding::Modular, 0, true));
    assert_eq!([0, 1, 2].map(|i| h.group_size_for(i).0), [128, 128, 44]);
    assert_eq!(1 + h.num_lf_groups() + 1 + h.num_groups() * h.passes.num_passes, 6);
}

#[test]
fn signed_numbers() {
    assert_eq!([1, 2, 3, 1_073_760_511].map(unpack_signed), [-1, 1, -2, -536_880_256]);
}

/// Offset and size of the listing's sections, by sections' kinds.
fn sections(toc: &Toc) -> Vec<(usize, u32)> {
    let sent: Vec<_> = toc.iter_bitstream_order().collect();
    let pass = |group_idx| TocGroupKind::GroupPass { pass_idx: 0, group_idx };
    let kinds = [TocGroupKind::LfGlobal, TocGroupKind::LfGroup(0), TocGroupKind::HfGlobal, pass(0), pass(1)];
    kinds.map(|k| sent[toc.group_index_bitstream_order(k)]).map(|g| (g.offset, g.size)).to_vec()
}

#[test]
fn the_listing() {
    let mut b = Bitstream::new(&LISTED);
    let h = FrameHeader::parse(&mut b, &image()).unwrap();
    let toc = Toc::parse(&mut b, &h).unwrap();
    assert_eq!(sections(&toc), [(9, 10), (19, 0), (19, 3), (22, 1000), (1022, 20)]);
    assert_eq!((toc.bookmark(), toc.total_byte_size()), (9, 1033));
}

/// A lent order goes through the text of data/toc.rs: section 0 was sent third, sections 1 and 2 first and second.
#[test]
fn another_order() {
    let (h, _) = read(&LISTED);
    let mut b = Bitstream::new(&LISTED);
    jxl_coding::lend(Some((vec![2, 0, 1, 3, 4], 8)));
    let toc = Toc::parse(&mut b, &h.unwrap()).unwrap();
    assert_eq!(sections(&toc), [(19, 3), (9, 10), (19, 0), (22, 1000), (1022, 20)]);
    assert_eq!(toc.bookmark(), 9);
}

#[test]
fn every_f16() {
    for n in 0..=u16::MAX {
        let value = Bitstream::new(&n.to_le_bytes()).read_f16_as_f32();
        let (e, m) = ((n >> 10 & 31) as i32, (n & 1023) as f64);
        let size = if e == 0 { m / 2f64.powi(24) } else { (1024.0 + m) * 2f64.powi(e - 25) };
        let due = if n >> 15 == 1 { -size } else { size };
        match value {
            Ok(x) => assert_eq!((x as f64).to_bits(), due.to_bits()),
            Err(_) => assert_eq!(e, 31),
        }
    }
}

#[test]
fn the_longest_u64() {
    let mut b = Bitstream::new(&[0xFF; 10]);
    assert_eq!((b.read_u64().unwrap(), b.num_read_bits()), (u64::MAX, 73));
    let mut b = Bitstream::new(&[0xFF; 9]);
    assert!(b.read_u64().is_err());
    assert_eq!(b.field(), 0);
}
