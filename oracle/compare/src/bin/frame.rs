//! Reads one frame with the proved reader and with the Rust files, wants the same of both, and says what they found, a line each.
//!
//!     frame < input                         the facts line, then the frame's bytes
//!     frame PLACE N,N,N.. < input           with a lent order, and the place after its coded form
//!
//! Lines: `header` end, frame type, encoding, last, crop, width, height; then `order` place, or `table` count, data start, total and
//! a line a section: kind, pass, group, sent, offset, size. Or `refused` number, place.

#[allow(dead_code)]
#[path = "../theirs.rs"]
mod theirs;
#[allow(dead_code)]
#[path = "../words.rs"]
mod words;

use hingevale::{Facts, Frame, FrameHeader, Kind, Refusal, Tables, TocRead};
use std::io::{Read as _, Result};
use theirs::Read;

fn facts(line: &str) -> Option<Facts> {
    let n: Vec<u32> = line.split('\t').map(|w| w.parse().ok()).collect::<Option<_>>()?;
    let [width, height, xyb, grey, extra, animation, timecodes] = n[..] else { return None };
    Some(Facts { width, height, xyb: xyb == 1, grey: grey == 1, extra, animation: animation == 1, timecodes: timecodes == 1 })
}

fn header(bytes: &[u8], f: &Facts) -> std::result::Result<(FrameHeader, u64), Refusal> {
    let n = f.extra as usize;
    let (mut name, mut upsampling, mut blending) = (vec![0; 1071], vec![0; n], vec![0; 4 * n]);
    let ours = hingevale::read_frame_header(bytes, f, &mut name, &mut upsampling, &mut blending);
    match (&ours, theirs::read_frame_header(bytes, f)) {
        (Ok((h, end)), Ok(t)) => {
            assert_eq!(words::differ(h, &t.header), None, "the two sides' headers");
            assert_eq!((*end, &name[..t.name.len()], &upsampling, &blending), (t.end, &t.name[..], &t.upsampling, &t.blending));
        }
        (Err(a), Err(b)) => assert_eq!(*a, b),
        (a, b) => panic!("{a:?} here, {:?} by the Rust", b.map(|t| t.end)),
    }
    ours
}

fn kind(k: Kind) -> String {
    match k {
        Kind::All => "All\t-\t-".into(),
        Kind::LfGlobal => "LfGlobal\t-\t-".into(),
        Kind::LfGroup(i) => format!("LfGroup\t-\t{i}"),
        Kind::HfGlobal => "HfGlobal\t-\t-".into(),
        Kind::GroupPass { pass_idx, group_idx } => format!("GroupPass\t{pass_idx}\t{group_idx}"),
    }
}

/// Reads the table from the header's end on, or with the lent order from its place on.
fn table(bytes: &[u8], frame: &Frame, end: u64, lent: Option<(Vec<u32>, u64)>) {
    const ROOM: usize = 65536;
    let (mut offsets, mut sizes, mut order, mut inverse) = (vec![0; ROOM], vec![0; ROOM], vec![0; ROOM], vec![0; ROOM]);
    let tables = Tables { offsets: &mut offsets, sizes: &mut sizes, order: &mut order, inverse: &mut inverse };
    let ours = match &lent {
        None => hingevale::read_toc(bytes, frame, end, tables),
        Some((o, place)) => hingevale::read_toc_with_order(bytes, frame, *place, o, tables),
    };
    let h = theirs::header_of(frame);
    match (ours, theirs::read_toc(bytes, &h, end, lent.as_ref().map(|(o, place)| (&o[..], *place)))) {
        (TocRead::Table(t), Read::Table(s)) => {
            let n = t.count as usize;
            assert_eq!(t, s.toc);
            assert_eq!((&offsets[..n], &sizes[..n], &order[..n], &inverse[..n]), (&s.offsets[..], &s.sizes[..], &s.order[..], &s.inverse[..]));
            println!("table\t{}\t{}\t{}", t.count, t.bookmark, t.total_byte_size);
            for i in 0..n {
                let k = hingevale::kind_of(frame, i as u32).expect("a section's kind");
                println!("{}\t{}\t{}\t{}", kind(k), order[i], offsets[i], sizes[i]);
            }
        }
        (TocRead::OrderNeeded(a), Read::OrderNeeded(b)) if a == b => println!("order\t{a}"),
        (TocRead::Refused(a), Read::Refused(b)) if a == b => println!("refused\t{}\t{}", a.number, a.place),
        (a, _) => panic!("{a:?} here, another answer by the Rust"),
    }
}

fn main() -> Result<()> {
    let mut input = Vec::new();
    std::io::stdin().read_to_end(&mut input)?;
    let cut = input.iter().position(|b| *b == b'\n').expect("a facts line");
    let f = std::str::from_utf8(&input[..cut]).ok().and_then(facts).expect("seven numbers");
    let bytes = &input[cut + 1..];
    let args: Vec<String> = std::env::args().skip(1).collect();
    let lent = match &args[..] {
        [place, order] => Some((order.split(',').map(|n| n.parse().expect("a number")).collect(), place.parse().expect("a place"))),
        _ => None,
    };
    match header(bytes, &f) {
        Ok((h, end)) => {
            let flags = [h.is_last as u32, h.have_crop as u32];
            println!("header\t{end}\t{}\t{}\t{}\t{}\t{}\t{}", h.frame_type, h.encoding, flags[0], flags[1], h.width, h.height);
            table(bytes, &h.frame(), end, lent);
        }
        Err(r) => println!("refused\t{}\t{}", r.number, r.place),
    }
    Ok(())
}
