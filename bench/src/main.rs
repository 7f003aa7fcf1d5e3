//! Times the proved reader against the Rust files over the stand-ins: the same input, the same machine, one run.
//! Usage: bench                 a table of nanoseconds and ratios
//!        bench CASE SIDE N     N runs of one case of one side (`ours`, `theirs` or `none`), for counting instructions
mod inputs;

use hingevale::{Facts, Frame, Layout, Tables, TocRead};
use inputs::Choices;
use jxl_bitstream::Bitstream;
use jxl_frame::FrameHeader as TheirHeader;
use jxl_frame::data::{Toc as TheirToc, TocGroupKind};
use jxl_image::{
    AnimationHeader, BitDepth, ExtraChannelInfo, ImageHeader, ImageMetadata, SizeHeader,
};
use jxl_oxide_common::Bundle;
use std::hint::black_box;
use std::time::Instant;

fn image(f: &Facts) -> ImageHeader {
    ImageHeader {
        size: SizeHeader {
            width: f.width,
            height: f.height,
        },
        metadata: ImageMetadata {
            xyb_encoded: f.xyb,
            grey: f.grey,
            ec_info: vec![ExtraChannelInfo; f.extra as usize],
            animation: f.animation.then_some(AnimationHeader {
                have_timecodes: f.timecodes,
            }),
            bit_depth: BitDepth,
        },
    }
}

/// A header of the Rust with a frame's numbers.
fn their_header(f: &Frame) -> TheirHeader {
    let plain = inputs::facts(1, 1, 0);
    let mut h = TheirHeader::parse(&mut Bitstream::new(&[1]), &image(&plain)).expect("all default");
    h.width = f.width;
    h.height = f.height;
    h.group_size_shift = f.group_size_shift;
    h
}

/// One case: a name, how often it is run at a time, and both sides, each of which answers a number that must be the same.
struct Case {
    name: String,
    runs: u32,
    ours: Box<dyn FnMut() -> u64>,
    theirs: Box<dyn FnMut() -> u64>,
}

fn header_case(name: &str, bytes: Vec<u8>, f: Facts) -> Case {
    let n = f.extra as usize;
    let (mut title, mut upsampling, mut blending) = (vec![0; 1071], vec![0; n], vec![0; 4 * n]);
    let (input, known) = (bytes.clone(), image(&f));
    Case {
        name: name.into(),
        runs: 4000,
        ours: Box::new(move || {
            let (h, end) = hingevale::read_frame_header(
                black_box(&bytes),
                &f,
                &mut title,
                &mut upsampling,
                &mut blending,
            )
            .expect("accepted");
            end + h.num_passes as u64 + h.name_length as u64 + h.width as u64
        }),
        theirs: Box::new(move || {
            let mut b = Bitstream::new(black_box(&input));
            let h = TheirHeader::parse(&mut b, &known).expect("accepted");
            b.num_read_bits() as u64
                + h.passes.num_passes as u64
                + h.name.0.len() as u64
                + h.width as u64
        }),
    }
}

fn toc_case(count: u32, permuted: bool, choices: Choices) -> Case {
    let f = inputs::frame(count);
    let count = hingevale::section_count(&f).expect("a frame");
    let (bytes, order) = (
        inputs::table(count, permuted, choices),
        inputs::order(count),
    );
    let n = count as usize;
    let (mut offsets, mut sizes, mut sent, mut inverse) =
        (vec![0; n], vec![0; n], vec![0; n], vec![0; n]);
    let (input, h, wide) = (
        bytes.clone(),
        their_header(&f),
        order.iter().map(|&x| x as usize).collect::<Vec<_>>(),
    );
    Case {
        name: format!(
            "table of {count} sections{}{}",
            if permuted { ", permuted" } else { "" },
            if choices == Choices::Even {
                ""
            } else {
                ", uneven"
            }
        ),
        runs: (400_000 / (count + 100)).max(4),
        ours: Box::new(move || {
            let t = Tables {
                offsets: &mut offsets,
                sizes: &mut sizes,
                order: &mut sent,
                inverse: &mut inverse,
            };
            let read = if permuted {
                hingevale::read_toc_with_order(black_box(&bytes), &f, 1, black_box(&order), t)
            } else {
                hingevale::read_toc(black_box(&bytes), &f, 0, t)
            };
            let TocRead::Table(toc) = read else {
                panic!("refused")
            };
            toc.count as u64 + toc.bookmark + toc.total_byte_size
        }),
        theirs: Box::new(move || {
            let mut b = Bitstream::new(black_box(&input));
            if permuted {
                // The order goes over as it is; the copy is part of what the Rust's decoder would make.
                jxl_coding::lend(Some((black_box(&wide).clone(), 1)));
            }
            let toc = TheirToc::parse(&mut b, &h).expect("accepted");
            count as u64 + toc.bookmark() as u64 + toc.total_byte_size() as u64
        }),
    }
}

/// A sample and a pass to the number of their section. Kept: each side looks it up in what it made of the frame once, the layout and the Rust's
/// table. Else both begin at the frame's numbers; the proved reader judges them first, the Rust doesn't.
fn look_up_case(kept: bool) -> Case {
    let f = inputs::frame(65536);
    let count = hingevale::section_count(&f).expect("a frame");
    let h = their_header(&f);
    let toc = TheirToc::parse(
        &mut Bitstream::new(&inputs::table(count, false, Choices::Even)),
        &h,
    )
    .expect("accepted");
    let layout = Layout::of(&f).expect("a frame");
    let (mut x, mut u) = (0u32, 0u32);
    let width = f.width;
    Case {
        name: format!(
            "a sample to its section{}",
            if kept { "" } else { ", from the frame" }
        ),
        runs: 40000,
        ours: Box::new(move || {
            x = (x + 12347) % width;
            let section = if kept {
                black_box(&layout).section_of_sample(black_box(x), 77, 0)
            } else {
                hingevale::section_of_sample(black_box(&f), black_box(x), 77, 0)
            };
            section.expect("inside") as u64
        }),
        theirs: Box::new(move || {
            u = (u + 12347) % width;
            let h = black_box(&h);
            let group_idx = h.group_idx_from_coord(black_box(u), 77).expect("inside");
            if kept {
                black_box(&toc).group_index_bitstream_order(TocGroupKind::GroupPass {
                    pass_idx: 0,
                    group_idx,
                }) as u64
            } else {
                let (groups, lf_groups) = (h.num_groups() as u64, h.num_lf_groups() as u64);
                if groups == 1 && h.passes.num_passes == 1 {
                    0
                } else {
                    1 + lf_groups + 1 + black_box(0) * groups + group_idx as u64
                }
            }
        }),
    }
}

fn cases() -> Vec<Case> {
    let (rich, known) = inputs::rich();
    let mut all = vec![
        header_case("header, all default", vec![1], inputs::facts(300, 100, 0)),
        header_case("header, rich", rich, known),
    ];
    for count in [1, 100, 10000, 65536] {
        all.push(toc_case(count, false, Choices::Even));
        all.push(toc_case(count, true, Choices::Even));
    }
    all.push(look_up_case(true));
    all.push(look_up_case(false));
    all.push(toc_case(10000, false, Choices::Uneven));
    all
}

/// Nanoseconds a run of so many.
fn time(runs: u32, f: &mut dyn FnMut() -> u64) -> f64 {
    let begun = Instant::now();
    for _ in 0..runs {
        black_box(f());
    }
    begun.elapsed().as_secs_f64() * 1e9 / runs as f64
}

/// The best of many times of each side, taken in turn, so that both meet the same moods of the machine.
fn both(c: &mut Case) -> (f64, f64) {
    let mut best = (f64::MAX, f64::MAX);
    for _ in 0..45 {
        best.0 = best.0.min(time(c.runs, &mut c.ours));
        best.1 = best.1.min(time(c.runs, &mut c.theirs));
    }
    best
}

fn main() {
    let words: Vec<String> = std::env::args().skip(1).collect();
    if let [case, side, n] = &words[..] {
        let mut c = cases().swap_remove(case.parse().expect("a case's number"));
        let n: u32 = n.parse().expect("a number of runs");
        for _ in 0..n {
            match side.as_str() {
                "ours" => black_box((c.ours)()),
                "theirs" => black_box((c.theirs)()),
                _ => 0,
            };
        }
        return;
    }
    println!(
        "{:<40} {:>14} {:>14} {:>8}",
        "case", "proved, ns", "Rust, ns", "ratio"
    );
    for mut c in cases() {
        assert_eq!((c.ours)(), (c.theirs)(), "{}", c.name);
        let (a, b) = both(&mut c);
        println!("{:<40} {a:>14.1} {b:>14.1} {:>8.2}", c.name, a / b);
    }
}
