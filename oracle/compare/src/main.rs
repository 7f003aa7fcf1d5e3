//! Feeds the proved reader and the Rust files the same inputs and compares every answer. `compare --help` says how it is called.

mod emit;
mod frames;
mod grid_case;
mod header_case;
mod known;
mod random;
mod theirs;
mod toc_case;
mod verdict;
mod words;
mod write;

use hingevale::{Facts, Frame};
use random::Random;
use std::process::ExitCode;
use std::time::Instant;
use verdict::Tally;

const HELP: &str = "compare [--seed N] [--scale N] [--three]
    compares about N times a million inputs (12 unless told); --three adds all headers of three bytes
compare --emit oracle/sample [--seed N]
    writes a sample of the Rust's answers; tools/vectors/grid.py, header.py and toc.py put it into the files of the programs crates/replay_*";

struct Wanted {
    seed: u64,
    scale: u64,
    three: bool,
    emit: Option<String>,
}

fn wanted() -> Option<Wanted> {
    let mut w = Wanted { seed: 1, scale: 12, three: false, emit: None };
    let mut args = std::env::args().skip(1);
    while let Some(arg) = args.next() {
        match arg.as_str() {
            "--seed" => w.seed = args.next()?.parse().ok()?,
            "--scale" => w.scale = args.next()?.parse().ok()?,
            "--emit" => w.emit = Some(args.next()?),
            "--three" => w.three = true,
            _ => return None,
        }
    }
    Some(w)
}

/// Facts for the inputs that are taken all: each flag, no extra channel, one and two.
fn plain_facts() -> Vec<Facts> {
    let mut all = Vec::new();
    for (extra, flags) in [0, 1, 2].into_iter().flat_map(|n| (0..16).map(move |k| (n, k))) {
        let bit = |k: u32| flags >> k & 1 == 1;
        all.push(Facts { width: 300, height: 100, xyb: bit(0), grey: bit(1), extra, animation: bit(2), timecodes: bit(3) });
    }
    all
}

/// Every input of so many bytes.
fn all_of(n: u32, mut f: impl FnMut(Vec<u8>)) {
    (0..1u32 << (8 * n)).for_each(|k| f(k.to_le_bytes()[..n as usize].to_vec()));
}

fn short_headers(t: &mut Tally, three: bool) {
    let facts = plain_facts();
    for n in 0..=2 {
        // Of two bytes with twelve of the facts, every flag and count among them.
        let many = if n < 2 { 48 } else { 12 };
        for f in (0..many).map(|i| facts[i * 5 % 48]) {
            all_of(n, |bytes| t.take(["headers, none", "headers, all of 1 byte", "headers, all of 2 bytes"][n as usize], header_case::HeaderCase::new(f, bytes)));
        }
    }
    if three {
        all_of(3, |bytes| t.take("headers, all of 3 bytes", header_case::HeaderCase::new(facts[0], bytes)));
    }
}

/// For a frame of one section all tables of up to two bytes, and of three with some first bytes, both entries, at some places.
fn short_tables(t: &mut Tally) {
    let frame = Frame { width: 100, height: 100, upsampling: 1, lf_level: 0, group_size_shift: 1, num_passes: 1 };
    let mut both = |kind: &str, bytes: &[u8], place: u64| {
        let case = toc_case::TocCase { frame, bytes: bytes.to_vec(), flag: place, lent: None, room: [2; 4], asked: place };
        if bytes.first().is_some_and(|b| b & 1 == 1) {
            t.take(kind, toc_case::TocCase { flag: 0, lent: Some((vec![0], place)), ..case.clone() });
        }
        t.take(kind, case);
    };
    for n in 0..=2 {
        for place in [0, 1, 2, 7, 8, 9, 15, 16, 17] {
            all_of(n, |bytes| both("tables, all of 0 to 2 bytes", &bytes, place));
        }
    }
    for (first, place) in [(0, 0), (0, 7), (1, 0), (1, 1), (1, 8), (0x80, 0), (0x81, 6), (0x81, 8), (2, 1)] {
        all_of(2, |rest| both("tables of 3 bytes, the last two all", &[first, rest[0], rest[1]], place));
    }
}

/// Inputs at the length that is the bound, and one over it.
fn long_inputs(t: &mut Tally, r: &mut Random) {
    for extra in [0, 1] {
        let mut case = header_case::written(r);
        case.bytes.resize(16_777_216 + extra, 0);
        t.take("the longest inputs", case);
        let frame = frames::small(r);
        let mut case = toc_case::good(r, frame, extra == 1);
        case.bytes.resize(16_777_216 + extra, 0);
        t.take("the longest inputs", case);
    }
}

/// Both sides of 65,536 sections; with one pass just that many and one more.
fn on_the_brink(t: &mut Tally, r: &mut Random) {
    for frame in frames::brink() {
        for permuted in [false, true] {
            t.take("on both sides of 65,536 sections", toc_case::good(r, frame, permuted));
        }
        (0..20).for_each(|_| t.take("on both sides of 65,536 sections", grid_case::about(r, frame)));
    }
}

fn run(w: &Wanted) -> Tally {
    let mut t = Tally::default();
    let r = &mut Random::new(w.seed);
    short_headers(&mut t, w.three);
    short_tables(&mut t);
    long_inputs(&mut t, r);
    on_the_brink(&mut t, r);
    let part = w.scale * 10_000;
    (0..12 * part).for_each(|_| t.take("headers, written", header_case::written(r)));
    (0..16 * part).for_each(|_| t.take("headers, damaged", header_case::damaged(r)));
    (0..16 * part).for_each(|_| t.take("headers, any bytes", header_case::random(r)));
    (0..2 * part).for_each(|_| t.take("headers, about the bounds", header_case::bounds(r)));
    for _ in 0..8 * part {
        let frame = frames::small(r);
        t.take("grids of few groups", grid_case::about(r, frame));
        let frame = frames::edge(r);
        t.take("grids at the limits", grid_case::about(r, frame));
    }
    (0..2 * part).for_each(|_| { let f = frames::full(r); t.take("grids of about 65,536 sections", grid_case::about(r, f)) });
    for i in 0..6 * part {
        let frame = frames::small(r);
        t.take("tables, good", toc_case::good(r, frame, i % 2 == 1));
        let frame = frames::small(r);
        t.take("tables, damaged", toc_case::damaged(r, frame));
        t.take("tables, any bytes", toc_case::random(r));
    }
    for i in 0..w.scale * 20 {
        let frame = frames::full(r);
        t.take("tables of about 65,536 sections", if i % 3 == 2 { toc_case::damaged(r, frame) } else { toc_case::good(r, frame, i % 3 == 1) });
    }
    (0..part).for_each(|_| { let f = frames::edge(r); if frames::written(&f) < 2000 { t.take("tables of frames at the limits", toc_case::damaged(r, f)) } });
    t
}

fn main() -> ExitCode {
    let Some(w) = wanted() else {
        println!("{HELP}");
        return ExitCode::from(2);
    };
    if let Some(folder) = &w.emit {
        emit::emit(folder, w.seed).expect("the sample is written");
        return ExitCode::SUCCESS;
    }
    let start = Instant::now();
    let t = run(&w);
    t.report();
    println!("seed {}, {:.0} s", w.seed, start.elapsed().as_secs_f64());
    if t.differences == 0 { ExitCode::SUCCESS } else { ExitCode::from(1) }
}
