//! The rules' worked examples and the refusals, against the static library.
use hingevale::*;

const EXAMPLE: [u8; 9] = [0x01, 0x28, 0x00, 0x00, 0x0C, 0x00, 0xFA, 0x50, 0x00];

fn facts() -> Facts {
    Facts {
        width: 300,
        height: 100,
        xyb: false,
        grey: false,
        extra: 0,
        animation: false,
        timecodes: false,
    }
}

fn read(s: &[u8], f: &Facts) -> Result<(FrameHeader, u64), Refusal> {
    let n = f.extra as usize;
    read_frame_header(s, f, &mut [0; 1071], &mut vec![0; n], &mut vec![0; 4 * n])
}

/// Four tables of so many words, each with a value of its own.
struct Lent {
    offsets: Vec<u64>,
    sizes: Vec<u32>,
    order: Vec<u32>,
    inverse: Vec<u32>,
}

impl Lent {
    fn of(n: usize) -> Lent {
        Lent {
            offsets: vec![91; n],
            sizes: vec![92; n],
            order: vec![93; n],
            inverse: vec![94; n],
        }
    }

    fn lend(&mut self) -> Tables<'_> {
        Tables {
            offsets: &mut self.offsets,
            sizes: &mut self.sizes,
            order: &mut self.order,
            inverse: &mut self.inverse,
        }
    }

    fn unchanged(&self) -> bool {
        self.offsets.iter().all(|&x| x == 91)
            && self.sizes.iter().all(|&x| x == 92)
            && self.order.iter().all(|&x| x == 93)
            && self.inverse.iter().all(|&x| x == 94)
    }
}

fn refused<T: std::fmt::Debug>(r: Result<T, Refusal>) -> (u32, u64) {
    let r = r.unwrap_err();
    (r.number, r.place)
}

#[test]
fn an_empty_input_and_all_defaults() {
    assert_eq!(refused(read(&[], &facts())), (4, 0));
    let (h, end) = read(&[1], &facts()).unwrap();
    assert_eq!(end, 1);
    assert_eq!((h.frame_type, h.encoding, h.flags), (0, 0, 0));
    assert_eq!(
        (h.width, h.height, h.upsampling, h.num_passes),
        (300, 100, 1, 1)
    );
    assert_eq!((h.x_qm_scale, h.b_qm_scale, h.group_size_shift), (2, 2, 1));
    let xyb = Facts {
        xyb: true,
        ..facts()
    };
    assert_eq!(read(&[1], &xyb).unwrap().0.x_qm_scale, 3);
    assert!(h.is_last && h.is_keyframe() && !h.can_reference());
    assert!(h.gabor_enabled && h.epf_enabled);
    assert_eq!(h.epf_iters, 2);
    let (a, b) = (0.115169525f32, 0.061248592f32);
    assert_eq!(h.gabor, [a, b, a, b, a, b]);
    assert_eq!(h.epf_sharp[1], 1.0 / 7.0);
    assert_eq!(h.epf_scale, [40.0, 5.0, 3.5]);
    assert_eq!(h.epf_sigma, [0.46, 0.9, 6.5, 2.0 / 3.0]);
    assert_eq!(h.epf_sigma_modular, 1.0);
}

#[test]
fn a_modular_frame() {
    let (h, end) = read(&[0x08, 0x00, 0x09], &facts()).unwrap();
    assert_eq!(end, 22);
    assert_eq!((h.encoding, h.group_size_shift), (1, 0));
    assert!(h.is_last);
    let f = h.frame();
    let widths: Vec<u32> = (0..3).map(|i| group_rect(&f, i).unwrap().width).collect();
    assert_eq!(widths, [128, 128, 44]);
    assert_eq!(section_count(&f), Ok(6));
    assert_eq!(refused(group_rect(&f, 3)), (14, 0));
}

#[test]
fn the_example_frame() {
    let (h, end) = read(&EXAMPLE, &facts()).unwrap();
    assert_eq!(end, 1);
    let f = h.frame();
    let mut t = Lent::of(7);
    let toc = read_toc(&EXAMPLE, &f, end, t.lend());
    let table = Toc {
        count: 5,
        bookmark: 9,
        total_byte_size: 1033,
    };
    assert_eq!(toc, TocRead::Table(table));
    assert_eq!(t.offsets, [9, 19, 19, 22, 1022, 91, 91]);
    assert_eq!(t.sizes, [10, 0, 3, 1000, 20, 92, 92]);
    assert_eq!(t.order, [0, 1, 2, 3, 4, 93, 93]);
    assert_eq!(t.inverse, [0, 1, 2, 3, 4, 94, 94]);
    let kinds: Vec<Kind> = (0..5).map(|i| kind_of(&f, i).unwrap()).collect();
    let pass = |group_idx| Kind::GroupPass {
        pass_idx: 0,
        group_idx,
    };
    assert_eq!(
        kinds,
        [
            Kind::LfGlobal,
            Kind::LfGroup(0),
            Kind::HfGlobal,
            pass(0),
            pass(1)
        ]
    );
    for (i, &k) in kinds.iter().enumerate() {
        assert_eq!(section_of_kind(&f, k), Ok(i as u32));
    }
    assert_eq!(refused(section_of_kind(&f, Kind::LfGroup(1))), (14, 0));
    assert_eq!(refused(section_of_kind(&f, Kind::All)), (14, 0));
    assert_eq!(section_of_sample(&f, 299, 99, 0), Ok(4));
    assert_eq!(section_at(&f, &t.offsets, &t.sizes, 4), Ok((1022, 20)));
    assert_eq!(refused(section_of_sample(&f, 300, 0, 0)), (14, 0));
    assert_eq!(refused(section_of_sample(&f, 0, 0, 1)), (14, 0));
    let layout = Layout::of(&f).unwrap();
    for (x, y, pass) in [
        (0, 0, 0),
        (255, 99, 0),
        (256, 0, 0),
        (299, 99, 0),
        (300, 0, 0),
        (0, 100, 0),
        (0, 0, 1),
    ] {
        assert_eq!(
            layout.section_of_sample(x, y, pass),
            section_of_sample(&f, x, y, pass)
        );
    }
    assert_eq!(
        refused(section_at(&f, &t.offsets[..4], &t.sizes, 9)),
        (3, 0)
    );
    assert_eq!(refused(section_at(&f, &t.offsets, &t.sizes, 5)), (14, 0));
    assert_eq!(
        group_rect(&f, 1),
        Ok(Rect {
            left: 256,
            top: 0,
            width: 44,
            height: 100
        })
    );
}

#[test]
fn a_permuted_order() {
    let f = read(&EXAMPLE, &facts()).unwrap().0.frame();
    let mut t = Lent::of(6);
    let order = [2, 0, 1, 3, 4];
    let toc = read_toc_with_order(&EXAMPLE, &f, 8, &order, t.lend());
    assert!(matches!(toc, TocRead::Table(_)));
    assert_eq!(t.offsets[..3], [19, 9, 19]);
    assert_eq!(t.sizes[..3], [3, 10, 0]);
    assert_eq!(t.order, [2, 0, 1, 3, 4, 93]);
    assert_eq!(t.inverse, [1, 2, 0, 3, 4, 94]);
    for section in 0..5 {
        let sent = sent_of_section(&f, &t.order[..5], section).unwrap();
        assert_eq!(sent, order[section as usize]);
        assert_eq!(section_of_sent(&f, &t.inverse[..5], sent), Ok(section));
    }
    assert_eq!(refused(sent_of_section(&f, &t.order, 0)), (13, 0));
    let sent: Vec<TocGroup> = iter_bitstream_order(&f, &t.inverse[..5], &t.offsets, &t.sizes)
        .unwrap()
        .map(|group| group.unwrap())
        .collect();
    assert_eq!(
        sent.iter().map(|g| g.section).collect::<Vec<_>>(),
        [1, 2, 0, 3, 4]
    );
    assert_eq!(sent[0].kind, Kind::LfGroup(0));
    assert_eq!((sent[0].offset, sent[0].size), (9, 10));
    assert_eq!((sent[2].offset, sent[2].size), (19, 3));
    let mut at = 9;
    for group in &sent {
        assert_eq!(group.offset, at);
        at += group.size as u64;
    }
    assert!(iter_bitstream_order(&f, &t.inverse, &t.offsets, &t.sizes).is_err_and(|r| r.number == 13));
    assert!(iter_bitstream_order(&f, &t.inverse[..5], &t.offsets[..4], &t.sizes).is_err_and(|r| r.number == 3));
    assert!(matches!(toc, TocRead::Table(t) if !t.is_single_entry()));
    let mut u = Lent::of(5);
    let bad = read_toc_with_order(&EXAMPLE, &f, 8, &[0, 0, 1, 2, 3], u.lend());
    assert_eq!(
        bad,
        TocRead::Refused(Refusal {
            number: 13,
            place: 0
        })
    );
    assert!(u.unchanged());
}

#[test]
fn an_order_is_needed() {
    let f = read(&EXAMPLE, &facts()).unwrap().0.frame();
    let mut t = Lent::of(5);
    assert_eq!(read_toc(&EXAMPLE, &f, 0, t.lend()), TocRead::OrderNeeded(1));
    assert!(t.unchanged());
}

#[test]
fn refusals_of_a_header() {
    let mut name = [7u8; 1070];
    let bad = Facts {
        width: 0,
        ..facts()
    };
    assert_eq!(
        refused(read_frame_header(&[1], &bad, &mut name, &mut [], &mut [])),
        (1, 0)
    );
    assert_eq!(
        refused(read_frame_header(
            &[1],
            &facts(),
            &mut name,
            &mut [],
            &mut []
        )),
        (3, 0)
    );
    assert!(name.iter().all(|&b| b == 7));
    let long = vec![1u8; 16777217];
    assert_eq!(refused(read(&long, &bad)), (2, 0));
    // A name of one byte that isn't there: the field's first bit, and nothing lent is changed.
    let cut = [0x08, 0x00, 0x19];
    let mut name = [7u8; 1071];
    let r = refused(read_frame_header(
        &cut,
        &facts(),
        &mut name,
        &mut [],
        &mut [],
    ));
    assert_eq!(r.0, 4);
    assert!(name.iter().all(|&b| b == 7));
}

#[test]
fn refusals_of_sections() {
    let f = read(&EXAMPLE, &facts()).unwrap().0.frame();
    let refusal = |number| TocRead::Refused(Refusal { number, place: 0 });
    let mut t = Lent::of(5);
    let none = Frame { width: 0, ..f };
    let bad = Frame {
        upsampling: 3,
        ..none
    };
    assert_eq!(read_toc(&EXAMPLE, &bad, 1, t.lend()), refusal(8));
    assert_eq!(read_toc(&EXAMPLE, &none, 1, t.lend()), refusal(9));
    let many = Frame {
        width: 67108864,
        height: 67108864,
        group_size_shift: 0,
        ..f
    };
    assert_eq!(read_toc(&EXAMPLE, &many, 1, t.lend()), refusal(10));
    assert_eq!(refused(measure(&many)), (10, 0));
    assert_eq!(read_toc(&EXAMPLE, &f, 73, t.lend()), refusal(11));
    assert_eq!(read_toc(&EXAMPLE, &f, 73, Lent::of(4).lend()), refusal(3));
    let mut cut = EXAMPLE;
    cut[0] = 0x81;
    assert_eq!(
        read_toc(&cut, &f, 1, t.lend()),
        TocRead::Refused(Refusal {
            number: 12,
            place: 2
        })
    );
    assert!(t.unchanged());
}

#[test]
fn a_grid_at_its_bound() {
    let f = Frame {
        width: 7456256,
        height: 128,
        upsampling: 1,
        lf_level: 0,
        group_size_shift: 0,
        num_passes: 1,
    };
    assert_eq!(section_count(&f), Ok(65536));
    let one_more = Frame {
        width: 7456257,
        ..f
    };
    assert_eq!(refused(section_count(&one_more)), (10, 0));
    let g = measure(&f).unwrap();
    assert_eq!(
        (g.side, g.lf_side, g.columns, g.rows),
        (128, 1024, 58252, 1)
    );
    assert_eq!(sample_width(&f, 3), Ok(2485419));
    assert_eq!(sample_height(&f, 0), Ok(128));
    assert_eq!(lf_group_idx_from_group_idx(&f, 17), Ok(2));
    assert_eq!(group_idx_from_coord(&f, 130, 127), Ok(1));
    assert_eq!(refused(group_idx_from_coord(&f, 130, 128)), (14, 0));
    let region = Rect {
        left: 128,
        top: 0,
        width: 1,
        height: 1,
    };
    assert_eq!(is_group_collides_region(&f, 0, region), Ok(false));
    assert_eq!(is_group_collides_region(&f, 1, region), Ok(true));
    assert_eq!(is_lf_group_collides_region(&f, 0, region), Ok(true));
    assert_eq!(lf_group_rect(&f, 1).unwrap().left, 1024);
}

#[test]
fn listing() {
    let mut input = b"300\t100\t0\t0\t0\t0\t0\n".to_vec();
    input.extend(EXAMPLE);
    let due = include_bytes!("../../../crates/list/stdout");
    let mut text = [7u8; 400];
    assert_eq!(list(&input, &mut text), Ok(due.len()));
    assert_eq!(text[..due.len()], due[..]);
    assert!(text[due.len()..].iter().all(|&b| b == 7));
    let mut short = vec![7u8; due.len() - 1];
    assert_eq!(
        list(&input, &mut short),
        Err(Refusal {
            number: 3,
            place: 0
        })
    );
    assert!(short.iter().all(|&b| b == 7));
    let mut just = vec![7u8; due.len()];
    assert_eq!(list(&input, &mut just), Ok(due.len()));
    assert_eq!(list(b"0300", &mut text), Ok(12));
    assert_eq!(&text[..12], b"refused\t1\t0\n");
}
