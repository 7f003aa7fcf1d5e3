//! A slice that is too short for a record is 3 in its turn, and nothing lent is changed. The wrapper always lends enough, so the C functions are
//! called here themselves.
use hingevale::raw::*;

#[test]
fn a_rectangle() {
    let mut out = [5u64; 4];
    let mut ask = |width, upsampling, group, n| unsafe {
        hingevale_group_rect(width, 100, upsampling, 0, 0, 1, group, out.as_mut_ptr(), n)
    };
    assert_eq!(ask(300, 3, 0, 3), 8);
    assert_eq!(ask(0, 1, 0, 3), 9);
    assert_eq!(ask(u32::MAX / 4, 1, 0, 3), 10);
    assert_eq!(ask(300, 1, 9, 3), 3);
    assert_eq!(ask(300, 1, 9, 4), 14);
    assert_eq!(out, [5; 4]);
}

#[test]
fn an_order_and_a_kind() {
    let mut out = [5u64];
    let order = [0u32, 0];
    let mut sent = |n| unsafe {
        hingevale_sent_of_section(
            300,
            100,
            1,
            0,
            1,
            1,
            order.as_ptr(),
            2,
            9,
            out.as_mut_ptr(),
            n,
        )
    };
    assert_eq!(sent(0), 3);
    assert_eq!(sent(1), 13);
    let mut kind = |number, n| unsafe {
        hingevale_section_of_kind(300, 100, 1, 0, 1, 1, number, 7, 1, out.as_mut_ptr(), n)
    };
    assert_eq!(kind(5, 0), 3);
    assert_eq!(kind(5, 1), 14);
    assert_eq!(out, [5]);
    let mut kind = |number, n| unsafe {
        hingevale_section_of_kind(300, 100, 1, 0, 1, 1, number, 7, 1, out.as_mut_ptr(), n)
    };
    assert_eq!(kind(3, 1), 0);
    assert_eq!(out, [2]);
}

#[test]
fn a_layout() {
    let mut words = [5u64; 8];
    let mut of = |width, upsampling, n| unsafe {
        hingevale_layout_of(width, 100, upsampling, 0, 1, 1, words.as_mut_ptr(), n)
    };
    assert_eq!(of(300, 3, 7), 8);
    assert_eq!(of(0, 1, 7), 9);
    assert_eq!(of(u32::MAX / 4, 1, 7), 10);
    assert_eq!(of(300, 1, 7), 3);
    assert_eq!(words, [5; 8]);
    let mut of = |n| unsafe { hingevale_layout_of(300, 100, 1, 0, 1, 1, words.as_mut_ptr(), n) };
    assert_eq!(of(8), 0);
    // 300 by 100 samples, groups of side 2^8, two of them in a row, one LF group, five sections, one pass
    assert_eq!(words, [300, 100, 8, 2, 2, 1, 5, 1]);
    let mut out = [5u64];
    let mut find = |words: &[u64], x, y, pass, n| unsafe {
        hingevale_section_in(words.as_ptr(), words.len(), x, y, pass, out.as_mut_ptr(), n)
    };
    assert_eq!(find(&words[..7], 299, 99, 0, 1), 3);
    assert_eq!(find(&words, 299, 99, 0, 0), 3);
    assert_eq!(find(&words, 300, 99, 0, 1), 14);
    assert_eq!(find(&words, 299, 100, 0, 1), 14);
    assert_eq!(find(&words, 299, 99, 1, 1), 14);
    // words of no frame: a side of 2^32, sums past 64 bits, no sections, all bits
    for other in [
        [300, 100, 32, 2, 2, 1, 5, 1],
        [u32::MAX as u64; 8],
        [300, 100, 8, 2, 2, 1, 0, 1],
        [u64::MAX; 8],
        [
            u32::MAX as u64,
            u32::MAX as u64,
            0,
            u32::MAX as u64,
            u32::MAX as u64,
            u32::MAX as u64,
            u32::MAX as u64,
            u32::MAX as u64,
        ],
    ] {
        assert_eq!(find(&other, 299, 99, 0, 1), 14, "{other:?}");
    }
    assert_eq!(out, [5]);
    let mut find = |words: &[u64], x| unsafe {
        hingevale_section_in(words.as_ptr(), words.len(), x, 99, 0, out.as_mut_ptr(), 1)
    };
    assert_eq!(find(&words, 299), 0);
    assert_eq!(out, [4]);
    let high = words.map(|w| w + (7 << 32));
    assert_eq!(
        unsafe { hingevale_section_in(high.as_ptr(), 8, 255, 99, 0, out.as_mut_ptr(), 1) },
        0
    );
    assert_eq!(out, [3]);
}

#[test]
fn a_table() {
    let bytes = vec![0u8; 16777217];
    let (mut offsets, mut sizes, mut order, mut inverse) =
        ([5u64; 5], [5u32; 5], [5u32; 5], [5u32; 5]);
    let mut out = [5u64; 3];
    let mut read = |length, width, place, n| unsafe {
        hingevale_read_toc(
            bytes.as_ptr(),
            length,
            width,
            100,
            1,
            0,
            1,
            1,
            place,
            offsets.as_mut_ptr(),
            5,
            sizes.as_mut_ptr(),
            5,
            order.as_mut_ptr(),
            5,
            inverse.as_mut_ptr(),
            5,
            out.as_mut_ptr(),
            n,
        )
    };
    assert_eq!(read(16777217, 0, 9999, 2), 2);
    assert_eq!(read(16777216, 0, 9999, 2), 9);
    assert_eq!(read(10, 300, 9999, 2), 3);
    assert_eq!(read(10, 300, 9999, 3), 11);
    assert_eq!(read(10, 300, 0, 2), 3);
    assert_eq!(read(2, 300, 0, 3), 4 + 256 * 8);
    assert_eq!(
        (offsets, sizes, order, inverse, out),
        ([5; 5], [5; 5], [5; 5], [5; 5], [5; 3])
    );
}

#[test]
fn a_header() {
    let bytes = vec![1u8; 16777217];
    let mut name = [5u8; 1071];
    let (mut words, mut signed, mut floats) = ([5u64; 51], [5i32; 2], [5f32; 22]);
    let mut read = |length, width, lent: [usize; 4]| unsafe {
        hingevale_read_frame_header(
            bytes.as_ptr(),
            length,
            width,
            100,
            false,
            false,
            0,
            false,
            false,
            name.as_mut_ptr(),
            lent[0],
            [0u32].as_mut_ptr(),
            0,
            [0u32].as_mut_ptr(),
            0,
            words.as_mut_ptr(),
            lent[1],
            signed.as_mut_ptr(),
            lent[2],
            floats.as_mut_ptr(),
            lent[3],
        )
    };
    assert_eq!(read(16777217, 0, [0, 50, 2, 22]), 2);
    assert_eq!(read(1, 0, [1071, 50, 2, 22]), 1);
    for short in [
        [1070, 51, 2, 22],
        [1071, 50, 2, 22],
        [1071, 51, 1, 22],
        [1071, 51, 2, 21],
    ] {
        assert_eq!(read(1, 300, short), 3);
        assert_eq!(read(0, 300, short), 3);
    }
    assert_eq!(read(0, 300, [1071, 51, 2, 22]), 4);
    assert_eq!(
        (name, words, signed, floats),
        ([5; 1071], [5; 51], [5; 2], [5.0; 22])
    );
}

#[test]
fn a_listing() {
    let input = b"0";
    let (mut text, mut out) = ([5u8; 20], [5u64]);
    let mut list = |room, n| unsafe {
        hingevale_list(
            input.as_ptr(),
            1,
            text.as_mut_ptr(),
            room,
            out.as_mut_ptr(),
            n,
        )
    };
    assert_eq!(list(20, 0), 3);
    assert_eq!(list(11, 1), 3);
    assert_eq!((text, out), ([5; 20], [5]));
}
