//! A safe wrapper over the static library `export`: frame headers, geometry and tables of contents of JPEG XL frames.
//! Every function is total. A refusal has the number and the bit place that the rules give it, and changes no lent slice.
/// The C functions as they are.
pub mod raw;

use std::mem::MaybeUninit;

/// What a reader of the frame knows about the image.
#[derive(Clone, Copy, Debug, PartialEq, Eq)]
pub struct Facts {
    pub width: u32,
    pub height: u32,
    pub xyb: bool,
    pub grey: bool,
    pub extra: u32,
    pub animation: bool,
    pub timecodes: bool,
}

/// Why something was refused, and at which bit.
#[derive(Clone, Copy, Debug, PartialEq, Eq)]
pub struct Refusal {
    pub number: u32,
    pub place: u64,
}

/// The six numbers of a frame that its geometry needs.
#[derive(Clone, Copy, Debug, PartialEq, Eq)]
pub struct Frame {
    pub width: u32,
    pub height: u32,
    pub upsampling: u32,
    pub lf_level: u32,
    pub group_size_shift: u32,
    pub num_passes: u32,
}

/// The header's record. The name, the extra channels' upsampling and their blending are in the lent slices.
#[derive(Clone, Debug, PartialEq)]
pub struct FrameHeader {
    pub frame_type: u32,
    pub encoding: u32,
    pub flags: u64,
    pub do_ycbcr: bool,
    pub encoded_color_channels: u32,
    pub jpeg_upsampling: [u32; 3],
    pub upsampling: u32,
    pub group_size_shift: u32,
    pub x_qm_scale: u32,
    pub b_qm_scale: u32,
    pub num_passes: u32,
    pub num_ds: u32,
    pub shift: [u32; 10],
    pub downsample: [u32; 4],
    pub last_pass: [u32; 4],
    pub lf_level: u32,
    pub have_crop: bool,
    pub x0: i32,
    pub y0: i32,
    pub width: u32,
    pub height: u32,
    pub blend_mode: u32,
    pub alpha_channel: u32,
    pub clamp: bool,
    pub source: u32,
    pub duration: u32,
    pub timecode: u32,
    pub is_last: bool,
    pub save_as_reference: u32,
    pub resets_canvas: bool,
    pub save_before_ct: bool,
    pub name_length: u32,
    pub gabor_enabled: bool,
    pub gabor: [f32; 6],
    pub epf_enabled: bool,
    pub epf_iters: u32,
    pub epf_sharp: [f32; 8],
    pub epf_scale: [f32; 3],
    pub epf_sigma: [f32; 4],
    pub epf_sigma_modular: f32,
}

/// What the six numbers of a frame come to: the colour sample size, both sides, columns and rows, and the counts.
#[derive(Clone, Copy, Debug, PartialEq, Eq)]
pub struct Grid {
    pub width: u32,
    pub height: u32,
    pub side: u32,
    pub lf_side: u32,
    pub columns: u32,
    pub rows: u32,
    pub lf_columns: u32,
    pub lf_rows: u32,
    pub groups: u32,
    pub lf_groups: u32,
    pub sections: u32,
}

/// A rectangle in samples.
#[derive(Clone, Copy, Debug, PartialEq, Eq)]
pub struct Rect {
    pub left: u32,
    pub top: u32,
    pub width: u32,
    pub height: u32,
}

/// An accepted table: how many sections, the data start and the sum of the sizes.
#[derive(Clone, Copy, Debug, PartialEq, Eq)]
pub struct Toc {
    pub count: u32,
    pub bookmark: u64,
    pub total_byte_size: u64,
}

impl Toc {
    /// Whether the frame has only one section.
    #[inline]
    pub fn is_single_entry(&self) -> bool {
        self.count <= 1
    }
}

/// A section, its kind and where its data lies.
#[derive(Clone, Copy, Debug, PartialEq, Eq)]
pub struct TocGroup {
    pub section: u32,
    pub kind: Kind,
    pub offset: u64,
    pub size: u32,
}

/// What reading a table comes to; "order needed" has the bit place after the flag.
#[derive(Clone, Copy, Debug, PartialEq, Eq)]
pub enum TocRead {
    Table(Toc),
    OrderNeeded(u64),
    Refused(Refusal),
}

/// The four lent tables: offsets and sizes by section number, the order by section number, its inverse by sent number.
pub struct Tables<'a> {
    pub offsets: &'a mut [u64],
    pub sizes: &'a mut [u32],
    pub order: &'a mut [u32],
    pub inverse: &'a mut [u32],
}

/// The kind of a section.
#[derive(Clone, Copy, Debug, PartialEq, Eq)]
pub enum Kind {
    All,
    LfGlobal,
    LfGroup(u32),
    HfGlobal,
    GroupPass { pass_idx: u32, group_idx: u32 },
}

/// A status word apart: its number and its place.
#[inline]
fn parts(status: u64) -> Refusal {
    Refusal {
        number: (status % 256) as u32,
        place: status / 256,
    }
}

/// The words of an accepted answer, or the refusal.
#[inline]
fn accepted<const N: usize>(status: u64, words: [u64; N]) -> Result<[u64; N], Refusal> {
    if status == 0 {
        Ok(words)
    } else {
        Err(parts(status))
    }
}

/// Asks a question on a frame, with room for N words.
macro_rules! ask {
    ($n:literal, $function:ident, $f:expr $(, $argument:expr)*) => {{
        let mut words = [0u64; $n];
        let f: &Frame = $f;
        // Safe: each slice goes in as its own pointer and length, and the library writes nothing outside the lent words.
        let status = unsafe {
            raw::$function(
                f.width,
                f.height,
                f.upsampling,
                f.lf_level,
                f.group_size_shift,
                f.num_passes,
                $($argument,)*
                words.as_mut_ptr(),
                words.len(),
            )
        };
        accepted(status, words)
    }};
}

/// Reads a frame header: the record and the bit place after it. The name needs 1,071 bytes, `upsampling` a word and `blending` four words
/// for each extra channel.
#[inline]
pub fn read_frame_header(
    s: &[u8],
    f: &Facts,
    name: &mut [u8],
    upsampling: &mut [u32],
    blending: &mut [u32],
) -> Result<(FrameHeader, u64), Refusal> {
    let mut words = MaybeUninit::<[u64; 51]>::uninit();
    let mut signed = MaybeUninit::<[i32; 2]>::uninit();
    let mut floats = MaybeUninit::<[f32; 22]>::uninit();
    // Safe: each slice goes in as its own pointer and length, and the library reads none of these three.
    let status = unsafe {
        raw::hingevale_read_frame_header(
            s.as_ptr(),
            s.len(),
            f.width,
            f.height,
            f.xyb,
            f.grey,
            f.extra,
            f.animation,
            f.timecodes,
            name.as_mut_ptr(),
            name.len(),
            upsampling.as_mut_ptr(),
            upsampling.len(),
            blending.as_mut_ptr(),
            blending.len(),
            words.as_mut_ptr().cast(),
            51,
            signed.as_mut_ptr().cast(),
            2,
            floats.as_mut_ptr().cast(),
            22,
        )
    };
    if status != 0 {
        return Err(parts(status));
    }
    // Safe: beside a status of 0 all three are written whole, which is proved (crates/theorems/proofs/Status.antt).
    let (words, signed, floats) = unsafe {
        (
            words.assume_init_ref(),
            signed.assume_init_ref(),
            floats.assume_init_ref(),
        )
    };
    Ok((header_of(words, signed, floats), words[0]))
}

/// So many numbers from a place on.
#[inline]
fn numbers<const N: usize>(words: &[u64], at: usize) -> [u32; N] {
    std::array::from_fn(|i| words[at + i] as u32)
}

#[inline]
fn reals<const N: usize>(floats: &[f32], at: usize) -> [f32; N] {
    std::array::from_fn(|i| floats[at + i])
}

/// The record out of its 51 words, two signed numbers and 22 floats.
#[inline]
fn header_of(words: &[u64; 51], signed: &[i32; 2], floats: &[f32; 22]) -> FrameHeader {
    let number = |i: usize| words[i] as u32;
    let yes = |i: usize| words[i] != 0;
    FrameHeader {
        flags: words[1],
        frame_type: number(2),
        encoding: number(3),
        do_ycbcr: yes(4),
        encoded_color_channels: number(5),
        upsampling: number(6),
        group_size_shift: number(7),
        x_qm_scale: number(8),
        b_qm_scale: number(9),
        num_passes: number(10),
        num_ds: number(11),
        jpeg_upsampling: numbers(words, 12),
        shift: numbers(words, 15),
        downsample: numbers(words, 25),
        last_pass: numbers(words, 29),
        lf_level: number(33),
        have_crop: yes(34),
        width: number(35),
        height: number(36),
        blend_mode: number(37),
        alpha_channel: number(38),
        clamp: yes(39),
        source: number(40),
        duration: number(41),
        timecode: number(42),
        is_last: yes(43),
        save_as_reference: number(44),
        resets_canvas: yes(45),
        save_before_ct: yes(46),
        name_length: number(47),
        gabor_enabled: yes(48),
        epf_enabled: yes(49),
        epf_iters: number(50),
        x0: signed[0],
        y0: signed[1],
        gabor: reals(floats, 0),
        epf_sharp: reals(floats, 6),
        epf_scale: reals(floats, 14),
        epf_sigma: reals(floats, 17),
        epf_sigma_modular: floats[21],
    }
}

impl FrameHeader {
    /// The six numbers that geometry needs.
    #[inline]
    pub fn frame(&self) -> Frame {
        Frame {
            width: self.width,
            height: self.height,
            upsampling: self.upsampling,
            lf_level: self.lf_level,
            group_size_shift: self.group_size_shift,
            num_passes: self.num_passes,
        }
    }

    #[inline]
    pub fn is_keyframe(&self) -> bool {
        unsafe { raw::hingevale_is_keyframe(self.frame_type, self.is_last, self.duration) }
    }

    #[inline]
    pub fn can_reference(&self) -> bool {
        unsafe {
            raw::hingevale_can_reference(
                self.frame_type,
                self.is_last,
                self.duration,
                self.save_as_reference,
            )
        }
    }

    #[inline]
    pub fn noise(&self) -> bool {
        unsafe { raw::hingevale_noise(self.flags) }
    }

    #[inline]
    pub fn patches(&self) -> bool {
        unsafe { raw::hingevale_patches(self.flags) }
    }

    #[inline]
    pub fn splines(&self) -> bool {
        unsafe { raw::hingevale_splines(self.flags) }
    }

    #[inline]
    pub fn use_lf_frame(&self) -> bool {
        unsafe { raw::hingevale_use_lf_frame(self.flags) }
    }

    #[inline]
    pub fn skip_adaptive_lf_smoothing(&self) -> bool {
        unsafe { raw::hingevale_skip_adaptive_lf_smoothing(self.flags) }
    }
}

/// The grid of a frame.
#[inline]
pub fn measure(f: &Frame) -> Result<Grid, Refusal> {
    let w = ask!(11, hingevale_measure, f)?;
    let [width, height, side, lf_side, columns, rows, lf_columns, lf_rows, groups, lf_groups, sections] =
        w.map(|x| x as u32);
    Ok(Grid {
        width,
        height,
        side,
        lf_side,
        columns,
        rows,
        lf_columns,
        lf_rows,
        groups,
        lf_groups,
        sections,
    })
}

/// The frame's width in samples for an upsampling.
#[inline]
pub fn sample_width(f: &Frame, upsampling: u32) -> Result<u32, Refusal> {
    Ok(ask!(1, hingevale_sample_width, f, upsampling)?[0] as u32)
}

/// The frame's height in samples for an upsampling.
#[inline]
pub fn sample_height(f: &Frame, upsampling: u32) -> Result<u32, Refusal> {
    Ok(ask!(1, hingevale_sample_height, f, upsampling)?[0] as u32)
}

/// The numbers of the grid, one by one.
#[inline]
pub fn color_sample_width(f: &Frame) -> Result<u32, Refusal> {
    Ok(measure(f)?.width)
}

#[inline]
pub fn color_sample_height(f: &Frame) -> Result<u32, Refusal> {
    Ok(measure(f)?.height)
}

#[inline]
pub fn group_dim(f: &Frame) -> Result<u32, Refusal> {
    Ok(measure(f)?.side)
}

#[inline]
pub fn lf_group_dim(f: &Frame) -> Result<u32, Refusal> {
    Ok(measure(f)?.lf_side)
}

#[inline]
pub fn groups_per_row(f: &Frame) -> Result<u32, Refusal> {
    Ok(measure(f)?.columns)
}

#[inline]
pub fn lf_groups_per_row(f: &Frame) -> Result<u32, Refusal> {
    Ok(measure(f)?.lf_columns)
}

#[inline]
pub fn num_groups(f: &Frame) -> Result<u32, Refusal> {
    Ok(measure(f)?.groups)
}

#[inline]
pub fn num_lf_groups(f: &Frame) -> Result<u32, Refusal> {
    Ok(measure(f)?.lf_groups)
}

#[inline]
pub fn section_count(f: &Frame) -> Result<u32, Refusal> {
    Ok(measure(f)?.sections)
}

#[inline]
fn rect_of(words: [u64; 4]) -> Rect {
    let [left, top, width, height] = words.map(|x| x as u32);
    Rect {
        left,
        top,
        width,
        height,
    }
}

/// The clipped rectangle of a group.
#[inline]
pub fn group_rect(f: &Frame, group_idx: u32) -> Result<Rect, Refusal> {
    Ok(rect_of(ask!(4, hingevale_group_rect, f, group_idx)?))
}

/// The clipped rectangle of an LF group.
#[inline]
pub fn lf_group_rect(f: &Frame, lf_group_idx: u32) -> Result<Rect, Refusal> {
    Ok(rect_of(ask!(4, hingevale_lf_group_rect, f, lf_group_idx)?))
}

/// The group of a point, which may lie beyond the picture but inside an unclipped group.
#[inline]
pub fn group_idx_from_coord(f: &Frame, x: u32, y: u32) -> Result<u32, Refusal> {
    Ok(ask!(1, hingevale_group_idx_from_coord, f, x, y)?[0] as u32)
}

/// The LF group that holds a group.
#[inline]
pub fn lf_group_idx_from_group_idx(f: &Frame, group_idx: u32) -> Result<u32, Refusal> {
    Ok(ask!(1, hingevale_lf_group_idx_from_group_idx, f, group_idx)?[0] as u32)
}

/// Whether a region overlaps a group, unclipped.
#[inline]
pub fn is_group_collides_region(f: &Frame, group_idx: u32, region: Rect) -> Result<bool, Refusal> {
    let Rect {
        left,
        top,
        width,
        height,
    } = region;
    Ok(ask!(
        1,
        hingevale_is_group_collides_region,
        f,
        group_idx,
        left,
        top,
        width,
        height
    )?[0]
        != 0)
}

/// Whether a region overlaps an LF group, unclipped.
#[inline]
pub fn is_lf_group_collides_region(
    f: &Frame,
    lf_group_idx: u32,
    region: Rect,
) -> Result<bool, Refusal> {
    let Rect {
        left,
        top,
        width,
        height,
    } = region;
    Ok(ask!(
        1,
        hingevale_is_lf_group_collides_region,
        f,
        lf_group_idx,
        left,
        top,
        width,
        height
    )?[0]
        != 0)
}

/// What a section entry's status and words say.
#[inline]
fn toc_of(status: u64, words: [u64; 3]) -> TocRead {
    let r = parts(status);
    match r.number {
        0 => TocRead::Table(Toc {
            count: words[0] as u32,
            bookmark: words[1],
            total_byte_size: words[2],
        }),
        255 => TocRead::OrderNeeded(r.place),
        _ => TocRead::Refused(r),
    }
}

/// The first section entry: reads the permuted flag at a bit place, then the sizes. Each table needs a word for each section.
#[inline]
pub fn read_toc(s: &[u8], f: &Frame, place: u64, t: Tables) -> TocRead {
    let mut words = [0u64; 3];
    // Safe: each slice goes in as its own pointer and length.
    let status = unsafe {
        raw::hingevale_read_toc(
            s.as_ptr(),
            s.len(),
            f.width,
            f.height,
            f.upsampling,
            f.lf_level,
            f.group_size_shift,
            f.num_passes,
            place,
            t.offsets.as_mut_ptr(),
            t.offsets.len(),
            t.sizes.as_mut_ptr(),
            t.sizes.len(),
            t.order.as_mut_ptr(),
            t.order.len(),
            t.inverse.as_mut_ptr(),
            t.inverse.len(),
            words.as_mut_ptr(),
            words.len(),
        )
    };
    toc_of(status, words)
}

/// The second section entry: a bit place and an order (sent number by section number), on from the padding.
#[inline]
pub fn read_toc_with_order(s: &[u8], f: &Frame, place: u64, lent: &[u32], t: Tables) -> TocRead {
    let mut words = [0u64; 3];
    // Safe: each slice goes in as its own pointer and length.
    let status = unsafe {
        raw::hingevale_read_toc_with_order(
            s.as_ptr(),
            s.len(),
            f.width,
            f.height,
            f.upsampling,
            f.lf_level,
            f.group_size_shift,
            f.num_passes,
            place,
            lent.as_ptr(),
            lent.len(),
            t.offsets.as_mut_ptr(),
            t.offsets.len(),
            t.sizes.as_mut_ptr(),
            t.sizes.len(),
            t.order.as_mut_ptr(),
            t.order.len(),
            t.inverse.as_mut_ptr(),
            t.inverse.len(),
            words.as_mut_ptr(),
            words.len(),
        )
    };
    toc_of(status, words)
}

impl Kind {
    /// A kind's number, pass and group.
    #[inline]
    fn numbers(self) -> [u32; 3] {
        match self {
            Kind::All => [0, 0, 0],
            Kind::LfGlobal => [1, 0, 0],
            Kind::LfGroup(i) => [2, 0, i],
            Kind::HfGlobal => [3, 0, 0],
            Kind::GroupPass {
                pass_idx,
                group_idx,
            } => [4, pass_idx, group_idx],
        }
    }

    #[inline]
    fn of([kind, pass_idx, group_idx]: [u32; 3]) -> Kind {
        match kind {
            0 => Kind::All,
            1 => Kind::LfGlobal,
            2 => Kind::LfGroup(group_idx),
            3 => Kind::HfGlobal,
            _ => Kind::GroupPass {
                pass_idx,
                group_idx,
            },
        }
    }
}

/// A kind to its section number.
#[inline]
pub fn section_of_kind(f: &Frame, kind: Kind) -> Result<u32, Refusal> {
    let [number, pass_idx, group_idx] = kind.numbers();
    Ok(ask!(1, hingevale_section_of_kind, f, number, pass_idx, group_idx)?[0] as u32)
}

/// A section number to its kind.
#[inline]
pub fn kind_of(f: &Frame, section: u32) -> Result<Kind, Refusal> {
    Ok(Kind::of(
        ask!(3, hingevale_kind_of, f, section)?.map(|x| x as u32),
    ))
}

/// A sample and a pass to their section number.
#[inline]
pub fn section_of_sample(f: &Frame, x: u32, y: u32, pass: u32) -> Result<u32, Refusal> {
    Ok(ask!(1, hingevale_section_of_sample, f, x, y, pass)?[0] as u32)
}

/// What the look-up of a sample needs of a frame, measured once: for asking many samples of one frame.
#[derive(Clone, Copy, Debug, PartialEq, Eq)]
pub struct Layout {
    words: [u64; 8],
}

impl Layout {
    /// The layout of a frame.
    #[inline]
    pub fn of(f: &Frame) -> Result<Layout, Refusal> {
        Ok(Layout {
            words: ask!(8, hingevale_layout_of, f)?,
        })
    }

    /// A sample and a pass to their section number, as `section_of_sample` has it for the layout's frame.
    #[inline]
    pub fn section_of_sample(&self, x: u32, y: u32, pass: u32) -> Result<u32, Refusal> {
        let mut section = [0u64; 1];
        // Safe: each slice goes in as its own pointer and length.
        let status = unsafe {
            raw::hingevale_section_in(
                self.words.as_ptr(),
                self.words.len(),
                x,
                y,
                pass,
                section.as_mut_ptr(),
                section.len(),
            )
        };
        Ok(accepted(status, section)?[0] as u32)
    }
}

/// A section number to its offset and size, through tables that an entry filled.
#[inline]
pub fn section_at(
    f: &Frame,
    offsets: &[u64],
    sizes: &[u32],
    section: u32,
) -> Result<(u64, u32), Refusal> {
    let w = ask!(
        2,
        hingevale_section_at,
        f,
        offsets.as_ptr(),
        offsets.len(),
        sizes.as_ptr(),
        sizes.len(),
        section
    )?;
    Ok((w[0], w[1] as u32))
}

/// A section number to its sent number, through the order.
#[inline]
pub fn sent_of_section(f: &Frame, order: &[u32], section: u32) -> Result<u32, Refusal> {
    Ok(ask!(
        1,
        hingevale_sent_of_section,
        f,
        order.as_ptr(),
        order.len(),
        section
    )?[0] as u32)
}

/// A sent number to its section number, through the inverse.
#[inline]
pub fn section_of_sent(f: &Frame, inverse: &[u32], sent: u32) -> Result<u32, Refusal> {
    Ok(ask!(
        1,
        hingevale_section_of_sent,
        f,
        inverse.as_ptr(),
        inverse.len(),
        sent
    )?[0] as u32)
}

/// The sections in the order in which they are sent: the one sent as number 0, then 1, and so on. Refused: 8, 9,
/// 10, 3, then 13 for `inverse`, which is judged whole, once.
pub fn iter_bitstream_order<'a>(
    f: &'a Frame,
    inverse: &'a [u32],
    offsets: &'a [u64],
    sizes: &'a [u32],
) -> Result<impl Iterator<Item = Result<TocGroup, Refusal>> + 'a, Refusal> {
    section_at(f, offsets, sizes, 0)?;
    section_of_sent(f, inverse, 0)?;
    Ok(inverse.iter().map(move |&section| {
        let kind = kind_of(f, section)?;
        let (offset, size) = section_at(f, offsets, sizes, section)?;
        Ok(TocGroup {
            section,
            kind,
            offset,
            size,
        })
    }))
}

/// What the program `list` writes for an input (a facts line and a frame): how many bytes of `text` it is, or 3 where it doesn't fit.
#[inline]
pub fn list(input: &[u8], text: &mut [u8]) -> Result<usize, Refusal> {
    let mut words = [0u64; 1];
    // Safe: each slice goes in as its own pointer and length.
    let status = unsafe {
        raw::hingevale_list(
            input.as_ptr(),
            input.len(),
            text.as_mut_ptr(),
            text.len(),
            words.as_mut_ptr(),
            words.len(),
        )
    };
    Ok(accepted(status, words)?[0] as usize)
}
