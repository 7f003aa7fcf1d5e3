//! What the Rust files answer, put into the proved reader's types. A fault's number is told from the Rust's error, its place from the
//! stand-in bit reader: where the field at fault began.

use hingevale::{Facts, Frame, FrameHeader, Kind, Refusal, Toc};
use jxl_bitstream::Bitstream;
use jxl_frame::data::{Toc as TheirToc, TocGroupKind};
use jxl_frame::filter::{EdgePreservingFilter, Gabor};
use jxl_frame::header::BlendingInfo;
use jxl_frame::{Error, FrameHeader as TheirHeader};
use jxl_image::{AnimationHeader, BitDepth, ExtraChannelInfo, ImageHeader, ImageMetadata, SizeHeader};
use jxl_oxide_common::Bundle;

/// A header, where it ends, and what goes into the lent buffers.
pub struct Headed {
    pub header: FrameHeader,
    pub end: u64,
    pub name: Vec<u8>,
    pub upsampling: Vec<u32>,
    pub blending: Vec<u32>,
    /// `is_keyframe`, `can_reference`, and the five questions on flags.
    pub answers: [bool; 7],
}

pub fn image(f: &Facts) -> ImageHeader {
    ImageHeader {
        size: SizeHeader { width: f.width, height: f.height },
        metadata: ImageMetadata {
            xyb_encoded: f.xyb,
            grey: f.grey,
            ec_info: vec![ExtraChannelInfo; f.extra as usize],
            animation: f.animation.then_some(AnimationHeader { have_timecodes: f.timecodes }),
            bit_depth: BitDepth,
        },
    }
}

/// The number and place that the rules give this fault; `None` where an order is wanted and none was lent.
fn refusal(e: &Error, b: &Bitstream) -> Option<Refusal> {
    use jxl_bitstream::Error as Bits;
    let told = |number, place: usize| Some(Refusal { number, place: place as u64 });
    let e = match e {
        Error::Bitstream(e) | Error::Decoder(jxl_coding::Error::Bitstream(e)) => e,
        Error::Decoder(jxl_coding::Error::NoOrder) => return None,
    };
    match e {
        Bits::Io(_) => told(4, b.field()),
        Bits::InvalidEnum { .. } => told(5, b.field()),
        Bits::InvalidFloat => told(6, b.field()),
        Bits::ValidationFailed("Too many TOC entries") => told(10, 0),
        Bits::ValidationFailed(_) => told(7, b.num_read_bits() - 32),
        Bits::NonZeroPadding => told(12, b.field()),
    }
}

fn four(i: &BlendingInfo) -> [u32; 4] {
    [i.mode as u32, i.alpha_channel, i.clamp as u32, i.source]
}

/// The first places of an array that has more.
fn placed<const N: usize>(v: &[u32]) -> [u32; N] {
    let mut a = [0; N];
    a[..v.len()].copy_from_slice(v);
    a
}

/// The record that the proved reader has of it: an unread blending is zeros, a disabled filter's values are +0.0.
fn record(h: &TheirHeader) -> FrameHeader {
    let rf = &h.restoration_filter;
    let gabor = match &rf.gab {
        Gabor::Enabled([[a, b], [c, d], [e, f]]) => [*a, *b, *c, *d, *e, *f],
        Gabor::Disabled => [0.0; 6],
    };
    let (iters, sharp, scale, sigma, modular) = match &rf.epf {
        EdgePreservingFilter::Enabled(p) => {
            let s = &p.sigma;
            let sigma = [s.quant_mul, s.pass0_sigma_scale, s.pass2_sigma_scale, s.border_sad_mul];
            (p.iters, p.sharp_lut, p.channel_scale, sigma, p.sigma_for_modular)
        }
        EdgePreservingFilter::Disabled => (0, [0.0; 8], [0.0; 3], [0.0; 4], 0.0),
    };
    let [blend_mode, alpha_channel, clamp, source] = four(&h.blending_info);
    FrameHeader {
        frame_type: h.frame_type as u32,
        encoding: h.encoding as u32,
        flags: h.flags.all(),
        do_ycbcr: h.do_ycbcr,
        encoded_color_channels: h.encoded_color_channels() as u32,
        jpeg_upsampling: h.jpeg_upsampling,
        upsampling: h.upsampling,
        group_size_shift: h.group_size_shift,
        x_qm_scale: h.x_qm_scale,
        b_qm_scale: h.b_qm_scale,
        num_passes: h.passes.num_passes,
        num_ds: h.passes.num_ds,
        shift: placed(&h.passes.shift),
        downsample: placed(&h.passes.downsample),
        last_pass: placed(&h.passes.last_pass),
        lf_level: h.lf_level,
        have_crop: h.have_crop,
        x0: h.x0,
        y0: h.y0,
        width: h.width,
        height: h.height,
        blend_mode,
        alpha_channel,
        clamp: clamp == 1,
        source,
        duration: h.duration,
        timecode: h.timecode,
        is_last: h.is_last,
        save_as_reference: h.save_as_reference,
        resets_canvas: h.resets_canvas,
        save_before_ct: h.save_before_ct,
        name_length: h.name.0.len() as u32,
        gabor_enabled: rf.gab.enabled(),
        gabor,
        epf_enabled: rf.epf.enabled(),
        epf_iters: iters,
        epf_sharp: sharp,
        epf_scale: scale,
        epf_sigma: sigma,
        epf_sigma_modular: modular,
    }
}

pub fn read_frame_header(s: &[u8], f: &Facts) -> Result<Headed, Refusal> {
    let mut b = Bitstream::new(s);
    let h = match TheirHeader::parse(&mut b, &image(f)) {
        Ok(h) => h,
        Err(e) => return Err(refusal(&e, &b).expect("a header wants no order")),
    };
    let mut blending: Vec<u32> = h.ec_blending_info.iter().flat_map(four).collect();
    blending.resize(4 * f.extra as usize, 0);
    Ok(Headed {
        header: record(&h),
        end: b.num_read_bits() as u64,
        upsampling: h.ec_upsampling.clone(),
        blending,
        answers: [
            h.is_keyframe(),
            h.can_reference(),
            h.flags.noise(),
            h.flags.patches(),
            h.flags.splines(),
            h.flags.use_lf_frame(),
            h.flags.skip_adaptive_lf_smoothing(),
        ],
        name: h.name.0,
    })
}

/// A header of the Rust with these six numbers, all else by default.
pub fn header_of(f: &Frame) -> TheirHeader {
    let facts = Facts { width: 1, height: 1, xyb: false, grey: false, extra: 0, animation: false, timecodes: false };
    let mut h = TheirHeader::parse(&mut Bitstream::new(&[1]), &image(&facts)).expect("all default");
    h.width = f.width;
    h.height = f.height;
    h.upsampling = f.upsampling;
    h.lf_level = f.lf_level;
    h.group_size_shift = f.group_size_shift;
    h.passes.num_passes = f.num_passes;
    h
}

/// A table of contents, each word by section number, the inverse by sent number.
pub struct Sections {
    pub toc: Toc,
    pub offsets: Vec<u64>,
    pub sizes: Vec<u32>,
    pub order: Vec<u32>,
    pub inverse: Vec<u32>,
}

pub enum Read {
    Table(Sections),
    OrderNeeded(u64),
    Refused(Refusal),
}

/// The kinds of a frame's sections in the order of their numbers, counted by the Rust.
pub fn kinds(h: &TheirHeader) -> Vec<Kind> {
    let (groups, passes) = (h.num_groups(), h.passes.num_passes);
    if groups == 1 && passes == 1 {
        return vec![Kind::All];
    }
    let mut out = vec![Kind::LfGlobal];
    out.extend((0..h.num_lf_groups()).map(Kind::LfGroup));
    out.push(Kind::HfGlobal);
    out.extend((0..passes).flat_map(|pass_idx| (0..groups).map(move |group_idx| Kind::GroupPass { pass_idx, group_idx })));
    out
}

fn their_kind(k: Kind) -> TocGroupKind {
    match k {
        Kind::All => TocGroupKind::All,
        Kind::LfGlobal => TocGroupKind::LfGlobal,
        Kind::LfGroup(i) => TocGroupKind::LfGroup(i),
        Kind::HfGlobal => TocGroupKind::HfGlobal,
        Kind::GroupPass { pass_idx, group_idx } => TocGroupKind::GroupPass { pass_idx, group_idx },
    }
}

/// Reads a table whose flag is at `flag`. A lent order comes with the place at which reading goes on.
pub fn read_toc(s: &[u8], h: &TheirHeader, flag: u64, lent: Option<(&[u32], u64)>) -> Read {
    let mut b = Bitstream::new(s);
    b.seek(flag as usize);
    jxl_coding::lend(lent.map(|(order, place)| (order.iter().map(|&n| n as usize).collect(), place as usize)));
    let toc = match TheirToc::parse(&mut b, h) {
        Ok(toc) => toc,
        Err(e) => {
            return match refusal(&e, &b) {
                Some(r) => Read::Refused(r),
                None => Read::OrderNeeded(b.num_read_bits() as u64),
            };
        }
    };
    let groups: Vec<_> = toc.iter_bitstream_order().collect();
    let count = groups.len();
    let mut out = Sections {
        toc: Toc { count: count as u32, bookmark: toc.bookmark() as u64, total_byte_size: toc.total_byte_size() as u64 },
        offsets: Vec::with_capacity(count),
        sizes: Vec::with_capacity(count),
        order: Vec::with_capacity(count),
        inverse: vec![0; count],
    };
    for (section, kind) in kinds(h).into_iter().enumerate() {
        let sent = toc.group_index_bitstream_order(their_kind(kind));
        let group = &groups[sent];
        assert_eq!(group.kind, their_kind(kind), "the Rust's own two look-ups of a section");
        out.offsets.push(group.offset as u64);
        out.sizes.push(group.size);
        out.order.push(sent as u32);
        out.inverse[sent] = section as u32;
    }
    Read::Table(out)
}
