//! A header's record as a row of named words, floats by their bits, so that two records are compared bit for bit and a difference has a name.

use hingevale::FrameHeader;

pub fn words(h: &FrameHeader) -> Vec<u64> {
    let mut out = Vec::with_capacity(96);
    visit(h, |_, w| out.push(w));
    out
}

/// The first field in which two records differ.
pub fn differ(a: &FrameHeader, b: &FrameHeader) -> Option<String> {
    let (mut names, mut left) = (Vec::new(), Vec::new());
    visit(a, |n, w| {
        names.push(n);
        left.push(w);
    });
    let right = words(b);
    (0..left.len()).find(|&i| left[i] != right[i]).map(|i| format!("{}: {} against {}", names[i], left[i], right[i]))
}

pub fn visit(h: &FrameHeader, mut f: impl FnMut(&'static str, u64)) {
    let mut one = |name, x: u32| f(name, x as u64);
    one("frame_type", h.frame_type);
    one("encoding", h.encoding);
    one("flags, low", h.flags as u32);
    one("flags, high", (h.flags >> 32) as u32);
    one("do_ycbcr", h.do_ycbcr as u32);
    one("encoded_color_channels", h.encoded_color_channels);
    h.jpeg_upsampling.iter().for_each(|&x| one("jpeg_upsampling", x));
    one("upsampling", h.upsampling);
    one("group_size_shift", h.group_size_shift);
    one("x_qm_scale", h.x_qm_scale);
    one("b_qm_scale", h.b_qm_scale);
    one("num_passes", h.num_passes);
    one("num_ds", h.num_ds);
    h.shift.iter().for_each(|&x| one("shift", x));
    h.downsample.iter().for_each(|&x| one("downsample", x));
    h.last_pass.iter().for_each(|&x| one("last_pass", x));
    one("lf_level", h.lf_level);
    one("have_crop", h.have_crop as u32);
    one("x0", h.x0 as u32);
    one("y0", h.y0 as u32);
    one("width", h.width);
    one("height", h.height);
    one("blend_mode", h.blend_mode);
    one("alpha_channel", h.alpha_channel);
    one("clamp", h.clamp as u32);
    one("source", h.source);
    one("duration", h.duration);
    one("timecode", h.timecode);
    one("is_last", h.is_last as u32);
    one("save_as_reference", h.save_as_reference);
    one("resets_canvas", h.resets_canvas as u32);
    one("save_before_ct", h.save_before_ct as u32);
    one("name_length", h.name_length);
    one("gabor_enabled", h.gabor_enabled as u32);
    h.gabor.iter().for_each(|x| one("gabor", x.to_bits()));
    one("epf_enabled", h.epf_enabled as u32);
    one("epf_iters", h.epf_iters);
    h.epf_sharp.iter().for_each(|x| one("epf_sharp", x.to_bits()));
    h.epf_scale.iter().for_each(|x| one("epf_scale", x.to_bits()));
    h.epf_sigma.iter().for_each(|x| one("epf_sigma", x.to_bits()));
    one("epf_sigma_modular", h.epf_sigma_modular.to_bits());
}
