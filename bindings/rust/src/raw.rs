//! The C functions as `include/hingevale.h` declares them. A slice is a pointer and a length; an empty one may have any pointer that isn't
//! null.
extern "C" {
    pub fn hingevale_read_frame_header(
        s: *const u8,
        s_len: usize,
        width: u32,
        height: u32,
        xyb: bool,
        grey: bool,
        extra: u32,
        animation: bool,
        timecodes: bool,
        name: *mut u8,
        name_len: usize,
        upsampling: *mut u32,
        upsampling_len: usize,
        blending: *mut u32,
        blending_len: usize,
        words: *mut u64,
        words_len: usize,
        signed: *mut i32,
        signed_len: usize,
        floats: *mut f32,
        floats_len: usize,
    ) -> u64;
    pub fn hingevale_read_toc(
        s: *const u8,
        s_len: usize,
        width: u32,
        height: u32,
        upsampling: u32,
        lf_level: u32,
        group_size_shift: u32,
        num_passes: u32,
        place: u64,
        offsets: *mut u64,
        offsets_len: usize,
        sizes: *mut u32,
        sizes_len: usize,
        order: *mut u32,
        order_len: usize,
        inverse: *mut u32,
        inverse_len: usize,
        out: *mut u64,
        out_len: usize,
    ) -> u64;
    pub fn hingevale_read_toc_with_order(
        s: *const u8,
        s_len: usize,
        width: u32,
        height: u32,
        upsampling: u32,
        lf_level: u32,
        group_size_shift: u32,
        num_passes: u32,
        place: u64,
        lent: *const u32,
        lent_len: usize,
        offsets: *mut u64,
        offsets_len: usize,
        sizes: *mut u32,
        sizes_len: usize,
        order: *mut u32,
        order_len: usize,
        inverse: *mut u32,
        inverse_len: usize,
        out: *mut u64,
        out_len: usize,
    ) -> u64;
    pub fn hingevale_section_at(
        width: u32,
        height: u32,
        upsampling: u32,
        lf_level: u32,
        group_size_shift: u32,
        num_passes: u32,
        offsets: *const u64,
        offsets_len: usize,
        sizes: *const u32,
        sizes_len: usize,
        section: u32,
        out: *mut u64,
        out_len: usize,
    ) -> u64;
    pub fn hingevale_section_in(
        words: *const u64,
        words_len: usize,
        x: u32,
        y: u32,
        pass: u32,
        out: *mut u64,
        out_len: usize,
    ) -> u64;
    pub fn hingevale_list(
        input: *const u8,
        input_len: usize,
        text: *mut u8,
        text_len: usize,
        out: *mut u64,
        out_len: usize,
    ) -> u64;
    pub fn hingevale_is_keyframe(frame_type: u32, is_last: bool, duration: u32) -> bool;
    pub fn hingevale_can_reference(
        frame_type: u32,
        is_last: bool,
        duration: u32,
        save_as_reference: u32,
    ) -> bool;
    pub fn hingevale_noise(flags: u64) -> bool;
    pub fn hingevale_patches(flags: u64) -> bool;
    pub fn hingevale_splines(flags: u64) -> bool;
    pub fn hingevale_use_lf_frame(flags: u64) -> bool;
    pub fn hingevale_skip_adaptive_lf_smoothing(flags: u64) -> bool;
}

/// Declares functions over the six numbers of a frame, some numbers, and a lent slice of words.
macro_rules! questions {
    ($($name:ident($($argument:ident: $type:ty),*);)*) => {
        extern "C" {
            $(pub fn $name(
                width: u32,
                height: u32,
                upsampling: u32,
                lf_level: u32,
                group_size_shift: u32,
                num_passes: u32,
                $($argument: $type,)*
                out: *mut u64,
                out_len: usize,
            ) -> u64;)*
        }
    };
}

questions! {
    hingevale_measure();
    hingevale_sample_width(by: u32);
    hingevale_sample_height(by: u32);
    hingevale_group_rect(group_idx: u32);
    hingevale_lf_group_rect(lf_group_idx: u32);
    hingevale_group_idx_from_coord(x: u32, y: u32);
    hingevale_lf_group_idx_from_group_idx(group_idx: u32);
    hingevale_is_group_collides_region(group_idx: u32, left: u32, top: u32, across: u32, down: u32);
    hingevale_is_lf_group_collides_region(lf_group_idx: u32, left: u32, top: u32, across: u32, down: u32);
    hingevale_section_of_kind(kind: u32, pass_idx: u32, group_idx: u32);
    hingevale_kind_of(section: u32);
    hingevale_section_of_sample(x: u32, y: u32, pass: u32);
    hingevale_layout_of();
    hingevale_sent_of_section(order: *const u32, order_len: usize, section: u32);
    hingevale_section_of_sent(inverse: *const u32, inverse_len: usize, sent: u32);
}
