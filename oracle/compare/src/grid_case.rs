//! One frame record and what is asked of it: sizes, counts, a group's rectangle, look-ups, regions.

use crate::frames;
use crate::random::Random;
use crate::theirs::header_of;
use crate::verdict::{Case, Verdict, due, refused, ruled, same};
use hingevale::{Frame, Rect, Refusal};
use jxl_frame::FrameHeader;
use std::fmt::Debug;

#[derive(Clone, Debug)]
pub struct GridCase {
    pub frame: Frame,
    pub upsampling: u32,
    pub index: u32,
    pub x: u32,
    pub y: u32,
    pub region: Rect,
}

pub type Four = (u32, u32, u32, u32);

pub fn four(r: &Rect) -> Four {
    (r.left, r.top, r.width, r.height)
}

/// Whether the Rust's comparisons, taken until one says no, reach a sum that wraps.
pub fn wraps(a: Four, b: Four) -> bool {
    let steps = [(b.0, b.2, a.0, true), (a.0, a.2, b.0, false), (b.1, b.3, a.1, true), (a.1, a.3, b.1, false)];
    for (start, length, other, below) in steps {
        match start.checked_add(length) {
            None => return true,
            Some(end) if below && other >= end => return false,
            Some(end) if !below && end <= other => return false,
            _ => {}
        }
    }
    false
}

/// The four strict comparisons, sums exact.
fn collides(a: Four, b: Four) -> bool {
    let meet = |p: u32, n: u32, q: u32, m: u32| (p as u64) < q as u64 + m as u64 && p as u64 + n as u64 > q as u64;
    meet(a.0, a.2, b.0, b.2) && meet(a.1, a.3, b.1, b.3)
}

/// Groups or LF groups: their side, columns, the rectangle and the region test of both.
struct Tiles<'a> {
    side: u32,
    columns: u32,
    groups: u32,
    ours: (Result<Rect, Refusal>, Result<bool, Refusal>),
    size: &'a dyn Fn() -> (u32, u32),
    region: &'a dyn Fn() -> bool,
}

impl Tiles<'_> {
    fn judge(self, index: u32, region: Four) -> Result<(), String> {
        if index >= self.groups {
            due("rectangle", self.ours.0, Err(refused(14)))?;
            return due("region", self.ours.1, Err(refused(14)));
        }
        let (left, top) = (index % self.columns * self.side, index / self.columns * self.side);
        let (width, height) = (self.size)();
        same("rectangle", self.ours.0, Ok(Rect { left, top, width, height }))?;
        let unclipped = (left, top, self.side, self.side);
        if wraps(region, unclipped) {
            return due("region", self.ours.1, Ok(collides(region, unclipped)));
        }
        same("region", self.ours.1, Ok((self.region)()))
    }
}

impl GridCase {
    fn refused_by_all(&self, number: u32) -> Result<(), String> {
        let (f, i) = (&self.frame, self.index);
        fn all<T: PartialEq + Debug>(what: &str, r: Result<T, Refusal>, number: u32) -> Result<(), String> {
            due(what, r, Err(refused(number)))
        }
        all("measure", hingevale::measure(f), number)?;
        all("sample_width", hingevale::sample_width(f, self.upsampling), number)?;
        all("sample_height", hingevale::sample_height(f, self.upsampling), number)?;
        all("section_count", hingevale::section_count(f), number)?;
        all("group_rect", hingevale::group_rect(f, i), number)?;
        all("lf_group_rect", hingevale::lf_group_rect(f, i), number)?;
        all("group_idx_from_coord", hingevale::group_idx_from_coord(f, self.x, self.y), number)?;
        all("lf_group_idx_from_group_idx", hingevale::lf_group_idx_from_group_idx(f, i), number)?;
        all("is_group_collides_region", hingevale::is_group_collides_region(f, i, self.region), number)?;
        all("is_lf_group_collides_region", hingevale::is_lf_group_collides_region(f, i, self.region), number)
    }

    fn sizes(&self, h: &FrameHeader) -> Result<(), String> {
        let f = &self.frame;
        let g = hingevale::measure(f).map_err(|r| format!("measure: {r:?}, and the Rust has a grid"))?;
        same("width", g.width, h.color_sample_width())?;
        same("height", g.height, h.color_sample_height())?;
        same("side", g.side, h.group_dim())?;
        same("lf_side", g.lf_side, h.lf_group_dim())?;
        same("columns", g.columns, h.groups_per_row())?;
        same("lf_columns", g.lf_columns, h.lf_groups_per_row())?;
        same("groups", g.groups, h.num_groups())?;
        same("lf_groups", g.lf_groups, h.num_lf_groups())?;
        same("rows", g.rows, h.num_groups() / h.groups_per_row())?;
        same("lf_rows", g.lf_rows, h.num_lf_groups() / h.lf_groups_per_row())?;
        same("sections", g.sections as u64, frames::counts(f).2)?;
        same("section_count", hingevale::section_count(f), Ok(g.sections))?;
        same("sample_width", hingevale::sample_width(f, self.upsampling), Ok(h.sample_width(self.upsampling)))?;
        same("sample_height", hingevale::sample_height(f, self.upsampling), Ok(h.sample_height(self.upsampling)))
    }

    fn groups(&self, h: &FrameHeader) -> Result<(), String> {
        let (f, i, region) = (&self.frame, self.index, four(&self.region));
        Tiles {
            side: h.group_dim(),
            columns: h.groups_per_row(),
            groups: h.num_groups(),
            ours: (hingevale::group_rect(f, i), hingevale::is_group_collides_region(f, i, self.region)),
            size: &|| h.group_size_for(i),
            region: &|| h.is_group_collides_region(i, region),
        }
        .judge(i, region)?;
        Tiles {
            side: h.lf_group_dim(),
            columns: h.lf_groups_per_row(),
            groups: h.num_lf_groups(),
            ours: (hingevale::lf_group_rect(f, i), hingevale::is_lf_group_collides_region(f, i, self.region)),
            size: &|| h.lf_group_size_for(i),
            region: &|| h.is_lf_group_collides_region(i, region),
        }
        .judge(i, region)?;
        let lf = hingevale::lf_group_idx_from_group_idx(f, i);
        if i < h.num_groups() {
            same("lf_group_idx_from_group_idx", lf, Ok(h.lf_group_idx_from_group_idx(i)))
        } else {
            due("lf_group_idx_from_group_idx", lf, Err(refused(14)))
        }
    }

    /// A point far down makes the Rust's product wrap; there the rules say 14.
    fn point(&self, h: &FrameHeader) -> Result<&'static str, String> {
        let (x, y) = (self.x, self.y);
        let ours = hingevale::group_idx_from_coord(&self.frame, x, y);
        let shift = 7 + self.frame.group_size_shift;
        let number = (y >> shift) as u64 * h.groups_per_row() as u64 + (x >> shift) as u64;
        if number > u32::MAX as u64 {
            due("group_idx_from_coord", ours, Err(refused(14)))?;
            return Ok(", point by the rules");
        }
        same("group_idx_from_coord", ours, h.group_idx_from_coord(x, y).ok_or(refused(14)))?;
        Ok(if ours.is_ok() { ", point in a group" } else { ", point in none" })
    }
}

impl Case for GridCase {
    fn judge(&self) -> Verdict {
        if let Some(number) = frames::refusal(&self.frame) {
            self.refused_by_all(number)?;
            return Ok(ruled(number));
        }
        let h = header_of(&self.frame);
        self.sizes(&h)?;
        self.groups(&h)?;
        let point = self.point(&h)?;
        let group = if self.index < h.num_groups() { "a group" } else { "no group (14 by the rules)" };
        Ok(format!("both answer, {group}{point}"))
    }

    fn smaller(&self) -> Vec<Self> {
        let mut out: Vec<_> = frames::smaller(&self.frame).into_iter().map(|frame| GridCase { frame, ..self.clone() }).collect();
        let down = |n: u32| [0, n / 2, n.saturating_sub(1)].into_iter().filter(move |&m| m != n);
        out.extend(down(self.index).map(|index| GridCase { index, ..self.clone() }));
        out.extend(down(self.x).map(|x| GridCase { x, ..self.clone() }));
        out.extend(down(self.y).map(|y| GridCase { y, ..self.clone() }));
        out.extend(down(self.upsampling).map(|upsampling| GridCase { upsampling, ..self.clone() }));
        let region = self.region;
        out.extend(down(region.left).map(|left| GridCase { region: Rect { left, ..region }, ..self.clone() }));
        out.extend(down(region.top).map(|top| GridCase { region: Rect { top, ..region }, ..self.clone() }));
        out.extend(down(region.width).map(|width| GridCase { region: Rect { width, ..region }, ..self.clone() }));
        out.extend(down(region.height).map(|height| GridCase { region: Rect { height, ..region }, ..self.clone() }));
        out
    }

    fn show(&self) -> String {
        format!("{self:?}")
    }
}

/// Questions about a frame: indices and points about its edges, regions about the group asked for.
pub fn about(r: &mut Random, frame: Frame) -> GridCase {
    let good = frames::refusal(&frame).is_none();
    let (groups, lf, _) = if good { frames::counts(&frame) } else { (5, 2, 0) };
    let (groups, lf) = (groups as u32, lf as u32);
    let index = match r.below(8) {
        0 => r.of(&[0, groups - 1, groups, lf - 1, lf, u32::MAX]),
        1 | 2 => r.below(lf as u64) as u32,
        _ => r.below(groups as u64) as u32,
    };
    let side = 128u32 << frame.group_size_shift.min(3);
    let columns = if good { header_of(&frame).groups_per_row() } else { 2 };
    let (left, top) = ((index % columns).saturating_mul(side), (index / columns).saturating_mul(side));
    let near = |r: &mut Random, n: u32| match r.below(6) {
        0 => n,
        1 => n.saturating_sub(1),
        2 => n.saturating_add(side),
        3 => n.saturating_add(side - 1),
        4 => n.saturating_add(r.within(0, 3 * side)),
        _ => { let k = r.within(0, 32); r.bits(k) as u32 }
    };
    let (x, y) = (near(r, left), near(r, top));
    let spread = |r: &mut Random| match r.below(5) {
        0 => r.within(0, 2),
        1 => r.of(&[side, side - 1, side + 1, 8 * side]),
        2 => u32::MAX - r.within(0, 3),
        _ => r.within(0, 3 * side),
    };
    let region = Rect { left: near(r, left), top: near(r, top), width: spread(r), height: spread(r) };
    let upsampling = r.of(&[0, 1, 2, 3, 4, 7, 8, 100, 4096, u32::MAX]);
    GridCase { frame, upsampling, index, x, y, region }
}
