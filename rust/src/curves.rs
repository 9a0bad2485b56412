//! Lone segments: quads, cubics, lines and arcs.

use crate::{Bits, Progress, RawParameter, Refusal, judged};

answering! {
    fn kihavute_quad(sx: f32, sy: f32, cx: f32, cy: f32, ex: f32, ey: f32, progress: f32);
    fn kihavute_cubic(sx: f32, sy: f32, ax: f32, ay: f32, bx: f32, by: f32, ex: f32, ey: f32, progress: f32);
    fn kihavute_quad_table(sx: f32, sy: f32, cx: f32, cy: f32, ex: f32, ey: f32, out: mut [f32]);
    fn kihavute_cubic_table(sx: f32, sy: f32, ax: f32, ay: f32, bx: f32, by: f32, ex: f32, ey: f32, out: mut [f32]);
    fn kihavute_line(sx: f32, sy: f32, ex: f32, ey: f32, progress: f32);
    fn kihavute_arc(
        sx: f32, sy: f32, rx: f32, ry: f32, rotation: f32, large: u32, sweep: u32, ex: f32, ey: f32, progress: f32
    );
    fn kihavute_arc_shape(
        sx: f32, sy: f32, rx: f32, ry: f32, rotation: f32, large: u32, sweep: u32, ex: f32, ey: f32, out: mut [f32]
    );
    fn kihavute_arc_table(
        sx: f32, sy: f32, rx: f32, ry: f32, rotation: f32, large: u32, sweep: u32, ex: f32, ey: f32, out: mut [f32]
    );
}

/// What a lone segment answers at a progress along it: where it is and where it heads, with the length 1, or (0, 0) where
/// nothing tells; the raw parameter at which both were taken; how long it is.
#[derive(Clone, Copy, Debug, PartialEq)]
pub struct Lone {
    pub position: [Bits; 2],
    pub tangent: [Bits; 2],
    pub raw: RawParameter,
    pub length: Bits,
}

impl Lone {
    fn given(values: [u64; 8]) -> Self {
        Self {
            position: [values[0] as Bits, values[1] as Bits],
            tangent: [values[2] as Bits, values[3] as Bits],
            raw: RawParameter::of_bits(values[4] as Bits),
            length: values[5] as Bits,
        }
    }
}

/// What the quad of a start, a control and an end answers at a progress.
///
/// ```
/// use kihavute::{Progress, quad, rotation_deg};
///
/// let halfway = quad(&[[0.0, 0.0], [0.0, 1.0], [0.0, 2.0]], Progress(0.5)).unwrap();
/// assert_eq!(halfway.position.map(f32::from_bits), [0.0, 1.0]);
/// assert_eq!(f32::from_bits(halfway.length), 2.0);
/// assert_eq!(f32::from_bits(rotation_deg(halfway.tangent.map(f32::from_bits))), 90.0);
/// ```
#[inline]
pub fn quad(p: &[[f32; 2]; 3], progress: Progress) -> Result<Lone, Refusal> {
    // SAFETY: the answer is the call's own
    let given = judged(|answer, places| unsafe {
        kihavute_quad(p[0][0], p[0][1], p[1][0], p[1][1], p[2][0], p[2][1], progress.0, answer, places)
    })?;
    Ok(Lone::given(given))
}

/// What the cubic of a start, two controls and an end answers at a progress.
#[inline]
pub fn cubic(p: &[[f32; 2]; 4], progress: Progress) -> Result<Lone, Refusal> {
    // SAFETY: the answer is the call's own
    let given = judged(|answer, places| unsafe {
        kihavute_cubic(
            p[0][0], p[0][1], p[1][0], p[1][1], p[2][0], p[2][1], p[3][0], p[3][1], progress.0, answer, places,
        )
    })?;
    Ok(Lone::given(given))
}

/// A table of 32 running lengths and then their total, as bits.
pub type TableBits = [Bits; 33];

/// The table of the quad of these points.
#[inline]
pub fn quad_table(p: &[[f32; 2]; 3]) -> Result<TableBits, Refusal> {
    let mut out = [0.0f32; 33];
    // SAFETY: the output and the answer are the call's own
    judged(|answer, places| unsafe {
        kihavute_quad_table(
            p[0][0],
            p[0][1],
            p[1][0],
            p[1][1],
            p[2][0],
            p[2][1],
            out.as_mut_ptr(),
            out.len() as u64,
            answer,
            places,
        )
    })?;
    Ok(out.map(f32::to_bits))
}

/// The table of the cubic of these points.
#[inline]
pub fn cubic_table(p: &[[f32; 2]; 4]) -> Result<TableBits, Refusal> {
    let mut out = [0.0f32; 33];
    // SAFETY: the output and the answer are the call's own
    judged(|answer, places| unsafe {
        kihavute_cubic_table(
            p[0][0],
            p[0][1],
            p[1][0],
            p[1][1],
            p[2][0],
            p[2][1],
            p[3][0],
            p[3][1],
            out.as_mut_ptr(),
            out.len() as u64,
            answer,
            places,
        )
    })?;
    Ok(out.map(f32::to_bits))
}

/// What the line from the first point to the second answers at a progress.
#[inline]
pub fn line(p: &[[f32; 2]; 2], progress: Progress) -> Result<Lone, Refusal> {
    // SAFETY: the answer is the call's own
    let given = judged(|answer, places| unsafe {
        kihavute_line(p[0][0], p[0][1], p[1][0], p[1][1], progress.0, answer, places)
    })?;
    Ok(Lone::given(given))
}

/// What the text of an arc gives: its ends, its radii, its rotation in degrees, its flags.
#[derive(Clone, Copy, Debug, PartialEq)]
pub struct Chord {
    pub start: [f32; 2],
    pub radii: [f32; 2],
    pub x_axis_rotation: f32,
    pub large_arc: bool,
    pub sweep: bool,
    pub end: [f32; 2],
}

/// What an arc answers at a progress; one that fell back to a line answers what the line does.
#[inline]
pub fn arc(c: &Chord, progress: Progress) -> Result<Lone, Refusal> {
    // SAFETY: the answer is the call's own
    let given = judged(|answer, places| unsafe {
        kihavute_arc(
            c.start[0],
            c.start[1],
            c.radii[0],
            c.radii[1],
            c.x_axis_rotation,
            c.large_arc.into(),
            c.sweep.into(),
            c.end[0],
            c.end[1],
            progress.0,
            answer,
            places,
        )
    })?;
    Ok(Lone::given(given))
}

/// The 11 numbers of an arc, and whether it fell back to a line.
#[inline]
pub fn arc_shape(c: &Chord) -> Result<([Bits; 11], bool), Refusal> {
    let mut out = [0.0f32; 11];
    // SAFETY: the output and the answer are the call's own
    let given = judged(|answer, places| unsafe {
        kihavute_arc_shape(
            c.start[0],
            c.start[1],
            c.radii[0],
            c.radii[1],
            c.x_axis_rotation,
            c.large_arc.into(),
            c.sweep.into(),
            c.end[0],
            c.end[1],
            out.as_mut_ptr(),
            out.len() as u64,
            answer,
            places,
        )
    })?;
    Ok((out.map(f32::to_bits), given[0] == 1))
}

/// The table of an arc; `None` where it fell back to a line.
#[inline]
pub fn arc_table(c: &Chord) -> Result<Option<TableBits>, Refusal> {
    let mut out = [0.0f32; 33];
    // SAFETY: the output and the answer are the call's own
    let given = judged(|answer, places| unsafe {
        kihavute_arc_table(
            c.start[0],
            c.start[1],
            c.radii[0],
            c.radii[1],
            c.x_axis_rotation,
            c.large_arc.into(),
            c.sweep.into(),
            c.end[0],
            c.end[1],
            out.as_mut_ptr(),
            out.len() as u64,
            answer,
            places,
        )
    })?;
    Ok((given[0] == 0).then(|| out.map(f32::to_bits)))
}
