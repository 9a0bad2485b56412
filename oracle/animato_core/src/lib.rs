//! What the original takes from `animato_core`: interpolation. Document 01 fixes it as `a + (b - a) * t`.
#![no_std]

/// A value between two others.
pub trait Interpolate {
    /// `self + (other - self) * t`, rounded after each operation; `t` is not clamped.
    fn lerp(&self, other: &Self, t: f32) -> Self;
}

impl Interpolate for f32 {
    fn lerp(&self, other: &f32, t: f32) -> f32 {
        *self + (*other - *self) * t
    }
}

impl Interpolate for [f32; 2] {
    fn lerp(&self, other: &[f32; 2], t: f32) -> [f32; 2] {
        [self[0].lerp(&other[0], t), self[1].lerp(&other[1], t)]
    }
}
