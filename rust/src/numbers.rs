//! Single numbers, points and angles: the sections from Roots to Points of the header.

use crate::Bits;

unsafe extern "C" {
    safe fn kihavute_sqrt(x: f32) -> f32;
    safe fn kihavute_sin(angle: f32) -> f32;
    safe fn kihavute_cos(angle: f32) -> f32;
    safe fn kihavute_sin_cos(angle: f32) -> u64;
    safe fn kihavute_atan2(y: f32, x: f32) -> f32;
    safe fn kihavute_tidy(x: f32) -> f32;
    safe fn kihavute_min(a: f32, b: f32) -> u32;
    safe fn kihavute_max(a: f32, b: f32) -> u32;
    safe fn kihavute_clamp(x: f32, low: f32, high: f32) -> u32;
    safe fn kihavute_clamp01(x: f32) -> u32;
    safe fn kihavute_lerp(a: f32, b: f32, t: f32) -> u32;
    safe fn kihavute_deg_to_rad(deg: f32) -> u32;
    safe fn kihavute_rad_to_deg(rad: f32) -> u32;
    safe fn kihavute_add(ax: f32, ay: f32, bx: f32, by: f32) -> u64;
    safe fn kihavute_sub(ax: f32, ay: f32, bx: f32, by: f32) -> u64;
    safe fn kihavute_scale(x: f32, y: f32, factor: f32) -> u64;
    safe fn kihavute_dot(ax: f32, ay: f32, bx: f32, by: f32) -> u32;
    safe fn kihavute_length(x: f32, y: f32) -> u32;
    safe fn kihavute_distance(ax: f32, ay: f32, bx: f32, by: f32) -> u32;
    safe fn kihavute_normalize(x: f32, y: f32) -> u64;
    safe fn kihavute_lerp_point(ax: f32, ay: f32, bx: f32, by: f32, t: f32) -> u64;
    safe fn kihavute_rotation_deg(x: f32, y: f32) -> u32;
    safe fn kihavute_angle_between(ux: f32, uy: f32, vx: f32, vy: f32) -> u32;
}

// the two patterns of a packed point
fn apart(point: u64) -> [Bits; 2] {
    [point as u32, (point >> 32) as u32]
}

#[inline]
pub fn sqrt(x: f32) -> f32 {
    kihavute_sqrt(x)
}

/// The sine of an angle in radians of at most 64 in size, else NaN.
#[inline]
pub fn sin(angle: f32) -> f32 {
    kihavute_sin(angle)
}

/// The cosine of an angle in radians of at most 64 in size, else NaN.
#[inline]
pub fn cos(angle: f32) -> f32 {
    kihavute_cos(angle)
}

/// The cosine and the sine, as the point of the unit circle.
#[inline]
pub fn sin_cos(angle: f32) -> [Bits; 2] {
    apart(kihavute_sin_cos(angle))
}

/// The angle of (x, y) in radians, with the sign of `y`.
#[inline]
pub fn atan2(y: f32, x: f32) -> f32 {
    kihavute_atan2(y, x)
}

/// `x`, and for every NaN the one NaN 7FC00000.
#[inline]
pub fn tidy(x: f32) -> f32 {
    kihavute_tidy(x)
}

/// The smaller: a NaN loses against a number, and of two equals the first is kept.
#[inline]
pub fn min(a: f32, b: f32) -> Bits {
    kihavute_min(a, b)
}

/// The larger: a NaN loses against a number, and of two equals the first is kept.
#[inline]
pub fn max(a: f32, b: f32) -> Bits {
    kihavute_max(a, b)
}

/// `x` held to `low` and `high`; a NaN stays.
#[inline]
pub fn clamp(x: f32, low: f32, high: f32) -> Bits {
    kihavute_clamp(x, low, high)
}

/// `x` held to 0 and 1; a NaN is 0.
#[inline]
pub fn clamp01(x: f32) -> Bits {
    kihavute_clamp01(x)
}

/// `a + (b - a) * t`.
#[inline]
pub fn lerp(a: f32, b: f32, t: f32) -> Bits {
    kihavute_lerp(a, b, t)
}

/// Degrees to radians.
#[inline]
pub fn deg_to_rad(deg: f32) -> Bits {
    kihavute_deg_to_rad(deg)
}

/// Radians to degrees.
#[inline]
pub fn rad_to_deg(rad: f32) -> Bits {
    kihavute_rad_to_deg(rad)
}

/// `a + b`.
#[inline]
pub fn add(a: [f32; 2], b: [f32; 2]) -> [Bits; 2] {
    apart(kihavute_add(a[0], a[1], b[0], b[1]))
}

/// `a - b`.
#[inline]
pub fn sub(a: [f32; 2], b: [f32; 2]) -> [Bits; 2] {
    apart(kihavute_sub(a[0], a[1], b[0], b[1]))
}

/// Both coordinates times `factor`.
#[inline]
pub fn scale(v: [f32; 2], factor: f32) -> [Bits; 2] {
    apart(kihavute_scale(v[0], v[1], factor))
}

/// The sum of the coordinates' products.
#[inline]
pub fn dot(a: [f32; 2], b: [f32; 2]) -> Bits {
    kihavute_dot(a[0], a[1], b[0], b[1])
}

/// The root of the sum of both squares, worked out in f64 and rounded to f32: infinite only above the largest f32.
#[inline]
pub fn length(v: [f32; 2]) -> Bits {
    kihavute_length(v[0], v[1])
}

/// The length of `b - a`.
#[inline]
pub fn distance(a: [f32; 2], b: [f32; 2]) -> Bits {
    kihavute_distance(a[0], a[1], b[0], b[1])
}

/// `v` over its length, and (0, 0) where that is at most 2^-23.
#[inline]
pub fn normalize(v: [f32; 2]) -> [Bits; 2] {
    apart(kihavute_normalize(v[0], v[1]))
}

/// Each coordinate's `lerp` from `a` to `b`.
#[inline]
pub fn lerp_point(a: [f32; 2], b: [f32; 2], t: f32) -> [Bits; 2] {
    apart(kihavute_lerp_point(a[0], a[1], b[0], b[1], t))
}

/// The heading of a tangent in degrees.
#[inline]
pub fn rotation_deg(tangent: [f32; 2]) -> Bits {
    kihavute_rotation_deg(tangent[0], tangent[1])
}

/// The signed angle from `u` to `v` in radians.
#[inline]
pub fn angle_between(u: [f32; 2], v: [f32; 2]) -> Bits {
    kihavute_angle_between(u[0], u[1], v[0], v[1])
}
