//! The four functions that the original's build without `std` takes from `libm`, and the f64 root of its length. Sine, cosine
//! and atan2 are the proved library's own, so that both sides have the same three; the roots are the machine's, so that they
//! stand against the proved ones.

/// The machine's square root.
pub fn sqrtf(x: f32) -> f32 {
    x.sqrt()
}

/// The machine's square root of an f64.
pub fn sqrt(x: f64) -> f64 {
    x.sqrt()
}

/// Sine of an angle in radians.
pub fn sinf(angle: f32) -> f32 {
    kihavute::sin(angle)
}

/// Cosine of an angle in radians.
pub fn cosf(angle: f32) -> f32 {
    kihavute::cos(angle)
}

/// The angle of (x, y) in radians.
pub fn atan2f(y: f32, x: f32) -> f32 {
    kihavute::atan2(y, x)
}
