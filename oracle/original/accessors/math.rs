/// The helpers under their own names, for callers outside the crate.
pub mod open {
    macro_rules! open {
        ($($name:ident($($operand:ident: $kind:ty),*) -> $answer:ty;)*) => {
            $(
                #[inline]
                pub fn $name($($operand: $kind),*) -> $answer {
                    super::$name($($operand),*)
                }
            )*
        };
    }

    open! {
        sqrt(x: f32) -> f32;
        deg_to_rad(deg: f32) -> f32;
        rad_to_deg(rad: f32) -> f32;
        clamp01(t: f32) -> f32;
        add(a: [f32; 2], b: [f32; 2]) -> [f32; 2];
        sub(a: [f32; 2], b: [f32; 2]) -> [f32; 2];
        scale(v: [f32; 2], s: f32) -> [f32; 2];
        dot(a: [f32; 2], b: [f32; 2]) -> f32;
        length(v: [f32; 2]) -> f32;
        distance(a: [f32; 2], b: [f32; 2]) -> f32;
        normalize(v: [f32; 2]) -> [f32; 2];
        lerp(a: f32, b: f32, t: f32) -> f32;
        lerp_point(a: [f32; 2], b: [f32; 2], t: f32) -> [f32; 2];
        rotation_deg(tangent: [f32; 2]) -> f32;
        angle_between(u: [f32; 2], v: [f32; 2]) -> f32;
    }
}
