impl MorphPath {
    /// A morph of these two shapes as they are.
    pub fn open_from_parts(from: Vec<[f32; 2]>, to: Vec<[f32; 2]>) -> MorphPath {
        MorphPath { from, to }
    }
}
