/// The lookup in a table of these entries and this total.
pub fn table_raw_t(cumulative: [f32; 32], length: f32, t: f32) -> f32 {
    ArcTable { cumulative, length }.raw_t(t)
}

impl QuadBezier {
    /// The table's entries and its total.
    pub fn open_table(&self) -> ([f32; 32], f32) {
        (self.table.cumulative, self.table.length)
    }

    /// The raw parameter at this progress.
    pub fn open_raw_t(&self, t: f32) -> f32 {
        self.table.raw_t(t)
    }

    /// The derivative at this raw parameter.
    pub fn open_derivative(&self, raw_t: f32) -> [f32; 2] {
        self.derivative(raw_t)
    }
}

impl CubicBezierCurve {
    /// The table's entries and its total.
    pub fn open_table(&self) -> ([f32; 32], f32) {
        (self.table.cumulative, self.table.length)
    }

    /// The raw parameter at this progress.
    pub fn open_raw_t(&self, t: f32) -> f32 {
        self.table.raw_t(t)
    }

    /// The derivative at this raw parameter.
    pub fn open_derivative(&self, raw_t: f32) -> [f32; 2] {
        self.derivative(raw_t)
    }
}

impl CatmullRomSpline {
    /// A spline with these points and this stored table.
    pub fn open_from_parts(points: Vec<[f32; 2]>, cumulative: Vec<f32>, length: f32) -> Self {
        Self { points, cumulative, length }
    }

    /// The table's entries and its total.
    pub fn open_table(&self) -> (&[f32], f32) {
        (&self.cumulative, self.length)
    }

    /// The raw parameter at this progress.
    pub fn open_raw_t(&self, t: f32) -> f32 {
        self.raw_t(t)
    }
}
