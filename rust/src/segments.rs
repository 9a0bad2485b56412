//! Segments one by one: those of a stored path that is lent, and more of them appended to its buffers.

use crate::{Bits, Chord, Path, Progress, Refusal, Stored};

answering! {
    fn kihavute_len(kinds: [u8], fields: [f32], tables: [f32], lengths: [f32], commands: [u32]);
    fn kihavute_is_empty(kinds: [u8], fields: [f32], tables: [f32], lengths: [f32], commands: [u32]);
    fn kihavute_path_length(kinds: [u8], fields: [f32], tables: [f32], lengths: [f32], commands: [u32]);
    fn kihavute_segment(
        kinds: [u8], fields: [f32], tables: [f32], lengths: [f32], commands: [u32], i: u64, out: mut [f32]
    );
    fn kihavute_segment_position(
        kinds: [u8], fields: [f32], tables: [f32], lengths: [f32], commands: [u32], i: u64, along: f32
    );
    fn kihavute_segment_tangent(
        kinds: [u8], fields: [f32], tables: [f32], lengths: [f32], commands: [u32], i: u64, along: f32
    );
    fn kihavute_segment_rotation(
        kinds: [u8], fields: [f32], tables: [f32], lengths: [f32], commands: [u32], i: u64, along: f32
    );
    fn kihavute_push_segment(
        kinds: mut [u8], fields: mut [f32], tables: mut [f32], lengths: mut [f32], commands: mut [u32], count: u64,
        command: u32, kind: u8, numbers: [f32]
    );
    fn kihavute_line_to(
        kinds: mut [u8], fields: mut [f32], tables: mut [f32], lengths: mut [f32], commands: mut [u32], count: u64,
        command: u32, sx: f32, sy: f32, ex: f32, ey: f32
    );
    fn kihavute_quad_to(
        kinds: mut [u8], fields: mut [f32], tables: mut [f32], lengths: mut [f32], commands: mut [u32], count: u64,
        command: u32, sx: f32, sy: f32, cx: f32, cy: f32, ex: f32, ey: f32
    );
    fn kihavute_cubic_to(
        kinds: mut [u8], fields: mut [f32], tables: mut [f32], lengths: mut [f32], commands: mut [u32], count: u64,
        command: u32, sx: f32, sy: f32, ax: f32, ay: f32, bx: f32, by: f32, ex: f32, ey: f32
    );
    fn kihavute_arc_to(
        kinds: mut [u8], fields: mut [f32], tables: mut [f32], lengths: mut [f32], commands: mut [u32], count: u64,
        command: u32, sx: f32, sy: f32, rx: f32, ry: f32, rotation: f32, large: u32, sweep: u32, ex: f32, ey: f32
    );
}

impl Stored<'_> {
    /// How many segments there are.
    pub fn len(&self) -> Result<usize, Refusal> {
        Ok(ask!(self, kihavute_len())?[0] as usize)
    }

    /// Whether there are none.
    pub fn is_empty(&self) -> Result<bool, Refusal> {
        Ok(ask!(self, kihavute_is_empty())?[0] == 1)
    }

    /// How long the path is, in path units: its last running length, or 0.
    pub fn arc_length(&self) -> Result<Bits, Refusal> {
        Ok(ask!(self, kihavute_path_length())?[0] as Bits)
    }

    // what is there for segment i
    fn there<A>(
        &self,
        i: usize,
        given: Result<[u64; 8], Refusal>,
        value: impl FnOnce([u64; 8]) -> A,
    ) -> Result<Option<A>, Refusal> {
        Ok((i < self.kinds.len()).then_some(value(given?)))
    }

    /// The kind of segment `i`, and how many numbers are written from the start of `out`: its own 4, 6, 8, 11 or 11, then the
    /// 33 of its table where it has one. `None`, and nothing written, past the last segment. An `out` that is too short refuses
    /// the call with the count needed, and nothing is written.
    pub fn segment(&self, i: usize, out: &mut [f32]) -> Result<Option<(u8, usize)>, Refusal> {
        let given = ask!(self, kihavute_segment(i as u64, out.as_mut_ptr(), out.len() as u64));
        self.there(i, given, |given| (given[0] as u8, given[1] as usize))
    }

    /// Where segment `i` is at a progress along itself, in path units; `None` past the last segment.
    pub fn segment_position(&self, i: usize, along: Progress) -> Result<Option<[Bits; 2]>, Refusal> {
        let given = ask!(self, kihavute_segment_position(i as u64, along.0));
        self.there(i, given, |given| [given[0] as Bits, given[1] as Bits])
    }

    /// Where it heads there, with the length 1, or (0, 0) where nothing tells.
    pub fn segment_tangent(&self, i: usize, along: Progress) -> Result<Option<[Bits; 2]>, Refusal> {
        let given = ask!(self, kihavute_segment_tangent(i as u64, along.0));
        self.there(i, given, |given| [given[0] as Bits, given[1] as Bits])
    }

    /// That heading in degrees from the x axis towards the y axis.
    pub fn segment_rotation_deg(&self, i: usize, along: Progress) -> Result<Option<Bits>, Refusal> {
        let given = ask!(self, kihavute_segment_rotation(i as u64, along.0));
        self.there(i, given, |given| given[0] as Bits)
    }
}

/// Five buffers whose first `count` segments are a stored path, with room after them. An accepted call stores one segment more,
/// with the number of its command that it is given, counts it, and tells how many places of each buffer are in use; a refused one
/// writes nothing. A number below that of the last segment is refused as a bad path.
#[derive(Debug)]
pub struct Growing<'a> {
    pub kinds: &'a mut [u8],
    pub fields: &'a mut [f32],
    pub tables: &'a mut [f32],
    pub lengths: &'a mut [f32],
    pub commands: &'a mut [u32],
    pub count: usize,
}

// appends to the five buffers by one of these
macro_rules! append {
    ($room:expr, $call:ident($($argument:expr),*)) => {{
        // SAFETY: the slices are whole and apart from each other, and the answer is the call's own
        let given = crate::judged(|answer, places| unsafe {
            $call(
                $room.kinds.as_mut_ptr(),
                $room.kinds.len() as u64,
                $room.fields.as_mut_ptr(),
                $room.fields.len() as u64,
                $room.tables.as_mut_ptr(),
                $room.tables.len() as u64,
                $room.lengths.as_mut_ptr(),
                $room.lengths.len() as u64,
                $room.commands.as_mut_ptr(),
                $room.commands.len() as u64,
                $room.count as u64,
                $($argument,)*
                answer,
                places,
            )
        })?;
        $room.count += 1;
        Ok([0, 1, 2, 3, 4].map(|k| given[k] as usize))
    }};
}

impl Growing<'_> {
    /// Appends the segment of a kind and of its numbers, as both are stored; its table is made anew.
    pub fn push_segment(&mut self, command: u32, kind: u8, numbers: &[f32]) -> Result<[usize; 5], Refusal> {
        append!(self, kihavute_push_segment(command, kind, numbers.as_ptr(), numbers.len() as u64))
    }

    /// Appends a line.
    pub fn line_to(&mut self, command: u32, [[sx, sy], [ex, ey]]: [[f32; 2]; 2]) -> Result<[usize; 5], Refusal> {
        append!(self, kihavute_line_to(command, sx, sy, ex, ey))
    }

    /// Appends a quad: its start, its control and its end.
    pub fn quad_to(
        &mut self,
        command: u32,
        [[sx, sy], [cx, cy], [ex, ey]]: [[f32; 2]; 3],
    ) -> Result<[usize; 5], Refusal> {
        append!(self, kihavute_quad_to(command, sx, sy, cx, cy, ex, ey))
    }

    /// Appends a cubic: its start, both controls and its end.
    pub fn cubic_to(
        &mut self,
        command: u32,
        [[sx, sy], [ax, ay], [bx, by], [ex, ey]]: [[f32; 2]; 4],
    ) -> Result<[usize; 5], Refusal> {
        append!(self, kihavute_cubic_to(command, sx, sy, ax, ay, bx, by, ex, ey))
    }

    /// Appends an arc through both ends of a chord, or its line fallback.
    pub fn arc_to(&mut self, command: u32, chord: &Chord) -> Result<[usize; 5], Refusal> {
        let Chord {
            start: [sx, sy],
            radii: [rx, ry],
            x_axis_rotation: rotation,
            large_arc: large,
            sweep,
            end: [ex, ey],
        } = *chord;
        append!(self, kihavute_arc_to(command, sx, sy, rx, ry, rotation, large.into(), sweep.into(), ex, ey))
    }
}

impl Path {
    /// One segment more, with the number of its command that the caller names; one below that of the last segment is refused. What
    /// is refused leaves the path as it was.
    ///
    /// ```
    /// use kihavute::Path;
    ///
    /// let mut path = Path::default();
    /// path.append(|room| room.line_to(1, [[0.0, 0.0], [3.0, 4.0]])).unwrap();
    /// path.append(|room| room.quad_to(2, [[3.0, 4.0], [6.0, 4.0], [6.0, 8.0]])).unwrap();
    /// assert_eq!((path.len(), path.command(1)), (2, Some(2)));
    /// assert_eq!(path, Path::from_text(b"M0 0 L3 4 Q6 4 6 8").unwrap());
    /// ```
    pub fn append(&mut self, one: impl FnOnce(&mut Growing) -> Result<[usize; 5], Refusal>) -> Result<(), Refusal> {
        let count = self.kinds.len();
        let before = [count, self.fields.len(), self.tables.len(), count, count];
        // room for a segment of any kind
        self.resize([count + 1, before[1] + 11, before[2] + 33, count + 1, count + 1]);
        let mut room = Growing {
            kinds: &mut self.kinds,
            fields: &mut self.fields,
            tables: &mut self.tables,
            lengths: &mut self.lengths,
            commands: &mut self.commands,
            count,
        };
        let given = one(&mut room);
        self.resize(*given.as_ref().unwrap_or(&before));
        given.map(|_| ())
    }

    fn resize(&mut self, [kinds, fields, tables, lengths, commands]: [usize; 5]) {
        self.kinds.resize(kinds, 0);
        self.fields.resize(fields, 0.0);
        self.tables.resize(tables, 0.0);
        self.lengths.resize(lengths, 0.0);
        self.commands.resize(commands, 0);
    }
}
