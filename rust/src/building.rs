//! Building: a stored path from a command list or a text, in lent buffers.

use crate::{Refusal, judged};

answering! {
    fn kihavute_build(
        letters: [u8], numbers: [f32], kinds: mut [u8], fields: mut [f32], tables: mut [f32], lengths: mut [f32],
        commands: mut [u32]
    );
    fn kihavute_build_text(
        text: [u8], kinds: mut [u8], fields: mut [f32], tables: mut [f32], lengths: mut [f32], commands: mut [u32]
    );
}

/// Builds the stored path of a command list into five buffers. Gives how many places of each are written: kinds, fields,
/// tables, lengths, commands. The last has for each segment the number of its command, counted from 0. A refusal writes nothing.
#[inline]
pub fn build(
    letters: &[u8],
    numbers: &[f32],
    kinds: &mut [u8],
    fields: &mut [f32],
    tables: &mut [f32],
    lengths: &mut [f32],
    commands: &mut [u32],
) -> Result<[usize; 5], Refusal> {
    // SAFETY: the slices are whole and apart from each other, and the answer is the call's own
    let given = judged(|answer, places| unsafe {
        kihavute_build(
            letters.as_ptr(),
            letters.len() as u64,
            numbers.as_ptr(),
            numbers.len() as u64,
            kinds.as_mut_ptr(),
            kinds.len() as u64,
            fields.as_mut_ptr(),
            fields.len() as u64,
            tables.as_mut_ptr(),
            tables.len() as u64,
            lengths.as_mut_ptr(),
            lengths.len() as u64,
            commands.as_mut_ptr(),
            commands.len() as u64,
            answer,
            places,
        )
    })?;
    Ok([0, 1, 2, 3, 4].map(|k| given[k] as usize))
}

/// The same for a text of path data. The commands are numbered as [`read`](crate::read) gives them.
#[inline]
pub fn build_text(
    text: &[u8],
    kinds: &mut [u8],
    fields: &mut [f32],
    tables: &mut [f32],
    lengths: &mut [f32],
    commands: &mut [u32],
) -> Result<[usize; 5], Refusal> {
    // SAFETY: the slices are whole and apart from each other, and the answer is the call's own
    let given = judged(|answer, places| unsafe {
        kihavute_build_text(
            text.as_ptr(),
            text.len() as u64,
            kinds.as_mut_ptr(),
            kinds.len() as u64,
            fields.as_mut_ptr(),
            fields.len() as u64,
            tables.as_mut_ptr(),
            tables.len() as u64,
            lengths.as_mut_ptr(),
            lengths.len() as u64,
            commands.as_mut_ptr(),
            commands.len() as u64,
            answer,
            places,
        )
    })?;
    Ok([0, 1, 2, 3, 4].map(|k| given[k] as usize))
}
