//! What is allocated here, and how much of it a call asks for.

use crate::Refusal;

/// The n that an index states. Without numbers it states none, is refused, and
/// asks for no room.
pub(crate) fn stated_length(index: &[u16]) -> usize {
    index.first().copied().map_or(0, usize::from)
}

/// What a call writes to the front of an output of `len` numbers.
pub(crate) fn written(
    len: usize,
    call: impl FnOnce(&mut [u16]) -> Result<usize, Refusal>,
) -> Result<Vec<u16>, Refusal> {
    let mut output = vec![0; len];
    let count = call(&mut output)?;
    output.truncate(count);
    output.shrink_to_fit();
    Ok(output)
}
