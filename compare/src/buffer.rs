//! Lent buffers.

use crate::refusal::Refusal;

/// Lays a text at the start of a buffer and gives its length; bytes behind it stay.
/// A buffer that is too short stays as it was.
pub fn lay(text: &[u8], buf: &mut [u8]) -> Result<usize, Refusal> {
    let part = buf.get_mut(..text.len()).ok_or(Refusal::BufferShort)?;
    part.copy_from_slice(text);
    Ok(text.len())
}
