//! The one public child of `layout`: through it the judge reaches the probes, whose parents are private.
pub use super::builders::probe as builders;
pub use super::hash::probe as hash;
pub use super::pre_v4::set_sources;
pub use super::upgrade::probe as upgrade;

/// Where the window starts and ends.
pub fn window(bytes: &[u8], offset: u16, size: u16) -> Option<(usize, usize)> {
    let found = super::window(bytes, offset, size)?;
    let start = found.as_ptr() as usize - bytes.as_ptr() as usize;
    Some((start, start + found.len()))
}

/// Of one record of a stream's layout.
pub fn verdict(
    stream: &super::StreamLayout,
    record: &super::RecordLayout,
    compiled: &super::StreamLayout,
) -> super::Verdict {
    super::compare::verdict(stream, record, compiled)
}
