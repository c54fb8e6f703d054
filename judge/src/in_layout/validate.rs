//! No part of the comparison: admission is ours, and cases bring admitted layouts.
use crate::layout::StreamLayout;

pub(crate) fn validate(_layout: &StreamLayout, _symbol_cstr_len: u16) -> crate::Result<()> {
    Ok(())
}

pub(crate) fn validate_for_metadata(
    layout: &StreamLayout,
    symbol_cstr_len: u16,
) -> crate::Result<()> {
    validate(layout, symbol_cstr_len)
}
