//! The compiled layouts. Cases bring their own, so there are none.
use crate::layout::{RecordLayoutBuilder, StreamLayout, StreamLayoutBuilder};
use std::sync::LazyLock;

pub fn default_layout() -> &'static StreamLayout {
    static NONE: LazyLock<StreamLayout> = LazyLock::new(|| compiled_layout(|_, _| {}));
    &NONE
}

pub(crate) fn compiled_layout(
    _extend: impl FnMut(u16, &mut RecordLayoutBuilder<'_>),
) -> StreamLayout {
    StreamLayoutBuilder::new(1, 0).into_unvalidated()
}
