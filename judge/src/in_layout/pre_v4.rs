//! The layouts that are upgraded from: those that a case states.
use crate::layout::{RecordLayout, StreamLayout, StreamLayoutBuilder};
use std::cell::RefCell;

thread_local! {
    static SOURCES: RefCell<Vec<RecordLayout>> = RefCell::default();
}

pub fn set_sources(layouts: Vec<RecordLayout>) {
    SOURCES.set(layouts);
}

pub(crate) fn record_layouts(_version: u8, _ts_out: bool) -> Vec<RecordLayout> {
    SOURCES.with_borrow(Clone::clone)
}

pub(crate) fn stream_layout(version: u8, ts_out: bool) -> StreamLayout {
    let mut layout = StreamLayoutBuilder::pre_v4(0).into_unvalidated();
    layout.record_layouts = record_layouts(version, ts_out);
    layout
}
