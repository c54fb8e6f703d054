//! The port's calls, through its Rust crate: each on the first record of a layout.
use tuppenceowl as owl;
use tuppenceowl::{Booted, FieldCursor, FieldDef, Holder, Refusal, Room, Verdict};

/// 0, or the refusal's number.
fn status<T>(answer: Result<T, Refusal>) -> u8 {
    answer.map_or_else(|refusal| refusal.number(), |_| 0)
}

pub fn check_catalogue(cat: &[u8]) -> u8 {
    status(owl::check_catalogue(cat))
}

pub fn admit(cat: &[u8], layout: &[u8]) -> u8 {
    status(owl::admit(cat, layout))
}

pub fn sum(bytes: &[u8]) -> u64 {
    owl::sum(bytes)
}

pub fn record_size(cat: &[u8], layout: &[u8]) -> Option<usize> {
    owl::record_size(cat, layout, 0).unwrap_or(None)
}

pub fn field_by_id(cat: &[u8], layout: &[u8], rtype: u16, id: u16) -> Option<FieldDef> {
    owl::field_by_id(cat, layout, rtype, id).unwrap_or(None)
}

pub fn field_by_name(cat: &[u8], layout: &[u8], rtype: u16, name: &str) -> Option<FieldDef> {
    owl::field_by_name(cat, layout, rtype, name.as_bytes()).unwrap_or(None)
}

/// The layout against itself.
pub fn is_compiled_of(cat: &[u8], layout: &[u8], rtype: u16) -> bool {
    owl::verdict_of(cat, layout, rtype, layout) == Ok(Some(Verdict::Compiled))
}

pub fn boot_check(cat: &[u8], layout: &[u8]) -> bool {
    owl::boot_check(cat, layout, 0) == Ok(Some(Booted::Same))
}

pub fn window(bytes: &[u8], offset: usize, size: usize) -> bool {
    owl::window(bytes, offset, size).is_some()
}

pub fn layout_hash(cat: &[u8], layout: &[u8]) -> Option<u64> {
    owl::layout_hash(cat, layout, 0)
        .unwrap_or(None)
        .map(|found| found.hash)
}

pub fn is_compiled(cat: &[u8], stream: &[u8], compiled: &[u8]) -> bool {
    owl::verdict(cat, stream, 0, compiled) == Ok(Some(Verdict::Compiled))
}

/// No field is marked.
pub fn plan(
    cat: &[u8],
    source: &[u8],
    target: &[u8],
    header: usize,
    body: &[u8],
    slot: &mut [u8],
) -> u8 {
    status(owl::plan(
        cat,
        source,
        0,
        target,
        0,
        header,
        body,
        &[],
        slot,
    ))
}

/// The whole record.
pub fn apply(slot: &[u8], record: &[u8], target: &mut [u8]) -> u8 {
    status(owl::apply(slot, record, record.len(), target))
}

/// The whole record, with nothing listed unplanned.
pub fn upgrade(
    plans: &[u8],
    rtype: u16,
    (source, target): (usize, usize),
    record: &[u8],
    into: &mut [u8],
) -> u8 {
    let stated = record.len();
    status(owl::upgrade(
        plans,
        &[],
        rtype,
        source,
        target,
        record,
        stated,
        into,
    ))
}

pub fn write_plan(slot: &[u8], text: &mut [u8]) -> Option<usize> {
    owl::write_plan(slot, text).ok()
}

pub fn read_plan(text: &[u8], slot: &mut [u8]) -> u8 {
    status(owl::read_plan(text, slot))
}

/// A record's field cursor, and the memory that it fills.
pub struct Cursor {
    state: FieldCursor,
    table: Vec<u8>,
    names: Vec<u8>,
}

const MOST: usize = 128;

impl Default for Cursor {
    fn default() -> Self {
        Self {
            state: FieldCursor::empty(Holder::Record),
            table: vec![0; 16 * MOST],
            names: vec![0; 33 * MOST],
        }
    }
}

impl Cursor {
    pub fn begin(&mut self) {
        self.state = FieldCursor::empty(Holder::Record);
    }

    pub fn scalar(&mut self, cat: &[u8], id: u16, type_id: u8, size: u16, name: &str) -> u8 {
        let mut room = Room {
            cat,
            table: &mut self.table,
            names: &mut self.names,
        };
        status(
            self.state
                .scalar(&mut room, id, type_id, size, 0, 0, name.as_bytes()),
        )
    }

    pub fn finish(&mut self, cat: &[u8], ids: &[u16]) -> u8 {
        let mut room = Room {
            cat,
            table: &mut self.table,
            names: &mut self.names,
        };
        status(self.state.finish(&mut room, ids))
    }

    pub fn ids_and_offsets(&self) -> impl Iterator<Item = (u16, u16)> + '_ {
        let fields = FieldDef::all_from(&self.table[..16 * self.state.count]);
        fields.into_iter().map(|f| (f.field_id, f.offset))
    }
}
