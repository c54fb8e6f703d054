//! A layout in one block of bytes, taken into dbn's structs. Cases bring admitted blocks; any other reads zeros past its end.
use crate::layout::{FieldDef, RecordLayout, StreamLayout, StructLayout};

const HEAD: usize = 8;
const RECORD_HEAD: usize = 72;
const STRUCT_HEAD: usize = 48;
const FIELD: usize = 16;
const NAME: usize = 33;

fn byte(b: &[u8], at: usize) -> u8 {
    b.get(at).copied().unwrap_or(0)
}

fn number(b: &[u8], at: usize, n: usize) -> u64 {
    (0..n)
        .rev()
        .fold(0, |high, i| high << 8 | u64::from(byte(b, at + i)))
}

fn short(b: &[u8], at: usize) -> u16 {
    number(b, at, 2) as u16
}

fn part(b: &[u8], at: usize) -> &[u8] {
    let (start, size) = (number(b, at, 4) as usize, number(b, at + 4, 4) as usize);
    b.get(start..start + size).unwrap_or(&[])
}

/// A byte becomes the character of its number, so that two names are equal exactly when their bytes are.
pub fn text(bytes: &[u8]) -> String {
    bytes.iter().map(|&b| char::from(b)).collect()
}

fn name(b: &[u8], at: usize) -> String {
    let size = usize::from(byte(b, at));
    text(b.get(at + 1..at + 1 + size).unwrap_or(&[]))
}

fn names(b: &[u8]) -> Vec<String> {
    (0..b.len() / NAME).map(|i| name(b, NAME * i)).collect()
}

fn field(row: &[u8]) -> FieldDef {
    FieldDef {
        field_id: short(row, 0),
        offset: short(row, 2),
        size: short(row, 4),
        type_id: byte(row, 6),
        flags: byte(row, 7),
        def_index: short(row, 8),
        scale: byte(row, 10) as i8,
        _reserved: [0; 5],
    }
}

pub fn fields(table: &[u8]) -> Vec<FieldDef> {
    table.chunks_exact(FIELD).map(field).collect()
}

fn record(b: &[u8], h: usize) -> RecordLayout {
    RecordLayout {
        rtype: short(b, h),
        schema: short(b, h + 2),
        base_record_size: number(b, h + 4, 4) as u16,
        layout_hash: number(b, h + 8, 8),
        field_defs: fields(part(b, h + 16)),
        field_names: names(part(b, h + 24)),
        name: name(b, h + 32),
    }
}

/// A struct's fields have no names in a block, and nothing that is compared reads them.
fn nested(b: &[u8], h: usize) -> StructLayout {
    StructLayout {
        size: number(b, h, 4) as u16,
        field_defs: fields(part(b, h + 4)),
        field_names: Vec::new(),
        name: name(b, h + 12),
    }
}

pub fn layout(b: &[u8]) -> StreamLayout {
    let (records, structs) = (usize::from(short(b, 0)), usize::from(short(b, 2)));
    let first_struct = HEAD + RECORD_HEAD * records;
    StreamLayout {
        stream_layout_version: 1,
        record_layouts: (0..records)
            .map(|k| record(b, HEAD + RECORD_HEAD * k))
            .collect(),
        struct_layouts: (0..structs)
            .map(|k| nested(b, first_struct + STRUCT_HEAD * k))
            .collect(),
        label_defs: Vec::new(),
    }
}
