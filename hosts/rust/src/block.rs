//! A layout packed into one block of bytes, and read back from an admitted one (docs/FORMATS.md).
use crate::{
    field::FieldDef,
    layout::{Field, Layout, RecordLayout, StructLayout},
    limits::{FIELD, MAX_NAME, NAME},
};

const HEAD: usize = 8;
const RECORD_HEAD: usize = 72;
const STRUCT_HEAD: usize = 48;

// ---- packing

pub fn packed(layout: &Layout) -> Vec<u8> {
    let (records, structs) = (layout.records.len(), layout.structs.len());
    let mut heads = vec![];
    heads.extend(short(records).to_le_bytes());
    heads.extend(short(structs).to_le_bytes());
    heads.extend([0; 4]);
    let mut parts = Parts {
        from: HEAD + RECORD_HEAD * records + STRUCT_HEAD * structs,
        bytes: vec![],
    };
    for record in &layout.records {
        put_record(record, &mut heads, &mut parts);
    }
    for nested in &layout.structs {
        heads.extend(nested.size.to_le_bytes());
        heads.extend(parts.put(nested.field_defs.iter().flat_map(FieldDef::to_bytes)));
        heads.extend(packed_name(&nested.name));
        heads.extend([0; 3]);
    }
    heads.extend(parts.bytes);
    heads
}

fn put_record(record: &RecordLayout, heads: &mut Vec<u8>, parts: &mut Parts) {
    let fields = &record.fields;
    heads.extend(record.rtype.to_le_bytes());
    heads.extend(record.schema.to_le_bytes());
    heads.extend(record.base_record_size.to_le_bytes());
    heads.extend(record.layout_hash.to_le_bytes());
    heads.extend(parts.put(fields.iter().flat_map(|f| f.def.to_bytes())));
    heads.extend(parts.put(fields.iter().flat_map(|f| packed_name(&f.name))));
    heads.extend(packed_name(&record.name));
    heads.extend([0; 7]);
}

/// Tables and names, which stand behind the heads.
struct Parts {
    from: usize,
    bytes: Vec<u8>,
}

impl Parts {
    /// Start and length, as a head has them.
    fn put(&mut self, part: impl Iterator<Item = u8>) -> [u8; 8] {
        let start = self.bytes.len();
        self.bytes.extend(part);
        let mut place = [0; 8];
        place[..4].copy_from_slice(&long(self.from + start).to_le_bytes());
        place[4..].copy_from_slice(&long(self.bytes.len() - start).to_le_bytes());
        place
    }
}

/// More than a head can say is past every limit, and so is what stands instead.
fn short(n: usize) -> u16 {
    u16::try_from(n).unwrap_or(u16::MAX)
}

pub fn long(n: usize) -> u32 {
    u32::try_from(n).unwrap_or(u32::MAX)
}

/// A name that is too long keeps a length that is refused.
fn packed_name(name: &[u8]) -> [u8; NAME] {
    let mut slot = [0; NAME];
    slot[0] = u8::try_from(name.len()).unwrap_or(u8::MAX);
    let kept = name.len().min(MAX_NAME);
    slot[1..1 + kept].copy_from_slice(&name[..kept]);
    slot
}

// ---- reading: admission says that every place that is read lies inside

pub fn read(block: &[u8]) -> Layout {
    let (records, structs) = (number(block, 0, 2) as usize, number(block, 2, 2) as usize);
    let first_struct = HEAD + RECORD_HEAD * records;
    Layout {
        records: (0..records)
            .map(|k| record_at(block, HEAD + RECORD_HEAD * k))
            .collect(),
        structs: (0..structs)
            .map(|k| struct_at(block, first_struct + STRUCT_HEAD * k))
            .collect(),
    }
}

fn number(bytes: &[u8], at: usize, n: usize) -> u64 {
    let read = bytes[at..at + n].iter().rev();
    read.fold(0, |high, &b| high << 8 | u64::from(b))
}

fn part(block: &[u8], at: usize) -> &[u8] {
    let start = number(block, at, 4) as usize;
    &block[start..start + number(block, at + 4, 4) as usize]
}

/// The name of a slot, whose length may be any where a host made it.
fn name_in(slot: &[u8]) -> Vec<u8> {
    let size = usize::from(slot[0]).min(MAX_NAME);
    slot[1..1 + size].to_vec()
}

pub fn fields_from<'a>(table: &'a [u8], names: &'a [u8]) -> impl Iterator<Item = Field> + 'a {
    let (rows, _) = table.as_chunks::<FIELD>();
    rows.iter()
        .zip(names.chunks_exact(NAME))
        .map(|(&row, slot)| Field {
            def: FieldDef::from_bytes(row),
            name: name_in(slot),
        })
}

fn record_at(block: &[u8], h: usize) -> RecordLayout {
    RecordLayout {
        rtype: number(block, h, 2) as u16,
        schema: number(block, h + 2, 2) as u16,
        base_record_size: number(block, h + 4, 4) as u32,
        layout_hash: number(block, h + 8, 8),
        fields: fields_from(part(block, h + 16), part(block, h + 24)).collect(),
        name: name_in(&block[h + 32..h + 32 + NAME]),
    }
}

fn struct_at(block: &[u8], h: usize) -> StructLayout {
    StructLayout {
        size: number(block, h, 4) as u32,
        field_defs: FieldDef::all_from(part(block, h + 4)),
        name: name_in(&block[h + 12..h + 12 + NAME]),
    }
}
