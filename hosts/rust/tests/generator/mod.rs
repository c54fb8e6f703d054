//! Random layouts and plans, and what came of them; the same seed gives the same ones.
#![allow(dead_code)] // each test uses some of it
use std::collections::BTreeMap;
use tuppenceowl::*;

pub struct Generator(u64);

/// Types with their widths: all integers, a decimal, and two others.
const SCALARS: [(u8, u16); 11] = [
    (dbn::U8, 1),
    (dbn::U16, 2),
    (dbn::U32, 4),
    (dbn::U64, 8),
    (dbn::I8, 1),
    (dbn::I16, 2),
    (dbn::I32, 4),
    (dbn::I64, 8),
    (dbn::DECIMAL, 8),
    (dbn::CHAR, 1),
    (dbn::TIMESTAMP_NS, 8),
];

impl Generator {
    pub fn new(seed: u64) -> Self {
        Generator(seed)
    }

    /// splitmix64
    pub fn number(&mut self) -> u64 {
        self.0 = self.0.wrapping_add(0x9E3779B97F4A7C15);
        let mixed = (self.0 ^ self.0 >> 30).wrapping_mul(0xBF58476D1CE4E5B9);
        let mixed = (mixed ^ mixed >> 27).wrapping_mul(0x94D049BB133111EB);
        mixed ^ mixed >> 31
    }

    pub fn below(&mut self, n: usize) -> usize {
        (self.number() % n as u64) as usize
    }

    pub fn one_in(&mut self, n: usize) -> bool {
        self.below(n) == 0
    }

    pub fn pick<T: Copy>(&mut self, from: &[T]) -> T {
        from[self.below(from.len())]
    }

    pub fn bytes(&mut self, n: usize) -> Vec<u8> {
        (0..n).map(|_| self.number() as u8).collect()
    }

    // ---- layouts that are admitted

    /// Ids from 2 on, none twice.
    fn def(&mut self, field_id: u16, offset: u16) -> FieldDef {
        let (type_id, width) = self.pick(&SCALARS);
        let array = self.one_in(6);
        FieldDef {
            field_id,
            offset,
            size: if array { 3 * width } else { width },
            type_id,
            flags: if array { dbn::FLAG_IS_ARRAY } else { 0 },
            scale: if type_id == dbn::DECIMAL { -9 } else { 0 },
            ..FieldDef::default()
        }
    }

    /// Fields with gaps, behind a header, and where they end.
    fn defs(&mut self, from: u16, many: usize) -> (Vec<FieldDef>, u16) {
        let (mut defs, mut end) = (vec![], from);
        for _ in 0..self.below(many) {
            let gap = self.below(3) as u16;
            let def = self.def(2 + defs.len() as u16, end + gap);
            end = def.offset + def.size;
            defs.push(def);
        }
        (defs, end)
    }

    fn record(&mut self, rtype: u16, structs: usize) -> RecordLayout {
        let (mut defs, end) = self.defs(24, 9);
        if structs > 0 {
            defs.push(FieldDef {
                field_id: 40,
                offset: end,
                size: 8,
                type_id: dbn::STRUCT,
                def_index: self.below(structs + 1) as u16,
                ..FieldDef::default()
            });
        }
        let fields: Vec<Field> = defs
            .into_iter()
            .map(|def| Field {
                def,
                name: format!("field_{}", def.field_id).into(),
            })
            .collect();
        RecordLayout {
            schema: self.below(4) as u16,
            layout_hash: self.number(),
            ..RecordLayout::new(rtype, self.pick(&["trade", "quote"]), end.into(), fields)
        }
    }

    /// One to three records of rtypes from 1 on, and up to two structs.
    pub fn layout(&mut self) -> Layout {
        let structs: Vec<StructLayout> = (0..self.below(3))
            .map(|k| {
                let (field_defs, end) = self.defs(0, 4);
                StructLayout {
                    size: end.into(),
                    name: format!("struct_{k}").into(),
                    field_defs,
                }
            })
            .collect();
        let records = 1 + self.below(3) as u16;
        let records = (1..=records).map(|rtype| self.record(rtype, structs.len()));
        Layout {
            records: records.collect(),
            structs,
        }
    }

    // ---- plans that keep every rule

    fn step(&mut self, dst_offset: u16) -> Step {
        let src_offset = self.below(64) as u16;
        if self.one_in(2) {
            return Step::Copy {
                src_offset,
                dst_offset,
                size: 1 + self.below(9) as u16,
            };
        }
        let (src_size, dst_size) = self.pick(&[(1, 2), (1, 8), (2, 4), (4, 8), (8, 1), (4, 2)]);
        Step::Int {
            src_offset,
            dst_offset,
            src_size,
            dst_size,
            signed: self.one_in(2),
            has_undef_max: src_size > dst_size || self.one_in(2),
        }
    }

    pub fn plan(&mut self) -> Plan {
        let header = self.pick(&[0, 16, 24, 64]);
        let (mut steps, mut end) = (vec![], header);
        for _ in 0..self.below(6) {
            let gap = self.below(3) as u16;
            let step = self.step(end + gap);
            end = match step {
                Step::Copy {
                    dst_offset, size, ..
                } => dst_offset + size,
                Step::Int {
                    dst_offset,
                    dst_size,
                    ..
                } => dst_offset + dst_size,
            };
            steps.push(step);
        }
        let size = end + self.below(9) as u16;
        let numbers = Numbers {
            src_rtype: self.below(3) as u16,
            rtype: self.number() as u16,
            src_base: self.below(4097) as u16,
            header,
            base: self.below(1 + usize::from(size)) as u16,
            size,
        };
        Plan {
            numbers,
            body: self.bytes(usize::from(size - header)),
            steps,
        }
    }
}

// ---- what came of them

/// How often each answer came: 0, a refusal's number, or 255 for none.
#[derive(Default)]
pub struct Seen(BTreeMap<u8, usize>);

impl Seen {
    pub fn note<T>(&mut self, answer: &Result<T, Refusal>) {
        self.count(answer.as_ref().err().map_or(0, |r| r.number()));
    }

    pub fn note_perhaps<T>(&mut self, answer: &Result<Option<T>, Refusal>) {
        match answer {
            Ok(None) => self.count(255),
            _ => self.note(answer),
        }
    }

    fn count(&mut self, number: u8) {
        *self.0.entry(number).or_default() += 1;
    }

    /// Exactly these came, so that none is passed over and none is new.
    pub fn were(&self, numbers: &[u8]) {
        println!("{:?}", self.0);
        assert_eq!(self.0.keys().copied().collect::<Vec<_>>(), numbers);
    }
}

/// A byte that is another, now and then.
pub fn damaged(g: &mut Generator, mut bytes: Vec<u8>, one_in: usize) -> Vec<u8> {
    if g.one_in(one_in) && !bytes.is_empty() {
        let at = g.below(bytes.len());
        bytes[at] ^= 1 << g.below(8);
    }
    if g.one_in(4 * one_in) {
        bytes.truncate(g.below(bytes.len() + 1));
    }
    bytes
}
