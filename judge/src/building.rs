//! Calls of dbn's field cursor. The Rust has neither the limits nor refusals 2, 14 and 15: `refused_before` states 2 and 15 from the
//! rules; a call that the Rust stops at, or that leaves more than the limits allow, is 14. Each is made on a copy, so that a refused one
//! leaves nothing.
use crate::layout::wire::builders::Cursor;
use crate::layout::{FieldDef, StreamLayout};
use crate::v4::fields::{scalar_size, FLAG_IS_ARRAY, STRUCT_ID};
use crate::words::shown_hex;
use std::panic::{catch_unwind, AssertUnwindSafe};

const MOST_BYTES: u16 = 4096;
const MOST_NAME: usize = 32;
const MOST_FIELDS: usize = 128;
const MOST_STRUCT_FIELDS: usize = 32;
const STRINGS: [u8; 2] = [49, 50];
const ROW: usize = 16;
const SLOT: usize = 33;

pub enum Call<'a> {
    Scalar(FieldDef, &'a str),
    String(FieldDef, &'a str),
    Like(FieldDef, &'a str),
    /// How often the struct stands in an array, or none where it stands alone.
    Nested(FieldDef, Option<u16>, &'a str),
    At(usize),
    FinishBase,
    Finish(Vec<u16>),
}

use Call::*;

pub struct Building {
    cursor: Cursor,
    most: usize,
    /// What stands in the lent memory.
    table: Vec<u8>,
    names: Vec<u8>,
}

impl Default for Building {
    fn default() -> Self {
        Self {
            cursor: Cursor::default(),
            most: 0,
            table: vec![0; ROW * MOST_FIELDS],
            names: vec![0; SLOT * MOST_FIELDS],
        }
    }
}

// ---- what the port refuses before it places anything

fn size_ok(f: &FieldDef) -> bool {
    let free = f.flags & FLAG_IS_ARRAY != 0;
    f.size != 0 && (free || scalar_size(f.type_id).is_none_or(|width| width == f.size))
}

fn nested_ok(l: &StreamLayout, k: u16, count: u16) -> bool {
    let of = l.struct_layouts.get(usize::from(k));
    of.is_some_and(|s| s.size != 0) && count != 0
}

fn refused_before(l: &StreamLayout, call: &Call) -> Option<&'static str> {
    let (name, taken) = match call {
        Scalar(f, name) => (name, scalar_size(f.type_id).is_some() && size_ok(f)),
        String(f, name) => (name, STRINGS.contains(&f.type_id) && size_ok(f)),
        Like(f, name) => (name, f.type_id != STRUCT_ID && size_ok(f)),
        Nested(f, times, name) => (name, nested_ok(l, f.def_index, times.unwrap_or(1))),
        _ => return None,
    };
    if name.chars().count() > MOST_NAME {
        return Some("r2");
    }
    (!taken).then_some("r15")
}

// ---- the Rust's calls

fn nested(c: &mut Cursor, l: &StreamLayout, f: &FieldDef, times: Option<u16>, name: &str) {
    let of = &l.struct_layouts[usize::from(f.def_index)];
    let flags = if times.is_some() { FLAG_IS_ARRAY } else { 0 };
    let size = of.size.checked_mul(times.unwrap_or(1));
    let size = size.expect("struct array size exceeds u16");
    c.nested(f.field_id, name, f.def_index, size, of.align(), flags);
}

fn called(c: &mut Cursor, l: &StreamLayout, call: &Call) {
    match call {
        Scalar(f, name) => c.scalar(f, name),
        String(f, name) => c.string(f, name),
        Like(f, name) => c.like(f, name),
        Nested(f, times, name) => nested(c, l, f, *times, name),
        At(offset) => c.at(*offset),
        FinishBase => drop(c.finish_base()),
        Finish(ids) => drop(c.finish(ids)),
    }
}

// ---- answers

fn row(f: &FieldDef) -> [u8; ROW] {
    let mut b = [0; ROW];
    b[0..2].copy_from_slice(&f.field_id.to_le_bytes());
    b[2..4].copy_from_slice(&f.offset.to_le_bytes());
    b[4..6].copy_from_slice(&f.size.to_le_bytes());
    b[6] = f.type_id;
    b[7] = f.flags;
    b[8..10].copy_from_slice(&f.def_index.to_le_bytes());
    b[10] = f.scale as u8;
    b
}

/// A character is the byte of its number (`block::text`).
fn slot(name: &str) -> [u8; SLOT] {
    let mut b = [0; SLOT];
    for (to, c) in b[1..].iter_mut().zip(name.chars()) {
        *to = c as u8;
    }
    b[0] = name.chars().count() as u8;
    b
}

impl Building {
    pub fn begin(&mut self, holder: &str) -> Option<std::string::String> {
        self.most = match holder {
            "record" => MOST_FIELDS,
            "struct" => MOST_STRUCT_FIELDS,
            _ => return None,
        };
        self.cursor = Cursor::default();
        Some("ok".to_owned())
    }

    fn state(&self) -> std::string::String {
        let c = &self.cursor;
        let base = c.base().map_or("-".to_owned(), |base| base.to_string());
        format!("{} {} {base}", c.fields().len(), c.cursor())
    }

    /// The table and the names as a host has them behind the call.
    fn lend(&mut self) {
        for (f, to) in self.cursor.fields().iter().zip(self.table.chunks_mut(ROW)) {
            to.copy_from_slice(&row(f));
        }
        for (name, to) in self.cursor.names().iter().zip(self.names.chunks_mut(SLOT)) {
            to.copy_from_slice(&slot(name));
        }
    }

    pub fn call(&mut self, l: &StreamLayout, call: &Call) -> std::string::String {
        if let Some(refusal) = refused_before(l, call) {
            return refusal.to_owned();
        }
        let mut next = self.cursor.clone();
        let went = catch_unwind(AssertUnwindSafe(|| called(&mut next, l, call))).is_ok();
        if !went || next.cursor() > MOST_BYTES || next.fields().len() > self.most {
            return "r14".to_owned();
        }
        self.cursor = next;
        self.lend();
        self.state()
    }

    pub fn built(&self, k: usize) -> Option<std::string::String> {
        let (table, names) = (self.table.get(..ROW * k)?, self.names.get(..SLOT * k)?);
        Some(format!(
            "{} {} {}",
            self.state(),
            shown_hex(table),
            shown_hex(names)
        ))
    }
}
