//! Rows for the field cursor: thirty scalars and a finish, from an empty cursor on. Both sides write fields and names; the Rust into vectors
//! and strings that it allocates, the port into memory that is lent.
use crate::inputs::INTEGERS;
use crate::measure::Call;
use crate::port::Cursor;
use crate::{row, Ends, Row};
use judge::layout::wire::builders::Cursor as FieldCursor;
use std::hint::black_box;

const SCALARS: usize = 30;
const FIRST_ID: u16 = 2;

pub struct Building {
    order: &'static str,
    ids: Vec<u16>,
    names: Vec<String>,
}

pub fn buildings() -> Vec<Building> {
    let ids = FIRST_ID..FIRST_ID + SCALARS as u16;
    let of = |order, ids| Building {
        order,
        ids,
        names: (0..SCALARS).map(|i| format!("field_{i}")).collect(),
    };
    vec![
        of("no order", Vec::new()),
        of("all ids in order", ids.clone().collect()),
        of("all ids from the last to the first", ids.rev().collect()),
    ]
}

fn built(c: &mut Cursor, catalogue: &[u8], b: &Building) -> bool {
    c.begin();
    let mut fine = true;
    for (i, name) in b.names.iter().enumerate() {
        let (type_id, size) = INTEGERS[i % INTEGERS.len()];
        fine &= c.scalar(catalogue, FIRST_ID + i as u16, type_id, size.into(), name) == 0;
    }
    fine & (c.finish(catalogue, &b.ids) == 0)
}

fn built_by_rust(b: &Building) -> FieldCursor {
    let mut c = FieldCursor::default();
    for (i, name) in b.names.iter().enumerate() {
        let id = FIRST_ID + i as u16;
        match i % INTEGERS.len() {
            0 => c.typed::<u64>(id, name),
            1 => c.typed::<u32>(id, name),
            2 => c.typed::<i64>(id, name),
            3 => c.typed::<u16>(id, name),
            4 => c.typed::<u8>(id, name),
            5 => c.typed::<i32>(id, name),
            6 => c.typed::<i16>(id, name),
            _ => c.typed::<i8>(id, name),
        }
    }
    c.finish(&b.ids);
    c
}

/// The ids and offsets of the fields, as both sides have them.
fn check(c: &Cursor, theirs: &FieldCursor) {
    let fields = theirs.fields().iter().map(|f| (f.field_id, f.offset));
    assert!(c.ids_and_offsets().eq(fields), "the tables differ");
}

pub fn rows<'a>(catalogue: &'a [u8], b: &'a Building) -> Row<'a> {
    let mut c = Cursor::default();
    assert!(built(&mut c, catalogue, b), "the port refuses a call");
    check(&c, &built_by_rust(b));
    let ours: Call = Box::new(move || {
        black_box(built(&mut c, black_box(catalogue), black_box(b)));
    });
    let theirs: Call = Box::new(move || {
        black_box(built_by_rust(black_box(b)));
    });
    row(
        &format!("thirty scalars and a finish, {}, `FieldCursor`", b.order),
        ours,
        theirs,
        Ends::Most(1.0),
    )
}
