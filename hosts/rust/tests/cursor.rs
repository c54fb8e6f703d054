//! Random calls of the field cursor, many of them wrong: what a refusal leaves, and that what is built is admitted.
mod generator;

use generator::{Generator, Seen};
use tuppenceowl::{limits::*, *};

const SEQUENCES: usize = 100;

/// One call of the cursor, often a wrong one.
fn called(
    g: &mut Generator,
    c: &mut FieldCursor,
    room: &mut Room,
    layout: &[u8],
) -> Result<(), Refusal> {
    let name = vec![b'n'; g.pick(&[0, 1, 8, 32, 32, 33])];
    let id = g.below(12) as u16;
    let (type_id, width) = g.pick(&[
        (dbn::U8, 1),
        (dbn::U64, 8),
        (dbn::I16, 2),
        (dbn::DECIMAL, 8),
        (dbn::CSTR, 0),
        (dbn::STRUCT, 0),
    ]);
    let size = if g.one_in(5) {
        g.below(600) as u16
    } else {
        width.max(1)
    };
    let flags = if g.one_in(6) { dbn::FLAG_IS_ARRAY } else { 0 };
    match g.below(10) {
        0..3 => c.scalar(room, id, type_id, size, flags, 0, &name),
        3 => c.string(room, id, type_id, size, flags, &name),
        4 => {
            let def = FieldDef {
                field_id: id,
                size,
                type_id,
                flags,
                ..FieldDef::default()
            };
            c.like(room, &def, 3, &name)
        }
        5 => c.nested(room, layout, id, g.below(3) as u16, &name),
        6 => c.nested_array(
            room,
            layout,
            id,
            g.below(3) as u16,
            g.below(40) as u16,
            &name,
        ),
        7 => c.at(room, c.cursor + g.below(20) - g.below(2).min(c.cursor)),
        8 => c.finish_base(room),
        _ => c.finish(room, &[id, 3]),
    }
}

#[test]
fn a_refused_call_leaves_the_cursor_and_its_room() {
    let (mut g, mut seen) = (Generator::new(14), Seen::default());
    let cat = Catalogue::dbn(1).to_bytes();
    for _ in 0..SEQUENCES {
        let layout = g.layout().to_block();
        let mut cursor = FieldCursor::empty(g.pick(&[Holder::Record, Holder::Struct]));
        let fields = g.pick(&[128, 40, 20, 3]);
        let (mut table, mut names) = (g.bytes(FIELD * fields), g.bytes(NAME * fields));
        for _ in 0..80 {
            let (was, rows, slots) = (cursor, table.clone(), names.clone());
            let mut room = Room {
                cat: &cat,
                table: &mut table,
                names: &mut names,
            };
            let answer = called(&mut g, &mut cursor, &mut room, &layout);
            seen.note(&answer);
            if answer.is_err() {
                assert_eq!(cursor, was);
                assert!(
                    table == rows && names == slots,
                    "{answer:?} left other bytes"
                );
            }
            assert_eq!(table[FIELD * cursor.count..], rows[FIELD * cursor.count..]);
            assert_eq!(names[NAME * cursor.count..], slots[NAME * cursor.count..]);
        }
    }
    seen.were(&[0, 2, 14, 15]);
}

#[test]
fn what_the_cursor_builds_is_admitted() {
    let (mut g, mut built) = (Generator::new(15), 0);
    let cat = Catalogue::dbn(1).to_bytes();
    for _ in 0..2 * SEQUENCES {
        let nested = g.layout();
        let block = nested.to_block();
        let mut cursor = FieldCursor::empty(Holder::Record);
        let (mut table, mut names) = (vec![0; FIELD * MAX_FIELDS], vec![0; NAME * MAX_FIELDS]);
        let mut room = Room {
            cat: &cat,
            table: &mut table,
            names: &mut names,
        };
        for _ in 0..g.below(60) {
            // refused or not
            let _ = called(&mut g, &mut cursor, &mut room, &block);
        }
        if cursor.finish(&mut room, &[3, 2]).is_ok() {
            let record = RecordLayout::built(1, "built", &cursor, &room);
            let layout = Layout {
                records: vec![record],
                structs: nested.structs,
            };
            assert_eq!(admit(&cat, &layout.to_block()), Ok(()));
            assert_eq!(
                record_size(&cat, &layout.to_block(), 0),
                Ok(Some(cursor.cursor))
            );
            built += 1;
        }
    }
    println!("{built} built");
    assert!(built > 150, "most sequences of calls can be finished");
}
