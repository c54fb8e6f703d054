//! Layouts packed into blocks: round trips, what the library finds in them, and where the limits lie.
mod generator;

use generator::Generator;
use tuppenceowl::{limits::*, *};

const ROUNDS: u64 = 400;

fn cat() -> [u8; CATALOGUE] {
    Catalogue::dbn(1).to_bytes()
}

#[test]
fn a_layout_is_admitted_and_read_back() {
    let mut g = Generator::new(2);
    let cat = cat();
    for _ in 0..ROUNDS {
        let layout = g.layout();
        assert_eq!(Layout::from_block(&cat, &layout.to_block()), Ok(layout));
    }
}

#[test]
fn the_library_finds_what_was_packed() {
    let mut g = Generator::new(3);
    let cat = cat();
    for _ in 0..ROUNDS {
        let layout = g.layout();
        let block = layout.to_block();
        for (k, record) in layout.records.iter().enumerate() {
            let ends = record.fields.iter().map(|f| f.def.offset + f.def.size);
            let size = usize::from(ends.max().unwrap_or(0)).max(record.base_record_size as usize);
            assert_eq!(record_size(&cat, &block, k), Ok(Some(size)));
            for f in &record.fields {
                let by_id = field_by_id(&cat, &block, record.rtype, f.def.field_id);
                let by_name = field_by_name(&cat, &block, record.rtype, &f.name);
                assert_eq!((by_id, by_name), (Ok(Some(f.def)), Ok(Some(f.def))));
            }
        }
        assert_eq!(record_size(&cat, &block, layout.records.len()), Ok(None));
    }
}

#[test]
fn stored_hashes_pass_the_boot_check() {
    let mut g = Generator::new(4);
    let cat = cat();
    for _ in 0..ROUNDS {
        let mut layout = g.layout();
        layout
            .store_hashes(&cat)
            .expect("it is admitted and not deep");
        let block = layout.to_block();
        for k in 0..layout.records.len() {
            assert_eq!(boot_check(&cat, &block, k), Ok(Some(Booted::Same)));
            assert_eq!(
                verdict(&cat, &block, k, &block),
                Ok(Some(Verdict::Compiled))
            );
        }
        layout.records[0].layout_hash ^= 1;
        let other = boot_check(&cat, &layout.to_block(), 0);
        assert_eq!(other, Ok(Some(Booted::Different)));
    }
}

// ---- limits

/// Fields one behind the other, a byte each.
fn bytes_of(type_id: u8, def_index: u16, n: usize) -> Vec<FieldDef> {
    let def = |i| FieldDef {
        field_id: 2 + i,
        offset: i,
        size: 1,
        type_id,
        def_index,
        ..FieldDef::default()
    };
    (0..n as u16).map(def).collect()
}

fn record_of(defs: Vec<FieldDef>) -> RecordLayout {
    let named = |def| Field {
        def,
        name: b"f".into(),
    };
    RecordLayout::new(1, "r", 8, defs.into_iter().map(named).collect::<Vec<_>>())
}

fn struct_of(size: usize, name: usize, fields: usize) -> Layout {
    Layout {
        records: vec![],
        structs: vec![StructLayout {
            size: size as u32,
            name: vec![b's'; name],
            field_defs: bytes_of(dbn::U8, 0, fields),
        }],
    }
}

/// Admitted up to the limit, and refused for its shape past it.
fn limit(most: usize, past: &[usize], layout: impl Fn(usize) -> Layout) {
    let admitted = |n| admit(&cat(), &layout(n).to_block());
    assert_eq!(admitted(most), Ok(()), "{most}");
    for &n in [most + 1].iter().chain(past) {
        assert_eq!(admitted(n), Err(Refusal::BadShape), "{n}");
    }
}

/// The same of a record with one field.
fn limit_of_record(most: usize, past: &[usize], change: fn(&mut RecordLayout, usize)) {
    limit(most, past, |n| {
        let mut record = record_of(bytes_of(dbn::U8, 0, 1));
        change(&mut record, n);
        record.into()
    });
}

#[test]
fn so_many_records_structs_and_fields_are_admitted_and_no_more() {
    // numbers that two bytes cannot say among them
    let many = [65535, 65536, 65552];
    limit(MAX_RECORDS, &many, |n| Layout {
        records: vec![RecordLayout::default(); n],
        structs: vec![],
    });
    limit(MAX_STRUCTS, &many, |n| Layout {
        records: vec![],
        structs: vec![StructLayout::default(); n],
    });
    limit(MAX_FIELDS, &[4096], |n| {
        record_of(bytes_of(dbn::U8, 0, n)).into()
    });
    limit(MAX_STRUCT_FIELDS, &[128], |n| struct_of(4096, 1, n));
}

#[test]
fn so_long_names_and_sizes_are_admitted_and_no_longer() {
    // lengths that a byte cannot say among them
    let long = [255, 256, 288, 65536];
    limit_of_record(MAX_NAME, &long, |r, n| r.name = vec![b'r'; n]);
    limit_of_record(MAX_NAME, &long, |r, n| r.fields[0].name = vec![b'f'; n]);
    limit(MAX_NAME, &long, |n| struct_of(64, n, 1));
    let large = [65536, u32::MAX as usize];
    limit_of_record(MAX_BYTES, &large, |r, n| r.base_record_size = n as u32);
    limit(MAX_BYTES, &large, |n| struct_of(n, 1, 1));
}

#[test]
fn the_default_budget_is_used_up_at_its_last_visit() {
    // a field of struct 0 takes 33,825 visits and one of struct 1 takes 1,057
    let nested = |k| bytes_of(dbn::STRUCT, k, 32);
    let tables = [nested(1), nested(2), bytes_of(dbn::U8, 0, 32)];
    let structs = tables.map(|field_defs| StructLayout {
        size: 32,
        name: vec![],
        field_defs,
    });
    let layout = |more: usize| {
        let mut defs = bytes_of(dbn::U8, 0, 32 + more);
        defs[..31].copy_from_slice(&bytes_of(dbn::STRUCT, 1, 31));
        defs[0].def_index = 0;
        Layout {
            records: vec![record_of(defs)],
            structs: structs.to_vec(),
        }
        .to_block()
    };
    let whole = layout_hash(&cat(), &layout(0), 0).expect("it is within the budget");
    assert_eq!(whole.map(|h| h.visits), Some(DEFAULT_BUDGET));
    assert_eq!(
        layout_hash_within(&cat(), &layout(0), 0, DEFAULT_BUDGET),
        Ok(whole)
    );
    let short = layout_hash_within(&cat(), &layout(0), 0, DEFAULT_BUDGET - 1);
    assert_eq!(short, Err(Refusal::OverBudget));
    assert_eq!(layout_hash(&cat(), &layout(1), 0), Err(Refusal::OverBudget));
}
