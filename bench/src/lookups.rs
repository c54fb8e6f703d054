//! Rows for the calls that read an admitted layout. The Rust is given an index that it built before; the port admits the layout at each call.
use crate::measure::Call;
use crate::{port, row, Ends, Row};
use judge::layout::{wire, LayoutIndex, StreamLayout, Verdict};
use std::hint::black_box;

pub fn rows<'a>(
    catalogue: &'a [u8],
    (n, bytes, layout): &'a (u16, Vec<u8>, StreamLayout),
) -> Vec<Row<'a>> {
    let (record, last) = (&layout.record_layouts[0], n + 1);
    let name = record.field_names[record.field_names.len() - 1].as_str();
    let rtype = record.rtype;
    let index = || LayoutIndex::new(layout, layout);
    let (by_id, by_name, judged) = (index(), index(), index());
    assert_eq!(
        port::record_size(catalogue, bytes),
        Some(record.record_size().into()),
        "the sizes differ"
    );
    assert!(
        port::field_by_id(catalogue, bytes, rtype, last).is_some()
            && by_id.field_by_id(rtype, last).is_some(),
        "no such id"
    );
    assert_eq!(
        port::field_by_name(catalogue, bytes, rtype, name).is_some(),
        by_name.field_by_name(rtype, name).is_some(),
        "the names differ"
    );
    assert!(
        port::is_compiled_of(catalogue, bytes, rtype)
            && judged.verdict(rtype) == Some(Verdict::Compiled),
        "not compiled"
    );
    let call = |what: &str, ours: Call<'a>, theirs: Call<'a>| {
        row(&format!("{what} ({n} fields)"), ours, theirs, Ends::Plain)
    };
    vec![
        call(
            "record size with admission, `record_size`",
            Box::new(move || {
                black_box(port::record_size(black_box(catalogue), black_box(bytes)));
            }),
            Box::new(move || {
                black_box(black_box(record).record_size());
            }),
        ),
        call(
            "field by id with admission, `LayoutIndex::field_by_id`",
            Box::new(move || {
                black_box(port::field_by_id(
                    black_box(catalogue),
                    black_box(bytes),
                    rtype,
                    last,
                ));
            }),
            Box::new(move || {
                black_box(black_box(&by_id).field_by_id(rtype, last));
            }),
        ),
        call(
            "field by name with admission, `LayoutIndex::field_by_name`",
            Box::new(move || {
                black_box(port::field_by_name(
                    black_box(catalogue),
                    black_box(bytes),
                    rtype,
                    name,
                ));
            }),
            Box::new(move || {
                black_box(black_box(&by_name).field_by_name(rtype, name));
            }),
        ),
        call(
            "verdict of an rtype with admission of both, `LayoutIndex::verdict`",
            Box::new(move || {
                black_box(port::is_compiled_of(
                    black_box(catalogue),
                    black_box(bytes),
                    rtype,
                ));
            }),
            Box::new(move || {
                black_box(black_box(&judged).verdict(rtype));
            }),
        ),
        call(
            "boot check with admission, `layout_hash` compared",
            Box::new(move || {
                black_box(port::boot_check(black_box(catalogue), black_box(bytes)));
            }),
            Box::new(move || {
                black_box(
                    black_box(record).layout_hash(black_box(&layout.struct_layouts))
                        == record.layout_hash,
                );
            }),
        ),
    ]
}

pub fn window_row(bytes: &[u8]) -> Row<'_> {
    assert_eq!(
        port::window(bytes, 1000, 24),
        wire::window(bytes, 1000, 24).is_some(),
        "the windows differ"
    );
    row(
        "window of 24 bytes, `window`",
        Box::new(move || {
            black_box(port::window(black_box(bytes), 1000, 24));
        }),
        Box::new(move || {
            black_box(wire::window(black_box(bytes), 1000, 24));
        }),
        Ends::Plain,
    )
}
