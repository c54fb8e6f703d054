//! Prints what a call of the port takes beside one of the Rust. All rows of both tables are timed in one pass.
mod cursors;
mod inputs;
mod lookups;
mod measure;
mod port;
mod texts;
mod upgrades;
mod verdicts;

use judge::block;
use judge::layout::{wire, LayoutIndex, StreamLayout};
use measure::Call;
use std::hint::black_box;

/// What the rows are timed on.
struct Inputs {
    catalogue: Vec<u8>,
    ordered: Vec<u8>,
    shuffled: Vec<u8>,
    reversed: Vec<u8>,
    thirty: StreamLayout,
    hashed: Vec<(u16, Vec<u8>, StreamLayout)>,
    kibibyte: Vec<u8>,
    scaling: Vec<(u16, Vec<u8>)>,
    pairs: Vec<verdicts::Pair>,
    buildings: Vec<cursors::Building>,
    plannings: Vec<upgrades::Planning>,
    upgradings: Vec<upgrades::Upgrading>,
    written: texts::Written,
}

impl Inputs {
    fn new() -> Self {
        Self {
            catalogue: inputs::catalogue(),
            ordered: inputs::in_order(128),
            shuffled: inputs::shuffled(128),
            reversed: inputs::reversed(128),
            thirty: block::layout(&inputs::in_order(30)),
            hashed: [30, 128].map(hashed).into(),
            kibibyte: (0..1024u32).map(|i| (i * i / 7) as u8).collect(),
            scaling: [16, 32, 64, 128].map(|n| (n, inputs::in_order(n))).into(),
            pairs: verdicts::pairs(),
            buildings: cursors::buildings(),
            plannings: upgrades::plannings(),
            upgradings: upgrades::upgradings(),
            written: texts::written(),
        }
    }
}

fn hashed(n: u16) -> (u16, Vec<u8>, StreamLayout) {
    let bytes = inputs::in_order(n);
    let layout = block::layout(&bytes);
    (n, bytes, layout)
}

// ---- calls

fn admit<'a>(catalogue: &'a [u8], layout: &'a [u8]) -> Call<'a> {
    assert_eq!(
        port::admit(catalogue, layout),
        0,
        "the port refuses the layout"
    );
    Box::new(move || {
        black_box(port::admit(black_box(catalogue), black_box(layout)));
    })
}

fn check_catalogue(catalogue: &[u8]) -> Call<'_> {
    assert_eq!(
        port::check_catalogue(catalogue),
        0,
        "the port refuses the catalogue"
    );
    Box::new(move || {
        black_box(port::check_catalogue(black_box(catalogue)));
    })
}

/// The layout compared with itself: its stored hashes are equal, so little but the index is built.
fn index_new(layout: &[u8]) -> Call<'static> {
    let layout = block::layout(layout);
    Box::new(move || {
        black_box(LayoutIndex::new(black_box(&layout), black_box(&layout)));
    })
}

fn layout_hash(layout: &StreamLayout) -> Call<'_> {
    Box::new(move || {
        black_box(
            black_box(&layout.record_layouts[0]).layout_hash(black_box(&layout.struct_layouts)),
        );
    })
}

/// Admission and the hash.
fn admit_and_hash<'a>(catalogue: &'a [u8], bytes: &'a [u8], layout: &'a StreamLayout) -> Call<'a> {
    let theirs = layout.record_layouts[0].layout_hash(&layout.struct_layouts);
    assert_eq!(
        port::layout_hash(catalogue, bytes),
        Some(theirs),
        "the hashes differ"
    );
    Box::new(move || {
        black_box(port::layout_hash(black_box(catalogue), black_box(bytes)));
    })
}

fn sum(bytes: &[u8]) -> Call<'_> {
    assert_eq!(port::sum(bytes), wire::hash::sum(bytes), "the sums differ");
    Box::new(move || {
        black_box(port::sum(black_box(bytes)));
    })
}

fn rust_sum(bytes: &[u8]) -> Call<'_> {
    Box::new(move || {
        black_box(wire::hash::sum(black_box(bytes)));
    })
}

// ---- rows: an entry for each

/// How the row ends: nothing more, how much of the other's time the port may take, the same of what it takes beyond the row before (and whose
/// time that is), or how many fields share its time.
enum Ends {
    Plain,
    Most(f64),
    Beyond(f64, &'static str),
    Fields(u16),
}

struct Row<'a> {
    what: String,
    ours: Call<'a>,
    theirs: Call<'a>,
    ends: Ends,
}

fn row<'a>(what: &str, ours: Call<'a>, theirs: Call<'a>, ends: Ends) -> Row<'a> {
    Row {
        what: what.to_owned(),
        ours,
        theirs,
        ends,
    }
}

/// The hash, which admits the layout first, and that admission alone: the difference is what hashing takes.
fn hash_rows<'a>(
    catalogue: &'a [u8],
    (n, bytes, layout): &'a (u16, Vec<u8>, StreamLayout),
) -> [Row<'a>; 2] {
    [
        row(
            &format!("layout hash of {n} fields with admission, `layout_hash`"),
            admit_and_hash(catalogue, bytes, layout),
            layout_hash(layout),
            Ends::Fields(*n),
        ),
        row(
            &format!("that admission alone ({n} fields), `layout_hash`"),
            admit(catalogue, bytes),
            layout_hash(layout),
            Ends::Fields(*n),
        ),
    ]
}

/// The same 128 fields in three orders.
fn order_rows(i: &Inputs) -> Vec<Row<'_>> {
    let orders: [(&str, &[u8]); 3] = [
        ("in offset order", &i.ordered),
        ("shuffled", &i.shuffled),
        ("from the last to the first", &i.reversed),
    ];
    let one = |(order, layout)| {
        row(
            &format!("admission of one record of 128 fields {order}, `LayoutIndex::new`"),
            admit(&i.catalogue, layout),
            index_new(layout),
            Ends::Plain,
        )
    };
    orders.map(one).into()
}

fn scaling_row<'a>(catalogue: &'a [u8], (n, layout): &'a (u16, Vec<u8>)) -> Row<'a> {
    row(
        &format!("admission of {n} fields in offset order, `LayoutIndex::new`"),
        admit(catalogue, layout),
        index_new(layout),
        Ends::Fields(*n),
    )
}

fn rows(i: &Inputs) -> Vec<Row<'_>> {
    let mut all = order_rows(i);
    all.push(row(
        "catalogue check, `layout_hash` of 30 fields",
        check_catalogue(&i.catalogue),
        layout_hash(&i.thirty),
        Ends::Most(1.0 / 3.0),
    ));
    all.push(row(
        "sum of 1 KiB, `Crc64`",
        sum(&i.kibibyte),
        rust_sum(&i.kibibyte),
        Ends::Plain,
    ));
    all.extend(i.hashed.iter().flat_map(|h| hash_rows(&i.catalogue, h)));
    all.extend(i.pairs.iter().flat_map(|p| verdicts::rows(&i.catalogue, p)));
    all.extend(i.buildings.iter().map(|b| cursors::rows(&i.catalogue, b)));
    let planned = |p| upgrades::planning_row(&i.catalogue, p);
    all.extend(i.plannings.iter().map(planned));
    all.extend(i.upgradings.iter().map(upgrades::apply_row));
    // the others differ in the same steps
    all.push(upgrades::dispatch_row(&i.upgradings[0]));
    all.extend(upgrades::boundary_rows(&i.upgradings[0]));
    all.extend(texts::rows(&i.written));
    all.extend(i.hashed.iter().flat_map(|h| lookups::rows(&i.catalogue, h)));
    all.push(lookups::window_row(&i.kibibyte));
    all.extend(i.scaling.iter().map(|s| scaling_row(&i.catalogue, s)));
    all
}

// ---- the table

fn met(most: f64, ours: f64, theirs: f64) -> String {
    let met = if ours <= most * theirs {
        "met"
    } else {
        "missed"
    };
    format!("target {most:.2}: {met}")
}

/// `before` is what the port takes in the row before.
fn remark(ends: &Ends, before: f64, ours: f64, theirs: f64) -> String {
    match *ends {
        Ends::Plain => String::new(),
        Ends::Most(most) => met(most, ours, theirs),
        Ends::Beyond(most, whose) => format!(
            "{:.1} ns beyond the row above, {:.2} of {whose}; {}",
            ours - before,
            (ours - before) / theirs,
            met(most, ours - before, theirs)
        ),
        Ends::Fields(n) => format!(
            "{:.1} and {:.1} ns a field",
            ours / f64::from(n),
            theirs / f64::from(n)
        ),
    }
}

fn print_row(what: &str, remark: &str, ours: f64, theirs: f64) {
    println!(
        "| {what} | {ours:.0} | {theirs:.0} | {:.2} | {remark} |",
        ours / theirs
    );
}

fn main() {
    let inputs = Inputs::new();
    let (mut calls, mut heads) = (Vec::new(), Vec::new());
    for row in rows(&inputs) {
        calls.extend([row.ours, row.theirs]);
        heads.push((row.what, row.ends));
    }
    let times = measure::all(&mut calls);
    println!("| call of the port, of the Rust | port, ns | Rust, ns | ratio | |\n|---|---:|---:|---:|---|");
    let mut before = 0.0;
    for ((what, ends), pair) in heads.iter().zip(times.chunks_exact(2)) {
        print_row(
            what,
            &remark(ends, before, pair[0], pair[1]),
            pair[0],
            pair[1],
        );
        before = pair[0];
    }
}
