//! Rows for the verdict: layouts whose stored hashes differ, so that the fields are compared, and the same with equal hashes, which is
//! what admission of both takes; the difference is what comparing takes.
use crate::measure::Call;
use crate::{inputs, port, row, Ends, Row};
use judge::block;
use judge::layout::{wire, StreamLayout, Verdict};
use std::hint::black_box;

pub struct Pair {
    what: String,
    stream: Vec<u8>,
    compiled: Vec<u8>,
    theirs: (StreamLayout, StreamLayout),
}

fn pair(n: u16, order: &str, compiled: Vec<u8>, stream: &[u8]) -> Pair {
    let stream = inputs::other_hash(stream);
    Pair {
        what: format!("{n} fields, the stream's {order}"),
        theirs: (block::layout(&stream), block::layout(&compiled)),
        stream,
        compiled,
    }
}

pub fn pairs() -> Vec<Pair> {
    let of = |n| {
        [
            pair(
                n,
                "in the same order",
                inputs::in_order(n),
                &inputs::in_order(n),
            ),
            pair(n, "shuffled", inputs::in_order(n), &inputs::shuffled(n)),
            pair(
                n,
                "from the last to the first",
                inputs::in_order(n),
                &inputs::reversed(n),
            ),
        ]
    };
    [30, 128].into_iter().flat_map(of).collect()
}

fn ours<'a>(catalogue: &'a [u8], stream: Vec<u8>, compiled: &'a [u8]) -> Call<'a> {
    assert!(
        port::is_compiled(catalogue, &stream, compiled),
        "not compiled"
    );
    Box::new(move || {
        black_box(port::is_compiled(
            black_box(catalogue),
            black_box(&stream),
            black_box(compiled),
        ));
    })
}

fn theirs((stream, compiled): &(StreamLayout, StreamLayout)) -> Call<'_> {
    let verdict = move || {
        wire::verdict(
            black_box(stream),
            black_box(&stream.record_layouts[0]),
            black_box(compiled),
        )
    };
    assert!(matches!(verdict(), Verdict::Compiled));
    Box::new(move || {
        black_box(verdict());
    })
}

pub fn rows<'a>(catalogue: &'a [u8], p: &'a Pair) -> [Row<'a>; 2] {
    let equal = inputs::other_hash(&p.stream);
    [
        row(
            &format!("admission of both and equal hashes: {}, `verdict`", p.what),
            ours(catalogue, equal, &p.compiled),
            theirs(&p.theirs),
            Ends::Plain,
        ),
        row(
            &format!("verdict with admission: {}, `verdict`", p.what),
            ours(catalogue, p.stream.clone(), &p.compiled),
            theirs(&p.theirs),
            Ends::Beyond(1.0, "the Rust"),
        ),
    ]
}
