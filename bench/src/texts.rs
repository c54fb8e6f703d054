//! Rows for plan text, which the Rust does not have: writing and reading the longest plan beside the port's own sum of the same text.
use crate::measure::Call;
use crate::{port, row, Ends, Row};
use std::hint::black_box;

const SLOT: usize = 6160;
const BODY_FROM: usize = 2064;
const STEPS: u16 = 128;

/// A plan of 128 steps and a record of 4,096 bytes, and its text.
pub struct Written {
    slot: Vec<u8>,
    text: Vec<u8>,
}

fn slot() -> Vec<u8> {
    let mut bytes = vec![0; SLOT];
    for (i, number) in [1, 2, 4096, 64, 4096, 4096, STEPS].into_iter().enumerate() {
        bytes[2 * i..2 * i + 2].copy_from_slice(&u16::to_le_bytes(number));
    }
    for k in 0..STEPS {
        let at = 16 + 16 * usize::from(k);
        for (i, number) in [1000 + 20 * k, 1000 + 20 * k, 16].into_iter().enumerate() {
            bytes[at + 4 + 2 * i..at + 6 + 2 * i].copy_from_slice(&u16::to_le_bytes(number));
        }
    }
    for (i, byte) in bytes[BODY_FROM..BODY_FROM + 4096 - 64]
        .iter_mut()
        .enumerate()
    {
        *byte = (i * i / 5) as u8;
    }
    bytes
}

pub fn written() -> Written {
    let slot = slot();
    let mut text = vec![0; 11_100];
    let n = port::write_plan(&slot, &mut text).expect("the port refuses the plan");
    text.truncate(n);
    let mut back = vec![0; SLOT];
    assert_eq!(
        port::read_plan(&text, &mut back),
        0,
        "the port refuses its text"
    );
    assert!(back == slot, "another plan was read");
    Written { slot, text }
}

fn sum(text: &[u8]) -> Call<'_> {
    Box::new(move || {
        black_box(port::sum(black_box(text)));
    })
}

pub fn rows(w: &Written) -> [Row<'_>; 2] {
    let (mut text, mut slot) = (vec![0; w.text.len()], vec![0; SLOT]);
    let write: Call = Box::new(move || {
        black_box(port::write_plan(black_box(&w.slot), &mut text));
    });
    let read: Call = Box::new(move || {
        black_box(port::read_plan(black_box(&w.text), &mut slot));
    });
    [
        row(
            "the text of 128 steps and 4,096 bytes written, its own sum of it",
            write,
            sum(&w.text),
            Ends::Most(2.0),
        ),
        row(
            "that text read, its own sum of it",
            read,
            sum(&w.text),
            Ends::Most(3.0),
        ),
    ]
}
