//! Reads cases from standard input, one a line, and answers each by the Rust of dbn.
use judge::words::{answer, Kept};
use std::io::{self, BufRead, Write};
use std::panic::{catch_unwind, set_hook, AssertUnwindSafe};

/// dbn stops at some inputs that the port refuses: an answer like any other.
fn answer_or_stop(kept: &mut Kept, line: &str) -> String {
    catch_unwind(AssertUnwindSafe(|| answer(kept, line))).unwrap_or_else(|_| "stop".to_owned())
}

fn main() -> io::Result<()> {
    set_hook(Box::new(|_| {}));
    let mut kept = Kept::default();
    let mut out = io::BufWriter::new(io::stdout().lock());
    for line in io::stdin().lock().lines() {
        writeln!(out, "{}", answer_or_stop(&mut kept, &line?))?;
    }
    out.flush()
}
