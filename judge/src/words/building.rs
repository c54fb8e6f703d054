//! The field cursor's calls.
use super::{hex, number, Answer, Kept};
use crate::block;
use crate::building::Call;
use crate::layout::FieldDef;

pub fn begin(kept: &mut Kept, words: &[&str]) -> Answer {
    kept.building.begin(words[0])
}

fn called(kept: &mut Kept, call: Call) -> Answer {
    Some(kept.building.call(&kept.layout, &call))
}

/// The field of a line, and its name.
fn given(words: &[&str]) -> Option<(FieldDef, String)> {
    let (row, name) = (hex(words[0])?, block::text(&hex(words[1])?));
    Some((block::fields(&row).pop()?, name))
}

pub fn scalar(kept: &mut Kept, words: &[&str]) -> Answer {
    let (f, name) = given(words)?;
    called(kept, Call::Scalar(f, &name))
}

pub fn string(kept: &mut Kept, words: &[&str]) -> Answer {
    let (f, name) = given(words)?;
    called(kept, Call::String(f, &name))
}

pub fn like(kept: &mut Kept, words: &[&str]) -> Answer {
    let (f, name) = given(words)?;
    called(kept, Call::Like(f, &name))
}

pub fn nested(kept: &mut Kept, words: &[&str]) -> Answer {
    let (f, name) = given(words)?;
    called(kept, Call::Nested(f, None, &name))
}

/// How often the struct stands there is the size of the field.
pub fn nested_array(kept: &mut Kept, words: &[&str]) -> Answer {
    let (f, name) = given(words)?;
    let count = f.size;
    called(kept, Call::Nested(f, Some(count), &name))
}

pub fn at(kept: &mut Kept, words: &[&str]) -> Answer {
    called(kept, Call::At(number(words[0])?))
}

pub fn finish_base(kept: &mut Kept, _words: &[&str]) -> Answer {
    called(kept, Call::FinishBase)
}

pub fn finish(kept: &mut Kept, words: &[&str]) -> Answer {
    let bytes = hex(words[0])?;
    let pairs = bytes
        .chunks_exact(2)
        .map(|b| u16::from_le_bytes([b[0], b[1]]));
    called(kept, Call::Finish(pairs.collect()))
}

pub fn built(kept: &mut Kept, words: &[&str]) -> Answer {
    kept.building.built(number(words[0])?)
}
