//! What each word asks: a function for each takes the words after it and answers, or answers nothing where they are malformed.
use crate::layout::{wire, RecordLayout, StreamLayout};

mod building;
mod comparing;
mod planning;
mod upgrading;

/// What earlier lines stated.
pub struct Kept {
    layout: StreamLayout,
    building: crate::building::Building,
    /// Four slots of plans.
    slots: Vec<u8>,
}

impl Default for Kept {
    fn default() -> Self {
        Self {
            layout: crate::block::layout(&[]),
            building: Default::default(),
            slots: vec![0; 4 * crate::slot::SLOT],
        }
    }
}

impl Kept {
    fn record(&self, k: u64) -> Option<&RecordLayout> {
        self.layout.record_layouts.get(usize::try_from(k).ok()?)
    }
}

type Answer = Option<String>;

type Ask = fn(&mut Kept, &[&str]) -> Answer;

/// A word, how many words stand after it, and who answers it.
const WORDS: &[(&str, usize, Ask)] = &[
    ("catalogue", 1, catalogue),
    ("layout", 1, layout),
    ("size", 1, size),
    ("hash", 1, hash),
    ("sum", 1, sum),
    ("window", 3, window),
    ("begin", 1, building::begin),
    ("scalar", 2, building::scalar),
    ("string", 2, building::string),
    ("like", 2, building::like),
    ("nested", 2, building::nested),
    ("nested_array", 2, building::nested_array),
    ("at", 1, building::at),
    ("finish_base", 0, building::finish_base),
    ("finish", 1, building::finish),
    ("built", 1, building::built),
    ("verdict", 2, comparing::verdict),
    ("verdict_of", 2, comparing::verdict_of),
    ("by_id", 2, comparing::by_id),
    ("by_name", 2, comparing::by_name),
    ("select", 3, planning::select),
    ("plan", 8, planning::plan),
    ("put", 2, planning::put),
    ("slots", 2, planning::slots),
    ("apply", 5, upgrading::apply),
    ("upgrade", 8, upgrading::upgrade),
];

fn asked(words: &[&str]) -> Option<Ask> {
    let takes = words.len() - 1;
    let found = WORDS.iter().find(|w| (w.0, w.1) == (words[0], takes));
    found.map(|w| w.2)
}

/// The answer to a line: itself where it is empty or a title.
pub fn answer(kept: &mut Kept, line: &str) -> String {
    if line.is_empty() || line.starts_with('#') {
        return line.to_owned();
    }
    let words: Vec<&str> = line.split('\t').collect();
    let answer = asked(&words).and_then(|ask| ask(kept, &words[1..]));
    answer.unwrap_or_else(|| "?".to_owned())
}

// ---- parts of a line and of an answer

fn hex(word: &str) -> Option<Vec<u8>> {
    if !word.bytes().all(|c| c.is_ascii_hexdigit()) || word.len() % 2 != 0 {
        return None;
    }
    (0..word.len())
        .step_by(2)
        .map(|i| u8::from_str_radix(&word[i..i + 2], 16).ok())
        .collect()
}

fn number<T: std::str::FromStr>(word: &str) -> Option<T> {
    word.parse().ok()
}

fn or_none(answer: Option<String>) -> Answer {
    Some(answer.unwrap_or_else(|| "none".to_owned()))
}

pub(crate) fn shown_hex(bytes: &[u8]) -> String {
    bytes.iter().map(|b| format!("{b:02x}")).collect()
}

fn hash_text(hash: u64) -> String {
    format!("{hash:016x}")
}

// ---- words that keep something

/// The ids are fixed here (v4/fields.rs), so there is nothing to keep.
fn catalogue(_kept: &mut Kept, words: &[&str]) -> Answer {
    hex(words[0]).map(|_| "ok".to_owned())
}

fn layout(kept: &mut Kept, words: &[&str]) -> Answer {
    kept.layout = crate::block::layout(&hex(words[0])?);
    Some("ok".to_owned())
}

// ---- words that ask

fn size(kept: &mut Kept, words: &[&str]) -> Answer {
    let k = number(words[0])?;
    or_none(kept.record(k).map(|r| format!("={}", r.record_size())))
}

fn hash(kept: &mut Kept, words: &[&str]) -> Answer {
    let k = number(words[0])?;
    or_none(
        kept.record(k)
            .map(|r| hash_text(r.layout_hash(&kept.layout.struct_layouts))),
    )
}

fn sum(_kept: &mut Kept, words: &[&str]) -> Answer {
    Some(hash_text(wire::hash::sum(&hex(words[0])?)))
}

fn window(_kept: &mut Kept, words: &[&str]) -> Answer {
    let (bytes, offset, size) = (hex(words[0])?, number(words[1])?, number(words[2])?);
    or_none(wire::window(&bytes, offset, size).map(|(start, end)| format!("{start} {end}")))
}
