//! Selection and the planner, each made by dbn's own constructors. What the Rust lacks is stated here: refusal 11, and 7 and 8, which
//! it gives by stopping and by a default body of its own.
use super::{hash_text, hex, number, or_none, shown_hex, Answer, Kept};
use crate::layout::wire::{self, upgrade};
use crate::layout::{FieldDef, RecordLayout, StreamLayout};
use crate::v4::fields::{clear_defaults, set_default, FieldDefault, HD};
use crate::{block, slot};
use std::panic::{catch_unwind, AssertUnwindSafe};

// ---- selection

/// Records whose sizes tell them apart: selection reads rtype, schema and name alone.
fn told_apart(mut layout: StreamLayout) -> StreamLayout {
    for (i, r) in layout.record_layouts.iter_mut().enumerate() {
        r.field_defs.clear();
        r.base_record_size = (slot::HEADER + i) as u16;
    }
    layout
}

fn schema(word: &str) -> Option<Option<u16>> {
    match word {
        "-" => Some(None),
        _ => number(word).map(Some),
    }
}

pub fn select(kept: &mut Kept, words: &[&str]) -> Answer {
    let (k, schema) = (number(words[0])?, schema(words[1])?);
    let target = told_apart(block::layout(&hex(words[2])?));
    or_none(kept.record(k).map(|source| {
        wire::set_sources(vec![source.clone()]);
        match upgrade::Dispatch::new(&target, schema).sizes().first() {
            Some(size) => format!("={}", size - slot::HEADER),
            None => "unplanned".to_owned(),
        }
    }))
}

// ---- the planner

/// A marked field has the largest value, another what stands in the body, of which the registry holds eight bytes.
fn default_in(f: &FieldDef, marked: bool, body: &[u8]) -> FieldDefault {
    if marked {
        return FieldDefault::Max;
    }
    let start = usize::from(f.offset).wrapping_sub(slot::HEADER);
    let byte = |i: usize| body.get(start.wrapping_add(i)).copied().unwrap_or(0);
    let held = usize::from(f.size).min(8);
    let value = (0..held).fold(0, |v, i| v | u64::from(byte(i)) << (8 * i));
    FieldDefault::Value(value as i64)
}

/// The registry knows ids, not fields: where several share one, the widest tells its default.
fn register(target: &RecordLayout, body: &[u8], marks: &[u8]) {
    clear_defaults();
    let mut wants: Vec<(usize, &FieldDef)> = target
        .field_defs
        .iter()
        .enumerate()
        .filter(|(_, f)| !f.is_padding() && f.field_id != HD.id())
        .collect();
    wants.sort_by_key(|(_, f)| f.size);
    for (i, f) in wants {
        let marked = marks.get(i).is_some_and(|&m| m != 0);
        set_default(f.field_id, default_in(f, marked, body));
    }
}

fn made(
    source: &RecordLayout,
    target: &RecordLayout,
    body: &[u8],
    marks: &[u8],
) -> Result<Vec<u8>, &'static str> {
    register(target, body, marks);
    let plan = catch_unwind(AssertUnwindSafe(|| upgrade::Plan::new(source, target)));
    let plan = plan.map_err(|_| "r7")?;
    if plan.body() != body {
        return Err("r8");
    }
    Ok(slot::packed(
        &plan,
        source.base_record_size,
        target.base_record_size,
    ))
}

pub fn plan(kept: &mut Kept, words: &[&str]) -> Answer {
    let (k, to, header): (u64, usize, usize) =
        (number(words[0])?, number(words[1])?, number(words[2])?);
    let (body, marks) = (hex(words[3])?, hex(words[4])?);
    let (at, room): (usize, usize) = (number(words[5])?, number(words[6])?);
    let target = block::layout(&hex(words[7])?);
    if header != slot::HEADER || at + room > kept.slots.len() {
        return None;
    }
    let (Some(source), Some(to)) = (kept.record(k), target.record_layouts.get(to)) else {
        return or_none(None);
    };
    let packed = match made(source, to, &body, &marks) {
        Ok(packed) if room < packed.len() => return Some("r11".to_owned()),
        Ok(packed) => packed,
        Err(refusal) => return Some(refusal.to_owned()),
    };
    kept.slots[at..at + packed.len()].copy_from_slice(&packed);
    let (front, body) = slot::parts(&packed);
    let sum = wire::hash::sum(&kept.slots[at..at + room]);
    Some(format!(
        "{} {} {}",
        shown_hex(front),
        shown_hex(body),
        hash_text(sum)
    ))
}

// ---- the memory that plans stand in

pub fn put(kept: &mut Kept, words: &[&str]) -> Answer {
    let (at, bytes): (usize, Vec<u8>) = (number(words[0])?, hex(words[1])?);
    let to = kept.slots.get_mut(at..at + bytes.len())?;
    to.copy_from_slice(&bytes);
    Some("ok".to_owned())
}

pub fn slots(kept: &mut Kept, words: &[&str]) -> Answer {
    let (at, n): (usize, usize) = (number(words[0])?, number(words[1])?);
    Some(hash_text(wire::hash::sum(kept.slots.get(at..at + n)?)))
}
