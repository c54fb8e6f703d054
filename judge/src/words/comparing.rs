//! Verdicts and lookups, the latter through dbn's `LayoutIndex`.
use super::{hex, number, or_none, Answer, Kept};
use crate::block;
use crate::layout::{wire, DynField, LayoutIndex, Verdict};

fn told(verdict: Option<Verdict>) -> Answer {
    or_none(verdict.map(|v| match v {
        Verdict::Compiled => "compiled".to_owned(),
        Verdict::Dynamic => "dynamic".to_owned(),
    }))
}

fn shown(field: Option<DynField>) -> Answer {
    or_none(field.map(|found| {
        let f = found.def();
        format!(
            "{} {} {} {} {} {} {} 0",
            f.field_id, f.offset, f.size, f.type_id, f.flags, f.def_index, f.scale
        )
    }))
}

pub fn verdict(kept: &mut Kept, words: &[&str]) -> Answer {
    let (k, compiled) = (number(words[0])?, block::layout(&hex(words[1])?));
    told(
        kept.record(k)
            .map(|r| wire::verdict(&kept.layout, r, &compiled)),
    )
}

pub fn verdict_of(kept: &mut Kept, words: &[&str]) -> Answer {
    let (rtype, compiled) = (number(words[0])?, block::layout(&hex(words[1])?));
    told(LayoutIndex::new(&kept.layout, &compiled).verdict(rtype))
}

pub fn by_id(kept: &mut Kept, words: &[&str]) -> Answer {
    let (rtype, id) = (number(words[0])?, number(words[1])?);
    shown(LayoutIndex::new(&kept.layout, &kept.layout).field_by_id(rtype, id))
}

pub fn by_name(kept: &mut Kept, words: &[&str]) -> Answer {
    let (rtype, name) = (number(words[0])?, block::text(&hex(words[1])?));
    shown(LayoutIndex::new(&kept.layout, &kept.layout).field_by_name(rtype, &name))
}
