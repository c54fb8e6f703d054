//! The words of catalogues, layouts, hashes, verdicts and lookups.
use super::{
    Replay,
    line::{Line, ROOM, fine, perhaps},
};
use tuppenceowl::*;

fn field_text(f: FieldDef) -> String {
    let [a, b, c, d, e] = f.reserved;
    let reserved = u64::from_le_bytes([a, b, c, d, e, 0, 0, 0]);
    format!(
        "{} {} {} {} {} {} {} {reserved}",
        f.field_id, f.offset, f.size, f.type_id, f.flags, f.def_index, f.scale
    )
}

fn verdict_text(v: Verdict) -> String {
    match v {
        Verdict::Compiled => "compiled".into(),
        Verdict::Dynamic => "dynamic".into(),
    }
}

// ---- words that keep nothing and read nothing kept

pub fn window_of(line: &Line) -> Option<String> {
    let bytes = line.of(4)?.hex(1, ROOM)?;
    let within = window(&bytes, line.number(2)?, line.number(3)?);
    Some(within.map_or("none".into(), |w| format!("{} {}", w.start, w.end)))
}

pub fn field(line: &Line) -> Option<String> {
    let table = line.of(3)?.hex(1, ROOM)?;
    Some(perhaps(field_of(&table, line.number(2)?), field_text))
}

pub fn sum_of(line: &Line) -> Option<String> {
    Some(format!("{:016x}", sum(&line.of(2)?.hex(1, ROOM)?)))
}

// ---- words of the last catalogue and layout

impl Replay {
    pub fn keep_catalogue(&mut self, line: &Line) -> Option<String> {
        self.cat = line.of(2)?.hex(1, 1024)?;
        Some(fine(check_catalogue(&self.cat)))
    }

    pub fn keep_layout(&mut self, line: &Line) -> Option<String> {
        self.layout = line.of(2)?.hex(1, ROOM)?;
        Some(fine(admit(&self.cat, &self.layout)))
    }

    pub fn size(&self, line: &Line) -> Option<String> {
        let size = record_size(&self.cat, &self.layout, line.of(2)?.number(1)?);
        Some(perhaps(size, |n| format!("={n}")))
    }

    pub fn hash(&self, line: &Line) -> Option<String> {
        let hashed = layout_hash(&self.cat, &self.layout, line.of(2)?.number(1)?);
        Some(perhaps(hashed, |h| format!("{:016x}", h.hash)))
    }

    pub fn visits(&self, line: &Line) -> Option<String> {
        let (k, budget) = (line.of(3)?.number(1)?, line.number(2)?);
        let hashed = layout_hash_within(&self.cat, &self.layout, k, budget);
        Some(perhaps(hashed, |h| format!("{:016x} {}", h.hash, h.visits)))
    }

    pub fn boot(&self, line: &Line) -> Option<String> {
        let booted = boot_check(&self.cat, &self.layout, line.of(2)?.number(1)?);
        Some(perhaps(booted, |b| match b {
            Booted::Same => "same".into(),
            Booted::Different => "different".into(),
        }))
    }

    pub fn verdict(&self, line: &Line) -> Option<String> {
        let (k, compiled) = (line.of(3)?.number(1)?, line.hex(2, ROOM)?);
        let judged = verdict(&self.cat, &self.layout, k, &compiled);
        Some(perhaps(judged, verdict_text))
    }

    pub fn verdict_of(&self, line: &Line) -> Option<String> {
        let (rtype, compiled) = (line.of(3)?.short(1)?, line.hex(2, ROOM)?);
        let judged = verdict_of(&self.cat, &self.layout, rtype, &compiled);
        Some(perhaps(judged, verdict_text))
    }

    pub fn by_id(&self, line: &Line) -> Option<String> {
        let (rtype, id) = (line.of(3)?.short(1)?, line.short(2)?);
        let found = field_by_id(&self.cat, &self.layout, rtype, id);
        Some(perhaps(found, field_text))
    }

    pub fn by_name(&self, line: &Line) -> Option<String> {
        let (rtype, name) = (line.of(3)?.short(1)?, line.hex(2, ROOM)?);
        let found = field_by_name(&self.cat, &self.layout, rtype, &name);
        Some(perhaps(found, field_text))
    }
}
