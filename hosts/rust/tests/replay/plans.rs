//! The words of selection, planner, upgrade and plan text. Plans stand in four slots that are kept from line to line.
use super::{
    Replay,
    line::{Line, ROOM, octets, part, perhaps, refused, told},
};
use tuppenceowl::{limits::*, *};

/// Bytes of the slots.
pub const SLOTS: usize = 4 * SLOT;

/// What stands in lent bytes before a text is written or read.
const FOUND: u8 = 170;

fn wide(bytes: &[u8], at: usize) -> usize {
    let byte = |i: usize| usize::from(bytes.get(i).copied().unwrap_or(0));
    byte(at) + 256 * byte(at + 1)
}

/// Numbers and steps, the body, and the sum of all that was lent.
fn plan_text(slot: &[u8]) -> String {
    let front = part(slot, 0, STEPS_FROM + STEP * wide(slot, 12));
    let size = wide(slot, 10).saturating_sub(wide(slot, 6));
    let body = part(slot, BODY_FROM, size);
    format!("{} {} {:016x}", octets(front), octets(body), sum(slot))
}

/// Rtype and size or the refusal, then the target as it is.
fn upgraded_text(answer: Result<Upgraded, Refusal>, target: &[u8]) -> String {
    let said = told(answer, |u| format!("{} {}", u.rtype, u.size));
    format!("{said} {}", octets(target))
}

impl Replay {
    pub fn select(&self, line: &Line) -> Option<String> {
        let k = line.of(4)?.number(1)?;
        let schema = match line.text(2) {
            b"-" => None,
            _ => Some(line.short(2)?),
        };
        let target = line.hex(3, ROOM)?;
        let selected = select(&self.cat, &self.layout, k, &target, schema);
        Some(perhaps(selected, |s| match s {
            Selected::Record(to) => format!("={to}"),
            Selected::Unplanned => "unplanned".into(),
        }))
    }

    pub fn plan(&mut self, line: &Line) -> Option<String> {
        let (k, to, header) = (line.of(9)?.number(1)?, line.number(2)?, line.number(3)?);
        let (body, marks) = (line.hex(4, 4224)?, line.hex(5, 256)?);
        let (at, room, target) = (line.number(6)?, line.number(7)?, line.hex(8, ROOM)?);
        let (cat, source) = (&self.cat, &self.layout);
        let slot = self.slots.get_mut(at..at + room)?;
        let made = plan(cat, source, k, &target, to, header, &body, &marks, slot);
        Some(perhaps(made, |()| plan_text(slot)))
    }

    pub fn put(&mut self, line: &Line) -> Option<String> {
        let (at, bytes) = (line.of(3)?.number(1)?, line.hex(2, ROOM)?);
        self.slots
            .get_mut(at..at + bytes.len())?
            .copy_from_slice(&bytes);
        Some("ok".into())
    }

    pub fn sum_of_slots(&self, line: &Line) -> Option<String> {
        let (at, n) = (line.of(3)?.number(1)?, line.number(2)?);
        Some(format!("{:016x}", sum(part(&self.slots, at, n))))
    }

    pub fn apply(&self, line: &Line) -> Option<String> {
        let (at, n) = (line.of(6)?.number(1)?, line.number(2)?);
        let (record, stated) = (line.hex(3, ROOM)?, line.number(4)?);
        let mut target = line.hex(5, 5120)?;
        let answer = apply(part(&self.slots, at, n), &record, stated, &mut target);
        Some(upgraded_text(answer, &target))
    }

    pub fn upgrade(&self, line: &Line) -> Option<String> {
        let plans = part(&self.slots, 0, line.of(9)?.number(1)?);
        let (ids, rtype) = (line.ids(2)?, line.short(3)?);
        let (from, to) = (line.number(4)?, line.number(5)?);
        let (record, stated) = (line.hex(6, ROOM)?, line.number(7)?);
        let mut target = line.hex(8, 5120)?;
        let answer = upgrade(plans, &ids, rtype, from, to, &record, stated, &mut target);
        Some(upgraded_text(answer, &target))
    }
}

// ---- plan text

/// A slot of zeros but for what is given, written into so much room.
pub fn write(line: &Line) -> Option<String> {
    let (room, length) = (line.of(5)?.number(1)?, line.number(2)?);
    let (front, body) = (line.hex(3, ROOM)?, line.hex(4, MAX_BYTES)?);
    let mut table = vec![0; ROOM];
    table[..front.len()].copy_from_slice(&front);
    table[BODY_FROM..BODY_FROM + body.len()].copy_from_slice(&body);
    let mut text = vec![FOUND; room];
    let written = write_plan(part(&table, 0, length), &mut text);
    Some(written.map_or_else(refused, |n| format!("{:016x} {n}", sum(&text))))
}

pub fn read(line: &Line) -> Option<String> {
    let (room, text) = (line.of(3)?.number(1)?, line.hex(2, ROOM)?);
    let mut slot = vec![FOUND; room];
    let answer = read_plan(&text, &mut slot);
    Some(told(answer, |()| format!("{:016x} {SLOT}", sum(&slot))))
}
