//! A plan in a slot of bytes: eight numbers of two bytes, room for 128 steps of 16 bytes, room for the body.
use crate::layout::wire::upgrade::{Plan, Step};

const STEP: usize = 16;
const STEPS_FROM: usize = 16;
const BODY_FROM: usize = STEPS_FROM + 128 * STEP;
pub const SLOT: usize = BODY_FROM + 4096;

/// The headers of the Rust, of versions 1 to 3 and of version 4.
pub const SOURCE_HEADER: usize = 16;
pub const HEADER: usize = 24;

fn short(b: &[u8], at: usize) -> u16 {
    u16::from_le_bytes([b[at], b[at + 1]])
}

fn wide(b: &[u8], at: usize) -> usize {
    usize::from(short(b, at))
}

// ---- a plan into a slot

fn packed_as(kind: u8, sign: bool, mark: bool, numbers: [u16; 4]) -> [u8; STEP] {
    let mut b = [0; STEP];
    (b[0], b[1], b[2]) = (kind, sign.into(), mark.into());
    for (i, n) in numbers.into_iter().enumerate() {
        b[4 + 2 * i..6 + 2 * i].copy_from_slice(&n.to_le_bytes());
    }
    b
}

fn packed_step(step: Step) -> [u8; STEP] {
    match step {
        Step::Copy {
            source,
            target,
            size,
        } => packed_as(0, false, false, [source, target, size, 0]),
        Step::Int {
            source,
            target,
            from,
            to,
            signed,
            marked,
        } => packed_as(1, signed, marked, [source, target, from, to]),
    }
}

/// The Rust's plan keeps neither base.
pub fn packed(plan: &Plan, src_base: u16, base: u16) -> Vec<u8> {
    let (src_rtype, rtype) = plan.rtypes();
    let (steps, size) = (plan.steps(), plan.record_size() as u16);
    let count = steps.len() as u16;
    let mut b = Vec::with_capacity(SLOT);
    for n in [
        src_rtype,
        rtype,
        src_base,
        HEADER as u16,
        base,
        size,
        count,
        0,
    ] {
        b.extend(n.to_le_bytes());
    }
    b.extend(steps.into_iter().flat_map(packed_step));
    b.resize(BODY_FROM, 0);
    b.extend(plan.body());
    b.resize(SLOT, 0);
    b
}

/// The numbers and the steps of a slot, and its body.
pub fn parts(slot: &[u8]) -> (&[u8], &[u8]) {
    let body = wide(slot, 10) - wide(slot, 6);
    (
        &slot[..STEPS_FROM + STEP * wide(slot, 12)],
        &slot[BODY_FROM..BODY_FROM + body],
    )
}

// ---- a slot into a plan

fn step(b: &[u8]) -> Step {
    let (source, target) = (short(b, 4), short(b, 6));
    if b[0] == 0 {
        let size = short(b, 8);
        return Step::Copy {
            source,
            target,
            size,
        };
    }
    Step::Int {
        source,
        target,
        from: short(b, 8),
        to: short(b, 10),
        signed: b[1] == 1,
        marked: b[2] == 1,
    }
}

/// None where the Rust cannot have it: another header than its own, or lengths that are no slot's.
pub fn plan(slot: &[u8]) -> Option<Plan> {
    if slot.len() != SLOT || wide(slot, 6) != HEADER {
        return None;
    }
    let body = slot.get(BODY_FROM..BODY_FROM + wide(slot, 10).checked_sub(HEADER)?)?;
    let steps = slot.get(STEPS_FROM..STEPS_FROM + STEP * wide(slot, 12))?;
    let steps: Vec<Step> = steps.chunks_exact(STEP).map(step).collect();
    Some(Plan::by_hand(short(slot, 0), short(slot, 2), &steps, body))
}
