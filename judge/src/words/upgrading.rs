//! The interpreter and the dispatch, of plans by hand. The Rust's interpreter is given the record and the target cut to their lengths, and
//! its dispatch has no limit of 4,096: both parts of refusal 9, and that a planned record may be shorter than its header, are stated here.
use super::{hex, number, shown_hex, Answer, Kept};
use crate::layout::wire::upgrade::Dispatch;
use crate::slot;
use crate::v3::{state, Stated};
use std::panic::{catch_unwind, AssertUnwindSafe};

const MOST_BYTES: usize = 4096;

fn told(rtype: u16, size: usize, target: &[u8]) -> Answer {
    Some(format!("{rtype} {size} {}", shown_hex(target)))
}

fn refused(refusal: u8, target: &[u8]) -> Answer {
    Some(format!("r{refusal} {}", shown_hex(target)))
}

pub fn apply(kept: &mut Kept, words: &[&str]) -> Answer {
    let (at, n): (usize, usize) = (number(words[0])?, number(words[1])?);
    let (record, stated, mut target) = (hex(words[2])?, number(words[3])?, hex(words[4])?);
    let plan = slot::plan(kept.slots.get(at..at + n)?)?;
    let source = match record.get(..stated) {
        Some(source) if stated <= MOST_BYTES => source,
        _ => return refused(9, &target),
    };
    let Some(room) = target.get_mut(..plan.record_size()) else {
        return refused(11, &target);
    };
    plan.apply(source, room);
    told(plan.rtypes().1, plan.record_size(), &target)
}

/// What the dispatch did with the target; the header that it writes tells the rtype and goes again.
fn dispatched(dispatch: &Dispatch, record: &[u8], target: &mut [u8]) -> Result<(u16, usize), u8> {
    let before = target.to_vec();
    let done = catch_unwind(AssertUnwindSafe(|| dispatch.upgrade(record, target)));
    let size = match done {
        Ok(Ok(Some(size))) => size,
        Ok(Ok(None)) => return Err(11),
        Ok(Err(_)) => return Err(10),
        Err(_) => return Err(9),
    };
    let rtype = u16::from_le_bytes([target[2], target[3]]);
    target[..slot::HEADER].copy_from_slice(&before[..slot::HEADER]);
    Ok((rtype, size))
}

pub fn upgrade(kept: &mut Kept, words: &[&str]) -> Answer {
    let (n, unplanned): (usize, Vec<u8>) = (number(words[0])?, hex(words[1])?);
    let rtype = number(words[2])?;
    let headers: (usize, usize) = (number(words[3])?, number(words[4])?);
    let (record, stated, mut target) = (hex(words[5])?, number(words[6])?, hex(words[7])?);
    if headers != (slot::SOURCE_HEADER, slot::HEADER) || n % slot::SLOT != 0 {
        return None;
    }
    if !(slot::SOURCE_HEADER..=MOST_BYTES).contains(&stated) {
        return refused(9, &target);
    }
    let plans = kept
        .slots
        .get(..n)?
        .chunks_exact(slot::SLOT)
        .map(slot::plan);
    let unplanned = unplanned
        .chunks_exact(2)
        .map(|b| u16::from_le_bytes([b[0], b[1]]));
    let dispatch = Dispatch::by_hand(plans.collect::<Option<_>>()?, unplanned.collect());
    state(Stated {
        rtype: Some(rtype),
        length: Some(stated),
    });
    match dispatched(&dispatch, &record, &mut target) {
        Ok((rtype, size)) => told(rtype, size, &target),
        Err(refusal) => refused(refusal, &target),
    }
}
