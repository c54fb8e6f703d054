//! Upgrade plans as plain values, and the slots and texts that hold them.
use crate::{
    limits::{BODY_FROM, SLOT, STEP, STEPS_FROM, TEXT},
    refusal::Refusal,
    texting::{check_plan, read_plan, write_plan},
};

/// What a plan says besides its steps and its body.
#[derive(Clone, Copy, Debug, Default, PartialEq, Eq, Hash)]
pub struct Numbers {
    /// The rtype of the records that it upgrades.
    pub src_rtype: u16,
    /// The rtype that they have then.
    pub rtype: u16,
    /// The source's base.
    pub src_base: u16,
    /// The length of the target's header, whose bytes stay.
    pub header: u16,
    /// The target's base.
    pub base: u16,
    /// The upgraded record's size.
    pub size: u16,
}

/// One step; offsets count from the record's start.
#[derive(Clone, Copy, Debug, PartialEq, Eq, Hash)]
#[allow(missing_docs)] // the names say it
pub enum Step {
    /// Bytes as they are.
    Copy {
        src_offset: u16,
        dst_offset: u16,
        size: u16,
    },
    /// An integer, to another width. With `has_undef_max` the source's largest becomes the target's largest.
    Int {
        src_offset: u16,
        dst_offset: u16,
        src_size: u16,
        dst_size: u16,
        signed: bool,
        has_undef_max: bool,
    },
}

/// An upgrade plan. It is handed over in a slot, and kept as text.
///
/// ```
/// use tuppenceowl::{Numbers, Plan, Step};
///
/// let plan = Plan {
///     numbers: Numbers { src_rtype: 1, rtype: 1, src_base: 24, header: 24, base: 40, size: 40 },
///     body: vec![0, 0, 0, 0, 0, 0, 0, 0, 255, 255, 255, 255, 255, 255, 0, 0],
///     steps: vec![
///         Step::Copy { src_offset: 16, dst_offset: 24, size: 6 },
///         Step::Int { src_offset: 22, dst_offset: 32, src_size: 2, dst_size: 4, signed: false, has_undef_max: true },
///     ],
/// };
/// assert_eq!(Plan::from_slot(&plan.to_slot()?)?, plan);
///
/// let text = plan.to_text()?;
/// assert!(text.ends_with("copy\t16\t24\t6\nint\t22\t32\t2\t4\tu\t1\n"));
/// assert_eq!(Plan::from_text(&text)?, plan);
/// # Ok::<_, tuppenceowl::Refusal>(())
/// ```
#[derive(Clone, Debug, Default, PartialEq, Eq)]
pub struct Plan {
    /// Its numbers.
    pub numbers: Numbers,
    /// The default body: every byte of the upgraded record after the header, before the steps.
    pub body: Vec<u8>,
    /// Its steps, by ascending target offset.
    pub steps: Vec<Step>,
}

impl Plan {
    /// The slot that holds the plan. (Refusal 16 where it breaks a rule, a body of another length among them.)
    pub fn to_slot(&self) -> Result<[u8; SLOT], Refusal> {
        let count = u16::try_from(self.steps.len()).map_err(|_| Refusal::BadPlan)?;
        let n = &self.numbers;
        let body = n.size.checked_sub(n.header).map(usize::from);
        if body != Some(self.body.len()) {
            return Err(Refusal::BadPlan);
        }
        let mut slot = [0; SLOT];
        let numbers = [
            n.src_rtype,
            n.rtype,
            n.src_base,
            n.header,
            n.base,
            n.size,
            count,
        ];
        put_numbers(&mut slot, &numbers);
        // steps past the room are left out: their count is refused
        let steps = slot[STEPS_FROM..BODY_FROM].chunks_exact_mut(STEP);
        for (room, step) in steps.zip(&self.steps) {
            put_step(room, step);
        }
        let room = slot.get_mut(BODY_FROM..BODY_FROM + self.body.len());
        room.ok_or(Refusal::BadPlan)?.copy_from_slice(&self.body);
        check_plan(&slot)?;
        Ok(slot)
    }

    /// The plan that a slot holds. (Refusal 16.)
    pub fn from_slot(slot: &[u8]) -> Result<Plan, Refusal> {
        // behind this every place that is read lies inside the slot
        check_plan(slot)?;
        let numbers = Numbers {
            src_rtype: short(slot, 0),
            rtype: short(slot, 2),
            src_base: short(slot, 4),
            header: short(slot, 6),
            base: short(slot, 8),
            size: short(slot, 10),
        };
        let steps = slot[STEPS_FROM..BODY_FROM].chunks_exact(STEP);
        Ok(Plan {
            numbers,
            body: slot[BODY_FROM..][..usize::from(numbers.size - numbers.header)].to_vec(),
            steps: steps
                .take(usize::from(short(slot, 12)))
                .map(step_in)
                .collect(),
        })
    }

    /// The plan's text. (Refusal 16.)
    pub fn to_text(&self) -> Result<String, Refusal> {
        let mut text = vec![0; TEXT];
        let n = write_plan(&self.to_slot()?, &mut text)?;
        text.truncate(n);
        Ok(String::from_utf8(text).expect("the text is ASCII"))
    }

    /// The plan that has this text. (Refusal 16.)
    pub fn from_text(text: &str) -> Result<Plan, Refusal> {
        let mut slot = [0; SLOT];
        read_plan(text.as_bytes(), &mut slot)?;
        Plan::from_slot(&slot)
    }
}

// ---- numbers of two bytes, low first

fn short(bytes: &[u8], at: usize) -> u16 {
    u16::from_le_bytes([bytes[at], bytes[at + 1]])
}

fn put_numbers(room: &mut [u8], numbers: &[u16]) {
    for (pair, n) in room.chunks_exact_mut(2).zip(numbers) {
        pair.copy_from_slice(&n.to_le_bytes());
    }
}

// ---- a step of 16 bytes

fn put_step(room: &mut [u8], step: &Step) {
    match *step {
        Step::Copy {
            src_offset,
            dst_offset,
            size,
        } => put_numbers(&mut room[4..], &[src_offset, dst_offset, size]),
        Step::Int {
            src_offset,
            dst_offset,
            src_size,
            dst_size,
            signed,
            has_undef_max,
        } => {
            room[0] = 1;
            room[1] = signed.into();
            room[2] = has_undef_max.into();
            put_numbers(
                &mut room[4..],
                &[src_offset, dst_offset, src_size, dst_size],
            );
        }
    }
}

fn step_in(bytes: &[u8]) -> Step {
    let (src_offset, dst_offset) = (short(bytes, 4), short(bytes, 6));
    if bytes[0] == 0 {
        return Step::Copy {
            src_offset,
            dst_offset,
            size: short(bytes, 8),
        };
    }
    Step::Int {
        src_offset,
        dst_offset,
        src_size: short(bytes, 8),
        dst_size: short(bytes, 10),
        signed: bytes[1] == 1,
        has_undef_max: bytes[2] == 1,
    }
}
