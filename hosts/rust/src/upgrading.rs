//! The upgrade of a record, without its header: by one plan, or by the first plan of its rtype.
use crate::{
    ffi::{self, fine},
    refusal::Refusal,
};

/// What the upgraded record's header has to say.
#[derive(Clone, Copy, Debug, PartialEq, Eq, Hash)]
pub struct Upgraded {
    /// The target's rtype.
    pub rtype: u16,
    /// The upgraded record's bytes, header included.
    pub size: usize,
}

/// Upgrades `src`, of which the first `stated` bytes are the record, by the plan in `slot`. Of `dst` the bytes from the plan's header length to its record size are written,
/// all others stay. (Refusals 9, 11, 16.)
///
/// ```
/// use tuppenceowl::{Numbers, Plan, Refusal, Step, Upgraded, apply};
///
/// let numbers = Numbers { src_rtype: 1, rtype: 1, src_base: 4, header: 2, base: 6, size: 6 };
/// let copy = Step::Copy { src_offset: 2, dst_offset: 4, size: 2 };
/// let slot = Plan { numbers, body: vec![9, 9, 0, 0], steps: vec![copy] }.to_slot()?;
///
/// let mut dst = [0xAA; 8];
/// assert_eq!(apply(&slot, &[0, 0, 1, 2], 4, &mut dst), Ok(Upgraded { rtype: 1, size: 6 }));
/// assert_eq!(dst, [0xAA, 0xAA, 9, 9, 1, 2, 0xAA, 0xAA]);
/// assert_eq!(apply(&slot, &[0, 0, 1, 2], 5, &mut dst), Err(Refusal::BadLength));
/// # Ok::<_, Refusal>(())
/// ```
#[inline]
pub fn apply(slot: &[u8], src: &[u8], stated: usize, dst: &mut [u8]) -> Result<Upgraded, Refusal> {
    let (mut rtype, mut size) = (0, 0);
    // SAFETY: pointers and lengths are of one slice each; target and numbers are borrowed for the call
    let status = unsafe {
        ffi::owl_apply(
            slot.as_ptr(),
            slot.len(),
            src.as_ptr(),
            src.len(),
            stated,
            dst.as_mut_ptr(),
            dst.len(),
            &mut rtype,
            &mut size,
        )
    };
    fine(status).map(|()| Upgraded { rtype, size })
}

/// Upgrades a record by the first plan of its rtype; `plans` is a run of slots. Without a plan, and not listed in `unplanned`, the bytes after the source header are copied
/// after the target header. (Refusals 7, 9, 10, 11, 16.)
///
/// ```
/// use tuppenceowl::{Refusal, Upgraded, upgrade};
///
/// let mut dst = [0; 6];
/// let copied = upgrade(&[], &[], 1, 2, 3, &[8, 8, 1, 2], 4, &mut dst);
/// assert_eq!(copied, Ok(Upgraded { rtype: 1, size: 5 }));
/// assert_eq!(dst, [0, 0, 0, 1, 2, 0]);
/// assert_eq!(upgrade(&[], &[1], 1, 2, 3, &[8, 8, 1, 2], 4, &mut dst), Err(Refusal::Unplanned));
/// ```
#[allow(clippy::too_many_arguments)] // what the proved call takes
#[inline]
pub fn upgrade(
    plans: &[u8],
    unplanned: &[u16],
    rtype: u16,
    src_header: usize,
    dst_header: usize,
    src: &[u8],
    stated: usize,
    dst: &mut [u8],
) -> Result<Upgraded, Refusal> {
    let (mut became, mut size) = (0, 0);
    // SAFETY: pointers and lengths are of one slice each; target and numbers are borrowed for the call
    let status = unsafe {
        ffi::owl_upgrade(
            plans.as_ptr(),
            plans.len(),
            unplanned.as_ptr(),
            unplanned.len(),
            rtype,
            src_header,
            dst_header,
            src.as_ptr(),
            src.len(),
            stated,
            dst.as_mut_ptr(),
            dst.len(),
            &mut became,
            &mut size,
        )
    };
    fine(status).map(|()| Upgraded {
        rtype: became,
        size,
    })
}
