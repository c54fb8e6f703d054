//! Plan text, and the check of a plan.
use crate::{
    ffi::{self, fine},
    refusal::Refusal,
};

/// Does the slot hold a plan that keeps every rule? (Refusal 16.)
///
/// ```
/// use tuppenceowl::{Refusal, check_plan, limits::SLOT};
///
/// assert_eq!(check_plan(&[0; SLOT]), Ok(())); // an empty record to an empty record
/// assert_eq!(check_plan(&[0; 5]), Err(Refusal::BadPlan));
/// ```
#[inline]
pub fn check_plan(plan: &[u8]) -> Result<(), Refusal> {
    // SAFETY: pointer and length are of one slice
    fine(unsafe { ffi::owl_check_plan(plan.as_ptr(), plan.len()) })
}

/// Writes the plan of a slot as text to the start of `text`, and answers the text's length. (Refusal 16, then 11.)
///
/// ```
/// use tuppenceowl::{Refusal, limits::SLOT, write_plan};
///
/// let mut text = [0; 64];
/// let n = write_plan(&[0; SLOT], &mut text)?;
/// assert_eq!(&text[..n], b"plan\t1\t0\t0\t0\t0\t0\t0\t0\nbody\t\n");
/// assert_eq!(write_plan(&[0; SLOT], &mut text[..n - 1]), Err(Refusal::NoRoom));
/// # Ok::<_, Refusal>(())
/// ```
#[inline]
pub fn write_plan(plan: &[u8], text: &mut [u8]) -> Result<usize, Refusal> {
    let mut length = 0;
    // SAFETY: pointers and lengths are of one slice each; text and number are borrowed for the call
    let status = unsafe {
        ffi::owl_write_plan(
            plan.as_ptr(),
            plan.len(),
            text.as_mut_ptr(),
            text.len(),
            &mut length,
        )
    };
    fine(status).map(|()| length)
}

/// Reads a text into the first [`SLOT`](crate::limits::SLOT) bytes of `plan`: exactly the texts that [`write_plan`] writes are read. (Refusal 11, then 16.)
///
/// ```
/// use tuppenceowl::{Refusal, limits::SLOT, read_plan};
///
/// let mut slot = [0xAA; SLOT];
/// assert_eq!(read_plan(b"plan\t1\t0\t0\t0\t0\t0\t0\t0\nbody\t\n", &mut slot), Ok(()));
/// assert_eq!(slot, [0; SLOT]);
/// assert_eq!(read_plan(b"plan\t01\t0\t0\t0\t0\t0\t0\t0\nbody\t\n", &mut slot), Err(Refusal::BadPlan));
/// ```
#[inline]
pub fn read_plan(text: &[u8], plan: &mut [u8]) -> Result<(), Refusal> {
    // SAFETY: pointers and lengths are of one slice each; the slot is borrowed for the call
    fine(unsafe { ffi::owl_read_plan(text.as_ptr(), text.len(), plan.as_mut_ptr(), plan.len()) })
}
