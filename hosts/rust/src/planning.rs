//! The selection and the planner.
use crate::{
    ffi::{self, either, perhaps},
    refusal::Refusal,
};

/// Which record of the target layout a record is upgraded to.
#[derive(Clone, Copy, Debug, PartialEq, Eq, Hash)]
pub enum Selected {
    /// The one of this number.
    Record(usize),
    /// None: the rtype is to be listed unplanned.
    Unplanned,
}

/// Which record of `target` the source's record `k` is upgraded to: the first of the wanted schema, if that has the source's name, else the first of its rtype.
/// None where there is no record `k`. (Refusals 1 to 6, of both layouts.)
///
/// ```
/// use tuppenceowl::{Catalogue, Layout, RecordLayout, Selected, select};
///
/// let cat = Catalogue::dbn(1).to_bytes();
/// let source = Layout::from(RecordLayout::new(1, "trade", 16, [])).to_block();
/// let other = RecordLayout::new(7, "trade", 16, []);
/// let trade = RecordLayout::new(1, "trade", 24, []);
/// let target = Layout { records: vec![other.clone(), trade], structs: vec![] }.to_block();
/// assert_eq!(select(&cat, &source, 0, &target, None), Ok(Some(Selected::Record(1))));
/// assert_eq!(select(&cat, &source, 0, &target, Some(0)), Ok(Some(Selected::Record(0))));
///
/// let others = Layout::from(other).to_block();
/// assert_eq!(select(&cat, &source, 0, &others, None), Ok(Some(Selected::Unplanned)));
/// ```
#[inline]
pub fn select(
    cat: &[u8],
    source: &[u8],
    k: usize,
    target: &[u8],
    schema: Option<u16>,
) -> Result<Option<Selected>, Refusal> {
    let mut number = 0;
    // SAFETY: pointers and lengths are of one slice each; the number is borrowed for the call
    let status = unsafe {
        ffi::owl_select(
            cat.as_ptr(),
            cat.len(),
            source.as_ptr(),
            source.len(),
            k,
            target.as_ptr(),
            target.len(),
            schema.is_some(),
            schema.unwrap_or(0),
            &mut number,
        )
    };
    either(status, Selected::Record(number), Selected::Unplanned)
}

/// The plan from the source's record `k` to the target's record `to`, laid into the first [`SLOT`](crate::limits::SLOT) bytes of `room`; none where a record is not there.
///
/// `header` is the target's header length, `body` every byte of a fresh target record after it. `marks` has a byte a field of the target's table, which is not 0 where the
/// largest value means "undefined"; missing ones are 0. (Refusals 1 to 6 of both layouts, 7, 8, 11.)
///
/// ```
/// use tuppenceowl::{Catalogue, Field, Layout, Plan, RecordLayout, Step, dbn, limits::SLOT, plan};
///
/// let cat = Catalogue::dbn(1).to_bytes();
/// let old = RecordLayout::new(1, "trade", 20, [Field::new("size", 3, 16, 4, dbn::U32)]);
/// let new = RecordLayout::new(1, "trade", 24, [Field::new("size", 3, 16, 8, dbn::U64)]);
/// let (source, target) = (Layout::from(old).to_block(), Layout::from(new).to_block());
///
/// let mut slot = [0; SLOT];
/// assert_eq!(plan(&cat, &source, 0, &target, 0, 16, &[0; 8], &[], &mut slot), Ok(Some(())));
/// let widened = Step::Int { src_offset: 16, dst_offset: 16, src_size: 4, dst_size: 8, signed: false, has_undef_max: false };
/// assert_eq!(Plan::from_slot(&slot)?.steps, [widened]);
/// # Ok::<_, tuppenceowl::Refusal>(())
/// ```
#[allow(clippy::too_many_arguments)] // what the proved call takes
#[inline]
pub fn plan(
    cat: &[u8],
    source: &[u8],
    k: usize,
    target: &[u8],
    to: usize,
    header: usize,
    body: &[u8],
    marks: &[u8],
    room: &mut [u8],
) -> Result<Option<()>, Refusal> {
    // SAFETY: pointers and lengths are of one slice each; the room is borrowed for the call
    let status = unsafe {
        ffi::owl_plan(
            cat.as_ptr(),
            cat.len(),
            source.as_ptr(),
            source.len(),
            k,
            target.as_ptr(),
            target.len(),
            to,
            header,
            body.as_ptr(),
            body.len(),
            marks.as_ptr(),
            marks.len(),
            room.as_mut_ptr(),
            room.len(),
        )
    };
    perhaps(status, ())
}
