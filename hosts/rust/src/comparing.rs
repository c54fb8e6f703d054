//! The verdict and the lookups.
use crate::{
    ffi::{self, either, perhaps},
    field::FieldDef,
    refusal::Refusal,
};

/// How the records of a stream can be read.
#[derive(Clone, Copy, Debug, PartialEq, Eq, Hash)]
pub enum Verdict {
    /// By the compiled layout: it describes every base field.
    Compiled,
    /// Field by field.
    Dynamic,
}

/// Record `k` of a stream's layout against the compiled one; none where there is no record `k`. (Refusals 1 to 6, of both layouts.)
///
/// ```
/// use tuppenceowl::{Catalogue, Field, Layout, RecordLayout, Verdict, dbn, verdict};
///
/// let cat = Catalogue::dbn(1).to_bytes();
/// let sequence = Field::new("sequence", 2, 16, 8, dbn::U64);
/// let compiled = Layout::from(RecordLayout::new(1, "trade", 24, [sequence.clone()]));
/// let longer = [sequence, Field::new("size", 3, 24, 4, dbn::U32)];
/// let stream = Layout::from(RecordLayout::new(1, "trade", 32, longer));
///
/// let (compiled, stream) = (compiled.to_block(), stream.to_block());
/// assert_eq!(verdict(&cat, &stream, 0, &compiled), Ok(Some(Verdict::Compiled)));
/// assert_eq!(verdict(&cat, &stream, 1, &compiled), Ok(None));
/// ```
#[inline]
pub fn verdict(
    cat: &[u8],
    stream: &[u8],
    k: usize,
    compiled: &[u8],
) -> Result<Option<Verdict>, Refusal> {
    // SAFETY: pointers and lengths are of one slice each
    let status = unsafe {
        ffi::owl_verdict(
            cat.as_ptr(),
            cat.len(),
            stream.as_ptr(),
            stream.len(),
            k,
            compiled.as_ptr(),
            compiled.len(),
        )
    };
    either(status, Verdict::Compiled, Verdict::Dynamic)
}

/// The verdict of the stream's last record of an rtype; none where there is none. (Refusals 1 to 6, of both layouts.)
///
/// ```
/// use tuppenceowl::{Catalogue, Layout, RecordLayout, Verdict, verdict_of};
///
/// let cat = Catalogue::dbn(1).to_bytes();
/// let stream = Layout::from(RecordLayout::new(1, "trade", 16, [])).to_block();
/// let compiled = Layout::from(RecordLayout::new(7, "quote", 16, [])).to_block();
/// assert_eq!(verdict_of(&cat, &stream, 1, &compiled), Ok(Some(Verdict::Dynamic)));
/// assert_eq!(verdict_of(&cat, &stream, 7, &compiled), Ok(None));
/// ```
#[inline]
pub fn verdict_of(
    cat: &[u8],
    stream: &[u8],
    rtype: u16,
    compiled: &[u8],
) -> Result<Option<Verdict>, Refusal> {
    // SAFETY: pointers and lengths are of one slice each
    let status = unsafe {
        ffi::owl_verdict_of(
            cat.as_ptr(),
            cat.len(),
            stream.as_ptr(),
            stream.len(),
            rtype,
            compiled.as_ptr(),
            compiled.len(),
        )
    };
    either(status, Verdict::Compiled, Verdict::Dynamic)
}

/// The last field of that id, padding apart, over all records of the rtype. (Refusals 1 to 6.)
///
/// ```
/// use tuppenceowl::{Catalogue, Field, Layout, RecordLayout, dbn, field_by_id};
///
/// let cat = Catalogue::dbn(1).to_bytes();
/// let sequence = Field::new("sequence", 2, 16, 8, dbn::U64);
/// let layout = Layout::from(RecordLayout::new(1, "trade", 24, [sequence.clone()])).to_block();
/// assert_eq!(field_by_id(&cat, &layout, 1, 2), Ok(Some(sequence.def)));
/// assert_eq!(field_by_id(&cat, &layout, 1, 3), Ok(None));
/// ```
#[inline]
pub fn field_by_id(
    cat: &[u8],
    layout: &[u8],
    rtype: u16,
    id: u16,
) -> Result<Option<FieldDef>, Refusal> {
    let mut field = [0; 16];
    // SAFETY: pointers and lengths are of one slice each; the bytes are borrowed for the call
    let status = unsafe {
        ffi::owl_field_by_id(
            cat.as_ptr(),
            cat.len(),
            layout.as_ptr(),
            layout.len(),
            rtype,
            id,
            &mut field,
        )
    };
    perhaps(status, FieldDef::from_bytes(field))
}

/// The field of the id that the name has in the first record of the rtype, padding apart. (Refusals 1 to 6.)
///
/// ```
/// use tuppenceowl::{Catalogue, Field, Layout, RecordLayout, dbn, field_by_name};
///
/// let cat = Catalogue::dbn(1).to_bytes();
/// let sequence = Field::new("sequence", 2, 16, 8, dbn::U64);
/// let layout = Layout::from(RecordLayout::new(1, "trade", 24, [sequence.clone()])).to_block();
/// assert_eq!(field_by_name(&cat, &layout, 1, b"sequence"), Ok(Some(sequence.def)));
/// assert_eq!(field_by_name(&cat, &layout, 1, b"price"), Ok(None));
/// ```
#[inline]
pub fn field_by_name(
    cat: &[u8],
    layout: &[u8],
    rtype: u16,
    name: &[u8],
) -> Result<Option<FieldDef>, Refusal> {
    let mut field = [0; 16];
    // SAFETY: pointers and lengths are of one slice each; the bytes are borrowed for the call
    let status = unsafe {
        ffi::owl_field_by_name(
            cat.as_ptr(),
            cat.len(),
            layout.as_ptr(),
            layout.len(),
            rtype,
            name.as_ptr(),
            name.len(),
            &mut field,
        )
    };
    perhaps(status, FieldDef::from_bytes(field))
}
