//! Catalogues, layouts and tables: are they admitted, and what do they say?
use crate::{
    ffi::{self, fine, perhaps},
    field::FieldDef,
    refusal::Refusal,
};
use std::ops::Range;

/// Is the catalogue valid? (Refusal 1.)
///
/// ```
/// use tuppenceowl::{Catalogue, Refusal, check_catalogue};
///
/// let mut cat = Catalogue::dbn(1).to_bytes();
/// assert_eq!(check_catalogue(&cat), Ok(()));
/// cat[256] = 0; // no array flag
/// assert_eq!(check_catalogue(&cat), Err(Refusal::BadCatalogue));
/// ```
#[inline]
pub fn check_catalogue(cat: &[u8]) -> Result<(), Refusal> {
    // SAFETY: pointer and length are of one slice
    fine(unsafe { ffi::owl_check_catalogue(cat.as_ptr(), cat.len()) })
}

/// Is the layout admitted under the catalogue? (Refusals 1 to 6.)
///
/// ```
/// use tuppenceowl::{Catalogue, Field, Layout, RecordLayout, Refusal, admit, dbn};
///
/// let cat = Catalogue::dbn(1).to_bytes();
/// let mut trade = RecordLayout::new(1, "trade", 24, [Field::new("sequence", 2, 16, 8, dbn::U64)]);
/// assert_eq!(admit(&cat, &Layout::from(trade.clone()).to_block()), Ok(()));
///
/// trade.fields.push(Field::new("size", 3, 20, 4, dbn::U32));
/// assert_eq!(admit(&cat, &Layout::from(trade).to_block()), Err(Refusal::SharedByte));
/// ```
#[inline]
pub fn admit(cat: &[u8], layout: &[u8]) -> Result<(), Refusal> {
    // SAFETY: pointers and lengths are of one slice each
    fine(unsafe { ffi::owl_admit(cat.as_ptr(), cat.len(), layout.as_ptr(), layout.len()) })
}

/// The size of record `k` of an admitted layout: the greater of its base and the last end of a field. None where there is no record `k`. (Refusals 1 to 6.)
///
/// ```
/// use tuppenceowl::{Catalogue, Field, Layout, RecordLayout, dbn, record_size};
///
/// let cat = Catalogue::dbn(1).to_bytes();
/// let trade = RecordLayout::new(1, "trade", 16, [Field::new("sequence", 2, 16, 8, dbn::U64)]);
/// let layout = Layout::from(trade).to_block();
/// assert_eq!(record_size(&cat, &layout, 0), Ok(Some(24)));
/// assert_eq!(record_size(&cat, &layout, 1), Ok(None));
/// ```
#[inline]
pub fn record_size(cat: &[u8], layout: &[u8], k: usize) -> Result<Option<usize>, Refusal> {
    let mut size = 0;
    // SAFETY: pointers and lengths are of one slice each; the number is borrowed for the call
    let status = unsafe {
        ffi::owl_record_size(
            cat.as_ptr(),
            cat.len(),
            layout.as_ptr(),
            layout.len(),
            k,
            &mut size,
        )
    };
    perhaps(status, size)
}

/// Where a window of `size` bytes at `offset` lies, if it lies inside.
///
/// ```
/// use tuppenceowl::window;
///
/// let record = [1, 2, 3, 4];
/// assert_eq!(window(&record, 1, 2).map(|w| &record[w]), Some(&[2, 3][..]));
/// assert_eq!(window(&record, 3, 2), None);
/// assert_eq!(window(&record, usize::MAX, 2), None);
/// ```
#[inline]
pub fn window(bytes: &[u8], offset: usize, size: usize) -> Option<Range<usize>> {
    let (mut start, mut end) = (0, 0);
    // SAFETY: pointer and length are of one slice; the numbers are borrowed for the call
    let status = unsafe {
        ffi::owl_window(
            bytes.as_ptr(),
            bytes.len(),
            offset,
            size,
            &mut start,
            &mut end,
        )
    };
    perhaps(status, start..end).expect("a window is never refused")
}

/// Field `k` of a table that is lent alone; none where it has fewer. (Refusals 2 and 3.)
///
/// ```
/// use tuppenceowl::{FieldDef, Refusal, dbn, field_of};
///
/// let def = FieldDef { field_id: 2, offset: 16, size: 8, type_id: dbn::U64, ..FieldDef::default() };
/// let table = def.to_bytes();
/// assert_eq!(field_of(&table, 0), Ok(Some(def)));
/// assert_eq!(field_of(&table, 1), Ok(None));
/// assert_eq!(field_of(&table[1..], 0), Err(Refusal::BadShape));
/// ```
#[inline]
pub fn field_of(table: &[u8], k: usize) -> Result<Option<FieldDef>, Refusal> {
    let mut field = [0; 16];
    // SAFETY: pointer and length are of one slice; the bytes are borrowed for the call
    let status = unsafe { ffi::owl_field_of(table.as_ptr(), table.len(), k, &mut field) };
    perhaps(status, FieldDef::from_bytes(field))
}
