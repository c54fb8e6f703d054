//! The sum, the layout hash and the boot check.
use crate::{
    ffi::{self, either, perhaps},
    refusal::Refusal,
};

/// A layout hash, and how many fields the walk visited.
#[derive(Clone, Copy, Debug, PartialEq, Eq, Hash)]
pub struct LayoutHash {
    /// The hash.
    pub hash: u64,
    /// The visits used, padding included.
    pub visits: usize,
}

/// Does a record store the hash of its tables?
#[derive(Clone, Copy, Debug, PartialEq, Eq, Hash)]
pub enum Booted {
    /// It does.
    Same,
    /// It stores another.
    Different,
}

/// CRC-64-AVRO of any bytes.
///
/// ```
/// use tuppenceowl::sum;
///
/// assert_eq!(sum(&[]), 0xC15D213AA4D7A795);
/// assert_eq!(sum(&[0x95]), 0x00C15D213AA4D7A7);
/// ```
#[inline]
pub fn sum(bytes: &[u8]) -> u64 {
    // SAFETY: pointer and length are of one slice
    unsafe { ffi::owl_sum(bytes.as_ptr(), bytes.len()) }
}

/// The layout hash of record `k`, within 65,536 visits; none where there is no record `k`. (Refusals 1 to 6, 12 and 13.)
///
/// ```
/// use tuppenceowl::{Catalogue, Layout, LayoutHash, RecordLayout, layout_hash, sum};
///
/// let cat = Catalogue::dbn(1).to_bytes();
/// let layout = Layout::from(RecordLayout::new(1, "empty", 16, [])).to_block();
/// assert_eq!(layout_hash(&cat, &layout, 0), Ok(Some(LayoutHash { hash: sum(&[]), visits: 0 })));
/// assert_eq!(layout_hash(&cat, &layout, 1), Ok(None));
/// ```
#[inline]
pub fn layout_hash(cat: &[u8], layout: &[u8], k: usize) -> Result<Option<LayoutHash>, Refusal> {
    let (mut hash, mut visits) = (0, 0);
    // SAFETY: pointers and lengths are of one slice each; the numbers are borrowed for the call
    let status = unsafe {
        ffi::owl_layout_hash(
            cat.as_ptr(),
            cat.len(),
            layout.as_ptr(),
            layout.len(),
            k,
            &mut hash,
            &mut visits,
        )
    };
    perhaps(status, LayoutHash { hash, visits })
}

/// The same within a budget of visits.
///
/// ```
/// use tuppenceowl::{Catalogue, Field, Layout, RecordLayout, Refusal, dbn, layout_hash_within};
///
/// let cat = Catalogue::dbn(1).to_bytes();
/// let trade = RecordLayout::new(1, "trade", 24, [Field::new("sequence", 2, 16, 8, dbn::U64)]);
/// let layout = Layout::from(trade).to_block();
/// let hashed = layout_hash_within(&cat, &layout, 0, 1)?.expect("there is a record 0");
/// assert_eq!(hashed.visits, 1);
/// assert_eq!(layout_hash_within(&cat, &layout, 0, 0), Err(Refusal::OverBudget));
/// # Ok::<_, Refusal>(())
/// ```
#[inline]
pub fn layout_hash_within(
    cat: &[u8],
    layout: &[u8],
    k: usize,
    budget: usize,
) -> Result<Option<LayoutHash>, Refusal> {
    let (mut hash, mut visits) = (0, 0);
    // SAFETY: pointers and lengths are of one slice each; the numbers are borrowed for the call
    let status = unsafe {
        ffi::owl_layout_hash_within(
            cat.as_ptr(),
            cat.len(),
            layout.as_ptr(),
            layout.len(),
            k,
            budget,
            &mut hash,
            &mut visits,
        )
    };
    perhaps(status, LayoutHash { hash, visits })
}

/// Does record `k` store its [`layout_hash`]? None where there is no record `k`. (Refusals 1 to 6, 12 and 13.)
///
/// ```
/// use tuppenceowl::{Booted, Catalogue, Field, Layout, RecordLayout, boot_check, dbn};
///
/// let cat = Catalogue::dbn(1).to_bytes();
/// let trade = RecordLayout::new(1, "trade", 24, [Field::new("sequence", 2, 16, 8, dbn::U64)]);
/// let mut layout = Layout::from(trade);
/// assert_eq!(boot_check(&cat, &layout.to_block(), 0), Ok(Some(Booted::Different)));
/// layout.store_hashes(&cat)?;
/// assert_eq!(boot_check(&cat, &layout.to_block(), 0), Ok(Some(Booted::Same)));
/// # Ok::<_, tuppenceowl::Refusal>(())
/// ```
#[inline]
pub fn boot_check(cat: &[u8], layout: &[u8], k: usize) -> Result<Option<Booted>, Refusal> {
    // SAFETY: pointers and lengths are of one slice each
    let status =
        unsafe { ffi::owl_boot_check(cat.as_ptr(), cat.len(), layout.as_ptr(), layout.len(), k) };
    either(status, Booted::Same, Booted::Different)
}
