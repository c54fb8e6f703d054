//! The header of versions 1 to 3, in 16 bytes. A case may state an rtype or a length that those bytes cannot hold.
use std::cell::Cell;

#[derive(Clone, Copy, Default)]
pub struct Stated {
    pub rtype: Option<u16>,
    pub length: Option<usize>,
}

thread_local! {
    static STATED: Cell<Stated> = const { Cell::new(Stated { rtype: None, length: None }) };
}

/// From now on headers say this, where it is given, and not what their bytes say.
pub fn state(stated: Stated) {
    STATED.set(stated);
}

/// The rtype's byte; as a number it is the stated one, if there is one.
#[derive(Clone, Copy)]
#[repr(transparent)]
pub struct RtypeByte(u8);

impl From<RtypeByte> for u16 {
    fn from(byte: RtypeByte) -> u16 {
        STATED.get().rtype.unwrap_or(u16::from(byte.0))
    }
}

#[derive(Clone, Copy)]
#[repr(C)]
pub struct RecordHeader {
    length: u8,
    pub rtype: RtypeByte,
    pub publisher_id: u16,
    pub instrument_id: u32,
    pub ts_event: u64,
}

const _: () = assert!(size_of::<RecordHeader>() == 16);

impl RecordHeader {
    /// The length byte counts words of four bytes.
    pub fn record_size(&self) -> usize {
        STATED.get().length.unwrap_or(4 * usize::from(self.length))
    }
}
