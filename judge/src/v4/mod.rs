//! The header of version 4, in 24 bytes, and the modules beside it.
pub mod fields;
pub mod layouts;
pub mod types;

#[derive(Clone, Copy)]
#[repr(C)]
pub struct RecordHeader {
    length: u16,
    rtype: u16,
    publisher_id: u16,
    zeros: [u8; 2],
    instrument_id: u64,
    ts_event: u64,
}

const _: () = assert!(size_of::<RecordHeader>() == 24);

impl RecordHeader {
    pub fn with_record_size(
        rtype: u16,
        publisher_id: u16,
        instrument_id: u64,
        ts_event: u64,
        record_size: usize,
    ) -> crate::Result<Self> {
        let after = record_size
            .checked_sub(size_of::<Self>())
            .and_then(|n| u16::try_from(n).ok());
        let length = after.ok_or_else(|| crate::Error::encode("no such length"))?;
        Ok(Self {
            length,
            rtype,
            publisher_id,
            zeros: [0; 2],
            instrument_id,
            ts_event,
        })
    }
}
