//! Stand-ins for what the files ask of the crate's root.

/// Schemas are plain numbers here: a case may name any.
pub type Schema = u16;

pub const NULL_SCHEMA: u16 = u16::MAX;

pub struct RType;

impl RType {
    /// No rtype has a schema of its own: cases give both.
    pub fn try_into_schema(_rtype: u16) -> Option<Schema> {
        None
    }
}

#[derive(Debug)]
pub struct Error(pub String);

impl Error {
    pub fn decode(what: impl Into<String>) -> Self {
        Self(what.into())
    }

    pub fn encode(what: impl Into<String>) -> Self {
        Self(what.into())
    }
}

pub type Result<T> = std::result::Result<T, Error>;

/// A record's bytes and rtype, as dynamic access asks for them.
pub trait Record: AsRef<[u8]> {
    type Header;

    fn raw_rtype(&self) -> u16;
}
