//! A catalogue from plain values: what each type id is.
use crate::{admitting::check_catalogue, limits::CATALOGUE, refusal::Refusal};

/// What kind of type an id has.
#[derive(Clone, Copy, Debug, Default, PartialEq, Eq, Hash)]
#[repr(u8)]
pub enum Class {
    /// Copied as it is, or an id that says nothing.
    #[default]
    Other,
    /// An unsigned integer.
    Unsigned,
    /// A signed integer.
    Signed,
    /// A fixed-point decimal.
    Decimal,
    /// A string.
    String,
    /// A struct of the layout.
    Struct,
    /// Padding.
    Padding,
}

impl Class {
    const ALL: [Class; 7] = [
        Class::Other,
        Class::Unsigned,
        Class::Signed,
        Class::Decimal,
        Class::String,
        Class::Struct,
        Class::Padding,
    ];
}

/// What an id says: its class, and its width, 0, 1, 2, 4 or 8.
#[derive(Clone, Copy, Debug, Default, PartialEq, Eq, Hash)]
pub struct Kind {
    /// Its class.
    pub class: Class,
    /// Bytes of one element; 0 where the type has no width of its own.
    pub width: u8,
}

impl Kind {
    /// A width above 15 has no place in the byte; 15 is refused as it is.
    fn to_byte(self) -> u8 {
        (self.class as u8) << 4 | self.width.min(15)
    }

    /// None where the byte has no class.
    fn from_byte(byte: u8) -> Option<Kind> {
        let class = *Class::ALL.get(usize::from(byte >> 4))?;
        let width = byte & 15;
        Some(Kind { class, width })
    }
}

/// The types that layouts speak of. Any values may stand in it; [`check_catalogue`] judges the bytes.
///
/// ```
/// use tuppenceowl::{Catalogue, Refusal, check_catalogue};
///
/// let mut catalogue = Catalogue::dbn(1);
/// assert_eq!(Catalogue::from_bytes(&catalogue.to_bytes())?, catalogue);
/// catalogue.extension_flag = catalogue.array_flag;
/// assert_eq!(check_catalogue(&catalogue.to_bytes()), Err(Refusal::BadCatalogue));
/// # Ok::<_, Refusal>(())
/// ```
#[derive(Clone, Debug, PartialEq, Eq)]
pub struct Catalogue {
    /// What each type id says.
    pub kinds: [Kind; 256],
    /// The flag of arrays, a single bit.
    pub array_flag: u8,
    /// The flag of fields behind the base, another single bit.
    pub extension_flag: u8,
    /// The field id of the header, whose bytes are the host's.
    pub header_field_id: u16,
    /// The field id of padding.
    pub padding_field_id: u16,
}

impl Catalogue {
    /// The type ids and flags of dbn 0.73.0. The header's field id stands in a registry that dbn generates, and so is given.
    ///
    /// ```
    /// use tuppenceowl::{Catalogue, check_catalogue};
    ///
    /// assert_eq!(check_catalogue(&Catalogue::dbn(1).to_bytes()), Ok(()));
    /// ```
    pub fn dbn(header_field_id: u16) -> Catalogue {
        let mut kinds = [Kind::default(); 256];
        for (id, class, width) in dbn::KINDS {
            kinds[usize::from(id)] = Kind { class, width };
        }
        Catalogue {
            kinds,
            array_flag: dbn::FLAG_IS_ARRAY,
            extension_flag: dbn::FLAG_IS_EXTENSION,
            header_field_id,
            padding_field_id: dbn::PADDING_FIELD,
        }
    }

    /// The bytes to lend.
    pub fn to_bytes(&self) -> [u8; CATALOGUE] {
        let mut bytes = [0; CATALOGUE];
        for (byte, kind) in bytes.iter_mut().zip(self.kinds) {
            *byte = kind.to_byte();
        }
        bytes[256] = self.array_flag;
        bytes[257] = self.extension_flag;
        bytes[258..260].copy_from_slice(&self.header_field_id.to_le_bytes());
        bytes[260..262].copy_from_slice(&self.padding_field_id.to_le_bytes());
        bytes
    }

    /// What valid bytes say. (Refusal 1.)
    pub fn from_bytes(bytes: &[u8]) -> Result<Catalogue, Refusal> {
        check_catalogue(bytes)?;
        let mut kinds = [Kind::default(); 256];
        for (kind, &byte) in kinds.iter_mut().zip(bytes) {
            *kind = Kind::from_byte(byte).ok_or(Refusal::BadCatalogue)?;
        }
        Ok(Catalogue {
            kinds,
            array_flag: bytes[256],
            extension_flag: bytes[257],
            header_field_id: u16::from_le_bytes([bytes[258], bytes[259]]),
            padding_field_id: u16::from_le_bytes([bytes[260], bytes[261]]),
        })
    }
}

/// Type ids and flags of dbn 0.73.0.
#[allow(missing_docs)] // the names say it
pub mod dbn {
    use super::Class;

    pub const U8: u8 = 0x01;
    pub const U16: u8 = 0x02;
    pub const U32: u8 = 0x03;
    pub const U64: u8 = 0x04;
    pub const I8: u8 = 0x05;
    pub const I16: u8 = 0x06;
    pub const I32: u8 = 0x07;
    pub const I64: u8 = 0x08;
    pub const F32: u8 = 0x09;
    pub const F64: u8 = 0x0A;
    pub const DECIMAL: u8 = 0x0B;
    pub const TIMESTAMP_NS: u8 = 0x0C;
    pub const CHAR: u8 = 0x0D;
    pub const CSTR: u8 = 0x0E;
    pub const SYMBOL: u8 = 0x0F;
    pub const ENUM_CHAR: u8 = 0x20;
    pub const ENUM_8: u8 = 0x21;
    pub const ENUM_16: u8 = 0x22;
    pub const BIT_SET_8: u8 = 0x30;
    pub const BIT_SET_16: u8 = 0x31;
    pub const BIT_SET_32: u8 = 0x32;
    pub const BIT_SET_64: u8 = 0x33;
    pub const STRUCT: u8 = 0x40;
    pub const PADDING: u8 = 0xFF;

    pub const FLAG_IS_ARRAY: u8 = 0x80;
    pub const FLAG_IS_EXTENSION: u8 = 0x40;
    /// The field id of padding.
    pub const PADDING_FIELD: u16 = 0;

    pub(super) const KINDS: [(u8, Class, u8); 24] = [
        (U8, Class::Unsigned, 1),
        (U16, Class::Unsigned, 2),
        (U32, Class::Unsigned, 4),
        (U64, Class::Unsigned, 8),
        (I8, Class::Signed, 1),
        (I16, Class::Signed, 2),
        (I32, Class::Signed, 4),
        (I64, Class::Signed, 8),
        (F32, Class::Other, 4),
        (F64, Class::Other, 8),
        (DECIMAL, Class::Decimal, 8),
        (TIMESTAMP_NS, Class::Other, 8),
        (CHAR, Class::Other, 1),
        (CSTR, Class::String, 0),
        (SYMBOL, Class::String, 0),
        (ENUM_CHAR, Class::Other, 1),
        (ENUM_8, Class::Other, 1),
        (ENUM_16, Class::Other, 2),
        (BIT_SET_8, Class::Other, 1),
        (BIT_SET_16, Class::Other, 2),
        (BIT_SET_32, Class::Other, 4),
        (BIT_SET_64, Class::Other, 8),
        (STRUCT, Class::Struct, 0),
        (PADDING, Class::Padding, 0),
    ];
}
