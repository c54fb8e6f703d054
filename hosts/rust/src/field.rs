//! A field of a table.
use crate::limits::FIELD;

/// dbn's `FieldDef`: the numbers of a field, 16 bytes in a table.
///
/// ```
/// use tuppenceowl::{FieldDef, dbn};
///
/// let def = FieldDef { field_id: 2, offset: 16, size: 8, type_id: dbn::DECIMAL, scale: -9, ..FieldDef::default() };
/// let bytes = def.to_bytes();
/// assert_eq!(bytes[..8], [2, 0, 16, 0, 8, 0, dbn::DECIMAL, 0]);
/// assert_eq!(FieldDef::from_bytes(bytes), def);
/// ```
#[derive(Clone, Copy, Debug, Default, PartialEq, Eq, Hash)]
pub struct FieldDef {
    /// Which field it is.
    pub field_id: u16,
    /// Where it starts in the record or struct.
    pub offset: u16,
    /// Its bytes, those of all elements of an array.
    pub size: u16,
    /// Its type in the catalogue.
    pub type_id: u8,
    /// The array flag, the extension flag, and bits of the host's own.
    pub flags: u8,
    /// Of a struct field: which struct of the layout.
    pub def_index: u16,
    /// The exponent of a decimal.
    pub scale: i8,
    /// Zero in every admitted table.
    pub reserved: [u8; 5],
}

impl FieldDef {
    /// The 16 bytes, as a table has them.
    pub fn to_bytes(&self) -> [u8; FIELD] {
        let mut bytes = [0; FIELD];
        bytes[0..2].copy_from_slice(&self.field_id.to_le_bytes());
        bytes[2..4].copy_from_slice(&self.offset.to_le_bytes());
        bytes[4..6].copy_from_slice(&self.size.to_le_bytes());
        bytes[6] = self.type_id;
        bytes[7] = self.flags;
        bytes[8..10].copy_from_slice(&self.def_index.to_le_bytes());
        bytes[10] = self.scale as u8;
        bytes[11..16].copy_from_slice(&self.reserved);
        bytes
    }

    /// The field that has these bytes.
    pub fn from_bytes(bytes: [u8; FIELD]) -> FieldDef {
        let short = |at: usize| u16::from_le_bytes([bytes[at], bytes[at + 1]]);
        let mut reserved = [0; 5];
        reserved.copy_from_slice(&bytes[11..16]);
        FieldDef {
            field_id: short(0),
            offset: short(2),
            size: short(4),
            type_id: bytes[6],
            flags: bytes[7],
            def_index: short(8),
            scale: bytes[10] as i8,
            reserved,
        }
    }

    /// The fields of a table; bytes behind the last whole field are none.
    pub fn all_from(table: &[u8]) -> Vec<FieldDef> {
        let (rows, _) = table.as_chunks::<FIELD>();
        rows.iter().copied().map(FieldDef::from_bytes).collect()
    }
}
