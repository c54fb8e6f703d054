//! Layouts as plain values.
use crate::{
    admitting::admit,
    block,
    building::{FieldCursor, Room},
    field::FieldDef,
    hashing::layout_hash,
    refusal::Refusal,
};

/// A field of a record, with its name.
#[derive(Clone, Debug, Default, PartialEq, Eq)]
pub struct Field {
    /// Its numbers.
    pub def: FieldDef,
    /// Its name, at most 32 bytes.
    pub name: Vec<u8>,
}

impl Field {
    /// A field without flags, def_index and scale.
    pub fn new(name: &str, field_id: u16, offset: u16, size: u16, type_id: u8) -> Field {
        let def = FieldDef {
            field_id,
            offset,
            size,
            type_id,
            ..FieldDef::default()
        };
        Field {
            def,
            name: name.into(),
        }
    }
}

/// dbn's `RecordLayout`: one record of a layout.
#[derive(Clone, Debug, Default, PartialEq, Eq)]
pub struct RecordLayout {
    /// The record type.
    pub rtype: u16,
    /// The schema.
    pub schema: u16,
    /// The bytes of the record without extension fields.
    pub base_record_size: u32,
    /// The stored layout hash.
    pub layout_hash: u64,
    /// The record's name, at most 32 bytes.
    pub name: Vec<u8>,
    /// Its fields, in the order of the table.
    pub fields: Vec<Field>,
}

impl RecordLayout {
    /// A record of schema 0 that stores no hash yet.
    pub fn new(
        rtype: u16,
        name: &str,
        base_record_size: u32,
        fields: impl Into<Vec<Field>>,
    ) -> RecordLayout {
        RecordLayout {
            rtype,
            base_record_size,
            name: name.into(),
            fields: fields.into(),
            ..RecordLayout::default()
        }
    }

    /// The record that a finished field cursor built.
    ///
    /// ```
    /// use tuppenceowl::{Catalogue, Field, FieldCursor, Holder, RecordLayout, Room, dbn};
    ///
    /// let cat = Catalogue::dbn(1).to_bytes();
    /// let (mut table, mut names) = ([0; 16 * 128], [0; 33 * 128]);
    /// let mut room = Room { cat: &cat, table: &mut table, names: &mut names };
    /// let mut cursor = FieldCursor::empty(Holder::Record);
    /// cursor.scalar(&mut room, 2, dbn::U64, 8, 0, 0, b"sequence")?;
    /// cursor.finish(&mut room, &[])?;
    ///
    /// let built = RecordLayout::built(1, "trade", &cursor, &room);
    /// assert_eq!(built, RecordLayout::new(1, "trade", 8, [Field::new("sequence", 2, 0, 8, dbn::U64)]));
    /// # Ok::<_, tuppenceowl::Refusal>(())
    /// ```
    pub fn built(rtype: u16, name: &str, cursor: &FieldCursor, room: &Room) -> RecordLayout {
        let base = cursor.base.unwrap_or(cursor.cursor);
        let fields = block::fields_from(room.table, room.names);
        RecordLayout::new(
            rtype,
            name,
            block::long(base),
            fields.take(cursor.count).collect::<Vec<_>>(),
        )
    }
}

/// dbn's `StructLayout`: a struct that records nest. Its fields have no names.
#[derive(Clone, Debug, Default, PartialEq, Eq)]
pub struct StructLayout {
    /// Its bytes.
    pub size: u32,
    /// Its name, at most 32 bytes.
    pub name: Vec<u8>,
    /// Its fields, in the order of the table.
    pub field_defs: Vec<FieldDef>,
}

impl StructLayout {
    /// The struct that a finished field cursor built; the names of its fields are left out.
    pub fn built(name: &str, cursor: &FieldCursor, room: &Room) -> StructLayout {
        let mut field_defs = FieldDef::all_from(room.table);
        field_defs.truncate(cursor.count);
        StructLayout {
            size: block::long(cursor.cursor),
            name: name.into(),
            field_defs,
        }
    }
}

/// The records of a stream and the structs that they nest. Any values may stand in it: what a layout cannot have is packed so that [`admit`] refuses it.
///
/// ```
/// use tuppenceowl::{Catalogue, Field, Layout, RecordLayout, Refusal, admit, dbn};
///
/// let cat = Catalogue::dbn(1).to_bytes();
/// let mut layout = Layout::from(RecordLayout::new(1, "trade", 24, [Field::new("sequence", 2, 16, 8, dbn::U64)]));
/// assert_eq!(Layout::from_block(&cat, &layout.to_block())?, layout);
/// layout.records[0].name = vec![b'x'; 33];
/// assert_eq!(admit(&cat, &layout.to_block()), Err(Refusal::BadShape));
/// # Ok::<_, Refusal>(())
/// ```
#[derive(Clone, Debug, Default, PartialEq, Eq)]
pub struct Layout {
    /// At most 16 records.
    pub records: Vec<RecordLayout>,
    /// At most 16 structs.
    pub structs: Vec<StructLayout>,
}

impl From<RecordLayout> for Layout {
    /// One record, and no structs.
    fn from(record: RecordLayout) -> Layout {
        Layout {
            records: vec![record],
            structs: vec![],
        }
    }
}

impl Layout {
    /// The block to lend: heads first, then the tables and the field names.
    pub fn to_block(&self) -> Vec<u8> {
        block::packed(self)
    }

    /// What an admitted block says. (Refusals 1 to 6.)
    pub fn from_block(cat: &[u8], block: &[u8]) -> Result<Layout, Refusal> {
        admit(cat, block)?;
        Ok(block::read(block))
    }

    /// Gives each record the hash that its tables have. (Refusals 1 to 6, 12 and 13.)
    pub fn store_hashes(&mut self, cat: &[u8]) -> Result<(), Refusal> {
        let block = self.to_block();
        let mut hashes = vec![];
        for k in 0..self.records.len() {
            hashes.extend(layout_hash(cat, &block, k)?.map(|h| h.hash));
        }
        for (record, hash) in self.records.iter_mut().zip(hashes) {
            record.layout_hash = hash;
        }
        Ok(())
    }
}
