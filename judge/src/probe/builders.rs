//! Sees the private cursor of builders.rs.
use super::{FieldCursor, Nested};
use crate::layout::FieldDef;
use crate::v4::fields::{Field, FieldType, FixedWidth};
use crate::v4::types::*;

macro_rules! scalar_of {
    ($cursor:expr, $f:ident, $name:ident, $($t:ty)*) => {
        match $f.type_id {
            $(<$t as FieldType>::TYPE_ID => $cursor.scalar(
                Field::<$t>::stated($f.field_id, $f.size, $f.flags),
                $name,
                $f.def_index,
            ),)*
            _ => unreachable!(),
        }
    };
}

pub struct Cursor(FieldCursor);

impl Default for Cursor {
    fn default() -> Self {
        Self(FieldCursor::empty())
    }
}

impl Cursor {
    /// The type decides which call of the Rust is made; size and flags are those that its `Field` states.
    pub fn scalar(&mut self, f: &FieldDef, name: &str) {
        scalar_of!(self.0, f, name,
            u8 u16 u32 u64 i8 i16 i32 i64 Decimal Char f32 f64 TimestampNs
            Enum16 EnumChar Enum8 BitSet8 BitSet16 BitSet32 BitSet64)
    }

    /// As a host of the Rust calls it: the type is known.
    pub fn typed<T: FixedWidth>(&mut self, id: u16, name: &str) {
        self.0.scalar(Field::<T>::new(id), name, 0)
    }

    pub fn string(&mut self, f: &FieldDef, name: &str) {
        let (id, size, flags) = (f.field_id, f.size, f.flags);
        if f.type_id == CStr::TYPE_ID {
            self.0.string(Field::<CStr>::stated(id, size, flags), name, size)
        } else {
            self.0.string(Field::<Symbol>::stated(id, size, flags), name, size)
        }
    }

    pub fn like(&mut self, def: &FieldDef, name: &str) {
        self.0.like(def, name, def.def_index)
    }

    pub fn nested(&mut self, id: u16, name: &str, struct_idx: u16, size: u16, align: u16, flags: u8) {
        let nested = Nested {
            struct_idx,
            size,
            align,
            flags,
        };
        self.0.nested(id, name, nested)
    }

    pub fn at(&mut self, offset: usize) {
        self.0.at(offset)
    }

    pub fn finish_base(&mut self) -> u16 {
        self.0.finish_base()
    }

    /// `finish_record`: the base is noted if need be.
    pub fn finish(&mut self, ids: &[u16]) -> u16 {
        self.0.order(ids);
        self.0.finish_record()
    }

    pub fn fields(&self) -> &[FieldDef] {
        &self.0.field_defs
    }

    pub fn names(&self) -> &[String] {
        &self.0.field_names
    }

    pub fn cursor(&self) -> u16 {
        self.0.cursor
    }

    pub fn base(&self) -> Option<u16> {
        self.0.base
    }
}

impl Clone for Cursor {
    fn clone(&self) -> Self {
        Self(FieldCursor {
            field_defs: self.0.field_defs.clone(),
            field_names: self.0.field_names.clone(),
            cursor: self.0.cursor,
            base: self.0.base,
            order: self.0.order.clone(),
        })
    }
}
