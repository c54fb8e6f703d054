//! Type ids, flags and field ids: those of the catalogue in tests/model.py, so that one catalogue fits both sides.
use super::types::*;
use super::RecordHeader;
use std::{cell::RefCell, collections::HashMap, marker::PhantomData};

// ---- numbers

pub const FLAG_IS_ARRAY: u8 = 128;
pub const FLAG_IS_EXTENSION: u8 = 64;

pub const CSTR_ID: u8 = 49;
pub const SYMBOL_ID: u8 = 50;
pub const STRUCT_ID: u8 = 65;
pub const PADDING_ID: u8 = 80;
pub const ENUM_16_ID: u8 = 97;
pub const ENUM_CHAR_ID: u8 = 98;
pub const ENUM_8_ID: u8 = 99;
pub const BIT_SET_8_ID: u8 = 100;
pub const BIT_SET_16_ID: u8 = 101;
pub const BIT_SET_32_ID: u8 = 102;
pub const BIT_SET_64_ID: u8 = 103;

pub const PADDING: u16 = 0;
pub const HD: Field<RecordHeader> = Field::new(1);

// ids that only the header structs of the stream builder use: far from those of the cases
pub const LENGTH: Field<u16> = Field::new(0xFF01);
pub const RTYPE: Field<u16> = Field::new(0xFF02);
pub const PUBLISHER_ID: Field<u16> = Field::new(0xFF03);
pub const INSTRUMENT_ID: Field<u64> = Field::new(0xFF04);
pub const TS_EVENT: Field<TimestampNs> = Field::new(0xFF05);
pub const LENGTH_V1: Field<u8> = Field::new(0xFF06);
pub const RTYPE_V1: Field<u8> = Field::new(0xFF07);
pub const INSTRUMENT_ID_V1: Field<u32> = Field::new(0xFF08);
pub const TS_OUT: Field<TimestampNs> = Field::new(0xFF09);

// ---- types

pub trait FieldType: Sized {
    const TYPE_ID: u8;
    const ARRAY_WIRE_SIZE: Option<u16> = None;
    const LABELS: Option<Labels> = None;
}

pub trait FixedWidth: FieldType {
    const WIRE_SIZE: u16;
}

pub trait DecodeField: FieldType {
    type Value<'a>;

    fn decode(bytes: &[u8], scale: i8) -> Option<Self::Value<'_>>;
}

macro_rules! scalars {
    ($($t:ty: $id:literal, $width:literal;)*) => {
        $(
            impl FieldType for $t {
                const TYPE_ID: u8 = $id;
            }
            impl FixedWidth for $t {
                const WIRE_SIZE: u16 = $width;
            }
        )*

        const fn width_of_type(type_id: u8) -> Option<u16> {
            match type_id {
                $($id => Some($width),)*
                _ => None,
            }
        }
    };
}

scalars! {
    u8: 1, 1;
    u16: 2, 2;
    u32: 3, 4;
    u64: 4, 8;
    i8: 17, 1;
    i16: 18, 2;
    i32: 19, 4;
    i64: 20, 8;
    Decimal: 33, 8;
    Char: 96, 1;
    f32: 104, 4;
    f64: 105, 8;
    TimestampNs: 106, 8;
    Enum16: 97, 2;
    EnumChar: 98, 1;
    Enum8: 99, 1;
    BitSet8: 100, 1;
    BitSet16: 101, 2;
    BitSet32: 102, 4;
    BitSet64: 103, 8;
}

macro_rules! read_whole {
    ($($t:ty),*) => {$(
        impl DecodeField for $t {
            type Value<'a> = $t;

            fn decode(bytes: &[u8], _scale: i8) -> Option<$t> {
                bytes.first_chunk().copied().map(<$t>::from_le_bytes)
            }
        }
    )*};
}

read_whole!(u8, u16, u32, u64);

impl FieldType for CStr {
    const TYPE_ID: u8 = CSTR_ID;
}

impl FieldType for Symbol {
    const TYPE_ID: u8 = SYMBOL_ID;
}

impl FieldType for RecordHeader {
    const TYPE_ID: u8 = STRUCT_ID;
}

impl<T: FixedWidth, const N: usize> FieldType for [T; N] {
    const TYPE_ID: u8 = T::TYPE_ID;
    const ARRAY_WIRE_SIZE: Option<u16> = Some(Self::WIRE_SIZE);
}

impl<T: FixedWidth, const N: usize> FixedWidth for [T; N] {
    const WIRE_SIZE: u16 = N as u16 * T::WIRE_SIZE;
}

pub(crate) const fn uses_label_def(type_id: u8) -> bool {
    ENUM_16_ID <= type_id && type_id <= BIT_SET_64_ID
}

/// The width that the catalogue gives an id; none where that is 0.
pub(crate) const fn scalar_size(type_id: u8) -> Option<u16> {
    width_of_type(type_id)
}

pub struct Field<T> {
    id: u16,
    /// Size and flags that a case states instead of the type's.
    stated: Option<(u16, u8)>,
    typed: PhantomData<T>,
}

impl<T> Clone for Field<T> {
    fn clone(&self) -> Self {
        *self
    }
}

impl<T> Copy for Field<T> {}

impl<T> Field<T> {
    pub const fn new(id: u16) -> Self {
        Self {
            id,
            stated: None,
            typed: PhantomData,
        }
    }

    pub const fn stated(id: u16, size: u16, flags: u8) -> Self {
        Self {
            id,
            stated: Some((size, flags)),
            typed: PhantomData,
        }
    }

    pub const fn id(&self) -> u16 {
        self.id
    }
}

impl<T: FieldType> Field<T> {
    pub const fn type_id(&self) -> u8 {
        T::TYPE_ID
    }

    pub const fn flags(&self) -> u8 {
        match (self.stated, T::ARRAY_WIRE_SIZE) {
            (Some((_, flags)), _) => flags,
            (None, Some(_)) => FLAG_IS_ARRAY,
            (None, None) => 0,
        }
    }
}

impl<T: FixedWidth> Field<T> {
    pub const fn size(&self) -> u16 {
        match self.stated {
            Some((size, _)) => size,
            None => T::WIRE_SIZE,
        }
    }
}

// ---- defaults: those that a case states for field ids, else the largest of a decimal or a timestamp, else zero

#[derive(Clone, Copy, PartialEq, Eq)]
pub enum FieldDefault {
    Max,
    Value(i64),
}

thread_local! {
    static DEFAULTS: RefCell<HashMap<u16, FieldDefault>> = RefCell::default();
}

pub fn set_default(field_id: u16, default: FieldDefault) {
    DEFAULTS.with_borrow_mut(|table| table.insert(field_id, default));
}

pub fn clear_defaults() {
    DEFAULTS.with_borrow_mut(HashMap::clear);
}

pub(crate) fn default_of(field_id: u16, type_id: u8) -> FieldDefault {
    let stated = DEFAULTS.with_borrow(|table| table.get(&field_id).copied());
    stated.unwrap_or(match type_id {
        Decimal::TYPE_ID | TimestampNs::TYPE_ID => FieldDefault::Max,
        _ => FieldDefault::Value(0),
    })
}

const fn is_signed(type_id: u8) -> bool {
    matches!(
        type_id,
        i8::TYPE_ID | i16::TYPE_ID | i32::TYPE_ID | i64::TYPE_ID | Decimal::TYPE_ID
    )
}

impl FieldDefault {
    /// Fills a field: the largest value of its sign, or a number, low byte first, and zeros after its eight bytes.
    pub fn write(self, type_id: u8, bytes: &mut [u8]) {
        let top = bytes.len().saturating_sub(1);
        for (i, byte) in bytes.iter_mut().enumerate() {
            *byte = match self {
                Self::Max if is_signed(type_id) && i == top => 0x7F,
                Self::Max => 0xFF,
                Self::Value(value) => value.to_le_bytes().get(i).copied().unwrap_or(0),
            };
        }
    }
}
