//! The types that fields are declared with.

pub struct CStr;
pub struct Symbol;
pub struct Decimal;
pub struct TimestampNs;
pub struct Char;
pub struct Enum16;
pub struct EnumChar;
pub struct Enum8;
pub struct BitSet8;
pub struct BitSet16;
pub struct BitSet32;
pub struct BitSet64;

pub struct Labels {
    pub name: &'static str,
    pub values: &'static [(u16, &'static str)],
}
