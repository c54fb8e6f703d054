//! The sixteen refusals.
use std::{error, fmt};

/// Why a call has no answer. A refused call leaves every lent byte and number as it was.
///
/// Where several apply the first in this order is told, but for two calls: the field cursor's calls test [`BadCall`](Refusal::BadCall) before
/// [`CursorFull`](Refusal::CursorFull), and [`write_plan`](crate::write_plan) tests [`BadPlan`](Refusal::BadPlan) before [`NoRoom`](Refusal::NoRoom).
///
/// ```
/// use tuppenceowl::{Refusal, check_catalogue};
///
/// let refusal = check_catalogue(b"no catalogue").unwrap_err();
/// assert_eq!(refusal, Refusal::BadCatalogue);
/// assert_eq!(refusal.number(), 1);
/// assert_eq!(refusal.to_string(), "refusal 1: the catalogue is not valid");
/// ```
#[derive(Clone, Copy, Debug, PartialEq, Eq, PartialOrd, Ord, Hash)]
#[repr(u8)]
pub enum Refusal {
    /// The catalogue is not valid.
    BadCatalogue = 1,
    /// A layout's counts, lengths or places are out of shape, or a name is too long.
    BadShape,
    /// One of a field's five last bytes is not zero.
    ReservedByte,
    /// A field is empty, or ends past 4,096 bytes or past its struct.
    OutOfBounds,
    /// Two fields of a table share a byte.
    SharedByte,
    /// The size of an integer that is no array is not its width.
    WrongWidth,
    /// The header is too long for the record, or a field starts inside it.
    BadHeader,
    /// The default body has the wrong length, is not zero in a gap, or not the largest value at a marked integer.
    BadDefaults,
    /// The record's stated length is not taken.
    BadLength,
    /// The rtype has no plan and is listed unplanned.
    Unplanned,
    /// What is lent for the answer is too short.
    NoRoom,
    /// A struct would be entered at level 9.
    TooDeep,
    /// The budget of visits is used up.
    OverBudget,
    /// The table or the record has no room for the field, or the cursor is past the offset.
    CursorFull,
    /// The field cursor's call does not take this size or this kind.
    BadCall,
    /// The plan breaks a rule, or the text is not that of a plan.
    BadPlan,
}

impl Refusal {
    /// All of them, in their order.
    pub const ALL: [Refusal; 16] = [
        Refusal::BadCatalogue,
        Refusal::BadShape,
        Refusal::ReservedByte,
        Refusal::OutOfBounds,
        Refusal::SharedByte,
        Refusal::WrongWidth,
        Refusal::BadHeader,
        Refusal::BadDefaults,
        Refusal::BadLength,
        Refusal::Unplanned,
        Refusal::NoRoom,
        Refusal::TooDeep,
        Refusal::OverBudget,
        Refusal::CursorFull,
        Refusal::BadCall,
        Refusal::BadPlan,
    ];

    /// Its number, 1 to 16.
    #[inline]
    pub const fn number(self) -> u8 {
        self as u8
    }

    /// The refusal of a number, if one has it.
    ///
    /// ```
    /// use tuppenceowl::Refusal;
    ///
    /// assert_eq!(Refusal::of_number(16), Some(Refusal::BadPlan));
    /// assert_eq!(Refusal::of_number(17), None);
    /// ```
    #[inline]
    pub fn of_number(number: u8) -> Option<Refusal> {
        Self::ALL.into_iter().find(|r| r.number() == number)
    }

    const fn words(self) -> &'static str {
        match self {
            Refusal::BadCatalogue => "the catalogue is not valid",
            Refusal::BadShape => "a layout or a table is out of shape",
            Refusal::ReservedByte => "a field's reserved byte is not zero",
            Refusal::OutOfBounds => "a field is empty or ends outside",
            Refusal::SharedByte => "two fields share a byte",
            Refusal::WrongWidth => "an integer's size is not its width",
            Refusal::BadHeader => "the header does not fit the record",
            Refusal::BadDefaults => "the default body does not fit the record",
            Refusal::BadLength => "the record's stated length is not taken",
            Refusal::Unplanned => "the rtype is listed unplanned",
            Refusal::NoRoom => "what is lent for the answer is too short",
            Refusal::TooDeep => "structs are nested too deep",
            Refusal::OverBudget => "the budget of visits is used up",
            Refusal::CursorFull => "the cursor has no room",
            Refusal::BadCall => "the cursor's call does not take this field",
            Refusal::BadPlan => "the plan breaks a rule, or the text is no plan's",
        }
    }
}

impl fmt::Display for Refusal {
    fn fmt(&self, f: &mut fmt::Formatter<'_>) -> fmt::Result {
        write!(f, "refusal {}: {}", self.number(), self.words())
    }
}

impl error::Error for Refusal {}
