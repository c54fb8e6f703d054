//! Where the limits lie, and how many bytes things have. The library tests them; they are here for those who lend memory.

/// Bytes of a record or a struct.
pub const MAX_BYTES: usize = 4096;
/// Fields of a record's table.
pub const MAX_FIELDS: usize = 128;
/// Fields of a struct's table.
pub const MAX_STRUCT_FIELDS: usize = 32;
/// Records of a layout.
pub const MAX_RECORDS: usize = 16;
/// Structs of a layout.
pub const MAX_STRUCTS: usize = 16;
/// Bytes of a name.
pub const MAX_NAME: usize = 32;
/// Bytes of a header.
pub const MAX_HEADER: usize = 64;
/// Steps of a plan.
pub const MAX_STEPS: usize = 128;
/// Visits of a layout hash that is given no budget.
pub const DEFAULT_BUDGET: usize = 65536;

/// Bytes of a catalogue.
pub const CATALOGUE: usize = 262;
/// Bytes of a field in a table.
pub const FIELD: usize = 16;
/// Bytes of a name with its length.
pub const NAME: usize = MAX_NAME + 1;
/// Bytes of a step in a slot.
pub const STEP: usize = 16;
/// Where the steps of a slot start.
pub const STEPS_FROM: usize = 16;
/// Where the body of a slot starts.
pub const BODY_FROM: usize = STEPS_FROM + STEP * MAX_STEPS;
/// Bytes of a slot, which holds one plan.
pub const SLOT: usize = BODY_FROM + MAX_BYTES;
/// Room that every plan's text fits into.
pub const TEXT: usize = 11_100;
