//! The numbers of the refusals.

/// A refusal's number.
pub type Refusal = u64;

pub const NOT_SOUND: Refusal = 1;
pub const MEDIUM_SHORT: Refusal = 2;
pub const NOT_OPEN: Refusal = 3;
pub const PIECE_LENGTH: Refusal = 4;
pub const NOT_GROWING: Refusal = 5;
pub const GROWING: Refusal = 6;
pub const UNRECORDED: Refusal = 7;
pub const OUTSIDE_LIMITS: Refusal = 8;
pub const NO_GROWTH_LEFT: Refusal = 9;
pub const NOT_MOVING_HERE: Refusal = 10;
pub const COPIED_ALREADY: Refusal = 11;
pub const NOTHING_TO_RECORD: Refusal = 12;
pub const NO_RECORD: Refusal = 13;
pub const NO_SUCH_SPOT: Refusal = 14;
pub const NOBODY_THERE: Refusal = 15;
pub const BLOCKS_PENDING: Refusal = 18;
pub const RECORD_PENDING: Refusal = 19;
pub const BEYOND_DOUBLING: Refusal = 20;
pub const OUTSIDE_SPAN: Refusal = 21;
