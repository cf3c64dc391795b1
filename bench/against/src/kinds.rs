//! The numbers by which the library tells kinds apart.

/// A message's: of a trip to memory, the way there; then the way back.
pub const FETCH: u8 = 0;
pub const WRITE_BACK: u8 = 1;
pub const FETCH_REPLY: u8 = 2;
pub const ACKNOWLEDGEMENT: u8 = 3;

/// A pend entry's, and all but the last a stalled instruction's.
pub const LOADL: u8 = 0;
pub const STOREL: u8 = 1;
pub const COMMIT: u8 = 2;
pub const RECONCILE: u8 = 3;
pub const VOLUNTARY: u8 = 4;

/// An instruction's: fences are 4 to 7.
pub const LAST_INSTRUCTION: u8 = 7;
