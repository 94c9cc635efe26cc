//! The numbers of the scope, written out.

/// 5.1: the most bytes of a dossier.
pub const DOSSIER_BYTES: usize = 65_536;
/// 1.8: the most bytes of a line, with its CR LF.
pub const LINE_BYTES: usize = 4_096;
/// 7.6: the numbers that are lent to a message in parts.
pub const FEED_NUMBERS: usize = 48;
/// 4.3: the most bytes that are used of a book.
pub const BOOK_BYTES: usize = 294_912;
/// 4.2: the most rows of a table.
pub const TABLE_ROWS: usize = 2_048;
/// 4.4: the most pairs of a register.
pub const REGISTER_PAIRS: usize = 64;

/// 4.1: the bytes of a text, of a key, of a body; 4.2: of a row; 4.4: of a pair.
pub const TEXT_BYTES: usize = 10;
pub const KEY_BYTES: usize = 41;
pub const BODY_BYTES: usize = 66;
pub const ROW_BYTES: usize = 67;
pub const PAIR_BYTES: usize = 11;

/// 4.3: the kinds of entries, and how many bytes each has with its kind.
pub const PLAN: u8 = 1;
pub const STANDING: u8 = 2;
pub const WITHDRAWN: u8 = 3;
pub const PLAN_BYTES: usize = 67;
pub const UPDATE_BYTES: usize = 72;

/// 2: a status as it is kept.
pub const PLANNED: u32 = 0;
pub const CANCEL: u32 = 1;
pub const PASSED: u32 = 5;

/// 2: a stop type as it is kept.
pub const FIRST: u32 = 0;
pub const LAST: u32 = 2;

/// 2: flexible as it is kept; 0 where nothing was said.
pub const FLEXIBLE_NOT_SAID: u32 = 0;
pub const FLEXIBLE_TRUE: u32 = 1;
pub const FLEXIBLE_REALTIME: u32 = 3;

/// 3.3: an optional of a message that says nothing.
pub const KEPT: u32 = 255;
/// 3.4: a time that is missing.
pub const NO_TIME: u32 = 16_777_215;
/// 2: the last second of an operating day, 31:59:59.
pub const LAST_SECOND: u32 = 115_199;
/// 4.5: the timestamps that a U field can give.
pub const FIRST_STAMP: u32 = 946_634_400;
pub const LAST_STAMP: u32 = 4_102_495_199;
