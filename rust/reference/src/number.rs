//! The numbers that functions give back.

/// The call wrote a reply, the writer wrote a request, the table was turned, or
/// its tally was worked out. Of a salvage it says that no slot was cleared.
pub const DONE: u16 = 0;

/// The reply buffer has fewer than 4,279 bytes (PROFILE 4.1).
pub const REPLY_BUFFER_SHORT: u16 = 101;

/// The table is not 1 to 15 whole slots (PROFILE 4.1).
pub const TABLE_LENGTH: u16 = 102;

/// The table is not well formed (PROFILE 4.1).
pub const TABLE_NOT_WELL_FORMED: u16 = 103;

/// The frame has fewer than 4 bytes, or is not 4 bytes and its body length long
/// (PROFILE 4.1).
pub const NO_FRAME: u16 = 104;

/// The start is not below the number of slots (PROFILE 4.1).
pub const START_OUTSIDE: u16 = 105;

/// The tally given is not that of the table (PROFILE 4.1).
pub const TALLY_DIFFERS: u16 = 106;

/// The report buffer has fewer bytes than the table has slots (PROFILE 2.10).
pub const REPORT_BUFFER_SHORT: u16 = 107;

/// Total and returns cannot be, or there is no room for one more return
/// (PROFILE 4.5).
pub const TOTAL_OUTSIDE: u16 = 108;

/// The writer's buffer is shorter than the frame (PROFILE 6.2).
pub const WRITER_BUFFER_SHORT: u16 = 201;

/// The writer cannot write these fields (PROFILE 6.2): the kind is not 1 to 9,
/// the hashes are not 0 to 8 times 20 bytes, kind 2 has no hash or a payload that
/// is not 1 to 4,096 bytes, count and `kept` say no count, or a field that the
/// kind lacks is not zero or empty.
pub const WRITER_FIELDS: u16 = 202;

/// The reply reader was not given a reply (PROFILE 6.3).
pub const NO_REPLY: u16 = 203;
