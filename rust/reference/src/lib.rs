//! An independent second implementation of the card profile.
//!
//! Everything here was written from the card profile (docs/PROFILE.md) alone.
//! It exists to be compared with the verified implementation, byte for byte,
//! so it shares no code and no structure with it. The comments cite the
//! section of the profile that a rule comes from, as `PROFILE 2.4`.
//!
//! # What is here
//!
//! | item | what it is | PROFILE |
//! |---|---|---|
//! | [`call`] | the card agent: a lent table and its tally, a start, a frame, a lent reply buffer | 1.1, 4, 5 |
//! | [`call_totalling`], [`Totals`] | the same, with a total of what returns did to counts | 4.4, 4.5 |
//! | [`write_request`] | the device's request writer | 6.2 |
//! | [`read_request`] | the request reader, which the card uses too | 6.1 |
//! | [`read_reply`] | the device's reply reader | 6.3 |
//! | [`listing`] | what the program `cardlist` prints | 7 |
//! | [`ledger`] | the history of rights, told by requests and statuses | 8 |
//! | [`CountsTold`] | what such a history tells of counts, none of which rises | 8.3 |
//! | [`table`], [`slot`] | well-formedness, and one accessor for each field | 2 |
//! | [`turn`] | the turning of tables from before a count had its bit | 2.7 |
//! | [`Tally`], [`tally()`] | how a table is filled, worked out from its slots | 2.8 |
//! | [`salvage()`] | the salvage of damaged tables | 2.10 |
//! | [`salvage_text()`] | what the program `cardsalvage` prints of what it found | 2.11 |
//!
//! # How it is built
//!
//! Bytes come in and bytes go out. A frame is first split into head and body
//! (`frame`), then read into [`Fields`] (`request`), and only then does the
//! agent (`agent`) look at the table. Every test of the agent precedes every
//! change it makes: the functions for the single kinds answer
//! `Result<Vec<u8>, Status>`, and the table is written after their last `?`.
//! None of them knows of the tally: it is worked out before them and after them.
//!
//! Numbers of two bytes are big-endian, and the first field of a byte is in
//! its highest bits.
//!
//! # Example
//!
//! Case 1 of the card profile (PROFILE 9.1), on a blank table of one slot and
//! with the start 0:
//!
//! ```
//! use reference::{call, listing, write_request, Tally, WriterFields, REPLY_ROOM, SLOT_BYTES};
//!
//! let fields = WriterFields { handle: [1; 10], length: 5, ..WriterFields::default() };
//! let mut frame = [0; 16];
//! assert_eq!(write_request(1, &fields, &mut frame), 0);
//!
//! let mut table = vec![0; SLOT_BYTES];
//! let mut tally = Tally::from([1, 0, 0, 0, 0]);
//! let mut reply = vec![0; REPLY_ROOM];
//! assert_eq!(call(&mut table, &mut tally, 0, &frame, &mut reply), 0);
//! assert_eq!(reply[..4], [0x21, 0, 0, 0]);
//! assert_eq!(tally.numbers(), [0, 1, 0, 0, 0]);
//! assert_eq!(
//!     listing(&table),
//!     b"slot place hashes count length\n0 reserved 0 0 5\n"
//! );
//! ```

#![forbid(unsafe_code)]
#![warn(missing_docs)]

mod agent;
mod bytes;
mod content;
mod count;
mod counts_told;
mod frame;
mod kind;
pub mod ledger;
mod listing;
pub mod number;
mod reply;
mod request;
mod salvage;
mod salvage_text;
pub mod slot;
mod status;
pub mod table;
mod tally;
mod total;
mod turning;

pub use agent::{call, REPLY_ROOM};
pub use count::Count;
pub use counts_told::CountsTold;
pub use kind::Kind;
pub use listing::listing;
pub use reply::{read_reply, Reply, ReplyFields};
pub use request::{read_request, write_request, Fields, ReadRequest, Request, WriterFields};
pub use salvage::{salvage, Finding};
pub use salvage_text::salvage_text;
pub use slot::{Place, SLOT_BYTES};
pub use status::Status;
pub use table::{well_formed, MAX_SLOTS};
pub use tally::{tally, Tally};
pub use total::{call_totalling, Totals, MOST_CHANGE, MOST_RETURNS};
pub use turning::turn;

/// A handle: any ten bytes, zeros included (PROFILE 2.6).
pub type Handle = [u8; HANDLE_BYTES];

/// A key (REK): any sixteen bytes, zeros included (PROFILE 2.6).
pub type Key = [u8; KEY_BYTES];

/// The bytes of a handle.
pub const HANDLE_BYTES: usize = 10;

/// The bytes of a key.
pub const KEY_BYTES: usize = 16;

/// The bytes of one asset hash, which is a SHA-1.
pub const HASH_BYTES: usize = 20;

/// The most asset hashes of a right, or of a query.
pub const MAX_HASHES: usize = 8;

/// The longest payload, and the longest room that can be reserved.
pub const MAX_PAYLOAD: usize = 4096;
