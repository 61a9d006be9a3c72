//! The verified agent of a secure memory card, for Rust.
//!
//! A shop loads training courses onto cards as rights; the agent in the card
//! keeps them in a table of slots, lends them, takes them back and removes
//! them, by request frames. The agent, the totals of what returns did to counts,
//! the request writer, the reply reader, the listing, the tally, the turning of
//! old tables and the salvage of damaged ones are proved code in an archive,
//! `libcavernlull.a`; this crate gives them the types that Rust expects and adds
//! nothing to what they do.
//!
//! | | |
//! |---|---|
//! | [`Card`] | a table of slots with its tally, and the agent that answers requests about it |
//! | [`Rotation`] | where setups begin to look for an empty slot, so that all slots wear alike |
//! | [`Totals`] | what returns did to counts over many calls, for course planners |
//! | [`Totalled`] | a reply, with what its call did to the count |
//! | [`Request`] | a request of one of nine [kinds](Kind), and its frame |
//! | [`Reply`] | what the card answered, read from the frame of a reply |
//! | [`Listing`] | what is in the slots, as text |
//! | [`Tally`] | how a table is filled: the slots of each place, and the payload bytes |
//! | [`Report`] | what a [salvage](Card::salvage) of a damaged card found of each slot, as a [`Finding`] |
//! | [`Right`] | what a right holds: [`Key`], count, [hashes](AssetHash), payload |
//! | [`CallError`], [`WriteError`], [`ReadError`], [`TurnError`], [`TallyError`], [`SalvageError`], [`TotallingError`] | what the agent, the writer, the reader, the turning, the tally, the salvage and the totalling call refuse |
//!
//! # Example
//!
//! ```
//! use cavernlull::{AssetHash, Card, Handle, Reply, Request, Right, Status, Verdict};
//!
//! # fn main() -> Result<(), cavernlull::Error> {
//! let course = Handle([1; 10]);
//! let lent = Handle([2; 10]);
//! let asset = AssetHash([7; 20]);
//! let right = Right {
//!     hashes: vec![asset],
//!     payload: b"course".to_vec(),
//!     ..Right::default()
//! };
//!
//! let mut card = Card::blank(4);
//! let setup = Request::InstallationSetup { handle: course, room: 6 };
//! let installation = Request::RightsInstallation { handle: course, right };
//! for request in [setup, installation] {
//!     let reply = card.call(&request, Verdict::Held)?;
//!     assert_eq!(reply.status(), Status::Success);
//! }
//!
//! // The course is found by the hash of its asset.
//! let query = Request::HandleListQuery { limit: 0, hashes: vec![asset] };
//! let found = Reply::Handles { handles: vec![course], more: false };
//! assert_eq!(card.call(&query, Verdict::Held)?, found);
//!
//! // The right is lent once. The second time, no right is under its handle.
//! let lending = Request::RekQuery { handle: course, new_handle: lent };
//! assert!(matches!(card.call(&lending, Verdict::Held)?, Reply::Key(_)));
//! let again = card.call(&lending, Verdict::Held)?;
//! assert_eq!(again.status(), Status::HandleNotFound);
//!
//! // What a loading screen shows of the card.
//! assert_eq!(
//!     card.tally().to_string(),
//!     "3 empty, 0 reserved, 0 enabled, 1 disabled, 6 payload bytes"
//! );
//! # Ok(())
//! # }
//! ```
//!
//! # How the archive is reached
//!
//! On x86-64 the archive is linked. `scripts/build-archive` writes it to
//! `target/staticlib`, where the build finds it; `CAVERNLULL_LIB_DIR` names
//! another folder. The archive needs nothing but the memory that it is lent: it
//! does not allocate or block, and has no state of its own.
//!
//! The archive is x86-64 code, so on any other machine the same functions talk
//! over a pipe to the *driver*, a program that calls the archive under an
//! emulator (`scripts/build-driver` builds it). This is for tests and
//! demonstrations only: it is slow, it panics where there is no driver, and it
//! takes no table, frame or buffer of more than 131,072 bytes.

#![deny(missing_docs)]
#![deny(unsafe_code)]

/// The README's example, compiled with the doc tests.
#[cfg(doctest)]
#[doc = include_str!("../../../README.md")]
struct Readme;

mod archive;
mod card;
mod error;
mod kind;
mod listing;
mod reply;
mod report;
mod request;
mod right;
mod rotation;
mod status;
mod tally;
mod totals;
mod verdict;

pub use card::Card;
pub use error::TotallingError;
pub use error::{CallError, Error, ReadError, SalvageError, TallyError, TurnError, WriteError};
pub use kind::Kind;
pub use listing::Listing;
pub use reply::Reply;
pub use report::{Finding, Report};
pub use request::Request;
pub use right::{AssetHash, Handle, Key, Right};
pub use rotation::Rotation;
pub use status::Status;
pub use tally::Tally;
pub use totals::{Totalled, Totals};
pub use verdict::Verdict;

/// The bytes of a slot.
pub const SLOT_BYTES: usize = 4288;

/// The most slots that a table has; the fewest is one.
pub const MOST_SLOTS: usize = 15;

/// The bytes of the longest reply, and of the shortest reply buffer.
pub const REPLY_ROOM: usize = 4279;

/// The bytes of the longest request.
pub const REQUEST_ROOM: usize = 4289;

/// The bytes of the longest payload; the shortest has one.
pub const MOST_PAYLOAD: usize = 4096;

/// The bytes of a handle.
pub const HANDLE_BYTES: usize = 10;

/// The bytes of a key.
pub const KEY_BYTES: usize = 16;

/// The bytes of an asset hash.
pub const HASH_BYTES: usize = 20;

/// The most asset hashes of a right, or of a query. An installation has at least
/// one.
pub const MOST_HASHES: usize = 8;

/// The bytes of the longest listing.
pub const LISTING_ROOM: usize = 406;

/// The most that one return can take off a count. A total is at most as much for
/// each of its returns, above or below 0.
pub const MOST_CHANGE: i32 = 65_535;

/// The most counted returns in a total.
pub const MOST_RETURNS: u16 = 30_000;
