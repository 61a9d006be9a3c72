//! The comparison of the proved archive with `reference`, byte for byte.
//!
//! The archive is called by a small C program, the [`driver`]. The tests make
//! calls at random, give each to the archive and to the reference, and compare
//! number, reply buffer, table, tally, and the table's listing; and likewise the
//! tally worked out from the table afresh, and the total of what returns did to counts.
//!
//! | | |
//! |---|---|
//! | [`frames`] | request frames at random, right and wrong ones |
//! | [`starts`] | starts at random, right and wrong ones |
//! | [`tallies`] | tallies at random, right and wrong ones |
//! | [`tables`] | damaged tables, old ones, some with rights without a hash, and buffers for replies, listings and reports |
//! | [`damage`] | tables damaged in every way that a salvage is for |
//! | [`pipeline`] | many commands on their way at once |
//! | [`alongside`] | commands about a table, and what the reference makes of them |
//! | [`card`] | cards, and the histories that they go through |
//! | [`calls`] | many calls, made at random and checked |
//! | [`mended`] | cards that were salvaged or turned before their first call |
//! | [`device`] | requests written and replies read, at random |
//! | [`totals`] | totals at random, right and wrong ones |
//! | [`returns`] | frames by which the rights of a table are lent and returned |
//! | [`returned`] | how the counts of returns compared with those stored, and their statuses |
//! | [`totalling`] | totalling calls, made at random and checked |
//! | [`to_the_end`] | totals that are carried on until no return has room |
//! | [`total_rules`] | what holds of every totalling call |
//! | [`told`] | what ledgers tell of totals |
//! | [`totalled`] | what came of totalling calls, and what must have come |
//! | [`turning`] | tables from before a count had its bit, turned at random |
//! | [`salvage`] | damaged tables, salvaged at random |
//! | [`salvage_rules`] | what holds of every salvage |
//! | [`both`] | one call after another, on a table chosen by a test |
//! | [`pair`] | two cards that are sent the same frames from different starts |
//! | [`outcome`] | which outcomes occurred, and which must occur |
//! | [`steps`] | how calls changed the tally, and which of its numbers differed |
//! | [`refusals`] | which calls gave a number, and what else was wrong with them |
//! | [`found`] | what salvages found, and what must have been found |
//!
//! `COMPARE_SEED` sets another seed and `COMPARE_CALLS` another number of
//! calls, both in decimal.

#![forbid(unsafe_code)]
#![warn(missing_docs)]

pub mod alongside;
pub mod both;
pub mod calls;
pub mod card;
pub mod damage;
pub mod device;
pub mod found;
pub mod frames;
pub mod mended;
pub mod outcome;
pub mod pair;
pub mod pipeline;
pub mod refusals;
pub mod returned;
pub mod returns;
pub mod salvage;
pub mod salvage_rules;
pub mod starts;
pub mod steps;
pub mod tables;
pub mod tallies;
pub mod to_the_end;
pub mod told;
pub mod total_rules;
pub mod totalled;
pub mod totalling;
pub mod totals;
pub mod turning;
