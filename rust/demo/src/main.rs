//! Courses on one card, as the order desk sees it: `make demo`.
//!
//! Each step is a request, with its frame and the card's reply in hex, what
//! they mean, and the card's tally and listing afterwards. A return also shows
//! what it did to the count, and the running total of that.

mod course;
mod screen;

use cavernlull::{Card, Handle, Kind, Reply, Request, Rotation, Status};
use cavernlull::{TotallingError, Totals, REPLY_ROOM, SLOT_BYTES};
use course::Step;
use screen::Screen;
use std::io::{self, IsTerminal, Write};

/// How many slots the card has.
const SLOTS: usize = 4;

/// A byte of a slot that is always 0 (PROFILE 2.2).
const ALWAYS_ZERO: usize = 191;

fn main() -> io::Result<()> {
    let screen = Screen::new(io::stdout().is_terminal());
    let text = walk(&screen).map_err(io::Error::other)?;
    io::stdout().lock().write_all(text.as_bytes())
}

/// The whole walk as text.
fn walk(screen: &Screen) -> Result<String, TotallingError> {
    let (mut card, mut keeping) = (Card::blank(SLOTS), Keeping::default());
    let mut text = screen.title(&format!("One course on a card of {SLOTS} slots"));
    text += &screen.card(&card);
    for (index, step) in course::steps().iter().enumerate() {
        text += &screen.heading(index + 1, step.title);
        text += &shown(screen, &mut card, &mut keeping, step)?;
    }
    Ok(text)
}

/// What the order desk keeps beside a card.
#[derive(Default)]
struct Keeping {
    rotation: Rotation,
    totals: Totals,
}

/// One step: the request, the reply, and what is on the card then.
fn shown(
    screen: &Screen,
    card: &mut Card,
    Keeping { rotation, totals }: &mut Keeping,
    step: &Step,
) -> Result<String, TotallingError> {
    let mut text = String::new();
    let frame = match (step.request.to_frame(), &step.bytes) {
        (Err(refused), Some(bytes)) => {
            text += &screen.refusal("writer", refused.number(), &refused);
            bytes.clone()
        }
        (written, _) => written?,
    };
    text += &screen.frame("request", &frame, &asked(&step.request, rotation.start()));
    if let Some(slot) = step.worn {
        text += &worn(screen, card, slot);
        text += &salvaged(screen, card, &frame);
    }
    let mut buffer = [0; REPLY_ROOM];
    let totalled = rotation.call_frame_totalling(totals, card, &frame, &mut buffer)?;
    let (answer, reply) = (totalled.reply, Reply::read(totalled.reply)?);
    assert_eq!(reply.status(), step.expected, "{}", step.title);
    text += &screen.reply(answer, &answered(&reply), reply.status() == Status::Success);
    if reply == Reply::Done(Kind::RightsEnablement) {
        text += &screen.change(totalled.change, totalled.counted, totals);
    }
    text += &screen.note(step.why);
    text += &screen.card(card);
    Ok(text)
}

/// A worn block changes a byte of a slot.
fn worn(screen: &Screen, card: &mut Card, slot: usize) -> String {
    let mut image = card.clone().into_table();
    image[slot * SLOT_BYTES + ALWAYS_ZERO] = 1;
    *card = Card::from(image);
    screen.worn(slot, ALWAYS_ZERO)
}

/// The damaged card refuses the request, and is salvaged.
fn salvaged(screen: &Screen, card: &mut Card, frame: &[u8]) -> String {
    let mut buffer = [0; REPLY_ROOM];
    let refused = card.call_frame(frame, &mut buffer);
    let refused = refused.expect_err("a damaged card answers nothing");
    let report = card.salvage().expect("the card has whole slots");
    screen.refusal("agent ", refused.number(), &refused) + &screen.report(&report)
}

/// A handle as the desk knows it: in this walk, as letters.
fn name(handle: &Handle) -> String {
    String::from_utf8_lossy(&handle.0).into_owned()
}

/// A count in words.
fn counted(count: Option<u16>) -> String {
    match count {
        None => "no count".to_owned(),
        Some(uses) => format!("a count of {uses}"),
    }
}

/// So many of these, in words.
fn how_many(number: usize, what: &str, more: &str) -> String {
    match number {
        0 => format!("no {what}"),
        1 => format!("1 {what}"),
        _ => format!("{number} {more}"),
    }
}

/// A request in words, with the slot at which a setup begins to look.
fn asked(request: &Request, start: usize) -> String {
    let kind = request.kind();
    match request {
        Request::InstallationSetup { handle, room } => {
            let name = name(handle);
            format!("{kind}: keep {room} bytes under {name}, from slot {start} on")
        }
        Request::RightsInstallation { handle, right } => format!(
            "{kind}: {} bytes with {} and {} under {}",
            right.payload.len(),
            counted(right.count),
            how_many(right.hashes.len(), "hash", "hashes"),
            name(handle)
        ),
        Request::RightsRetrieval { handle, new_handle }
        | Request::RekQuery { handle, new_handle } => {
            format!("{kind}: lend {} out as {}", name(handle), name(new_handle))
        }
        Request::RightsEnablement { handle, count } => {
            format!("{kind}: {} is back, with {}", name(handle), counted(*count))
        }
        Request::RightsRemoval { handle }
        | Request::HandleRemoval { handle }
        | Request::RightsInformationQuery { handle } => format!("{kind}: {}", name(handle)),
        Request::HandleListQuery { hashes, .. } if hashes.is_empty() => {
            format!("{kind}: every course for use")
        }
        Request::HandleListQuery { hashes, .. } => {
            let hashes = how_many(hashes.len(), "hash", "hashes");
            format!("{kind}: courses for use, by {hashes}")
        }
    }
}

/// A reply in words.
fn answered(reply: &Reply) -> String {
    let status = reply.status();
    match reply {
        Reply::Key(_) => format!("{status}, with the course's key"),
        Reply::Right(right) => {
            let count = counted(right.count);
            format!("{status}, with the whole course and {count}")
        }
        Reply::Handles { handles, .. } => {
            let names: Vec<String> = handles.iter().map(name).collect();
            let handles = how_many(names.len(), "handle", "handles");
            format!("{status}, with {handles}: {}", names.join(", "))
        }
        _ => status.to_string(),
    }
}

#[cfg(test)]
mod tests {
    use super::{walk, Screen};

    #[test]
    fn every_step_has_the_status_expected_and_the_card_ends_blank() {
        let text = walk(&Screen::new(false)).expect("no step is refused with a number");
        assert_eq!(
            text.matches("request").count(),
            super::course::steps().len()
        );
        assert!(text.contains("Duplicate Handle") && text.contains("Handle Not Found"));
        let last = text.rsplit("slot place hashes count length").next();
        let last = last.expect("there is a listing");
        assert_eq!(last.matches(" empty 0 0 0").count(), super::SLOTS);
    }

    /// The course that is used up goes out with the bit of a kept count, and a
    /// count of 0.
    #[test]
    fn a_course_that_is_used_up_is_lent_with_a_count_of_0() {
        let text = walk(&Screen::new(false)).expect("it walks");
        let reply = text.split("and a count of 0\n").nth(1);
        let reply = reply.expect("one reply has it").trim_start();
        assert!(reply.starts_with("23 80 "), "{reply}");
    }

    /// Each return shows its change and the running total; one that is sent again
    /// is not counted again.
    #[test]
    fn returns_show_what_they_did_to_the_count() {
        let text = walk(&Screen::new(false)).expect("it walks");
        let shown = text
            .lines()
            .filter_map(|line| line.strip_prefix("  change   "));
        let expected = [
            "-1; total -1 in 1 return",
            "0, not counted; total -1 in 1 return",
            "-1; total -2 in 2 returns",
        ];
        assert_eq!(shown.collect::<Vec<_>>(), expected);
    }

    /// A return with more uses than were lent is refused: the course stays lent with
    /// its ten, and nothing is totalled. Then it is returned with nine.
    #[test]
    fn a_return_with_more_uses_is_refused_and_then_made_properly() {
        let text = walk(&Screen::new(false)).expect("it walks");
        let steps: Vec<&str> = text.split("\n\n").collect();
        let raised = steps.iter().position(|step| step.contains("Count Raised"));
        let raised = raised.expect("one step is refused so");
        let [refused, made] = [steps[raised], steps[raised + 1]];
        assert!(refused.contains("LENT-TO-42 is back, with a count of 11\n"));
        assert!(refused.contains("Count Raised\n           25 09 00 00\n"));
        assert!(refused.contains("0 disabled 1 10 17\n"), "{refused}");
        assert!(!refused.contains("change"), "{refused}");
        assert!(made.contains("LENT-TO-42 is back, with a count of 9\n"));
        assert!(made.contains("0 enabled 1 9 17\n"), "{made}");
        assert_eq!(text.matches("Count Raised").count(), 1);
    }

    /// An installation without a hash is refused by the writer, which says why,
    /// and by the card. With its hash the course is installed and found by it.
    #[test]
    fn a_course_is_installed_with_its_hash_and_found_by_it() {
        let text = walk(&Screen::new(false)).expect("it walks");
        let steps: Vec<&str> = text.split("\n\n").collect();
        let [without, with, found] = [2, 3, 4].map(|number| steps[number]);
        assert!(without.contains("writer   202: the installation has no asset hash"));
        assert!(
            without.contains("and no hash under BRAZING-01"),
            "{without}"
        );
        assert!(without.contains("Parameter Failed\n           22 02 00 00\n"));
        assert!(without.contains("0 reserved 0 0 24\n"), "{without}");
        assert!(with.contains("and 1 hash under BRAZING-01"), "{with}");
        assert!(with.contains("0 enabled 1 10 17\n"), "{with}");
        assert!(found.contains("Success, with 1 handle: BRAZING-01\n"));
        assert_eq!(text.matches("202").count(), 1);
    }

    /// The card is refused for its worn slot, which the salvage clears and names.
    /// The other course is lent as if nothing had been.
    #[test]
    fn a_worn_card_is_salvaged_and_the_other_course_is_lent() {
        let text = walk(&Screen::new(false)).expect("it walks");
        let step = text.split("a block of the card is worn\n").nth(1);
        let step = step.expect("there is such a step");
        assert!(step.contains("worn     byte 191 of slot 2"), "{step}");
        assert!(step.contains("agent    103: the table is not well formed\n"));
        assert!(step.contains("salvage  0 kept, 1 kept, 2 damaged, 3 kept, cleared 1\n"));
        assert!(step.contains("Success, with the course's key\n"), "{step}");
        assert!(
            step.contains("1 disabled 1 10 17\n    2 empty 0 0 0\n"),
            "{step}"
        );
        assert_eq!(text.matches("103").count(), 1);
    }

    /// The slot of the first course is empty, and the next course comes into the
    /// one after the last that was taken.
    #[test]
    fn the_next_course_comes_into_the_next_slot() {
        let text = walk(&Screen::new(false)).expect("it walks");
        let step = text.split("Room for the next course\n").nth(1);
        let step = step.expect("there is such a step");
        let (asked, listed) = step.split_once("slot place").expect("it is listed");
        assert!(asked.contains("from slot 3 on"), "{asked}");
        let lines = listed.lines().skip(1).take(super::SLOTS);
        let places: Vec<&str> = lines.map(|line| line.trim_start()).collect();
        assert!(places[0].starts_with("0 empty"), "{places:?}");
        assert_eq!(places[3], "3 reserved 0 0 24");
    }

    /// The five numbers in a line of the screen.
    fn shown(line: &str) -> [u32; 5] {
        let numbers = line
            .split(", ")
            .map(|part| part.split(' ').next()?.parse().ok());
        let numbers: Option<Vec<u32>> = numbers.collect();
        let numbers = numbers.expect("each part begins with a number");
        numbers.try_into().expect("there are five")
    }

    /// The five numbers that the lines of a listing give: each has a slot, its
    /// place, and its length at the end.
    fn counted<'a>(lines: impl Iterator<Item = &'a str>) -> [u32; 5] {
        let mut numbers = [0; 5];
        for line in lines {
            let words: Vec<&str> = line.split_whitespace().collect();
            let places = ["empty", "reserved", "enabled", "disabled"];
            let place = places.iter().position(|place| *place == words[1]);
            let place = place.expect("a place");
            numbers[place] += 1;
            if place >= 2 {
                numbers[4] += words[4].parse::<u32>().expect("a length");
            }
        }
        numbers
    }

    /// Before the first step and after each, the screen has the numbers of the
    /// listing below them.
    #[test]
    fn the_tally_of_each_step_is_that_of_its_listing() {
        let text = walk(&Screen::new(false)).expect("it walks");
        let cards: Vec<&str> = text.split("  card     ").skip(1).collect();
        assert_eq!(cards.len(), super::course::steps().len() + 1);
        for card in cards {
            let (tally, listing) = card.split_once('\n').expect("a listing follows");
            let slots = listing.lines().skip(1).take(super::SLOTS);
            assert_eq!(shown(tally), counted(slots), "{card}");
        }
    }

    #[test]
    fn colour_is_for_terminals_only() {
        let plain = walk(&Screen::new(false)).expect("it walks");
        let coloured = walk(&Screen::new(true)).expect("it walks");
        assert!(!plain.contains('\x1b') && coloured.contains('\x1b'));
    }
}
