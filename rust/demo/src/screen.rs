//! What is shown: hex with its meaning beside it, tallies and listings. Colour is
//! for terminals alone.

use cavernlull::{Card, Report, Tally, Totals};
use std::fmt::Display;

/// How many bytes of a frame are shown on one line.
const LINE: usize = 20;

/// Where text goes.
pub struct Screen {
    coloured: bool,
}

impl Screen {
    /// A screen, with colours or without.
    pub fn new(coloured: bool) -> Screen {
        Screen { coloured }
    }

    fn paint(&self, code: &str, text: &str) -> String {
        match self.coloured {
            true => format!("\x1b[{code}m{text}\x1b[0m"),
            false => text.to_owned(),
        }
    }

    /// The title of the walk.
    pub fn title(&self, text: &str) -> String {
        format!("{}\n", self.paint("1", text))
    }

    /// The title of a step.
    pub fn heading(&self, number: usize, text: &str) -> String {
        format!("\n{}\n", self.paint("1", &format!("{number}. {text}")))
    }

    /// A frame in hex, under what it is and what it means.
    pub fn frame(&self, what: &str, bytes: &[u8], meaning: &str) -> String {
        let mut text = format!("  {what}  {meaning}\n");
        for line in bytes.chunks(LINE) {
            let hex: Vec<String> = line.iter().map(|byte| format!("{byte:02x}")).collect();
            text += &format!("           {}\n", self.paint("36", &hex.join(" ")));
        }
        text
    }

    /// What the writer or the agent refuses, with its number.
    pub fn refusal(&self, who: &str, number: u16, refused: &dyn Display) -> String {
        let meaning = format!("{number}: {refused}");
        format!("  {who}   {}\n", self.paint("31", &meaning))
    }

    /// A byte of a slot that has changed, and should be 0.
    pub fn worn(&self, slot: usize, byte: usize) -> String {
        let meaning = format!("byte {byte} of slot {slot} is no longer 00");
        format!("  worn     {}\n", self.paint("31", &meaning))
    }

    /// The report of a salvage, in one line.
    pub fn report(&self, report: &Report) -> String {
        let text = report.to_string();
        let lines: Vec<&str> = text.lines().collect();
        format!("  salvage  {}\n", self.paint("1", &lines.join(", ")))
    }

    /// A reply: green where it is a success, else red.
    pub fn reply(&self, bytes: &[u8], meaning: &str, success: bool) -> String {
        let colour = if success { "32" } else { "31" };
        self.frame("reply  ", bytes, &self.paint(colour, meaning))
    }

    /// What a return did to the count, and the totals with it.
    pub fn change(&self, change: i32, counted: bool, totals: &Totals) -> String {
        let not = if counted { "" } else { ", not counted" };
        let meaning = format!("{change}{not}; {totals}");
        format!("  change   {}\n", self.paint("1", &meaning))
    }

    /// A sentence.
    pub fn note(&self, text: &str) -> String {
        format!("  {}\n", self.paint("2", text))
    }

    /// How the card is filled: five numbers, as a loading screen has them.
    fn tally(&self, tally: Tally) -> String {
        format!("  card     {}\n", self.paint("1", &tally.to_string()))
    }

    /// What is on the card: its tally, and then its listing.
    pub fn card(&self, card: &Card) -> String {
        let mut text = self.tally(card.tally());
        for line in card.listing().as_str().lines() {
            text += &format!("    {line}\n");
        }
        text
    }
}
