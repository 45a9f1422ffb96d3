//! One measured line: figures, ratios, bars.

use model::Order;

use crate::contest::{Times, Who};

/// What a line belongs to.
#[derive(Clone, Copy, Debug, Eq, PartialEq)]
pub enum Part {
    Fields,
    KnownFields,
    ShortRows,
    Rows,
    Inside,
    Heads,
    Searches,
    FirstWord,
}

impl Part {
    /// All of them, in the order in which they are shown.
    pub const ALL: [Part; 8] = [
        Part::Fields,
        Part::KnownFields,
        Part::ShortRows,
        Part::Rows,
        Part::Inside,
        Part::Heads,
        Part::Searches,
        Part::FirstWord,
    ];

    /// Its title.
    pub fn title(self) -> &'static str {
        match self {
            Part::Fields => "Fields at odd heads",
            Part::KnownFields => "The same called from Rattle, order and significance known",
            Part::ShortRows => "Rows of 100 bits",
            Part::Rows => "Rows",
            Part::Inside => "Copy inside 65,536 words, by the distance in bits",
            Part::Heads => "Two rows of 65,536 words, by the heads of the left and the right one",
            Part::Searches => "Searches of sparse rows, the bit at the far end",
            Part::FirstWord => "Searches that find the bit in the first word",
        }
    }

    /// Whether its figures are gigabytes a second, else nanoseconds.
    pub fn is_rate(self) -> bool {
        matches!(self, Part::Rows | Part::Searches) || self.is_across()
    }

    /// Whether its lines stand beside each other in a table, by the last word of their jobs, a row for each contestant.
    pub fn is_across(self) -> bool {
        matches!(self, Part::Inside | Part::Heads)
    }
}

/// The library is to be at least so many times as fast as another, or to reach so many gigabytes a second.
#[derive(Clone, Copy)]
pub struct Bar {
    pub against: Who,
    pub at_least: f64,
    pub or_rate: Option<f64>,
}

impl Bar {
    /// Its number, with at most two places, and the rate.
    pub fn text(self) -> String {
        let rate = self.or_rate.map_or(String::new(), |rate| format!(" or {rate} GB/s"));
        format!("{}{rate}", (self.at_least * 100.0).round() / 100.0)
    }
}

/// A job with its times.
pub struct Line {
    pub part: Part,
    pub job: &'static str,
    pub width: usize,
    pub order: Order,
    /// The words of the row's buffer.
    pub words: usize,
    /// The bits that the job is about.
    pub bits: usize,
    pub times: Times,
    pub bars: Vec<Bar>,
}

impl Line {
    /// Takes over each time that is better.
    pub fn keep_best(&mut self, others: Times) {
        for (time, other) in self.times.iter_mut().zip(others) {
            *time = time.zip(other).map(|(time, other)| time.min(other));
        }
    }

    /// Nanoseconds, or gigabytes (10^9 bytes of one side's row) a second.
    pub fn figure(&self, who: Who) -> Option<f64> {
        let time = self.times[who as usize]?;
        Some(if self.part.is_rate() { self.bits as f64 / 8.0 / time } else { time })
    }

    /// How many times as fast as another the library is.
    pub fn ratio(&self, who: Who) -> Option<f64> {
        Some(self.times[who as usize]? / self.times[Who::Library as usize]?)
    }

    /// Whether a bar is met.
    pub fn meets(&self, bar: Bar) -> bool {
        self.ratio(bar.against).is_some_and(|ratio| ratio >= bar.at_least)
            || self.figure(Who::Library).zip(bar.or_rate).is_some_and(|(rate, enough)| rate >= enough)
    }

    /// The order's name.
    pub fn order_name(&self) -> &'static str {
        match self.order {
            Order::Lsb0 => "Lsb0",
            Order::Msb0 => "Msb0",
        }
    }

    /// The bars with what became of them.
    pub fn bars_text(&self) -> String {
        let text = |bar: &Bar| {
            let verdict = if self.meets(*bar) { "met" } else { "MISSED" };
            format!("{} {}: {verdict}", name(bar.against), bar.text())
        };
        self.bars.iter().map(text).collect::<Vec<_>>().join("; ")
    }
}

/// What a contestant is called in the tables.
pub fn name(who: Who) -> &'static str {
    match who {
        Who::Library => "library",
        Who::Bitvec => "bitvec",
        Who::Plain => "plain",
        Who::Checked => "checked",
        Who::Memory => "mem*",
        Who::Eight => "eight bytes",
    }
}
