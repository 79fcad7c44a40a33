//! Document 01's refusal numbers and limits.

pub const ACCEPTED: u8 = 0;
pub const FORM: u8 = 1;
pub const LIMIT: u8 = 2;
pub const RULE: u8 = 3;
pub const BYTE: u8 = 4;
pub const NAME: u8 = 5;
pub const NEST: u8 = 6;
pub const DEPTH: u8 = 7;
pub const WORK: u8 = 8;
pub const ROOM: u8 = 9;
pub const OUTPUT: u8 = 10;
pub const CUT: u8 = 11;
pub const AREA: u8 = 12;
pub const RECORD: u8 = 13;

/// "Names 128. States 64. Right side 64 words. Table 32,768 bytes. Open
/// elements 64. H 16 to 8,192. Steps per event 65,536."
pub const MOST_NAMES: usize = 128;
pub const MOST_STATES: usize = 64;
pub const MOST_WORDS: usize = 64;
pub const MOST_TABLE: usize = 32_768;
pub const MOST_OPEN: usize = 64;
pub const LEAST_H: usize = 16;
pub const MOST_H: usize = 8_192;
pub const MOST_STEPS: u128 = 65_536;

/// "At most 8 ends (1F) are owed at any point"
pub const MOST_OWED: usize = 8;
/// "carried values of a state, 0 to 4"
pub const MOST_VALUES: u8 = 4;

/// A refusal of a table or a document: its number and its place.
#[derive(Clone, Copy, Debug, PartialEq, Eq)]
pub struct Refusal {
    pub number: u8,
    pub place: usize,
}

/// What a number is called, for messages.
pub fn called(number: u8) -> &'static str {
    match number {
        0 => "accepted",
        1 => "form",
        2 => "limit",
        3 => "rule",
        4 => "byte",
        5 => "name",
        6 => "nest",
        7 => "depth",
        8 => "work",
        9 => "room",
        10 => "output",
        11 => "cut",
        12 => "area",
        13 => "record",
        _ => "no number of document 01",
    }
}
