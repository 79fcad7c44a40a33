//! The saved record, and 13.

use crate::held::Expression;
use crate::numbers::*;
use crate::table::Table;
use crate::words;

/// Which area, how many words held, finished, and the names open. It is kept
/// as it was given, also where it makes no sense.
#[derive(Clone, Copy, Debug, PartialEq, Eq)]
pub struct Record {
    pub area: u8,
    pub held: u32,
    pub finished: bool,
    pub open: u8,
    pub names: [u8; MOST_OPEN],
}

impl Record {
    /// The first area selected, nothing open; for a start.
    pub fn begun(held: u32) -> Record {
        Record { area: 0, held, finished: false, open: 0, names: [0; MOST_OPEN] }
    }

    /// A refused start "returns a record noted as finished, nothing open or held".
    pub fn refused() -> Record {
        Record { finished: true, ..Record::begun(0) }
    }

    /// The innermost open element's name.
    pub fn innermost(&self) -> Option<u8> {
        let last = (self.open as usize).checked_sub(1)?;
        self.names.get(last).copied()
    }

    pub fn with_opened(mut self, name: u8) -> Record {
        self.names[self.open as usize] = name;
        self.open += 1;
        self
    }

    /// An end tag clears its place: unused places are 0.
    pub fn with_closed(mut self) -> Record {
        self.open -= 1;
        self.names[self.open as usize] = 0;
        self
    }

    /// The held expression, where 13's first clause finds no fault: "record
    /// and area do not encode a held expression for this table, beginning with
    /// a call or empty, levels 1 to open elements + 1, open names of this
    /// table, nothing open or held once finished". The areas are checked (12).
    pub fn expression(&self, table: &Table, first: &[u32], second: &[u32]) -> Option<Expression> {
        let area = match self.area {
            0 => first,
            1 => second,
            _ => return None,
        };
        let words = area.get(..self.held as usize)?;
        let open = self.open as usize;
        if open > MOST_OPEN {
            return None;
        }
        let (used, unused) = self.names.split_at(open);
        let names_known = used.iter().all(|name| (*name as usize) < table.names.len());
        let unused_clear = unused.iter().all(|place| *place == 0);
        let nothing_left = !self.finished || (open == 0 && self.held == 0);
        if names_known && unused_clear && nothing_left {
            words::decode(words, table, open)
        } else {
            None
        }
    }
}
