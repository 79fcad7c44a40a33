//! Random held expressions with records, as a caller might have saved them,
//! and damage to them.

use crate::calls::Given;
use crate::held::{Call, Expression, Held};
use crate::make_table::some_leaf;
use crate::numbers::MOST_OPEN;
use crate::record::Record;
use crate::rng::Rng;
use crate::table::Table;
use crate::words::{self, word};

/// An expression of at most `most` words for this table and depth; its tags
/// need not balance.
pub fn expression(rng: &mut Rng, table: &Table, open: usize, most: usize) -> Expression {
    let mut maker = Maker { rng, table, open, left: most };
    let mut expression = Vec::new();
    match maker.call(4) {
        Some(call) => expression.push(call),
        None => return expression,
    }
    expression.extend(maker.sequence(4, 6));
    expression
}

struct Maker<'a> {
    rng: &'a mut Rng,
    table: &'a Table,
    open: usize,
    left: usize,
}

impl Maker<'_> {
    fn sequence(&mut self, depth: usize, width: usize) -> Expression {
        let count = self.rng.below(width + 1);
        (0..count).filter_map(|_| self.held(depth)).collect()
    }

    fn held(&mut self, depth: usize) -> Option<Held> {
        let names = self.table.names.len();
        match self.rng.weighted(&[40, 20, 20, 20]) {
            0 => return self.call(depth),
            1 if names > 0 => {
                self.pay(1)?;
                Some(Held::Start(self.rng.below(names) as u8))
            }
            2 if names > 0 => {
                self.pay(1)?;
                Some(Held::End(self.rng.below(names) as u8))
            }
            _ => {
                self.pay(1)?;
                Some(Held::Character(some_leaf(self.rng)))
            }
        }
    }

    fn call(&mut self, depth: usize) -> Option<Held> {
        let state = self.rng.below(self.table.values.len());
        let values = self.table.values[state];
        self.pay(1 + values)?;
        let level = if self.rng.percent(55) { 1 } else { self.rng.from_to(1, self.open + 1) };
        let width = if depth == 0 { 0 } else { 3 };
        let mut arguments = Vec::new();
        for _ in 0..values {
            arguments.push(self.sequence(depth.saturating_sub(1), width));
        }
        Some(Held::Call(Call { state, level, arguments }))
    }

    fn pay(&mut self, words: usize) -> Option<()> {
        self.left = self.left.checked_sub(words)?;
        Some(())
    }
}

/// A record with `open` elements open and this expression in a random area,
/// the words around it left as they are.
pub fn save(rng: &mut Rng, table: &Table, open: usize, expression: &Expression, given: &mut Given) {
    let mut words = Vec::new();
    words::encode(expression, &mut words);
    let area = rng.below(2) as u8;
    let mut record = Record { area, ..Record::begun(words.len() as u32) };
    for _ in 0..open {
        record = record.with_opened(rng.below(table.names.len()) as u8);
    }
    let lent = if area == 0 { &mut given.first } else { &mut given.second };
    lent[..words.len()].copy_from_slice(&words);
    given.record = record;
}

/// One thing about record or areas changed, so that mostly 13 is the answer.
pub fn damage(rng: &mut Rng, table: &Table, given: &mut Given) {
    let held = given.record.held as usize;
    let h = selected(given).len();
    match rng.weighted(&[28, 28, 22, 10, 12]) {
        0 => record_damaged(rng, given),
        1 => word_damaged(rng, table, given),
        3 => word_added_or_taken(rng, table, given),
        2 if held > 0 && held <= h => {
            let at = rng.below(held);
            let bit = 1 << rng.below(32);
            selected(given)[at] ^= bit;
        }
        _ => {
            // Past the held part, or in the other area: this is nobody's word.
            if held < h {
                let at = rng.from_to(held, h - 1);
                selected(given)[at] = rng.next() as u32;
            }
            let other = if given.record.area == 0 { &mut given.second } else { &mut given.first };
            if !other.is_empty() {
                let at = rng.below(other.len());
                other[at] = rng.next() as u32;
            }
        }
    }
}

fn selected(given: &mut Given) -> &mut Vec<u32> {
    if given.record.area == 0 {
        &mut given.first
    } else {
        &mut given.second
    }
}

fn record_damaged(rng: &mut Rng, given: &mut Given) {
    let h = given.first.len() as u32;
    let record = &mut given.record;
    match rng.below(14) {
        0 => record.area ^= 1,
        1 => record.area = *rng.pick(&[2, 3, 128, 255]),
        2 => record.held = record.held.wrapping_add(1),
        3 => record.held = record.held.wrapping_sub(1),
        4 => record.held = *rng.pick(&[0, h, h.wrapping_add(1), 0x8000_0000, u32::MAX]),
        5 => record.finished = !record.finished,
        6 => record.open = record.open.wrapping_add(1),
        7 => record.open = record.open.wrapping_sub(1),
        8 => record.open = *rng.pick(&[0, 63, 64, 65, 255]),
        9 => {
            let place = rng.below(MOST_OPEN);
            record.names[place] ^= 1 << rng.below(8);
        }
        10 => {
            let unused = (record.open as usize).min(MOST_OPEN - 1);
            record.names[unused] = rng.from_to(1, 255) as u8;
        }
        11 => record.names[MOST_OPEN - 1] = 1,
        12 => {
            if record.open > 0 {
                let place = rng.below((record.open as usize).min(MOST_OPEN));
                record.names[place] = *rng.pick(&[0, 1, 2, 3, 4, 5, 127, 128, 255]);
            }
        }
        _ => {
            record.finished = true;
            record.held = 0;
            if rng.percent(70) {
                record.open = 0;
                record.names = [0; MOST_OPEN];
            }
        }
    }
}

/// One word put in or left out, all others as they were: an expression that
/// begins with a tag, an argument too many or one that never ends.
fn word_added_or_taken(rng: &mut Rng, table: &Table, given: &mut Given) {
    let held = given.record.held as usize;
    let h = selected(given).len();
    if held >= h {
        return;
    }
    let at = if rng.percent(40) { 0 } else { rng.from_to(0, held) };
    if rng.percent(70) {
        let names = table.names.len().max(1);
        let added = match rng.below(4) {
            0 => word(words::START, rng.below(names) as u32),
            1 => word(words::END, rng.below(names) as u32),
            2 => word(words::CHARACTER, some_leaf(rng) as u32),
            _ => word(words::END_OF_ARGUMENT, 0),
        };
        let area = selected(given);
        area.insert(at, added);
        area.truncate(h);
        given.record.held += 1;
    } else if held > 0 {
        let area = selected(given);
        area.remove(at.min(held - 1));
        area.push(0);
        given.record.held -= 1;
    }
}

/// One held word replaced by another, wrong in one way or right by chance.
fn word_damaged(rng: &mut Rng, table: &Table, given: &mut Given) {
    let held = given.record.held as usize;
    if held == 0 || held > selected(given).len() {
        return;
    }
    let open = given.record.open as u32;
    let (names, states) = (table.names.len() as u32, table.values.len() as u32);
    let calls: Vec<usize> = (0..held).filter(|at| selected(given)[*at] >> 28 == words::CALL).collect();
    let at = if calls.is_empty() || rng.percent(40) { rng.below(held) } else { *rng.pick(&calls) };
    let before = selected(given)[at];
    let (state, payload) = (before >> 8 & 0xFF, before & 0xFF);
    selected(given)[at] = match rng.below(16) {
        0 => word(words::CALL, state * 256),
        1 => word(words::CALL, state * 256 + open + 2),
        2 => word(words::CALL, state * 256 + open + 1),
        3 => word(words::CALL, states * 256 + 1),
        4 => word(words::CALL, rng.below(states as usize) as u32 * 256 + payload),
        5 => word(words::CALL, (state + 256) * 256 + 1),
        6 => word(words::START, names),
        7 => word(words::END, names),
        8 => word(words::START, names.saturating_sub(1)),
        9 => word(words::CHARACTER, *rng.pick(&[0, 8, 9, 10, 11, 12, 13, 14, 31, 32, 60, 62, 126, 127, 128, 0x178, 0x10FFFF])),
        10 => word(words::END_OF_ARGUMENT, 0),
        11 => word(words::END_OF_ARGUMENT, 1),
        12 => word(*rng.pick(&[0, 6, 7, 8, 15]), payload),
        13 => before | 1 << rng.from_to(8, 27),
        14 => word(words::CALL, state * 256 + 66),
        _ => rng.next() as u32,
    };
}
