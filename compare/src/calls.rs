//! The public calls, each from everything it is given to its whole outcome.

use crate::held::{self, Event, Expression};
use crate::log::{first_event, Seen};
use crate::numbers::*;
use crate::record::Record;
use crate::table::{self, Table};
use crate::words;

/// Which call.
#[derive(Clone, Copy, Debug, PartialEq, Eq)]
pub enum Asked {
    Check,
    Start,
    Event,
    Finish,
    HeldPart,
    Chunk,
    Document,
}

/// Everything that is lent or handed to a call.
#[derive(Clone, Debug, PartialEq, Eq)]
pub struct Given {
    pub table: Vec<u8>,
    pub first: Vec<u32>,
    pub second: Vec<u32>,
    pub offered: Vec<u8>,
    pub output: Vec<u8>,
    pub free: u64,
    pub record: Record,
}

/// Everything that comes back. What a call does not return is 0, or the record
/// as it was given.
#[derive(Clone, Debug, PartialEq, Eq)]
pub struct Outcome {
    pub number: u8,
    pub place: u64,
    pub taken: u64,
    pub steps: u64,
    pub handed: u64,
    pub record: Record,
    pub held_part: Vec<u32>,
    pub first: Vec<u32>,
    pub second: Vec<u32>,
    pub output: Vec<u8>,
}

/// Makes the call.
pub fn make(asked: Asked, given: &Given) -> Outcome {
    match asked {
        Asked::Check => check(given),
        Asked::Start => start(given),
        Asked::Event => event(given),
        Asked::Finish => finish(given),
        Asked::HeldPart => held_part(given),
        Asked::Chunk => chunk(given),
        Asked::Document => document(given),
    }
}

/// "A refused event returns its number with 0 bytes taken, 0 steps and 0 handed
/// out, and changes no lent byte or word, nor the record."
fn unchanged(given: &Given, number: u8, place: usize) -> Outcome {
    Outcome {
        number,
        place: place as u64,
        taken: 0,
        steps: 0,
        handed: 0,
        record: given.record,
        held_part: Vec::new(),
        first: given.first.clone(),
        second: given.second.clone(),
        output: given.output.clone(),
    }
}

/// The check of a table: number and place, for acceptance its length.
fn check(given: &Given) -> Outcome {
    match table::read(&given.table) {
        Ok(_) => unchanged(given, ACCEPTED, given.table.len()),
        Err(refusal) => unchanged(given, refusal.number, refusal.place),
    }
}

/// 12: "H outside its range or lengths unequal".
fn areas_refused(given: &Given) -> bool {
    let h = given.first.len();
    !(LEAST_H..=MOST_H).contains(&h) || given.second.len() != h
}

/// "a start call, refused only by table or 12, puts that at the front of the
/// first area and returns a fresh record; refused, it returns a record noted as
/// finished, nothing open or held, and changes no area"
fn start(given: &Given) -> Outcome {
    let refused = |number| Outcome { record: Record::refused(), ..unchanged(given, number, 0) };
    let table = match table::read(&given.table) {
        Ok(table) => table,
        Err(refusal) => return refused(refusal.number),
    };
    if areas_refused(given) {
        return refused(AREA);
    }
    let mut lent = Lent::of(given);
    lent.begin(&table);
    lent.outcome(given, ACCEPTED)
}

/// "Each call checks all it is given": table, 12, then 13, in this order.
fn checked(given: &Given) -> Result<(Table, Expression), u8> {
    let table = table::read(&given.table).map_err(|refusal| refusal.number)?;
    if areas_refused(given) {
        return Err(AREA);
    }
    let expression = given
        .record
        .expression(&table, &given.first, &given.second)
        .ok_or(RECORD)?;
    Ok((table, expression))
}

/// As `checked`, with 13's last clause: "or an event or finish is offered after
/// an accepted finish, which the record notes".
fn checked_running(given: &Given) -> Result<Table, u8> {
    let (table, _) = checked(given)?;
    if given.record.finished {
        return Err(RECORD);
    }
    Ok(table)
}

fn event(given: &Given) -> Outcome {
    let taken = checked_running(given).and_then(|table| {
        let mut lent = Lent::of(given);
        lent.take(&table, &given.offered)?;
        Ok(lent)
    });
    match taken {
        Ok(lent) => lent.outcome(given, ACCEPTED),
        Err(number) => unchanged(given, number, 0),
    }
}

fn finish(given: &Given) -> Outcome {
    let finished = checked_running(given).and_then(|table| {
        let mut lent = Lent::of(given);
        lent.finish(&table)?;
        Ok(lent)
    });
    match finished {
        Ok(lent) => lent.outcome(given, ACCEPTED),
        Err(number) => unchanged(given, number, 0),
    }
}

/// "A reader can ask for the held part: it comes back as a part of the area
/// that now carries it, or as an empty part of the first area where table, 12
/// or 13 refuses." A finished record is 13 only with something open or held.
fn held_part(given: &Given) -> Outcome {
    let mut outcome = unchanged(given, ACCEPTED, 0);
    if checked(given).is_ok() {
        let area = if given.record.area == 0 { &given.first } else { &given.second };
        outcome.held_part = area[..given.record.held as usize].to_vec();
    }
    outcome
}

/// Events "taken while bytes are left and each is accepted"; the sums of the
/// accepted ones, and the number of the refused one.
fn chunk(given: &Given) -> Outcome {
    let table = match checked_running(given) {
        Ok(table) => table,
        Err(number) => return unchanged(given, number, 0),
    };
    let mut lent = Lent::of(given);
    let number = lent.take_all(&table, &given.offered).err().unwrap_or(ACCEPTED);
    lent.outcome(given, number)
}

/// "A whole document begins with a start and output byte 0 and returns number,
/// place and bytes written; output and areas are as its start and accepted
/// events left them. The place is the first byte of the refused field or event,
/// or the input's length for finish, 11 and acceptance."
fn document(given: &Given) -> Outcome {
    let table = match table::read(&given.table) {
        Ok(table) => table,
        Err(refusal) => return unchanged(given, refusal.number, refusal.place),
    };
    if areas_refused(given) {
        return unchanged(given, AREA, 0);
    }
    let mut lent = Lent { free: 0, ..Lent::of(given) };
    lent.begin(&table);
    let length = given.offered.len();
    let (number, place) = match lent.take_all(&table, &given.offered) {
        Err(CUT) => (CUT, length),
        Err(number) => (number, lent.taken as usize),
        Ok(()) => (lent.finish(&table).err().unwrap_or(ACCEPTED), length),
    };
    Outcome {
        place: place as u64,
        taken: 0,
        steps: 0,
        record: given.record,
        ..lent.outcome(given, number)
    }
}

/// What is lent, while accepted events change it, and their sums.
struct Lent {
    record: Record,
    first: Vec<u32>,
    second: Vec<u32>,
    output: Vec<u8>,
    free: u64,
    taken: u64,
    steps: u64,
    handed: u64,
}

impl Lent {
    fn of(given: &Given) -> Lent {
        Lent {
            record: given.record,
            first: given.first.clone(),
            second: given.second.clone(),
            output: given.output.clone(),
            free: given.free,
            taken: 0,
            steps: 0,
            handed: 0,
        }
    }

    fn outcome(self, given: &Given, number: u8) -> Outcome {
        Outcome {
            number,
            taken: self.taken,
            steps: self.steps,
            handed: self.handed,
            record: self.record,
            first: self.first,
            second: self.second,
            output: self.output,
            ..unchanged(given, number, 0)
        }
    }

    fn begin(&mut self, table: &Table) {
        let mut words = Vec::new();
        words::encode(&held::fresh(table), &mut words);
        self.first[..words.len()].copy_from_slice(&words);
        self.record = Record::begun(words.len() as u32);
    }

    fn take_all(&mut self, table: &Table, offered: &[u8]) -> Result<(), u8> {
        let before = self.taken;
        while ((self.taken - before) as usize) < offered.len() {
            let taken = (self.taken - before) as usize;
            self.take(table, &offered[taken..])?;
        }
        Ok(())
    }

    /// One event: "4 or 11, 5, 6, 7, 8, 9, 10".
    fn take(&mut self, table: &Table, offered: &[u8]) -> Result<(), u8> {
        let (seen, taken) = first_event(offered)?;
        let (event, record) = match seen {
            Seen::Character(leaf) => (Event::Character(leaf), self.record),
            Seen::Start(name) => {
                let name = table.number_of(name).ok_or(NAME)?;
                // "a 65th open element"
                if self.record.open as usize == MOST_OPEN {
                    return Err(DEPTH);
                }
                (Event::Start(name), self.record.with_opened(name))
            }
            Seen::End(name) => {
                let name = table.number_of(name).ok_or(NAME)?;
                // "end tag with nothing open, or another name open"
                if self.record.innermost() != Some(name) {
                    return Err(NEST);
                }
                (Event::End, self.record.with_closed())
            }
        };
        self.rewrite(table, event, record)?;
        self.taken += taken as u64;
        Ok(())
    }

    /// "Finish is a call of its own." 11: "finish with an element open".
    fn finish(&mut self, table: &Table) -> Result<(), u8> {
        if self.record.open != 0 {
            return Err(CUT);
        }
        let record = Record { finished: true, ..self.record };
        self.rewrite(table, Event::Finish, record)
    }

    /// The rewriting, then 8, 9, 10. `record` has the nesting after the event.
    fn rewrite(&mut self, table: &Table, event: Event, record: Record) -> Result<(), u8> {
        let expression = self
            .record
            .expression(table, &self.first, &self.second)
            .expect("an accepted event leaves a held expression");
        let steps = held::steps(table, &expression, event);
        if steps > MOST_STEPS {
            return Err(WORK);
        }
        let (bytes, rest) = held::settled(table, held::rewritten(table, &expression, event));
        let size = held::size(&rest);
        if size > self.first.len() {
            return Err(ROOM);
        }
        // "A first free byte past the output's end means that none is free."
        let length = self.output.len();
        let free = usize::try_from(self.free).map_or(length, |free| free.min(length));
        if bytes.len() > length - free {
            return Err(OUTPUT);
        }
        // "Each event's bytes are written from the first free byte of the
        // output onward; all other bytes stay."
        self.output[free..free + bytes.len()].copy_from_slice(&bytes);
        // "An accepted event reads one and puts the new held part at the front
        // of the other; all else in both stays."
        let mut words = Vec::new();
        words::encode(&rest, &mut words);
        assert_eq!(words.len(), size, "one word per unit of size");
        let other = 1 - record.area;
        let area = if other == 0 { &mut self.first } else { &mut self.second };
        area[..size].copy_from_slice(&words);
        self.record = Record { area: other, held: size as u32, ..record };
        // Past the end nothing was handed out, so this cannot overflow.
        self.free += bytes.len() as u64;
        self.steps += steps as u64;
        self.handed += bytes.len() as u64;
        Ok(())
    }
}
