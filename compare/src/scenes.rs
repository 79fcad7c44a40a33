//! Scenes: short runs of requests that belong together, each with the outcome
//! that the judge expects. Requests share nothing, so the next request of a
//! session carries the record and areas of the last outcome.

use crate::calls::{self, Asked, Given, Outcome};
use crate::classics;
use crate::held::{self, Call, Event, Expression, Held};
use crate::log::{first_event, Seen};
use crate::make_held;
use crate::make_log;
use crate::make_table;
use crate::numbers::*;
use crate::record::Record;
use crate::rng::Rng;
use crate::table::{read, table_bytes, Table};
use crate::wire::{self, Request};

/// One request and what must come back.
pub struct Case {
    pub title: String,
    pub request: Request,
    pub outcome: Outcome,
}

/// Adds a scene's cases to the list.
pub fn scene(rng: &mut Rng, cases: &mut Vec<Case>) {
    let mut scene = Scene { rng, cases };
    match scene.rng.weighted(&[280, 60, 240, 420, 300, 120, 40, 6]) {
        0 => scene.damaged_table(),
        1 => scene.areas_of_all_sizes(),
        2 => scene.session(),
        3 => scene.saved(),
        4 => scene.document(),
        5 => scene.chunks(),
        6 => scene.much_work(),
        _ => scene.large(),
    }
}

struct Scene<'a> {
    rng: &'a mut Rng,
    cases: &'a mut Vec<Case>,
}

const EVERY_CALL: [Asked; 7] = [
    Asked::Check,
    Asked::Start,
    Asked::Event,
    Asked::Finish,
    Asked::HeldPart,
    Asked::Chunk,
    Asked::Document,
];

impl Scene<'_> {
    fn ask(&mut self, title: &str, asked: Asked, given: &Given) -> Outcome {
        let outcome = calls::make(asked, given);
        self.cases.push(Case {
            title: title.to_string(),
            request: Request { asked, given: given.clone() },
            outcome: outcome.clone(),
        });
        outcome
    }

    /// Areas of random words, a random record, some output.
    fn lend(&mut self, table: &[u8], h: usize) -> Given {
        let rng = &mut *self.rng;
        let (count, free) = (rng.from_to(0, 120), rng.from_to(0, 30));
        Given {
            table: table.to_vec(),
            first: rng.words(h),
            second: rng.words(h),
            offered: Vec::new(),
            output: rng.bytes(count),
            free: free as u64,
            record: Record::begun(0),
        }
    }

    fn some_h(&mut self) -> usize {
        match self.rng.below(100) {
            0..=24 => 16,
            25..=79 => self.rng.from_to(17, 64),
            80..=97 => self.rng.from_to(65, 200),
            _ => self.rng.from_to(201, 1_000),
        }
    }

    /// Damaged tables, most of them only checked.
    fn damaged_table(&mut self) {
        for _ in 0..self.rng.from_to(1, 6) {
            let table = make_table::damaged(self.rng);
            let mut given = self.lend(&table, 16);
            if self.rng.percent(70) {
                (given.first, given.second) = (vec![], vec![]);
                given.output = vec![];
                self.ask("a damaged table", Asked::Check, &given);
                continue;
            }
            if self.rng.percent(20) {
                given.first.pop();
            }
            given.offered = b"x<a></a>".to_vec();
            if let Ok(table) = read(&given.table) {
                self.save_something(&table, &mut given);
            }
            let asked = *self.rng.pick(&EVERY_CALL);
            self.ask("a damaged table", asked, &given);
        }
    }

    /// 12, by every call, also beside a record that is wrong as well.
    fn areas_of_all_sizes(&mut self) {
        let table = make_table::valid(self.rng);
        let bytes = table_bytes(&table);
        let first: usize = *self.rng.pick(&[0, 1, 15, 15, 16, 17, 31]);
        let second = if self.rng.percent(60) { first } else { self.rng.from_to(first.saturating_sub(1), first + 1) };
        let mut given = self.lend(&bytes, 16);
        if self.rng.percent(60) {
            self.save_something(&table, &mut given);
        }
        given.first.resize(first, 0);
        given.second.resize(second, 0);
        given.offered = make_log::balanced(self.rng, &table, 3);
        if self.rng.percent(25) {
            make_held::damage(self.rng, &table, &mut given);
        }
        for _ in 0..3 {
            let asked = *self.rng.pick(&EVERY_CALL[1..]);
            self.ask("areas of all sizes", asked, &given);
        }
    }

    /// A random held expression with a fitting record into the given areas.
    fn save_something(&mut self, table: &Table, given: &mut Given) {
        let open = if table.names.is_empty() {
            0
        } else {
            match self.rng.below(20) {
                0 => 64,
                1 => 63,
                2..=6 => 0,
                _ => self.rng.from_to(0, 4),
            }
        };
        let h = given.first.len();
        let most = if self.rng.percent(30) { h } else { self.rng.from_to(0, h) };
        let expression = make_held::expression(self.rng, table, open, most);
        make_held::save(self.rng, table, open, &expression, given);
    }

    /// From a start, event by event, with everything that can go wrong between.
    fn session(&mut self) {
        let table = make_table::valid(self.rng);
        let bytes = table_bytes(&table);
        let events = self.rng.from_to(0, 16);
        let mut log = make_log::balanced(self.rng, &table, events);
        if self.rng.percent(4) {
            log = make_log::deep(self.rng, &table);
        }
        if self.rng.percent(20) {
            make_log::damage(self.rng, &table, &mut log);
        }
        let h = self.some_h();
        let mut given = self.lend(&bytes, h);
        given.record = Record { area: 9, held: 77, finished: true, open: 3, names: [5; MOST_OPEN] };
        let started = self.ask("start", Asked::Start, &given);
        carry_on(&mut given, &started);
        let mut at = 0;
        let mut after_finish = 0;
        for _ in 0..self.rng.from_to(4, 24) {
            after_finish += given.record.finished as usize;
            if after_finish > 2 {
                break;
            }
            if self.rng.percent(12) {
                self.sidestep(&table, &given);
            }
            let asked = match self.rng.weighted(&[70, 10, 8, 12]) {
                0 if at < log.len() || given.record.finished => Asked::Event,
                1 if at < log.len() => Asked::Chunk,
                2 => Asked::HeldPart,
                3 if self.rng.percent(60) => Asked::Event,
                _ => Asked::Finish,
            };
            given.offered = log[at..].to_vec();
            self.offer_less(asked, &mut given);
            self.lend_again(asked, &table, &mut given);
            let outcome = self.ask("a session from start", asked, &given);
            // Bytes behind the log may have been taken too.
            at = (at + outcome.taken as usize).min(log.len());
            carry_on(&mut given, &outcome);
        }
    }

    /// All that is left of the log, one event of it, a beginning, or nothing.
    fn offer_less(&mut self, asked: Asked, given: &mut Given) {
        let length = given.offered.len();
        let keep = match self.rng.below(10) {
            0..=3 => length.min(24),
            4..=6 => first_event(&given.offered).map_or(length, |(_, taken)| taken),
            7 if length > 0 => self.rng.from_to(1, length.min(9)),
            8 if self.rng.percent(30) => 0,
            _ => length.min(60),
        };
        given.offered.truncate(keep);
        if asked == Asked::Event && self.rng.percent(5) {
            // What follows the first event cannot change the answer.
            given.offered.extend(self.rng.bytes(3));
        }
    }

    /// A request that changes nothing for the session: something is wrong.
    fn sidestep(&mut self, table: &Table, given: &Given) {
        let mut given = given.clone();
        let mut asked = *self.rng.pick(&[Asked::Event, Asked::Event, Asked::Finish, Asked::Chunk, Asked::HeldPart]);
        match self.rng.below(5) {
            0 | 1 => make_held::damage(self.rng, table, &mut given),
            2 => {
                given.offered = make_log::odd(self.rng, table);
                asked = Asked::Event;
            }
            3 => {
                given.offered = make_log::some_end(self.rng, table);
                asked = Asked::Event;
            }
            _ => {
                // The record judged against another table.
                given.table = table_bytes(&make_table::valid(self.rng));
            }
        }
        if given.offered.is_empty() && self.rng.percent(90) {
            given.offered = b"x".to_vec();
        }
        self.ask("a sidestep", asked, &given);
    }

    /// Areas and output lent anew, often just large enough or one too small.
    fn lend_again(&mut self, asked: Asked, table: &Table, given: &mut Given) {
        let foreseen = foresee(asked, table, given);
        let (bytes, size) = foreseen.unwrap_or((0, 0));
        if foreseen.is_some() && self.rng.percent(15) {
            self.lend_areas(given, size);
        }
        match self.rng.weighted(&[50, 15, 15, 20]) {
            0 => self.lend_output(given, bytes + 40, 12),
            1 => self.lend_output(given, bytes, 12),
            2 => self.lend_output(given, bytes.saturating_sub(1), 12),
            _ => {
                let count = self.rng.from_to(0, bytes.min(100) + 3);
                given.output = self.rng.bytes(count);
                let length = count as u64;
                given.free = *self.rng.pick(&[
                    0,
                    length / 2,
                    length,
                    length + 1,
                    length + 1_000,
                    u32::MAX as u64,
                    1 << 32,
                    i64::MAX as u64,
                    u64::MAX - 1,
                    u64::MAX,
                ]);
            }
        }
    }

    /// An output with so many bytes free, behind some that are not.
    fn lend_output(&mut self, given: &mut Given, room: usize, most_before: usize) {
        let room = room.min(wire::MOST_OUTPUT - most_before);
        let before = self.rng.from_to(0, most_before);
        given.output = self.rng.bytes(before + room);
        given.free = before as u64;
    }

    /// H just what the event needs, or one word less, as far as what is held
    /// now allows it.
    fn lend_areas(&mut self, given: &mut Given, size: usize) {
        let needed = (given.record.held as usize).max(LEAST_H);
        let wanted = match self.rng.below(3) {
            0 => size.saturating_sub(1),
            1 => size,
            _ => size + 1,
        };
        let h = wanted.clamp(needed, 2_000.max(needed));
        let pad = self.rng.words(h);
        for area in [&mut given.first, &mut given.second] {
            let keep = area.len().min(h);
            area.truncate(h);
            area.extend(&pad[keep..]);
        }
    }

    /// One or a few calls on a saved record and areas, whole or damaged.
    fn saved(&mut self) {
        let table = make_table::valid(self.rng);
        let bytes = table_bytes(&table);
        let h = self.some_h();
        let mut given = self.lend(&bytes, h);
        self.save_something(&table, &mut given);
        for _ in 0..self.rng.from_to(1, 4) {
            if self.rng.percent(35) {
                let mut other = given.clone();
                make_held::damage(self.rng, &table, &mut other);
                other.offered = self.some_event(&table, &other.record);
                let asked = *self.rng.pick(&[Asked::Event, Asked::Finish, Asked::HeldPart, Asked::Chunk]);
                self.ask("a damaged saved record", asked, &other);
            }
            given.offered = self.some_event(&table, &given.record);
            let asked = match self.rng.below(20) {
                0 => Asked::HeldPart,
                1 | 2 => Asked::Chunk,
                _ if given.record.open == 0 && self.rng.percent(50) => Asked::Finish,
                3 => Asked::Finish,
                _ => Asked::Event,
            };
            self.lend_again(asked, &table, &mut given);
            let outcome = self.ask("a saved record", asked, &given);
            carry_on(&mut given, &outcome);
        }
    }

    /// Bytes that begin with an event which the nesting mostly allows.
    fn some_event(&mut self, table: &Table, record: &Record) -> Vec<u8> {
        let mut bytes = Vec::new();
        let innermost = record.innermost().and_then(|name| table.names.get(name as usize));
        match self.rng.weighted(&[35, 25, 30, 10]) {
            0 if !table.names.is_empty() => {
                crate::writer::start_tag(self.rng.pick::<Vec<u8>>(&table.names), &mut bytes);
            }
            1 => match innermost {
                Some(name) => crate::writer::end_tag(name, &mut bytes),
                None => bytes.push(b'x'),
            },
            3 => bytes = make_log::odd(self.rng, table),
            _ => bytes.push(*self.rng.pick(b"xyz \n\"~")),
        }
        if self.rng.percent(40) {
            bytes.extend(make_log::balanced(self.rng, table, 4));
        }
        bytes
    }

    fn document(&mut self) {
        let table = make_table::valid(self.rng);
        let bytes = table_bytes(&table);
        let h = self.some_h();
        let mut given = self.lend(&bytes, h);
        given.record.area = 1;
        for _ in 0..self.rng.from_to(1, 3) {
            let events = self.rng.from_to(0, 30);
            given.offered = make_log::balanced(self.rng, &table, events);
            match self.rng.below(10) {
                0..=2 => make_log::damage(self.rng, &table, &mut given.offered),
                3 => given.offered = make_log::deep(self.rng, &table),
                _ => {}
            }
            // What a document with plenty of room writes, and some room about it.
            let mut plenty = given.clone();
            plenty.output = vec![0; wire::MOST_OUTPUT];
            let written = calls::make(Asked::Document, &plenty).handed as usize;
            let room = match self.rng.below(6) {
                0 => written.saturating_sub(1),
                1 => written,
                2 => self.rng.from_to(0, written),
                _ => written + self.rng.from_to(0, 20),
            };
            given.output = self.rng.bytes(room.min(wire::MOST_OUTPUT));
            given.free = *self.rng.pick(&[0, 1, 7, u64::MAX]);
            self.ask("a document", Asked::Document, &given);
        }
    }

    /// A log in pieces that do not fall between events.
    fn chunks(&mut self) {
        let table = make_table::valid(self.rng);
        let bytes = table_bytes(&table);
        let h = self.some_h();
        let mut given = self.lend(&bytes, h);
        let events = self.rng.from_to(0, 40);
        let mut log = make_log::balanced(self.rng, &table, events);
        if self.rng.percent(30) {
            make_log::damage(self.rng, &table, &mut log);
        }
        let started = self.ask("start", Asked::Start, &given);
        carry_on(&mut given, &started);
        let mut at = 0;
        for _ in 0..self.rng.from_to(1, 5) {
            let to = (at + self.rng.from_to(0, 60)).min(log.len());
            given.offered = log[at..to].to_vec();
            let room = self.rng.from_to(0, 150);
            self.lend_output(&mut given, room, 12);
            if self.rng.percent(6) {
                given.free = u64::MAX - self.rng.below(3) as u64;
            }
            let outcome = self.ask("a chunk", Asked::Chunk, &given);
            at += outcome.taken as usize;
            carry_on(&mut given, &outcome);
            if self.rng.percent(15) {
                self.ask("held between chunks", Asked::HeldPart, &given);
            }
        }
        let outcome = self.ask("finish after chunks", Asked::Finish, &given);
        carry_on(&mut given, &outcome);
        if self.rng.percent(20) {
            given.offered = if self.rng.percent(50) { vec![] } else { b"x".to_vec() };
            self.ask("a chunk after finish", Asked::Chunk, &given);
        }
    }

    /// Work about the limit of 65,536 steps and far beyond, with room and
    /// output that may not do either.
    fn much_work(&mut self) {
        if self.rng.percent(8) {
            return self.work_at_the_limit();
        }
        // Each of the nested calls hands its value on twice, or three times.
        let uses = self.rng.from_to(2, 3);
        let mut at_end = vec![classics::VALUE; uses];
        if self.rng.percent(30) {
            at_end.push(classics::element(Some(0), vec![classics::VALUE]));
        }
        let table = classics::nested(&["n"], at_end);
        let bytes = table_bytes(&table);
        let h = self.rng.from_to(64, 90);
        let mut given = self.lend(&bytes, h);
        let mut expression: Expression = match self.rng.below(3) {
            0 => vec![Held::Character(b'z')],
            1 => vec![Held::Start(0)],
            _ => vec![],
        };
        let open = self.rng.from_to(0, 2);
        for _ in 0..self.rng.from_to(8, 30) {
            let level = if self.rng.percent(92) { 1 } else { self.rng.from_to(1, open + 1) };
            let state = (self.rng.percent(95)) as usize;
            expression = vec![Held::Call(Call { state, level, arguments: vec![expression] })];
        }
        make_held::save(self.rng, &table, open, &expression, &mut given);
        given.offered = self.some_event(&table, &given.record);
        let asked = if open == 0 { Asked::Finish } else { Asked::Event };
        if open > 0 && self.rng.percent(60) {
            given.offered = b"</n>".to_vec();
        }
        self.lend_again(asked, &table, &mut given);
        self.ask("much work", asked, &given);
    }

    /// A finish of 65,535, 65,536 or 65,537 steps.
    fn work_at_the_limit(&mut self) {
        let uses = self.rng.from_to(80, 300);
        let inside = (65_500 / uses) - 1;
        let steps = 1 + uses * (1 + inside);
        let behind = (self.rng.from_to(65_535, 65_537)).saturating_sub(steps);
        let table = classics::times(uses);
        let mut given = self.lend(&table_bytes(&table), (2 + inside + behind).max(LEAST_H));
        let argument = vec![Held::Character(b'w'); inside];
        let mut expression = vec![Held::Call(Call { state: 0, level: 1, arguments: vec![argument] })];
        expression.extend(vec![Held::Character(b'v'); behind]);
        make_held::save(self.rng, &table, 0, &expression, &mut given);
        self.lend_again(Asked::Finish, &table, &mut given);
        self.ask("work at the limit", Asked::Finish, &given);
    }

    /// Large tables, areas and logs.
    fn large(&mut self) {
        match self.rng.below(4) {
            0 => {
                let table = make_table::large(self.rng);
                let mut given = self.lend(&table_bytes(&table), 64);
                self.save_something(&table, &mut given);
                given.offered = self.some_event(&table, &given.record);
                self.lend_again(Asked::Event, &table, &mut given);
                self.ask("a large table", Asked::Event, &given);
                given.offered = make_log::balanced(self.rng, &table, 60);
                self.lend_output(&mut given, 20_000, 0);
                self.ask("a large table", Asked::Document, &given);
            }
            1 => {
                let table = make_table::valid(self.rng);
                let h = *self.rng.pick(&[8_191, 8_192, 8_192, 8_193]);
                let mut given = self.lend(&table_bytes(&table), h);
                let open = if table.names.is_empty() { 0 } else { 2 };
                let most = self.rng.from_to(0, 8_190);
                let expression = wide(self.rng, &table, open, most);
                make_held::save(self.rng, &table, open, &expression, &mut given);
                given.offered = self.some_event(&table, &given.record);
                self.lend_again(Asked::Event, &table, &mut given);
                for asked in [Asked::Event, Asked::HeldPart] {
                    self.ask("large areas", asked, &given);
                }
            }
            2 => {
                let table = make_table::valid(self.rng);
                let mut given = self.lend(&table_bytes(&table), 100);
                let events = self.rng.from_to(500, 3_000);
                given.offered = make_log::balanced(self.rng, &table, events);
                given.offered.truncate(wire::MOST_OFFERED);
                self.lend_output(&mut given, 60_000, 0);
                self.ask("a long log", Asked::Document, &given);
            }
            _ => {
                let table = make_table::damaged(self.rng);
                let mut given = self.lend(&table, 8_193);
                given.second.pop();
                let asked = *self.rng.pick(&EVERY_CALL);
                self.ask("unequal large areas", asked, &given);
            }
        }
    }
}

/// Many small expressions in a row.
fn wide(rng: &mut Rng, table: &Table, open: usize, most: usize) -> Expression {
    let mut expression = Vec::new();
    let mut left = most;
    loop {
        let part = make_held::expression(rng, table, open, left.min(60));
        if part.is_empty() {
            return expression;
        }
        left -= held::size(&part);
        expression.extend(part);
    }
}

/// The next request goes on from the last outcome.
fn carry_on(given: &mut Given, outcome: &Outcome) {
    given.record = outcome.record;
    given.first = outcome.first.clone();
    given.second = outcome.second.clone();
}

/// The bytes that an event or finish would hand out and the words it would
/// hold, if it gets so far.
fn foresee(asked: Asked, table: &Table, given: &Given) -> Option<(usize, usize)> {
    let expression = given.record.expression(table, &given.first, &given.second)?;
    let event = match asked {
        Asked::Finish if given.record.open == 0 => Event::Finish,
        Asked::Event | Asked::Chunk => match first_event(&given.offered).ok()?.0 {
            Seen::Character(leaf) => Event::Character(leaf),
            Seen::Start(name) => Event::Start(table.number_of(name)?),
            Seen::End(name) => {
                let name = table.number_of(name)?;
                (given.record.innermost() == Some(name)).then_some(Event::End)?
            }
        },
        _ => return None,
    };
    if held::steps(table, &expression, event) > MOST_STEPS {
        return None;
    }
    let (bytes, rest) = held::settled(table, held::rewritten(table, &expression, event));
    Some((bytes.len(), held::size(&rest)))
}
