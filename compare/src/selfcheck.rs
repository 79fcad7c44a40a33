//! The judge against itself: its event-by-event model against its evaluator
//! on trees, on random tables and logs, and the papers' numbers.

use crate::calls::{self, Asked, Given};
use crate::held;
use crate::make_log;
use crate::make_table;
use crate::meaning;
use crate::numbers::*;
use crate::record::Record;
use crate::rng::Rng;
use crate::show;
use crate::table::{read, table_bytes, Table};
use crate::tree;
use crate::vectors;
use crate::words;

/// Evaluations of an item on the tree, before a case is passed over.
const FUEL: u64 = 100_000;

/// What was seen, for the last line.
#[derive(Default)]
pub struct Tally {
    pub accepted: usize,
    pub refused: [usize; 14],
    pub evaluated: usize,
    pub too_long: usize,
    pub read_once: usize,
    pub bytes: usize,
}

/// The papers' numbers, then random cases; the first fault in words.
pub fn check(count: usize, seed: u64) -> Result<(usize, Tally), String> {
    let (cases, faults) = vectors::all();
    if !faults.is_empty() {
        return Err(faults.join("\n"));
    }
    let mut tally = Tally::default();
    let mut rng = Rng::new(seed);
    for case in 0..count {
        one(&mut rng, &mut tally).map_err(|fault| format!("random case {case} of seed {seed}: {fault}"))?;
    }
    Ok((cases.len(), tally))
}

fn one(rng: &mut Rng, tally: &mut Tally) -> Result<(), String> {
    let table = if rng.percent(2) { make_table::large(rng) } else { make_table::valid(rng) };
    let bytes = table_bytes(&table);
    let reread = read(&bytes).map_err(|refusal| format!("a valid table is refused: {refusal:?}"))?;
    same("the table's bytes", &table_bytes(&reread), &bytes)?;
    let events = if rng.percent(10) { rng.from_to(0, 300) } else { rng.from_to(0, 30) };
    let mut log = if rng.percent(4) { make_log::deep(rng, &table) } else { make_log::balanced(rng, &table, events) };
    if rng.percent(25) {
        make_log::damage(rng, &table, &mut log);
    }
    let (h, output) = match rng.below(20) {
        0 => (MOST_H, 1 << 18),
        1..=6 => (rng.from_to(16, 60), 1 << 14),
        _ => (rng.from_to(61, 900), 1 << 14),
    };
    let given = Given {
        table: bytes,
        first: rng.words(h),
        second: rng.words(h),
        offered: log,
        output: vec![b'_'; output],
        free: 0,
        record: Record::refused(),
    };
    let told = |fault: String| {
        format!("{fault}\n{}log: {}", show::table(&given.table), show::text(&given.offered))
    };
    whole(&table, &given, tally).map_err(told)?;
    pieces(rng, &table, &given, tally).map_err(told)
}

/// The document against the tree: demand 2, and 4, 11, 5, 6, 7 with places.
fn whole(table: &Table, given: &Given, tally: &mut Tally) -> Result<(), String> {
    let outcome = calls::make(Asked::Document, given);
    let handed = &outcome.output[..outcome.handed as usize];
    let number = outcome.number;
    tally.refused[number as usize] += 1;
    match tree::build(&given.offered, table) {
        Err(refusal) => {
            let earlier = matches!(number, WORK | ROOM | OUTPUT);
            if earlier {
                return if outcome.place <= refusal.place as u64 { Ok(()) } else { Err("8, 9 or 10 too late".into()) };
            }
            same("the log's refusal", &(number, outcome.place), &(refusal.number, refusal.place as u64))
        }
        Ok(tree) => {
            let written = tree.written(table);
            let again = tree::build(&written, table).map_err(|r| format!("what is written is refused: {r:?}"))?;
            same("the tree read back", &again, &tree)?;
            if number == ACCEPTED {
                tally.accepted += 1;
                same("place", &outcome.place, &(given.offered.len() as u64))?;
            } else if !matches!(number, WORK | ROOM | OUTPUT) {
                return Err(format!("refused {number}, but the log is a tree"));
            }
            let Some(forest) = meaning::image(table, &tree, FUEL) else {
                tally.too_long += 1;
                return Ok(());
            };
            tally.evaluated += 1;
            match forest.written(table, 4 * given.output.len()) {
                None if number == ACCEPTED => Err("the tree's image is too long".into()),
                None => Ok(()),
                Some(image) if number == ACCEPTED => {
                    tally.bytes += image.len();
                    same("bytes handed out", &show::text(handed), &show::text(&image))?;
                    same("bytes handed out", handed, &image[..])
                }
                Some(image) if image.starts_with(handed) => Ok(()),
                Some(_) => Err("what was handed out is no beginning of the image".into()),
            }
        }
    }
}

/// The same log event by event and in chunks; sizes, encodings and demand 3.
fn pieces(rng: &mut Rng, table: &Table, given: &Given, tally: &mut Tally) -> Result<(), String> {
    let document = calls::make(Asked::Document, given);
    let once = table.reads_once();
    tally.read_once += once as usize;
    let (p, largest) = (table.values[0], table.largest());
    let mut state = given.clone();
    let started = calls::make(Asked::Start, &state);
    (state.record, state.first, state.second) = (started.record, started.first, started.second);
    let by_chunk = rng.percent(40);
    let (mut at, mut events) = (0, 0);
    let (number, place) = loop {
        let before = state.record.held as usize;
        let last = at == given.offered.len();
        let asked = match (last, by_chunk) {
            (true, _) => Asked::Finish,
            (false, true) => Asked::Chunk,
            (false, false) => Asked::Event,
        };
        state.offered = given.offered[at..].to_vec();
        if by_chunk && rng.percent(70) {
            state.offered.truncate(rng.from_to(0, 12));
        }
        let offered_all = at + state.offered.len() == given.offered.len();
        let outcome = calls::make(asked, &state);
        at += outcome.taken as usize;
        let cut = outcome.number == CUT && !last;
        if outcome.number != ACCEPTED && !(by_chunk && cut && !offered_all) {
            if by_chunk {
                (state.first, state.second, state.output) = (outcome.first, outcome.second, outcome.output);
                state.free += outcome.handed;
            }
            let place = if outcome.number == CUT || last { given.offered.len() } else { at };
            break (outcome.number, place);
        }
        events += 1;
        (state.record, state.first, state.second) = (outcome.record, outcome.first, outcome.second);
        state.output = outcome.output;
        state.free += outcome.handed;
        let held = held_is_one_encoding(table, &state)?;
        if once && !by_chunk {
            let mut levels = Vec::new();
            held::levels(&held, &mut levels);
            let calls = levels.len();
            levels.sort();
            levels.dedup();
            if levels.len() < calls {
                return Err("demand 3: two calls wait at one level".into());
            }
            if state.record.held as usize > 1 + p + events * largest {
                return Err(format!("demand 3: {} words held after {events} events", state.record.held));
            }
            if outcome.steps as usize > before + largest + 4 {
                return Err(format!("demand 3: {} steps with {before} held", outcome.steps));
            }
        }
        if last {
            break (ACCEPTED, given.offered.len());
        }
    };
    if once && number == WORK {
        return Err("demand 3: refused for work".into());
    }
    same("number and place in pieces", &(number, place as u64), &(document.number, document.place))?;
    same("bytes in pieces", &state.free, &document.handed)?;
    same("output in pieces", &state.output, &document.output)?;
    same("first area in pieces", &state.first, &document.first)?;
    same("second area in pieces", &state.second, &document.second)
}

/// What is held decodes, begins with a call, and encodes to the same words.
fn held_is_one_encoding(table: &Table, state: &Given) -> Result<held::Expression, String> {
    let held = state
        .record
        .expression(table, &state.first, &state.second)
        .ok_or("an accepted event leaves a record that is refused 13")?;
    let part = calls::make(Asked::HeldPart, state).held_part;
    let mut again = Vec::new();
    words::encode(&held, &mut again);
    same("the held part encoded again", &again, &part)?;
    same("size", &held::size(&held), &part.len())?;
    Ok(held)
}

fn same<T: PartialEq + std::fmt::Debug + ?Sized>(what: &str, one: &T, other: &T) -> Result<(), String> {
    if one == other {
        return Ok(());
    }
    let mut told = format!("{what}: {one:?} is not {other:?}");
    told.truncate(2_000);
    Err(told)
}
