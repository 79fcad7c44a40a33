//! Requests and answers as bytes: docs/TRIAL.md.

use crate::calls::{Asked, Given, Outcome};
use crate::numbers::MOST_OPEN;
use crate::record::Record;

pub const HEAD: usize = 100;
pub const ANSWERED: u8 = b'a';
pub const DAMAGED: u8 = b'x';
/// The answer before its held part.
pub const ANSWER_HEAD: usize = 109;

pub const MOST_TABLE: usize = 40_000;
pub const MOST_AREA: usize = 8_300;
pub const MOST_OFFERED: usize = 65_536;
pub const MOST_OUTPUT: usize = 65_536;

#[derive(Clone, Debug, PartialEq, Eq)]
pub struct Request {
    pub asked: Asked,
    pub given: Given,
}

fn call_byte(asked: Asked) -> u8 {
    match asked {
        Asked::Check => b'c',
        Asked::Start => b's',
        Asked::Event => b'e',
        Asked::Finish => b'f',
        Asked::HeldPart => b'h',
        Asked::Chunk => b'k',
        Asked::Document => b'd',
    }
}

fn put_record(record: &Record, bytes: &mut Vec<u8>) {
    bytes.push(record.area);
    bytes.extend(record.held.to_be_bytes());
    bytes.push(record.finished as u8);
    bytes.push(record.open);
    bytes.extend(record.names);
}

fn put_words(words: &[u32], bytes: &mut Vec<u8>) {
    words.iter().for_each(|word| bytes.extend(word.to_be_bytes()));
}

pub fn request_bytes(request: &Request) -> Vec<u8> {
    let given = &request.given;
    let mut bytes = vec![call_byte(request.asked)];
    for length in [
        given.table.len(),
        given.first.len(),
        given.second.len(),
        given.offered.len(),
        given.output.len(),
    ] {
        bytes.extend((length as u32).to_be_bytes());
    }
    bytes.extend(given.free.to_be_bytes());
    put_record(&given.record, &mut bytes);
    bytes.extend(&given.table);
    put_words(&given.first, &mut bytes);
    put_words(&given.second, &mut bytes);
    bytes.extend(&given.offered);
    bytes.extend(&given.output);
    bytes
}

pub fn answer_bytes(outcome: &Outcome) -> Vec<u8> {
    let mut bytes = vec![ANSWERED, outcome.number];
    for number in [outcome.place, outcome.taken, outcome.steps, outcome.handed] {
        bytes.extend(number.to_be_bytes());
    }
    put_record(&outcome.record, &mut bytes);
    bytes.extend((outcome.held_part.len() as u32).to_be_bytes());
    put_words(&outcome.held_part, &mut bytes);
    put_words(&outcome.first, &mut bytes);
    put_words(&outcome.second, &mut bytes);
    bytes.extend(&outcome.output);
    bytes
}

/// Reads from the front of bytes; none where they end too early.
struct Front<'a>(&'a [u8]);

impl<'a> Front<'a> {
    fn take(&mut self, count: usize) -> Option<&'a [u8]> {
        if count > self.0.len() {
            return None;
        }
        let (front, rest) = self.0.split_at(count);
        self.0 = rest;
        Some(front)
    }

    fn u8(&mut self) -> Option<u8> {
        Some(self.take(1)?[0])
    }

    fn u32(&mut self) -> Option<u32> {
        Some(u32::from_be_bytes(self.take(4)?.try_into().ok()?))
    }

    fn u64(&mut self) -> Option<u64> {
        Some(u64::from_be_bytes(self.take(8)?.try_into().ok()?))
    }

    fn record(&mut self) -> Option<Record> {
        let area = self.u8()?;
        let held = self.u32()?;
        let finished = match self.u8()? {
            0 => false,
            1 => true,
            _ => return None,
        };
        let open = self.u8()?;
        let names: [u8; MOST_OPEN] = self.take(MOST_OPEN)?.try_into().ok()?;
        Some(Record { area, held, finished, open, names })
    }

    fn words(&mut self, count: usize) -> Option<Vec<u32>> {
        (0..count).map(|_| self.u32()).collect()
    }
}

/// The length of the whole request whose head this is; none if it is damaged.
pub fn request_length(head: &[u8]) -> Option<usize> {
    let mut front = Front(head.get(..HEAD)?);
    if !b"csefhkd".contains(&front.u8()?) {
        return None;
    }
    let limits = [MOST_TABLE, MOST_AREA, MOST_AREA, MOST_OFFERED, MOST_OUTPUT];
    let mut length = HEAD;
    for (part, limit) in limits.into_iter().enumerate() {
        let count = front.u32()? as usize;
        if count > limit {
            return None;
        }
        length += if part == 1 || part == 2 { 4 * count } else { count };
    }
    front.u64()?;
    front.record()?;
    Some(length)
}

/// A whole request; none if it is damaged.
pub fn read_request(bytes: &[u8]) -> Option<Request> {
    if request_length(bytes)? != bytes.len() {
        return None;
    }
    let mut front = Front(bytes);
    let asked = match front.u8()? {
        b'c' => Asked::Check,
        b's' => Asked::Start,
        b'e' => Asked::Event,
        b'f' => Asked::Finish,
        b'h' => Asked::HeldPart,
        b'k' => Asked::Chunk,
        b'd' => Asked::Document,
        _ => return None,
    };
    let mut lengths = [0; 5];
    for length in &mut lengths {
        *length = front.u32()? as usize;
    }
    let free = front.u64()?;
    let record = front.record()?;
    let given = Given {
        table: front.take(lengths[0])?.to_vec(),
        first: front.words(lengths[1])?,
        second: front.words(lengths[2])?,
        offered: front.take(lengths[3])?.to_vec(),
        output: front.take(lengths[4])?.to_vec(),
        free,
        record,
    };
    Some(Request { asked, given })
}

/// A whole answer to a request with these lengths, for showing.
pub fn read_answer(bytes: &[u8], given: &Given) -> Option<Outcome> {
    let mut front = Front(bytes);
    if front.u8()? != ANSWERED {
        return None;
    }
    let number = front.u8()?;
    let place = front.u64()?;
    let taken = front.u64()?;
    let steps = front.u64()?;
    let handed = front.u64()?;
    let record = front.record()?;
    let held = front.u32()? as usize;
    Some(Outcome {
        number,
        place,
        taken,
        steps,
        handed,
        record,
        held_part: front.words(held)?,
        first: front.words(given.first.len())?,
        second: front.words(given.second.len())?,
        output: front.take(given.output.len())?.to_vec(),
    })
}

/// How many bytes follow an answer's first 109.
pub fn answer_rest(head: &[u8], given: &Given) -> usize {
    let held = u32::from_be_bytes([head[105], head[106], head[107], head[108]]) as usize;
    4 * (held + given.first.len() + given.second.len()) + given.output.len()
}
