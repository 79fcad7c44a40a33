//! Random logs, whole and damaged.

use crate::log::REFERENCES;
use crate::make_table::{exact_name, some_name};
use crate::rng::Rng;
use crate::table::Table;
use crate::writer;

/// A balanced log of about `events` events with names of the table.
pub fn balanced(rng: &mut Rng, table: &Table, events: usize) -> Vec<u8> {
    let mut out = Vec::new();
    let mut open: Vec<usize> = Vec::new();
    let deep = rng.percent(15);
    let texty = rng.from_to(20, 80);
    for _ in 0..events {
        if table.names.is_empty() || rng.percent(texty) {
            leaf(rng, &mut out);
        } else if open.is_empty() || (rng.percent(if deep { 80 } else { 50 }) && open.len() < 60) {
            let name = rng.below(table.names.len());
            writer::start_tag(&table.names[name], &mut out);
            open.push(name);
        } else if let Some(name) = open.pop() {
            writer::end_tag(&table.names[name], &mut out);
        }
    }
    while let Some(name) = open.pop() {
        writer::end_tag(&table.names[name], &mut out);
    }
    out
}

fn leaf(rng: &mut Rng, out: &mut Vec<u8>) {
    match rng.below(12) {
        0 => out.extend_from_slice(rng.pick(&REFERENCES).0),
        1 => out.push(*rng.pick(&[9, 10, 13, 32, 34, 39, 47, 59, 61, 63, 126])),
        _ => out.push(*rng.pick(b"xyz0123.")),
    }
}

/// Bytes of which the reader must say 4, 11 or 5, or which are events after all.
const ODD: [&[u8]; 40] = [
    b"<", b"</", b"<>", b"</>", b"< a>", b"</ a>", b"<a ", b"<a/>", b"<a b>", b"<a\n>", b"<1>",
    b"<-a>", b"<a<", b"<!-- -->", b"<?x?>", b"<![CDATA[x]]>", b"<a:b>", b"<a\x80>", b"&", b"&l",
    b"&lt", b"&ltx", b"&z;", b"&;", b"&#65;", b"&amp", b"&ap", b"&a;", b"&quot", b"&quo;", b"& ",
    b">", b"\x00", b"\x08", b"\x0b", b"\x1f", b"\x7f", b"\x80", b"\xff", b"&apos;",
];

/// Something that begins no event, or begins one that is not allowed here.
pub fn odd(rng: &mut Rng, table: &Table) -> Vec<u8> {
    match rng.below(8) {
        0..=2 => rng.pick(&ODD).to_vec(),
        3 => {
            let name = some_name(rng, 4);
            tag(rng, &name)
        }
        4 => {
            let length = rng.from_to(30, 34);
            let name = exact_name(rng, length);
            tag(rng, &name)
        }
        5 => {
            let length = rng.from_to(30, 34);
            let mut bytes = exact_name(rng, length);
            bytes.insert(0, b'<');
            bytes
        }
        6 if !table.names.is_empty() => {
            // The beginning of a name, or a name and one byte more.
            let mut name = rng.pick(&table.names).clone();
            if rng.percent(50) {
                name.push(b'a');
            } else if name.len() > 1 {
                name.pop();
            }
            tag(rng, &name)
        }
        _ => {
            let count = rng.from_to(1, 3);
            rng.bytes(count)
        }
    }
}

fn tag(rng: &mut Rng, name: &[u8]) -> Vec<u8> {
    let mut bytes = Vec::new();
    if rng.percent(60) {
        writer::start_tag(name, &mut bytes);
    } else {
        writer::end_tag(name, &mut bytes);
    }
    bytes
}

/// An end tag of the table, wanted or not.
pub fn some_end(rng: &mut Rng, table: &Table) -> Vec<u8> {
    let mut bytes = Vec::new();
    if table.names.is_empty() {
        bytes.extend_from_slice(b"</a>");
    } else {
        writer::end_tag(rng.pick::<Vec<u8>>(&table.names), &mut bytes);
    }
    bytes
}

/// One fault, or nearly so, somewhere in a log.
pub fn damage(rng: &mut Rng, table: &Table, log: &mut Vec<u8>) {
    let at = rng.from_to(0, log.len());
    match rng.below(7) {
        0 => log.truncate(at),
        1 if at < log.len() => log[at] ^= 1 << rng.below(8),
        2 if at < log.len() => {
            log.remove(at);
        }
        3 => {
            let end = some_end(rng, table);
            log.splice(at..at, end);
        }
        4 => {
            // Behind a whole tag, where the log would go on.
            let after = log[at..].iter().position(|b| *b == b'>').map_or(log.len(), |p| at + p + 1);
            let odd = odd(rng, table);
            log.splice(after..after, odd);
        }
        5 if !table.names.is_empty() => {
            let mut start = Vec::new();
            writer::start_tag(rng.pick::<Vec<u8>>(&table.names), &mut start);
            log.splice(at..at, start);
        }
        _ => {
            let odd = odd(rng, table);
            log.splice(at..at, odd);
        }
    }
}

/// Many start tags, around the 64 that may be open.
pub fn deep(rng: &mut Rng, table: &Table) -> Vec<u8> {
    let mut log = Vec::new();
    if table.names.is_empty() {
        return log;
    }
    let mut open = Vec::new();
    for _ in 0..rng.from_to(62, 66) {
        let name = rng.below(table.names.len());
        writer::start_tag(&table.names[name], &mut log);
        open.push(name);
        if rng.percent(5) {
            leaf(rng, &mut log);
        }
    }
    while let Some(name) = open.pop() {
        writer::end_tag(&table.names[name], &mut log);
    }
    log
}
