//! The log: the first event in offered bytes, or 4 or 11.

use crate::alphabet::{begins_name, continues_name, is_text, LONGEST_NAME};
use crate::numbers::*;

/// An event as the bytes say it, before the table knows its name.
#[derive(Clone, Copy, Debug, PartialEq, Eq)]
pub enum Seen<'a> {
    Start(&'a [u8]),
    End(&'a [u8]),
    Character(u8),
}

/// "`&lt;` `&gt;` `&amp;` `&quot;` `&apos;` are one leaf each."
pub const REFERENCES: [(&[u8], u8); 5] = [
    (b"&lt;", b'<'),
    (b"&gt;", b'>'),
    (b"&amp;", b'&'),
    (b"&quot;", b'"'),
    (b"&apos;", b'\''),
];

/// "An event is offered as bytes: the first event in them is taken and the
/// answer says how many bytes it took." 11: "the input ends inside an event,
/// an event is offered with no bytes"; 4: "the bytes begin no event allowed".
pub fn first_event(bytes: &[u8]) -> Result<(Seen<'_>, usize), u8> {
    match bytes.first() {
        None => Err(CUT),
        Some(b'<') => tag(bytes),
        Some(b'&') => reference(bytes),
        Some(byte) if is_text(*byte) => Ok((Seen::Character(*byte), 1)),
        Some(_) => Err(BYTE),
    }
}

/// "Start tag `<name>`, end tag `</name>`."
fn tag(bytes: &[u8]) -> Result<(Seen<'_>, usize), u8> {
    let is_end = bytes.get(1) == Some(&b'/');
    let from = if is_end { 2 } else { 1 };
    let mut to = from;
    loop {
        match bytes.get(to) {
            None => return Err(CUT),
            Some(b'>') if to > from => break,
            Some(byte) => {
                let fits = if to == from {
                    begins_name(*byte)
                } else {
                    continues_name(*byte) && to - from < LONGEST_NAME
                };
                if !fits {
                    return Err(BYTE);
                }
                to += 1;
            }
        }
    }
    let name = &bytes[from..to];
    let seen = if is_end { Seen::End(name) } else { Seen::Start(name) };
    Ok((seen, to + 1))
}

fn reference(bytes: &[u8]) -> Result<(Seen<'_>, usize), u8> {
    for (reference, leaf) in REFERENCES {
        if bytes.starts_with(reference) {
            return Ok((Seen::Character(leaf), reference.len()));
        }
    }
    let cut = REFERENCES.iter().any(|(reference, _)| reference.starts_with(bytes));
    Err(if cut { CUT } else { BYTE })
}
