//! "One word per unit of size; each expression has one encoding". The kind
//! stands in bits 28 to 31, the payload below; every other bit is 0. A call of
//! a state with n carried values is its word and then n arguments, each closed
//! by an end-of-argument word.

use crate::alphabet::is_leaf;
use crate::held::{Call, Expression, Held};
use crate::table::Table;

pub const START: u32 = 1;
pub const END: u32 = 2;
pub const CHARACTER: u32 = 3;
pub const CALL: u32 = 4;
pub const END_OF_ARGUMENT: u32 = 5;

pub fn word(kind: u32, payload: u32) -> u32 {
    kind << 28 | payload
}

pub fn encode(expression: &Expression, words: &mut Vec<u32>) {
    for held in expression {
        match held {
            Held::Start(name) => words.push(word(START, *name as u32)),
            Held::End(name) => words.push(word(END, *name as u32)),
            Held::Character(leaf) => words.push(word(CHARACTER, *leaf as u32)),
            Held::Call(call) => {
                words.push(word(CALL, call.state as u32 * 256 + call.level as u32));
                for argument in &call.arguments {
                    encode(argument, words);
                    words.push(word(END_OF_ARGUMENT, 0));
                }
            }
        }
    }
}

/// The expression that the words encode for this table, "beginning with a call
/// or empty, levels 1 to open elements + 1".
pub fn decode(words: &[u32], table: &Table, open: usize) -> Option<Expression> {
    let mut reader = Reader { words, at: 0, table, open };
    let expression = reader.sequence(false)?;
    match expression.first() {
        None | Some(Held::Call(_)) => Some(expression),
        Some(_) => None,
    }
}

struct Reader<'a> {
    words: &'a [u32],
    at: usize,
    table: &'a Table,
    open: usize,
}

impl Reader<'_> {
    /// Up to the end of the words, or, in an argument, past the word that ends it.
    fn sequence(&mut self, argument: bool) -> Option<Expression> {
        let mut expression = Vec::new();
        loop {
            if self.at == self.words.len() {
                return if argument { None } else { Some(expression) };
            }
            let word = self.words[self.at];
            self.at += 1;
            let payload = word & 0x0FFF_FFFF;
            let held = match word >> 28 {
                START => Held::Start(self.name(payload)?),
                END => Held::End(self.name(payload)?),
                CHARACTER if is_leaf(payload) => Held::Character(payload as u8),
                CALL => Held::Call(self.call(payload)?),
                END_OF_ARGUMENT if payload == 0 && argument => return Some(expression),
                _ => return None,
            };
            expression.push(held);
        }
    }

    fn name(&self, payload: u32) -> Option<u8> {
        ((payload as usize) < self.table.names.len()).then_some(payload as u8)
    }

    fn call(&mut self, payload: u32) -> Option<Call> {
        let state = (payload / 256) as usize;
        let level = (payload % 256) as usize;
        let values = *self.table.values.get(state)?;
        if level < 1 || level > self.open + 1 {
            return None;
        }
        let mut arguments = Vec::new();
        for _ in 0..values {
            arguments.push(self.sequence(true)?);
        }
        Some(Call { state, level, arguments })
    }
}
