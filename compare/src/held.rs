//! The held expression, as a tree. "It is a sequence of start tags, end tags,
//! characters and calls; a call has a state, a waiting level and arguments,
//! which are such sequences."

use crate::numbers::MOST_VALUES;
use crate::table::{Item, Met, Source, Table};
use crate::writer;

pub type Expression = Vec<Held>;

#[derive(Clone, Debug, PartialEq, Eq)]
pub enum Held {
    Start(u8),
    End(u8),
    Character(u8),
    Call(Call),
}

#[derive(Clone, Debug, PartialEq, Eq)]
pub struct Call {
    pub state: usize,
    pub level: usize,
    pub arguments: Vec<Expression>,
}

#[derive(Clone, Copy, Debug, PartialEq, Eq)]
pub enum Event {
    Start(u8),
    Character(u8),
    End,
    Finish,
}

/// "At the start it is one call of state 0 at level 1 with empty arguments"
pub fn fresh(table: &Table) -> Expression {
    vec![Held::Call(Call { state: 0, level: 1, arguments: vec![Vec::new(); table.values[0]] })]
}

/// "Its size counts a tag or character as 1 and a call as above", that is
/// 1 + n and its arguments.
pub fn size(expression: &Expression) -> usize {
    expression
        .iter()
        .map(|held| match held {
            Held::Start(_) | Held::End(_) | Held::Character(_) => 1,
            Held::Call(call) => {
                1 + call.arguments.len() + call.arguments.iter().map(size).sum::<usize>()
            }
        })
        .sum()
}

impl Event {
    /// What a call at level 1 becomes "its right side for".
    fn met(self) -> Met {
        match self {
            Event::Start(name) => Met::Element(name),
            Event::Character(leaf) => Met::Character(leaf),
            Event::End | Event::Finish => Met::EmptyList,
        }
    }

    /// A call that is not at level 1: "any other goes up one level" (start),
    /// "others stay" (character), "others go down one" (end).
    fn moved(self, level: usize) -> usize {
        match self {
            Event::Start(_) => level + 1,
            Event::Character(_) => level,
            Event::End => level - 1,
            Event::Finish => unreachable!("no element is open, so no other level exists"),
        }
    }

    /// Start: "children at level 1, siblings at level 2"; character: "siblings
    /// at level 1".
    fn level_of(self, source: Source) -> usize {
        match (self, source) {
            (Event::Start(_), Source::Children) => 1,
            (Event::Start(_), Source::Siblings) => 2,
            (Event::Character(_), Source::Siblings) => 1,
            _ => unreachable!("the table allows no such call"),
        }
    }
}

/// "Steps of an event: each tag, character and call visited costs 1, arguments
/// included." Counted without building, without bound below 2^128.
pub fn steps(table: &Table, expression: &Expression, event: Event) -> u128 {
    let mut sum: u128 = 0;
    for held in expression {
        let cost = match held {
            Held::Start(_) | Held::End(_) | Held::Character(_) => 1,
            Held::Call(call) if call.level == 1 => {
                // "A rewritten call costs 1 and its right side"
                let mut known = [None; MOST_VALUES as usize];
                let right_side = table.right_side(call.state, event.met());
                rule_steps(table, right_side, call, event, &mut known).saturating_add(1)
            }
            Held::Call(call) => call
                .arguments
                .iter()
                .fold(1, |sum: u128, a| sum.saturating_add(steps(table, a, event))),
        };
        sum = sum.saturating_add(cost);
    }
    sum
}

/// "its right side, where an element, character, carried value or call costs 1
/// plus what it contains; a carried value also costs its rewritten argument,
/// each time it is used. An unused argument costs nothing."
fn rule_steps(
    table: &Table,
    items: &[Item],
    call: &Call,
    event: Event,
    known: &mut [Option<u128>; MOST_VALUES as usize],
) -> u128 {
    let mut sum: u128 = 0;
    for item in items {
        sum = sum.saturating_add(1);
        match item {
            Item::Element(_, content) => {
                sum = sum.saturating_add(rule_steps(table, content, call, event, known));
            }
            Item::Character(_) => {}
            Item::Value(j) => {
                let argument =
                    *known[*j].get_or_insert_with(|| steps(table, &call.arguments[*j], event));
                sum = sum.saturating_add(argument);
            }
            Item::Call(_, _, arguments) => {
                for argument in arguments {
                    sum = sum.saturating_add(rule_steps(table, argument, call, event, known));
                }
            }
        }
    }
    sum
}

/// "One event rewrites all calls, also those inside arguments (document 002,
/// definitions 6 and 8)". To be asked for only where the steps are few.
pub fn rewritten(table: &Table, expression: &Expression, event: Event) -> Expression {
    let mut made = Vec::new();
    rewrite(table, expression, event, &mut made);
    made
}

fn rewrite(table: &Table, expression: &Expression, event: Event, made: &mut Expression) {
    for held in expression {
        match held {
            Held::Call(call) if call.level == 1 => {
                let right_side = table.right_side(call.state, event.met());
                apply(table, right_side, call, event, made);
            }
            Held::Call(call) => made.push(Held::Call(Call {
                state: call.state,
                level: event.moved(call.level),
                arguments: call.arguments.iter().map(|a| rewritten(table, a, event)).collect(),
            })),
            other => made.push(other.clone()),
        }
    }
}

/// A right side with its call's rewritten arguments in place of carried values.
fn apply(table: &Table, items: &[Item], call: &Call, event: Event, made: &mut Expression) {
    for item in items {
        match item {
            Item::Element(name, content) => {
                let name = match (name, event) {
                    (Some(name), _) => *name,
                    (None, Event::Start(matched)) => matched,
                    _ => unreachable!("item 11 stands only in rules for elements"),
                };
                made.push(Held::Start(name));
                apply(table, content, call, event, made);
                made.push(Held::End(name));
            }
            Item::Character(leaf) => made.push(Held::Character(match (leaf, event) {
                (Some(leaf), _) => *leaf,
                (None, Event::Character(matched)) => matched,
                _ => unreachable!("item 13 stands only in rules for characters"),
            })),
            Item::Value(j) => rewrite(table, &call.arguments[*j], event, made),
            Item::Call(source, state, arguments) => {
                let mut built = Vec::new();
                for argument in arguments {
                    let mut inside = Vec::new();
                    apply(table, argument, call, event, &mut inside);
                    built.push(inside);
                }
                made.push(Held::Call(Call {
                    state: *state,
                    level: event.level_of(*source),
                    arguments: built,
                }));
            }
        }
    }
}

/// "The part before the first outermost call is then handed out; the rest is
/// held." Gives the bytes of the one and the other.
pub fn settled(table: &Table, mut expression: Expression) -> (Vec<u8>, Expression) {
    let first_call = expression
        .iter()
        .position(|held| matches!(held, Held::Call(_)))
        .unwrap_or(expression.len());
    let rest = expression.split_off(first_call);
    let mut bytes = Vec::new();
    for held in &expression {
        match held {
            Held::Start(name) => writer::start_tag(&table.names[*name as usize], &mut bytes),
            Held::End(name) => writer::end_tag(&table.names[*name as usize], &mut bytes),
            Held::Character(leaf) => writer::character(*leaf, &mut bytes),
            Held::Call(_) => unreachable!("it stands before the first call"),
        }
    }
    (bytes, rest)
}

/// The levels of all calls, those in arguments too.
pub fn levels(expression: &Expression, found: &mut Vec<usize>) {
    for held in expression {
        if let Held::Call(call) = held {
            found.push(call.level);
            call.arguments.iter().for_each(|a| levels(a, found));
        }
    }
}
