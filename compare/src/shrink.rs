//! A failing request made smaller while it still fails.

use crate::calls;
use crate::drive::{Driver, Reply};
use crate::numbers::LEAST_H;
use crate::record::Record;
use crate::table::{read, table_bytes, Item, Table};
use crate::wire::{answer_bytes, Request};
use std::time::{Duration, Instant};

/// Whether the program's answer to a request differs from the judge's.
pub fn fails(driver: &mut Driver, request: &Request) -> bool {
    let expected = answer_bytes(&calls::make(request.asked, &request.given));
    driver.ask(request) != Reply::Answer(expected)
}

/// Tries smaller requests for at most half a minute.
pub fn shrunk(driver: &mut Driver, request: &Request) -> Request {
    let until = Instant::now() + Duration::from_secs(30);
    let mut best = request.clone();
    loop {
        let mut smaller = false;
        for candidate in candidates(&best) {
            if Instant::now() > until {
                return best;
            }
            if weight(&candidate) < weight(&best) && fails(driver, &candidate) {
                best = candidate;
                smaller = true;
                break;
            }
        }
        if !smaller {
            return best;
        }
    }
}

/// Shorter first, then with fewer bytes that are not 0.
fn weight(request: &Request) -> (usize, usize) {
    let given = &request.given;
    let length = given.table.len()
        + 4 * (given.first.len() + given.second.len())
        + given.offered.len()
        + given.output.len();
    let words = given.first.iter().chain(&given.second).filter(|word| **word != 0).count();
    let bytes = given.output.iter().filter(|byte| **byte != b'_').count();
    (length, words + bytes)
}

fn candidates(request: &Request) -> Vec<Request> {
    let mut list = Vec::new();
    let mut add = |change: &dyn Fn(&mut Request)| {
        let mut other = request.clone();
        change(&mut other);
        list.push(other);
    };
    let given = &request.given;
    let held = given.record.held as usize;
    for h in [0, LEAST_H, held.max(LEAST_H), given.first.len() / 2, given.first.len().saturating_sub(1)] {
        add(&|r| {
            r.given.first.truncate(h);
            r.given.second.truncate(h);
        });
    }
    for length in [0, given.offered.len() / 2, given.offered.len().saturating_sub(1)] {
        add(&|r| r.given.offered.truncate(length));
        add(&|r| {
            let from = r.given.offered.len() - length;
            r.given.offered.drain(..from);
        });
    }
    for length in [0, given.output.len() / 2, given.output.len().saturating_sub(1)] {
        add(&|r| r.given.output.truncate(length));
        add(&|r| {
            let cut = r.given.output.len() - length;
            r.given.output.truncate(length);
            r.given.free = r.given.free.saturating_sub(cut as u64);
        });
    }
    add(&|r| r.given.output.iter_mut().for_each(|byte| *byte = b'_'));
    add(&|r| {
        let area = r.given.record.area;
        for (number, words) in [&mut r.given.first, &mut r.given.second].into_iter().enumerate() {
            let keep = if number as u8 == area { held.min(words.len()) } else { 0 };
            words[keep..].iter_mut().for_each(|word| *word = 0);
        }
    });
    add(&|r| {
        r.given.record = Record::begun(0);
        r.given.first.iter_mut().for_each(|word| *word = 0);
        r.given.second.iter_mut().for_each(|word| *word = 0);
    });
    if let Ok(table) = read(&given.table) {
        for smaller in smaller_tables(&table) {
            add(&|r| r.given.table = table_bytes(&smaller));
        }
    } else {
        for at in 0..given.table.len().min(200) {
            add(&|r| {
                r.given.table.remove(at);
            });
        }
        add(&|r| r.given.table.truncate(r.given.table.len() / 2));
    }
    list
}

/// Without one rule, the last state or name, or one item of a right side.
fn smaller_tables(table: &Table) -> Vec<Table> {
    let mut list = Vec::new();
    for at in 0..table.rules.len().min(60) {
        let mut without = table.clone();
        without.rules.remove(at);
        list.push(without);
        for right_side in smaller_items(&table.rules[at].right_side) {
            let mut other = table.clone();
            other.rules[at].right_side = right_side;
            list.push(other);
        }
    }
    let mut fewer = table.clone();
    fewer.names.pop();
    list.push(fewer);
    let mut fewer = table.clone();
    fewer.values.pop();
    list.push(fewer);
    list
}

fn smaller_items(items: &[Item]) -> Vec<Vec<Item>> {
    let mut list = vec![items[..items.len() / 2].to_vec(), items[items.len() / 2..].to_vec()];
    for at in 0..items.len().min(12) {
        let mut without = items.to_vec();
        without.remove(at);
        list.push(without);
        match &items[at] {
            Item::Element(name, content) => {
                for content in smaller_items(content) {
                    let mut other = items.to_vec();
                    other[at] = Item::Element(*name, content);
                    list.push(other);
                }
            }
            Item::Call(source, state, arguments) => {
                for number in 0..arguments.len() {
                    for argument in smaller_items(&arguments[number]) {
                        let mut arguments = arguments.clone();
                        arguments[number] = argument;
                        let mut other = items.to_vec();
                        other[at] = Item::Call(*source, *state, arguments);
                        list.push(other);
                    }
                }
            }
            _ => {}
        }
    }
    list.retain(|other| other.len() < items.len() || other != items);
    list
}
