//! Requests and outcomes in words, for the case that fails.

use crate::calls::{Given, Outcome};
use crate::held::{Expression, Held};
use crate::numbers::called;
use crate::record::Record;
use crate::table::{read, Item, Pattern, Source, Table};
use crate::wire::Request;
use std::fmt::Write;

pub fn hex(bytes: &[u8]) -> String {
    bytes.iter().fold(String::new(), |mut text, byte| {
        let _ = write!(text, "{byte:02x}");
        text
    })
}

pub fn unhex(text: &str) -> Option<Vec<u8>> {
    let digits: Vec<u8> = text
        .bytes()
        .filter(|byte| !byte.is_ascii_whitespace())
        .map(|byte| (byte as char).to_digit(16).map(|digit| digit as u8))
        .collect::<Option<_>>()?;
    if digits.len() % 2 == 1 {
        return None;
    }
    Some(digits.chunks(2).map(|pair| pair[0] * 16 + pair[1]).collect())
}

/// Bytes as text, what is not printable as `\xNN`.
pub fn text(bytes: &[u8]) -> String {
    let shown = &bytes[..bytes.len().min(400)];
    let mut text: String = shown.iter().flat_map(|byte| std::ascii::escape_default(*byte)).map(char::from).collect();
    if bytes.len() > shown.len() {
        let _ = write!(text, ".. ({} bytes)", bytes.len());
    }
    text
}

fn name(table: &Table, number: Option<u8>) -> String {
    match number {
        None => "*".to_string(),
        Some(number) => text(&table.names[number as usize]),
    }
}

fn items(table: &Table, list: &[Item]) -> String {
    let shown: Vec<String> = list
        .iter()
        .take(60)
        .map(|item| match item {
            Item::Element(label, content) => {
                let label = name(table, *label);
                format!("<{label}> {} </{label}>", items(table, content))
            }
            Item::Character(None) => "char".to_string(),
            Item::Character(Some(byte)) => format!("\"{}\"", text(&[*byte])),
            Item::Value(j) => format!("${j}"),
            Item::Call(source, state, arguments) => {
                let source = match source {
                    Source::Children => "children",
                    Source::Siblings => "siblings",
                };
                let mut parts = vec![source.to_string()];
                parts.extend(arguments.iter().map(|argument| items(table, argument)));
                format!("q{state}({})", parts.join(", "))
            }
        })
        .collect();
    let more = if list.len() > 60 { format!(" .. ({} items)", list.len()) } else { String::new() };
    shown.join(" ") + &more
}

/// A table's rules, or why it is refused.
pub fn table(bytes: &[u8]) -> String {
    let table = match read(bytes) {
        Ok(table) => table,
        Err(refusal) => {
            let number = refusal.number;
            return format!("  (refused {number} {} at {})\n", called(number), refusal.place);
        }
    };
    let names: Vec<String> = table.names.iter().map(|name| text(name)).collect();
    let mut out = format!("  names {}\n", names.join(" "));
    for (state, values) in table.values.iter().enumerate() {
        let _ = writeln!(out, "  state q{state}/{values}");
        for rule in table.rules.iter().filter(|rule| rule.state == state) {
            let pattern = match rule.pattern {
                Pattern::Empty => "empty".to_string(),
                Pattern::Named(number) => format!("<{}>", name(&table, Some(number))),
                Pattern::Other => "<*>".to_string(),
                Pattern::Character => "char".to_string(),
            };
            let _ = writeln!(out, "    {pattern} -> {}", items(&table, &rule.right_side));
        }
    }
    out
}

/// A held expression: `q0@1(..)` is a call of state 0 at level 1.
pub fn expression(table: &Table, expression: &Expression) -> String {
    let shown: Vec<String> = expression
        .iter()
        .take(60)
        .map(|held| match held {
            Held::Start(number) => format!("<{}>", name(table, Some(*number))),
            Held::End(number) => format!("</{}>", name(table, Some(*number))),
            Held::Character(leaf) => format!("\"{}\"", text(&[*leaf])),
            Held::Call(call) => {
                let inside: Vec<String> = call.arguments.iter().map(|a| self::expression(table, a)).collect();
                format!("q{}@{}({})", call.state, call.level, inside.join(", "))
            }
        })
        .collect();
    shown.join(" ")
}

pub fn record(record: &Record) -> String {
    let used = (record.open as usize).min(record.names.len());
    let mut shown = format!(
        "area {}, held {}, finished {}, open {} {:?}",
        record.area, record.held, record.finished, record.open, &record.names[..used]
    );
    if record.names[used..].iter().any(|place| *place != 0) {
        let _ = write!(shown, ", unused places {:?}", &record.names[used..]);
    }
    shown
}

fn held_words(given: &Given) -> String {
    let area = if given.record.area == 0 { &given.first } else { &given.second };
    let count = (given.record.held as usize).min(area.len()).min(80);
    let words: Vec<String> = area[..count].iter().map(|word| format!("{word:08x}")).collect();
    words.join(" ")
}

pub fn request(request: &Request) -> String {
    let given = &request.given;
    let mut out = format!("call {:?}\ntable, {} bytes\n{}", request.asked, given.table.len(), table(&given.table));
    if given.table.len() <= 300 {
        let _ = writeln!(out, "  {}", hex(&given.table));
    }
    let _ = writeln!(out, "areas {} and {} words", given.first.len(), given.second.len());
    let _ = writeln!(out, "record: {}", record(&given.record));
    let _ = writeln!(out, "held words: {}", held_words(given));
    if let Ok(table) = read(&given.table) {
        if let Some(held) = given.record.expression(&table, &given.first, &given.second) {
            let _ = writeln!(out, "held: {}", expression(&table, &held));
        }
    }
    let _ = writeln!(out, "offered, {} bytes: {}", given.offered.len(), text(&given.offered));
    let _ = writeln!(out, "output {} bytes, first free {}", given.output.len(), given.free);
    out
}

/// What differs, part by part.
pub fn difference(expected: &Outcome, seen: &Outcome) -> String {
    let mut out = String::new();
    let mut line = |what: &str, expected: String, seen: String| {
        if expected != seen {
            let _ = writeln!(out, "{what}: expected {expected}, seen {seen}");
        }
    };
    let number = |number: u8| format!("{number} ({})", called(number));
    line("number", number(expected.number), number(seen.number));
    line("place", expected.place.to_string(), seen.place.to_string());
    line("bytes taken", expected.taken.to_string(), seen.taken.to_string());
    line("steps", expected.steps.to_string(), seen.steps.to_string());
    line("handed out", expected.handed.to_string(), seen.handed.to_string());
    line("record", record(&expected.record), record(&seen.record));
    for (what, expected, seen) in [
        ("held part", &expected.held_part, &seen.held_part),
        ("first area", &expected.first, &seen.first),
        ("second area", &expected.second, &seen.second),
    ] {
        if expected.len() != seen.len() {
            line(what, format!("{} words", expected.len()), format!("{} words", seen.len()));
        } else if let Some(at) = (0..expected.len()).find(|at| expected[*at] != seen[*at]) {
            let what = format!("{what}, word {at}");
            line(&what, format!("{:08x}", expected[at]), format!("{:08x}", seen[at]));
        }
    }
    if let Some(at) = (0..expected.output.len()).find(|at| expected.output[*at] != seen.output[*at]) {
        let what = format!("output from byte {at}");
        line(&what, text(&expected.output[at..]), text(&seen.output[at..]));
    }
    out
}

/// An outcome in one line.
pub fn outcome(outcome: &Outcome) -> String {
    format!(
        "number {} ({}), place {}, taken {}, steps {}, handed out {}; {}",
        outcome.number,
        called(outcome.number),
        outcome.place,
        outcome.taken,
        outcome.steps,
        outcome.handed,
        record(&outcome.record)
    )
}
