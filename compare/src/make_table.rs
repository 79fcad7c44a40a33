//! Random tables of every kind, and damage to them.

use crate::classics;
use crate::rng::Rng;
use crate::table::{field, item_bytes, read, rule_bytes, size, table_bytes};
use crate::table::{Item, Pattern, Rule, Source, Table};

/// What the right sides of a random table are like.
#[derive(Clone, Copy)]
struct Taste {
    /// Children, siblings and each value at most once (demand 3).
    once: bool,
    /// Of 100 items, this many are calls where calls may stand, and values.
    calls: usize,
    values: usize,
    /// Items in a row and inside one another.
    width: usize,
    depth: usize,
}

const ONCE: Taste = Taste { once: true, calls: 30, values: 40, width: 3, depth: 3 };
const WILD: Taste = Taste { once: false, calls: 35, values: 30, width: 3, depth: 3 };
const COPYING: Taste = Taste { once: false, calls: 25, values: 60, width: 4, depth: 3 };
const DROPPING: Taste = Taste { once: false, calls: 45, values: 3, width: 2, depth: 3 };
const LARGE: Taste = Taste { once: false, calls: 25, values: 25, width: 7, depth: 6 };

/// A valid table.
pub fn valid(rng: &mut Rng) -> Table {
    let table = match rng.weighted(&[14, 22, 26, 10, 8, 6, 4, 3, 3]) {
        0 => classic(rng),
        1 => random(rng, ONCE, 5, 4),
        2 => random(rng, WILD, 5, 4),
        3 => random(rng, COPYING, 3, 3),
        4 => random(rng, DROPPING, 4, 4),
        5 => random(rng, WILD, 0, 3),
        6 => random(rng, LARGE, 4, 3),
        7 => random(rng, WILD, 2, 30),
        _ => Table { rules: vec![], ..random(rng, WILD, 3, 3) },
    };
    debug_assert!(read(&table_bytes(&table)).is_ok());
    table
}

/// A valid table near the limits of names, states and bytes.
pub fn large(rng: &mut Rng) -> Table {
    match rng.below(3) {
        0 => random(rng, WILD, 128, 8),
        1 => random(rng, WILD, 6, 64),
        _ => random(rng, LARGE, 40, 20),
    }
}

fn classic(rng: &mut Rng) -> Table {
    let mut table = match rng.below(9) {
        0 => classics::copy(&["a", "b"]),
        1 | 2 => classics::flip(&["a", "b"]),
        3 => classics::twin(),
        4 => classics::sheet(),
        5 => classics::rev(),
        6 => classics::htm(),
        7 => classics::times(rng.from_to(0, 9)),
        _ => {
            let inner = classics::wrapped(rng.from_to(0, 8), classics::VALUE);
            classics::nested(&["n"], vec![inner])
        }
    };
    for name in names(rng, 2) {
        if table.number_of(&name).is_none() {
            table.names.push(name);
        }
    }
    table
}

/// Names that are easy to confuse: short, long, one the beginning of another.
fn names(rng: &mut Rng, most: usize) -> Vec<Vec<u8>> {
    let mut names: Vec<Vec<u8>> = Vec::new();
    for _ in 0..rng.from_to(0, most) {
        let name = match rng.below(10) {
            0..=5 => rng.pick(&["a", "b", "c", "ab", "a-", "a.b", "_", "A", "a1"]).as_bytes().to_vec(),
            6 | 7 => some_name(rng, 6),
            8 => some_name(rng, 32),
            _ => exact_name(rng, 32),
        };
        if !names.contains(&name) {
            names.push(name);
        }
    }
    names
}

pub fn some_name(rng: &mut Rng, longest: usize) -> Vec<u8> {
    let length = rng.from_to(1, longest);
    exact_name(rng, length)
}

pub fn exact_name(rng: &mut Rng, length: usize) -> Vec<u8> {
    let first = b"abcxyzABZ_";
    let later = b"abcxyzABZ_0189-.";
    let mut name = vec![*rng.pick(first)];
    while name.len() < length {
        name.push(*rng.pick(later));
    }
    name
}

fn random(rng: &mut Rng, taste: Taste, most_names: usize, most_states: usize) -> Table {
    let mut names = names(rng, most_names);
    if most_names == 128 {
        while names.len() < 128 {
            let name = some_name(rng, 8);
            if !names.contains(&name) {
                names.push(name);
            }
        }
    }
    let states = if most_states > 8 { most_states } else { rng.from_to(1, most_states) };
    let values = (0..states).map(|_| rng.weighted(&[38, 34, 16, 6, 6])).collect();
    let mut table = Table { names, values, rules: Vec::new() };
    for state in 0..states {
        for pattern in patterns(rng, &table, state) {
            let right_side = right_side(rng, &table, state, pattern, taste);
            table.rules.push(Rule { state, pattern, right_side });
        }
    }
    while table_bytes(&table).len() > crate::numbers::MOST_TABLE {
        table.rules.pop();
    }
    table
}

/// The patterns for which a state has a rule, in order.
fn patterns(rng: &mut Rng, table: &Table, state: usize) -> Vec<Pattern> {
    let mut patterns = Vec::new();
    let crowd = table.names.len() > 10 || table.values.len() > 8;
    if rng.percent(if table.values[state] > 0 { 80 } else { 40 }) {
        patterns.push(Pattern::Empty);
    }
    for name in 0..table.names.len() {
        if rng.percent(if crowd { 4 } else { 35 }) {
            patterns.push(Pattern::Named(name as u8));
        }
    }
    if rng.percent(75) {
        patterns.push(Pattern::Other);
    }
    if rng.percent(85) {
        patterns.push(Pattern::Character);
    }
    patterns
}

/// A right side within 64 words and 8 ends.
fn right_side(rng: &mut Rng, table: &Table, state: usize, pattern: Pattern, taste: Taste) -> Vec<Item> {
    loop {
        let mut maker = Maker { rng, table, state, pattern, taste, children: 0, siblings: 0, values: [0; 4] };
        let mut items = maker.sequence(taste.depth);
        maker.keep_going(&mut items);
        let fits = size(&items, &table.values) <= 64 && owed(&items) <= 8;
        if fits {
            return items;
        }
    }
}

/// The most ends owed at any point, counted along the bytes.
pub fn owed(items: &[Item]) -> usize {
    items
        .iter()
        .map(|item| match item {
            Item::Element(_, content) => 1 + owed(content),
            Item::Call(_, _, arguments) => (0..arguments.len())
                .map(|k| arguments.len() - k + owed(&arguments[k]))
                .max()
                .unwrap_or(0),
            _ => 0,
        })
        .max()
        .unwrap_or(0)
}

struct Maker<'a> {
    rng: &'a mut Rng,
    table: &'a Table,
    state: usize,
    pattern: Pattern,
    taste: Taste,
    children: usize,
    siblings: usize,
    values: [usize; 4],
}

impl Maker<'_> {
    fn sequence(&mut self, depth: usize) -> Vec<Item> {
        let count = self.rng.below(self.taste.width + 1);
        (0..count).filter_map(|_| self.item(depth)).collect()
    }

    fn item(&mut self, depth: usize) -> Option<Item> {
        let other = 100 - self.taste.calls - self.taste.values;
        match self.rng.weighted(&[self.taste.calls, self.taste.values, other / 2 + 1, other / 2 + 1]) {
            0 => self.call(depth),
            1 => self.value(),
            2 if depth > 0 => self.element(depth),
            _ => Some(self.character()),
        }
    }

    fn character(&mut self) -> Item {
        if self.pattern == Pattern::Character && self.rng.percent(60) {
            return Item::Character(None);
        }
        Item::Character(Some(some_leaf(self.rng)))
    }

    fn element(&mut self, depth: usize) -> Option<Item> {
        let matched = matches!(self.pattern, Pattern::Named(_) | Pattern::Other);
        let name = if matched && self.rng.percent(60) {
            None
        } else if self.table.names.is_empty() {
            return None;
        } else {
            Some(self.rng.below(self.table.names.len()) as u8)
        };
        Some(Item::Element(name, self.sequence(depth - 1)))
    }

    fn value(&mut self) -> Option<Item> {
        let count = self.table.values[self.state];
        if count == 0 {
            return None;
        }
        let j = self.rng.below(count);
        if self.taste.once && self.values[j] > 0 {
            return None;
        }
        self.values[j] += 1;
        Some(Item::Value(j))
    }

    fn call(&mut self, depth: usize) -> Option<Item> {
        let source = match self.pattern {
            Pattern::Empty => return None,
            Pattern::Character => Source::Siblings,
            _ if self.rng.percent(50) => Source::Children,
            _ => Source::Siblings,
        };
        self.call_of(source, depth)
    }

    fn call_of(&mut self, source: Source, depth: usize) -> Option<Item> {
        let used = match source {
            Source::Children => &mut self.children,
            Source::Siblings => &mut self.siblings,
        };
        if self.taste.once && *used > 0 {
            return None;
        }
        *used += 1;
        let own = self.rng.percent(40);
        let states = self.table.values.len();
        let state = if own { self.state } else { self.rng.below(states) };
        let mut arguments = Vec::new();
        for _ in 0..self.table.values[state] {
            arguments.push(if depth > 0 { self.sequence(depth - 1) } else { Vec::new() });
        }
        Some(Item::Call(source, state, arguments))
    }

    /// Most rules go on with the siblings, or the run soon holds nothing.
    fn keep_going(&mut self, items: &mut Vec<Item>) {
        let may = self.pattern != Pattern::Empty;
        if may && self.siblings == 0 && self.rng.percent(85) {
            items.extend(self.call_of(Source::Siblings, 2));
        }
        let may = may && self.pattern != Pattern::Character;
        if may && self.children == 0 && self.rng.percent(60) {
            if let Some(call) = self.call_of(Source::Children, 2) {
                items.insert(0, Item::Element(None, vec![call]));
            }
        }
    }
}

/// A character for a rule or a held expression.
pub fn some_leaf(rng: &mut Rng) -> u8 {
    match rng.below(10) {
        0 => *rng.pick(b"<>&\"'"),
        1 => *rng.pick(&[9, 10, 13, 32, 126]),
        2 => rng.from_to(32, 126) as u8,
        _ => *rng.pick(b"xyz0123."),
    }
}

/// A table with something wrong, or nearly so; what, the judge finds out.
pub fn damaged(rng: &mut Rng) -> Vec<u8> {
    let table = valid(rng);
    let mut bytes = table_bytes(&table);
    match rng.weighted(&[30, 25, 25, 20]) {
        0 => bytes_damaged(rng, &mut bytes),
        1 => bytes = fields_damaged(rng, &bytes),
        2 => bytes = rule_damaged(rng, &table),
        _ => bytes = limits_tried(rng, &table),
    }
    if rng.percent(10) {
        bytes_damaged(rng, &mut bytes);
    }
    bytes
}

/// Bit flips, single bytes, cuts and bytes after the end.
fn bytes_damaged(rng: &mut Rng, bytes: &mut Vec<u8>) {
    if bytes.is_empty() {
        return;
    }
    let at = rng.below(bytes.len());
    match rng.below(6) {
        0 | 1 => bytes[at] ^= 1 << rng.below(8),
        2 => bytes[at] = *rng.pick(&[0, 1, 2, 3, 4, 5, 0x10, 0x11, 0x12, 0x13, 0x14, 0x15, 0x16, 0x1F, 0xFF]),
        3 => bytes.truncate(at),
        4 => {
            let count = rng.from_to(1, 4);
            bytes.extend(rng.bytes(count));
        }
        _ => {
            bytes.remove(at);
        }
    }
}

/// Where each field of a valid table begins, and its length.
fn fields(bytes: &[u8]) -> Vec<Vec<u8>> {
    let mut fields = Vec::new();
    let mut at = 0;
    while at < bytes.len() {
        let length = 3 + bytes[at + 1] as usize * 256 + bytes[at + 2] as usize;
        fields.push(bytes[at..at + length].to_vec());
        at += length;
    }
    fields
}

/// Fields left out, doubled, moved, exchanged, of wrong length or kind.
fn fields_damaged(rng: &mut Rng, bytes: &[u8]) -> Vec<u8> {
    let mut fields = fields(bytes);
    let at = rng.below(fields.len());
    match rng.below(8) {
        0 => {
            fields.remove(at);
        }
        1 => {
            let doubled = fields[at].clone();
            let to = if rng.percent(50) { at } else { rng.below(fields.len() + 1) };
            fields.insert(to, doubled);
        }
        2 => {
            let other = rng.below(fields.len());
            fields.swap(at, other);
        }
        3 => {
            let length = rng.from_to(0, fields[at].len() + 2).saturating_sub(3);
            fields[at][1] = (length >> 8) as u8;
            fields[at][2] = length as u8;
        }
        4 => fields[at][1 + rng.below(2)] = rng.byte(),
        5 => fields[at][0] = *rng.pick(&[0, 1, 2, 3, 4, 5, 255]),
        _ => {
            let odd = odd_field(rng);
            let to = if rng.percent(60) { at } else { rng.below(fields.len() + 1) };
            fields.insert(to, odd);
        }
    }
    fields.concat()
}

fn odd_field(rng: &mut Rng) -> Vec<u8> {
    match rng.below(14) {
        0 => field(0x01, b""),
        1 => field(0x01, &exact_name(rng, 33)),
        2 => field(0x01, &exact_name(rng, 32)),
        3 => field(0x01, *rng.pick(&[&b"1a"[..], b"-", b".", b"a b", b"a\x00", b"@id", b"a:b", b"a\xc3"])),
        4 => field(0x02, &[5]),
        5 => field(0x02, &[]),
        6 => field(0x02, &[0, 0]),
        7 => field(0x02, &[rng.below(8) as u8]),
        8 => field(0x03, &[]),
        9 => field(0x03, &[rng.below(3) as u8]),
        10 => field(0x03, &[rng.below(3) as u8, rng.below(8) as u8]),
        11 => field(0x04, &[0]),
        12 => field(0x04, &[]),
        _ => {
            let tag = rng.byte();
            let count = rng.below(4);
            field(tag, &rng.bytes(count))
        }
    }
}

/// One rule's right side replaced or edited item by item.
fn rule_damaged(rng: &mut Rng, table: &Table) -> Vec<u8> {
    let mut contents: Vec<Vec<u8>> = table
        .rules
        .iter()
        .map(|rule| rule_bytes(rule.state, rule.pattern, &rule.right_side))
        .collect();
    if contents.is_empty() {
        contents.push(vec![0, 2]);
    }
    let at = rng.below(contents.len());
    let content = &mut contents[at];
    let head = if content[1] == 1 { 3 } else { 2 };
    match rng.below(8) {
        0 => {
            let place = rng.from_to(head, content.len());
            let odd = odd_items(rng);
            content.splice(place..place, odd);
        }
        1 => {
            content.truncate(head);
            content.extend(odd_items(rng));
        }
        2 => content.extend(odd_items(rng)),
        3 => {
            let keep = rng.from_to(0, content.len());
            content.truncate(keep);
        }
        4 => content.push(0x1F),
        5 => {
            let place = rng.below(head);
            content[place] = rng.below(8) as u8;
        }
        6 => {
            let place = rng.below(content.len());
            content[place] ^= 1 << rng.below(8);
        }
        _ => {
            content.extend(odd_items(rng));
            content.extend(odd_items(rng));
        }
    }
    let mut bytes = table_bytes(&Table { rules: vec![], ..table.clone() });
    bytes.truncate(bytes.len() - 3);
    contents.iter().for_each(|content| bytes.extend(field(0x03, content)));
    bytes.extend(field(0x04, &[]));
    bytes
}

/// Items that are wrong somewhere, and items at the edge of a limit.
fn odd_items(rng: &mut Rng) -> Vec<u8> {
    match rng.below(24) {
        0 => vec![0x10],
        1 => vec![0x10, rng.byte(), 0x1F],
        2 => vec![0x11, 0x1F],
        3 => vec![0x11],
        4 => vec![0x12, *rng.pick(&[0, 8, 9, 10, 11, 13, 31, 32, 38, 60, 62, 126, 127, 128, 255])],
        5 => vec![0x12],
        6 => vec![0x13],
        7 => vec![0x14, rng.below(6) as u8],
        8 => vec![0x14],
        9 => vec![0x15],
        10 => vec![0x15, rng.below(5) as u8],
        11 => vec![0x15, rng.below(4) as u8, rng.below(6) as u8],
        12 => vec![0x15, 2, 0, 0x1F],
        13 => vec![0x15, 1, 0],
        14 => vec![*rng.pick(&[0, 1, 0x0F, 0x16, 0x17, 0x1E, 0x20, 0xFF])],
        15 => vec![0x1F],
        16 => vec![0x11; 9],
        17 => [vec![0x11; 9], vec![0x1F; 9]].concat(),
        18 => [vec![0x11; 8], vec![0x1F; 8]].concat(),
        19 => [0x12, b'x'].repeat(rng.from_to(58, 66)),
        20 => [vec![0x12, b'x'].repeat(65), vec![0xFF]].concat(),
        21 => [vec![0x11; 8], vec![0x15, 2, 0], vec![0x1F; rng.from_to(7, 10)]].concat(),
        22 => [0x14, 0].repeat(rng.from_to(1, 80)),
        _ => rng.bytes(3),
    }
}

/// 128 or 129 names, 64 or 65 states, a table of 32,768 bytes or one more, and
/// right sides at or over their limits, each perhaps with a fault beside it.
fn limits_tried(rng: &mut Rng, table: &Table) -> Vec<u8> {
    match rng.weighted(&[12, 12, 3, 73]) {
        0 => crowd_of_names(rng),
        1 => crowd_of_states(rng),
        2 => long_table(rng),
        _ => full_right_side(rng, table),
    }
}

fn crowd_of_names(rng: &mut Rng) -> Vec<u8> {
    let mut bytes = Vec::new();
    let count = rng.from_to(127, 130);
    for number in 0..count {
        let last = number + 1 == count;
        let name = match rng.below(5) {
            0 if last => b"n0".to_vec(),
            1 if last => b"1".to_vec(),
            2 if last => exact_name(rng, 33),
            _ => format!("n{number}").into_bytes(),
        };
        bytes.extend(field(0x01, &name));
    }
    bytes.extend(field(0x02, &[0]));
    bytes.extend(field(0x03, &[0, 2, 0x10, rng.from_to(125, 130) as u8, 0x1F]));
    bytes.extend(field(0x04, &[]));
    bytes
}

fn crowd_of_states(rng: &mut Rng) -> Vec<u8> {
    let mut bytes = Vec::new();
    let count = rng.from_to(63, 66);
    for number in 0..count {
        let last = number + 1 == count;
        let content = match rng.below(4) {
            0 if last => vec![5],
            1 if last => vec![],
            _ => vec![(number % 5) as u8],
        };
        bytes.extend(field(0x02, &content));
    }
    let calls = [0x15, 2, rng.from_to(60, 66) as u8, 0x1F, 0x1F, 0x1F];
    let mut rule = vec![rng.from_to(60, 66) as u8, 3];
    rule.extend(&calls[..rng.from_to(3, 6)]);
    bytes.extend(field(0x03, &rule));
    bytes.extend(field(0x04, &[]));
    bytes
}

/// A rule of many carried values, which have size 0, fills the table.
fn long_table(rng: &mut Rng) -> Vec<u8> {
    let total = *rng.pick(&[32_766, 32_767, 32_768, 32_769, 32_770, 40_000]);
    let mut bytes = filled_table(total);
    if rng.percent(20) {
        bytes[0] = 9;
    }
    bytes
}

/// A table of `total` bytes: one name, one state of one value, one rule for the
/// empty list with as many values as fit.
pub fn filled_table(total: usize) -> Vec<u8> {
    let name = if total % 2 == 0 { &b"a"[..] } else { b"ab" };
    let values = (total - 15 - name.len()) / 2;
    let mut bytes = field(0x01, name);
    bytes.extend(field(0x02, &[1]));
    bytes.extend(field(0x03, &[vec![0, 0], [0x14, 0].repeat(values)].concat()));
    bytes.extend(field(0x04, &[]));
    assert_eq!(bytes.len(), total);
    bytes
}

/// The first rule for elements gets just as many words, or ends owed, as may
/// be, or one more; perhaps with a 3 behind.
fn full_right_side(rng: &mut Rng, table: &Table) -> Vec<u8> {
    let mut items = Vec::new();
    let with_values = table.values.iter().position(|values| *values > 0);
    let ends = rng.percent(50);
    match with_values {
        Some(state) if ends => {
            // A call of n values owes n at once, the elements before it the rest.
            let values = table.values[state];
            let before = rng.from_to(7, 9) - values.min(7);
            items = vec![Item::Call(Source::Siblings, state, vec![vec![]; values])];
            for _ in 0..before {
                items = vec![Item::Element(None, items)];
            }
        }
        _ if ends => {
            for _ in 0..rng.from_to(7, 9) {
                items = vec![Item::Element(None, items)];
            }
        }
        _ => {
            while size(&items, &table.values) < 60 {
                let item = match rng.below(3) {
                    0 => Item::Element(None, vec![Item::Character(Some(b'x'))]),
                    1 => Item::Character(Some(some_leaf(rng))),
                    _ => {
                        let state = rng.below(table.values.len());
                        Item::Call(Source::Siblings, state, vec![vec![]; table.values[state]])
                    }
                };
                items.push(item);
            }
            for _ in 0..rng.from_to(0, 6) {
                items.push(Item::Character(Some(b'y')));
            }
        }
    }
    let mut content = vec![0, 2];
    item_bytes(&items, &mut content);
    if rng.percent(15) {
        content.extend(odd_items(rng));
    }
    let mut bytes = table_bytes(&Table { rules: vec![], ..table.clone() });
    bytes.truncate(bytes.len() - 3);
    bytes.extend(field(0x03, &content));
    bytes.extend(field(0x04, &[]));
    bytes
}
