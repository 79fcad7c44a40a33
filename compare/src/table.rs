//! The rule table: its bytes read into rules, or refused 1, 2 or 3 with a place.
//!
//! "Fields: one tag byte, two length bytes (high byte first), then that many
//! bytes. All names come first, then all states, then all rules, then the end."

use crate::alphabet::{is_leaf, is_name};
use crate::numbers::*;

/// A checked table.
#[derive(Clone, Debug, Default)]
pub struct Table {
    /// "a name; numbered from 0; no name twice"
    pub names: Vec<Vec<u8>>,
    /// "carried values of a state, 0 to 4; numbered from 0; state 0 is the first state"
    pub values: Vec<usize>,
    /// In the table's order.
    pub rules: Vec<Rule>,
}

#[derive(Clone, Debug)]
pub struct Rule {
    pub state: usize,
    pub pattern: Pattern,
    pub right_side: Vec<Item>,
}

/// "Patterns: 00 empty list; 01 and a name number; 02 any element with no 01
/// rule in that state; 03 any character." The order of the cases is theirs:
/// "Rules strictly increase by state, then pattern, then name."
#[derive(Clone, Copy, Debug, PartialEq, Eq, PartialOrd, Ord)]
pub enum Pattern {
    Empty,
    Named(u8),
    Other,
    Character,
}

/// One item of a right side, with all that it contains.
#[derive(Clone, Debug, PartialEq)]
pub enum Item {
    /// `10 name .. 1F`, or with no name `11 .. 1F`, the matched element.
    Element(Option<u8>, Vec<Item>),
    /// `12 byte`, or with no byte `13`, the matched character.
    Character(Option<u8>),
    /// `14 j`, "carried value j, counted from 0".
    Value(usize),
    /// `15 src state, arguments`.
    Call(Source, usize, Vec<Vec<Item>>),
}

/// "src 01 children, 02 siblings"
#[derive(Clone, Copy, Debug, PartialEq, Eq)]
pub enum Source {
    Children,
    Siblings,
}

/// What a call at level 1 meets.
#[derive(Clone, Copy, Debug, PartialEq, Eq)]
pub enum Met {
    EmptyList,
    Element(u8),
    Character(u8),
}

impl Table {
    /// The right side for a state and what it meets. "A missing rule has an
    /// empty right side (document 002)."
    pub fn right_side(&self, state: usize, met: Met) -> &[Item] {
        let found = match met {
            Met::EmptyList => self.rule(state, Pattern::Empty),
            Met::Character(_) => self.rule(state, Pattern::Character),
            Met::Element(name) => self
                .rule(state, Pattern::Named(name))
                .or_else(|| self.rule(state, Pattern::Other)),
        };
        found.map_or(&[], |rule| &rule.right_side)
    }

    fn rule(&self, state: usize, pattern: Pattern) -> Option<&Rule> {
        self.rules
            .binary_search_by(|rule| (rule.state, rule.pattern).cmp(&(state, pattern)))
            .ok()
            .map(|found| &self.rules[found])
    }

    /// The number of a name.
    pub fn number_of(&self, name: &[u8]) -> Option<u8> {
        self.names
            .iter()
            .position(|known| known == name)
            .map(|number| number as u8)
    }

    /// "R is the largest size in the table."
    pub fn largest(&self) -> usize {
        self.rules
            .iter()
            .map(|rule| size(&rule.right_side, &self.values))
            .max()
            .unwrap_or(0)
    }

    /// The letter's demand 3: "rules each read the children at most once, the
    /// siblings at most once and each carried value at most once".
    pub fn reads_once(&self) -> bool {
        self.rules.iter().all(|rule| {
            let mut reads = Reads::default();
            reads.count(&rule.right_side);
            reads.children <= 1 && reads.siblings <= 1 && reads.values.iter().all(|v| *v <= 1)
        })
    }
}

#[derive(Default)]
struct Reads {
    children: usize,
    siblings: usize,
    values: [usize; MOST_VALUES as usize],
}

impl Reads {
    fn count(&mut self, items: &[Item]) {
        for item in items {
            match item {
                Item::Element(_, content) => self.count(content),
                Item::Character(_) => {}
                Item::Value(j) => self.values[*j] += 1,
                Item::Call(source, _, arguments) => {
                    match source {
                        Source::Children => self.children += 1,
                        Source::Siblings => self.siblings += 1,
                    }
                    arguments.iter().for_each(|a| self.count(a));
                }
            }
        }
    }
}

/// "Size of a right side, in words: an element 2 and its content; a character
/// 1; a carried value 0; a call of a state with n carried values 1 + n and its
/// arguments."
pub fn size(items: &[Item], values: &[usize]) -> usize {
    items
        .iter()
        .map(|item| match item {
            Item::Element(_, content) => 2 + size(content, values),
            Item::Character(_) => 1,
            Item::Value(_) => 0,
            Item::Call(_, state, arguments) => {
                let inside: usize = arguments.iter().map(|a| size(a, values)).sum();
                1 + values[*state] + inside
            }
        })
        .sum()
}

/// Reads a table. "Table order: total length first, then field by field;
/// within a field 1, 3, 2."
pub fn read(bytes: &[u8]) -> Result<Table, Refusal> {
    if bytes.len() > MOST_TABLE {
        // "A table refusal for total length has place 0"
        return Err(Refusal { number: LIMIT, place: 0 });
    }
    let mut table = Table::default();
    let mut place = 0;
    loop {
        let refused = |number| Refusal { number, place };
        if place == bytes.len() {
            // "a missing end has the table's length"
            return Err(refused(FORM));
        }
        let field = Field::at(&bytes[place..]).ok_or(refused(FORM))?;
        let next = place + 3 + field.content.len();
        match field.tag {
            0x01 => add_name(&mut table, field.content).map_err(refused)?,
            0x02 => add_state(&mut table, field.content).map_err(refused)?,
            0x03 => add_rule(&mut table, field.content).map_err(refused)?,
            0x04 => {
                // "a rule or the end before any state"; "04: length 0"
                if table.values.is_empty() || !field.content.is_empty() {
                    return Err(refused(FORM));
                }
                if next < bytes.len() {
                    // "bytes after the end have the first of them"
                    return Err(Refusal { number: FORM, place: next });
                }
                return Ok(table);
            }
            _ => return Err(refused(FORM)),
        }
        place = next;
    }
}

struct Field<'a> {
    tag: u8,
    content: &'a [u8],
}

impl<'a> Field<'a> {
    /// The field at the front of the bytes, if all of it is there.
    fn at(bytes: &'a [u8]) -> Option<Field<'a>> {
        let high = *bytes.get(1)? as usize;
        let low = *bytes.get(2)? as usize;
        let content = bytes.get(3..3 + high * 256 + low)?;
        Some(Field { tag: bytes[0], content })
    }
}

fn add_name(table: &mut Table, content: &[u8]) -> Result<(), u8> {
    let late = !table.values.is_empty() || !table.rules.is_empty();
    if late || !is_name(content) || table.number_of(content).is_some() {
        return Err(FORM);
    }
    if table.names.len() == MOST_NAMES {
        return Err(LIMIT);
    }
    table.names.push(content.to_vec());
    Ok(())
}

fn add_state(table: &mut Table, content: &[u8]) -> Result<(), u8> {
    let late = !table.rules.is_empty();
    match content {
        [values] if !late && *values <= MOST_VALUES => {
            if table.values.len() == MOST_STATES {
                return Err(LIMIT);
            }
            table.values.push(*values as usize);
            Ok(())
        }
        _ => Err(FORM),
    }
}

fn add_rule(table: &mut Table, content: &[u8]) -> Result<(), u8> {
    // 1: "a rule's [length] holds at least state, pattern and pattern 01's name"
    let long_enough = match content {
        [_, 0x01, ..] => content.len() >= 3,
        _ => content.len() >= 2,
    };
    if table.values.is_empty() || !long_enough {
        return Err(FORM);
    }
    // 3 before 2, wherever in the field each stands.
    let state = content[0] as usize;
    let values = *table.values.get(state).ok_or(RULE)?;
    let (pattern, items) = match content[1] {
        0x00 => (Pattern::Empty, &content[2..]),
        0x01 if (content[2] as usize) < table.names.len() => {
            (Pattern::Named(content[2]), &content[3..])
        }
        0x02 => (Pattern::Other, &content[2..]),
        0x03 => (Pattern::Character, &content[2..]),
        _ => return Err(RULE),
    };
    if let Some(before) = table.rules.last() {
        if (before.state, before.pattern) >= (state, pattern) {
            return Err(RULE);
        }
    }
    let mut reader = RightSide { bytes: items, at: 0, table, pattern, values, most_owed: 0 };
    let right_side = reader.sequence(0).ok_or(RULE)?;
    let most_owed = reader.most_owed;
    if most_owed > MOST_OWED || size(&right_side, &table.values) > MOST_WORDS {
        return Err(LIMIT);
    }
    table.rules.push(Rule { state, pattern, right_side });
    Ok(())
}

/// Reads a right side by plain descent; every `None` is a refusal 3.
struct RightSide<'a> {
    bytes: &'a [u8],
    at: usize,
    table: &'a Table,
    pattern: Pattern,
    values: usize,
    /// "At most 8 ends (1F) are owed at any point; a call owes one for each
    /// argument not yet ended."
    most_owed: usize,
}

impl RightSide<'_> {
    fn byte(&mut self) -> Option<u8> {
        let byte = *self.bytes.get(self.at)?;
        self.at += 1;
        Some(byte)
    }

    /// Items up to the `1F` that ends them, or, where no end is owed, up to
    /// the end of the field. `owed` counts the ends owed here, this one too.
    fn sequence(&mut self, owed: usize) -> Option<Vec<Item>> {
        self.most_owed = self.most_owed.max(owed);
        let mut items = Vec::new();
        loop {
            if self.at == self.bytes.len() {
                return if owed == 0 { Some(items) } else { None };
            }
            let item = match self.byte()? {
                0x10 => {
                    let name = self.byte()?;
                    if name as usize >= self.table.names.len() {
                        return None;
                    }
                    Item::Element(Some(name), self.sequence(owed + 1)?)
                }
                // "the matched element; patterns 01 and 02 only"
                0x11 if matches!(self.pattern, Pattern::Named(_) | Pattern::Other) => {
                    Item::Element(None, self.sequence(owed + 1)?)
                }
                // "that character, a text byte or `<`, `>`, `&`"
                0x12 => {
                    let byte = self.byte()?;
                    if !is_leaf(byte as u32) {
                        return None;
                    }
                    Item::Character(Some(byte))
                }
                // "the matched character; pattern 03 only"
                0x13 if self.pattern == Pattern::Character => Item::Character(None),
                0x14 => {
                    let value = self.byte()? as usize;
                    if value >= self.values {
                        return None;
                    }
                    Item::Value(value)
                }
                0x15 => self.call(owed)?,
                0x1F if owed > 0 => return Some(items),
                _ => return None,
            };
            items.push(item);
        }
    }

    /// "one argument for each carried value of that state, each ended by 1F"
    fn call(&mut self, owed: usize) -> Option<Item> {
        let source = match self.byte()? {
            0x01 => Source::Children,
            0x02 => Source::Siblings,
            _ => return None,
        };
        // "Pattern 00 has no call. Pattern 03 calls only siblings."
        let allowed = match self.pattern {
            Pattern::Empty => false,
            Pattern::Character => source == Source::Siblings,
            Pattern::Named(_) | Pattern::Other => true,
        };
        let state = self.byte()? as usize;
        let count = *self.table.values.get(state)?;
        if !allowed {
            return None;
        }
        let mut arguments = Vec::new();
        for ended in 0..count {
            arguments.push(self.sequence(owed + count - ended)?);
        }
        Some(Item::Call(source, state, arguments))
    }
}

/// The bytes of one field.
pub fn field(tag: u8, content: &[u8]) -> Vec<u8> {
    let length = content.len();
    let mut bytes = vec![tag, (length >> 8) as u8, (length & 255) as u8];
    bytes.extend_from_slice(content);
    bytes
}

/// The bytes of a right side.
pub fn item_bytes(items: &[Item], bytes: &mut Vec<u8>) {
    for item in items {
        match item {
            Item::Element(name, content) => {
                match name {
                    Some(name) => bytes.extend([0x10, *name]),
                    None => bytes.push(0x11),
                }
                item_bytes(content, bytes);
                bytes.push(0x1F);
            }
            Item::Character(Some(byte)) => bytes.extend([0x12, *byte]),
            Item::Character(None) => bytes.push(0x13),
            Item::Value(j) => bytes.extend([0x14, *j as u8]),
            Item::Call(source, state, arguments) => {
                let source = match source {
                    Source::Children => 0x01,
                    Source::Siblings => 0x02,
                };
                bytes.extend([0x15, source, *state as u8]);
                for argument in arguments {
                    item_bytes(argument, bytes);
                    bytes.push(0x1F);
                }
            }
        }
    }
}

/// The content of a rule field.
pub fn rule_bytes(state: usize, pattern: Pattern, right_side: &[Item]) -> Vec<u8> {
    let mut bytes = vec![state as u8];
    match pattern {
        Pattern::Empty => bytes.push(0x00),
        Pattern::Named(name) => bytes.extend([0x01, name]),
        Pattern::Other => bytes.push(0x02),
        Pattern::Character => bytes.push(0x03),
    }
    item_bytes(right_side, &mut bytes);
    bytes
}

/// The bytes of a table, not checked.
pub fn table_bytes(table: &Table) -> Vec<u8> {
    let mut bytes = Vec::new();
    for name in &table.names {
        bytes.extend(field(0x01, name));
    }
    for values in &table.values {
        bytes.extend(field(0x02, &[*values as u8]));
    }
    for rule in &table.rules {
        let content = rule_bytes(rule.state, rule.pattern, &rule.right_side);
        bytes.extend(field(0x03, &content));
    }
    bytes.extend(field(0x04, &[]));
    bytes
}
