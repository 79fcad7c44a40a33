//! The tables of the papers: document 01's "Examples to agree with", document
//! 002's M_rev and M_htm with character leaves, and REQUIREMENTS B1.7 and B13.

use crate::table::{Item, Pattern, Rule, Source, Table};

pub fn element(name: Option<u8>, content: Vec<Item>) -> Item {
    Item::Element(name, content)
}

pub fn children(state: usize, arguments: Vec<Vec<Item>>) -> Item {
    Item::Call(Source::Children, state, arguments)
}

pub fn siblings(state: usize, arguments: Vec<Vec<Item>>) -> Item {
    Item::Call(Source::Siblings, state, arguments)
}

pub const MATCHED: Item = Item::Character(None);
pub const VALUE: Item = Item::Value(0);

pub fn text(text: &str) -> Vec<Item> {
    text.bytes().map(|byte| Item::Character(Some(byte))).collect()
}

fn rule(state: usize, pattern: Pattern, right_side: Vec<Item>) -> Rule {
    Rule { state, pattern, right_side }
}

pub fn table(names: &[&str], values: &[usize], mut rules: Vec<Rule>) -> Table {
    rules.sort_by_key(|rule| (rule.state, rule.pattern));
    Table {
        names: names.iter().map(|name| name.as_bytes().to_vec()).collect(),
        values: values.to_vec(),
        rules,
    }
}

/// "Element: the matched element holding a call on its children, then rest.
/// Character: itself, rest." As state `q`.
fn copy_rules(q: usize) -> Vec<Rule> {
    vec![
        rule(q, Pattern::Other, vec![
            element(None, vec![children(q, vec![])]),
            siblings(q, vec![]),
        ]),
        rule(q, Pattern::Character, vec![MATCHED, siblings(q, vec![])]),
    ]
}

pub fn copy(names: &[&str]) -> Table {
    table(names, &[0], copy_rules(0))
}

/// "Element: rest with argument (matched element holding a call on children
/// with empty argument, then value 0). Character: rest with argument (it,
/// value 0). Empty: value 0." As state `q`.
fn flip_rules(q: usize) -> Vec<Rule> {
    vec![
        rule(q, Pattern::Empty, vec![VALUE]),
        rule(q, Pattern::Other, vec![siblings(q, vec![vec![
            element(None, vec![children(q, vec![vec![]])]),
            VALUE,
        ]])]),
        rule(q, Pattern::Character, vec![siblings(q, vec![vec![MATCHED, VALUE]])]),
    ]
}

pub fn flip(names: &[&str]) -> Table {
    table(names, &[1], flip_rules(0))
}

/// "State 0: character gives state 0 on siblings with argument (state 1 on
/// siblings with value 0); empty gives value 0. State 1: character gives state
/// 1 on siblings with value 0; empty gives value 0 twice."
pub fn twin() -> Table {
    nested(&[], vec![VALUE, VALUE])
}

/// Twin with another right side for the empty list in state 1.
pub fn nested(names: &[&str], at_end: Vec<Item>) -> Table {
    table(names, &[1, 1], vec![
        rule(0, Pattern::Empty, vec![VALUE]),
        rule(0, Pattern::Character, vec![siblings(0, vec![vec![siblings(1, vec![vec![VALUE]])]])]),
        rule(1, Pattern::Empty, at_end),
        rule(1, Pattern::Character, vec![siblings(1, vec![vec![VALUE]])]),
    ])
}

/// "Sheet, names `log pt v val none`. State 0: `log` and `pt` give the matched
/// element, holding a call on children of state 0 for `log`, of state 1 for
/// `pt`, then rest; other element and character give rest. State 1: `v` gives
/// `val` holding a Copy state on children; other element and character give
/// rest; empty gives an empty `none`."
pub fn sheet() -> Table {
    let (log, pt, v, val, none) = (0, 1, 2, 3, 4);
    let mut rules = vec![
        rule(0, Pattern::Named(log), vec![
            element(None, vec![children(0, vec![])]),
            siblings(0, vec![]),
        ]),
        rule(0, Pattern::Named(pt), vec![
            element(None, vec![children(1, vec![])]),
            siblings(0, vec![]),
        ]),
        rule(0, Pattern::Other, vec![siblings(0, vec![])]),
        rule(0, Pattern::Character, vec![siblings(0, vec![])]),
        rule(1, Pattern::Empty, vec![element(Some(none), vec![])]),
        rule(1, Pattern::Named(v), vec![element(Some(val), vec![children(2, vec![])])]),
        rule(1, Pattern::Other, vec![siblings(1, vec![])]),
        rule(1, Pattern::Character, vec![siblings(1, vec![])]),
    ];
    rules.extend(copy_rules(2));
    table(&["log", "pt", "v", "val", "none"], &[0, 0, 0], rules)
}

/// Document 002, figure 1: Main is state 0, Rev state 1.
pub fn rev() -> Table {
    let r = 1;
    let mut rules = copy_rules(0);
    rules.push(rule(0, Pattern::Named(r), vec![
        element(None, vec![children(1, vec![vec![]])]),
        siblings(0, vec![]),
    ]));
    rules.extend(flip_rules(1));
    table(&["a", "r", "b", "c", "d", "e", "f"], &[0, 1], rules)
}

/// Document 002, example 2; a character between elements is passed over, and
/// the words Index and Postscript are characters.
pub fn htm() -> Table {
    let names = [
        "article", "title", "para", "ps", "key", "html", "head", "body", "h1", "p", "h2", "ul",
        "em", "li",
    ];
    let (article, title, para, ps, key) = (0, 1, 2, 3, 4);
    let (html, head, body, h1, p, h2, ul, em, li) = (5, 6, 7, 8, 9, 10, 11, 12, 13);
    let (main, in_title, in_article, key_to_em, all_keys, copy) = (0, 1, 2, 3, 4, 5);
    let mut rules = vec![
        rule(main, Pattern::Named(article), vec![element(Some(html), vec![
            element(Some(head), vec![children(in_title, vec![])]),
            element(Some(body), vec![children(in_article, vec![vec![]])]),
        ])]),
        rule(main, Pattern::Character, vec![siblings(main, vec![])]),
        rule(in_title, Pattern::Named(title), vec![element(Some(title), vec![children(copy, vec![])])]),
        rule(in_title, Pattern::Character, vec![siblings(in_title, vec![])]),
        rule(in_article, Pattern::Named(title), vec![
            element(Some(h1), vec![children(copy, vec![])]),
            siblings(in_article, vec![vec![VALUE]]),
        ]),
        rule(in_article, Pattern::Named(para), vec![
            element(Some(p), vec![children(key_to_em, vec![])]),
            siblings(in_article, vec![vec![VALUE, children(all_keys, vec![])]]),
        ]),
        rule(in_article, Pattern::Named(ps), vec![
            element(Some(h2), text("Index")),
            element(Some(ul), vec![VALUE]),
            element(Some(h2), text("Postscript")),
            children(copy, vec![]),
        ]),
        rule(in_article, Pattern::Character, vec![siblings(in_article, vec![vec![VALUE]])]),
        rule(key_to_em, Pattern::Named(key), vec![
            element(Some(em), vec![children(copy, vec![])]),
            siblings(key_to_em, vec![]),
        ]),
        rule(all_keys, Pattern::Named(key), vec![
            element(Some(li), vec![children(copy, vec![])]),
            siblings(all_keys, vec![]),
        ]),
        rule(all_keys, Pattern::Other, vec![children(all_keys, vec![]), siblings(all_keys, vec![])]),
        rule(all_keys, Pattern::Character, vec![siblings(all_keys, vec![])]),
    ];
    rules.extend(copy_rules(key_to_em));
    rules.extend(copy_rules(copy));
    table(&names, &[0, 0, 1, 0, 0, 0], rules)
}

/// REQUIREMENTS B1.7: "character = rest with (it, value), empty = value ×k".
pub fn times(k: usize) -> Table {
    table(&[], &[1], vec![
        rule(0, Pattern::Empty, vec![VALUE; k]),
        rule(0, Pattern::Character, vec![siblings(0, vec![vec![MATCHED, VALUE]])]),
    ])
}

/// `count` elements, each in the one before, around an item.
pub fn wrapped(count: usize, inner: Item) -> Item {
    (0..count).fold(inner, |inside, _| element(Some(0), vec![inside]))
}
