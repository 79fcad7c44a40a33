//! Fixed cases with the numbers that the papers give for them: document 01's
//! examples 1 to 11 and the program's log, REQUIREMENTS parts B1 to B9, C and
//! E. `compare self` holds the judge to these numbers, `compare run` sends the
//! same requests to the program.

use crate::calls::{self, Asked, Given, Outcome};
use crate::classics;
use crate::classics::{siblings, text, wrapped, VALUE};
use crate::held::{Call, Expression, Held};
use crate::log::first_event;
use crate::make_table::filled_table;
use crate::numbers::MOST_OPEN;
use crate::record::Record;
use crate::scenes::Case;
use crate::table::{field, table_bytes, Pattern, Rule, Table};
use crate::wire::Request;
use crate::words::{self, word, CALL, CHARACTER, END, END_OF_ARGUMENT, START};

/// All fixed cases, and what the papers say differently, if anything.
pub fn all() -> (Vec<Case>, Vec<String>) {
    let mut list = List::default();
    examples(&mut list);
    numbers_checked(&mut list);
    steps_at_the_limit(&mut list);
    several_refusals_at_once(&mut list);
    bytes_that_begin_events(&mut list);
    names_and_nesting(&mut list);
    tables(&mut list);
    records(&mut list);
    outputs(&mut list);
    areas(&mut list);
    deep_nesting(&mut list);
    sheets(&mut list);
    chunks(&mut list);
    (list.cases, list.faults)
}

#[derive(Default)]
struct List {
    cases: Vec<Case>,
    faults: Vec<String>,
}

/// Document 01's 33 bytes.
pub const COPY: [u8; 33] = [
    0x01, 0x00, 0x01, 0x61, 0x02, 0x00, 0x01, 0x00, 0x03, 0x00, 0x0A, 0x00, 0x02, 0x11, 0x15, 0x01,
    0x00, 0x1F, 0x15, 0x02, 0x00, 0x03, 0x00, 0x06, 0x00, 0x03, 0x13, 0x15, 0x02, 0x00, 0x04, 0x00,
    0x00,
];

/// Areas of a recognizable pattern, an output of `_`.
pub fn lend(table: &[u8], h: usize, output: usize) -> Given {
    Given {
        table: table.to_vec(),
        first: (0..h as u32).map(|i| 0xAAAA_0000 + i).collect(),
        second: (0..h as u32).map(|i| 0xBBBB_0000 + i).collect(),
        offered: Vec::new(),
        output: vec![b'_'; output],
        free: 0,
        record: Record::refused(),
    }
}

impl List {
    fn ask(&mut self, title: &str, asked: Asked, given: &Given) -> Outcome {
        let outcome = calls::make(asked, given);
        self.cases.push(Case {
            title: title.to_string(),
            request: Request { asked, given: given.clone() },
            outcome: outcome.clone(),
        });
        outcome
    }

    fn same<T: PartialEq + std::fmt::Debug>(&mut self, title: &str, what: &str, paper: T, judge: T) {
        if paper != judge {
            self.faults.push(format!("{title}: {what}: the paper says {paper:?}, the judge {judge:?}"));
        }
    }

    fn check(&mut self, title: &str, table: &[u8], number: u8, place: u64) {
        let given = lend(table, 0, 0);
        let outcome = self.ask(title, Asked::Check, &given);
        self.same(title, "number and place", (number, place), (outcome.number, outcome.place));
    }

    fn started(&mut self, title: &str, table: &[u8], h: usize, output: usize) -> Given {
        let mut given = lend(table, h, output);
        let outcome = self.ask(title, Asked::Start, &given);
        self.same(title, "start", 0, outcome.number);
        carry_on(&mut given, &outcome);
        given
    }

    /// A document; its number, its place and, where told, its bytes.
    fn document(&mut self, title: &str, given: &Given, log: &[u8], number: u8, place: u64, out: Option<&[u8]>) {
        let given = Given { offered: log.to_vec(), ..given.clone() };
        let outcome = self.ask(title, Asked::Document, &given);
        self.same(title, "number and place", (number, place), (outcome.number, outcome.place));
        if let Some(out) = out {
            let seen = outcome.output[..outcome.handed as usize].to_vec();
            self.same(title, "bytes", show(out), show(&seen));
        }
    }

    /// Start, the log's events one by one, then finish; all accepted. The
    /// steps and the words held after each, and all bytes.
    fn run(&mut self, title: &str, table: &[u8], log: &[u8], steps: &[u64], held: &[u32], out: &[u8]) {
        let mut given = self.started(title, table, 64, 4_000);
        given.offered = log.to_vec();
        let (mut all_steps, mut all_held) = (Vec::new(), Vec::new());
        loop {
            let asked = if given.offered.is_empty() { Asked::Finish } else { Asked::Event };
            let outcome = self.ask(title, asked, &given);
            self.same(title, "number", 0, outcome.number);
            all_steps.push(outcome.steps);
            all_held.push(outcome.record.held);
            carry_on(&mut given, &outcome);
            given.output = outcome.output;
            given.free += outcome.handed;
            given.offered.drain(..outcome.taken as usize);
            self.ask(title, Asked::HeldPart, &given);
            if asked == Asked::Finish || outcome.number != 0 {
                break;
            }
        }
        if !steps.is_empty() {
            self.same(title, "steps", steps.to_vec(), all_steps);
        }
        self.same(title, "held", held.to_vec(), all_held);
        let seen = given.output[..given.free as usize].to_vec();
        self.same(title, "bytes", show(out), show(&seen));
        let given = lend(table, 64, 4_000);
        self.document(title, &given, log, 0, log.len() as u64, Some(out));
    }

    /// One event on a record; number and bytes taken.
    fn event(&mut self, title: &str, given: &Given, offered: &[u8], number: u8, taken: u64) -> Outcome {
        let given = Given { offered: offered.to_vec(), ..given.clone() };
        let outcome = self.ask(title, Asked::Event, &given);
        let title = format!("{title} {}", show(offered));
        self.same(&title, "number and bytes taken", (number, taken), (outcome.number, outcome.taken));
        outcome
    }
}

fn carry_on(given: &mut Given, outcome: &Outcome) {
    given.record = outcome.record;
    given.first = outcome.first.clone();
    given.second = outcome.second.clone();
}

fn show(bytes: &[u8]) -> String {
    String::from_utf8_lossy(bytes).into_owned()
}

/// "Examples to agree with".
fn examples(list: &mut List) {
    let flip = table_bytes(&classics::flip(&["a", "b"]));
    let twin = table_bytes(&classics::twin());
    list.same("copy", "the 33 bytes", COPY.to_vec(), table_bytes(&classics::copy(&["a"])));
    list.same("copy", "R", 4, classics::copy(&["a"]).largest());
    list.same("flip", "R", 6, classics::flip(&["a", "b"]).largest());
    list.check("copy's 33 bytes", &COPY, 0, 33);

    list.run("example 1", &COPY, b"", &[1], &[0], b"");
    list.run("example 2", &COPY, b"<a>x</a>", &[4, 5, 3, 1], &[3, 3, 1, 0], b"<a>x</a>");
    list.run("example 3", &flip, b"<a></a><b></b>", &[5, 5, 7, 7, 6], &[6, 4, 8, 6, 0], b"<b></b><a></a>");

    let given = list.started("example 4", &flip, 64, 0);
    let outcome = list.event("example 4", &given, b"<a>", 0, 3);
    list.same("example 4", "steps", 5, outcome.steps);

    let given = lend(&flip, 16, 100);
    list.document("example 5, 14 characters", &given, &[b'x'; 14], 0, 14, Some(&[b'x'; 14]));
    list.document("example 5, 15 characters", &given, &[b'x'; 15], 9, 14, Some(b""));

    for (characters, number, steps) in [(14, 0, 49_151), (15, 8, 0)] {
        let title = format!("example 6, {characters} characters");
        let mut given = list.started(&title, &twin, 32, 0);
        for _ in 0..characters {
            let outcome = list.event(&title, &given, b"x", 0, 1);
            carry_on(&mut given, &outcome);
        }
        list.same(&title, "held", 2 + 2 * characters, given.record.held);
        let outcome = list.ask(&title, Asked::Finish, &given);
        let seen = (outcome.number, outcome.steps, outcome.handed);
        list.same(&title, "number, steps, bytes at finish", (number, steps, 0), seen);
        let log = vec![b'x'; characters as usize];
        list.document(&title, &lend(&twin, 32, 0), &log, number, characters as u64, Some(b""));
    }

    let both = table_bytes(&classics::copy(&["a", "b"]));
    let given = lend(&both, 16, 100);
    list.document("example 7", &given, b"</a>", 6, 0, Some(b""));
    list.document("example 7", &given, b"<a></b>", 6, 3, Some(b"<a>"));
    let given = lend(&COPY, 16, 100);
    list.document("example 8", &given, b"<a", 11, 2, Some(b""));
    list.document("example 8", &given, b"<a ", 4, 0, Some(b""));
    list.document("example 8", &given, b"x&q", 11, 3, Some(b"x"));
    list.document("example 8", &given, b"x&qu", 11, 4, Some(b"x"));
    list.document("example 8", &given, b"x&z", 4, 1, Some(b"x"));

    let mut given = list.started("example 9", &COPY, 256, 300);
    for open in 0..64 {
        let outcome = list.event("example 9", &given, b"<a>", 0, 3);
        list.same("example 9", "open", open + 1, outcome.record.open);
        carry_on(&mut given, &outcome);
    }
    list.same("example 9", "held", 129, given.record.held);
    list.event("example 9", &given, b"<a>", 7, 0);
    let outcome = list.event("example 9, a character", &given, b"x", 0, 1);
    list.same("example 9, a character", "held", 129, outcome.record.held);
    list.event("example 9, an end", &given, b"</a>", 0, 4);
    let given = lend(&COPY, 256, 300);
    list.document("example 9", &given, &b"<a>".repeat(65), 7, 192, None);

    for (room, number) in [(2, 10), (3, 0)] {
        let title = format!("example 10, {room} bytes");
        let given = list.started(&title, &COPY, 16, room);
        list.event(&title, &given, b"<a>", number, if number == 0 { 3 } else { 0 });
    }
    list.check("example 11", &COPY[..30], 1, 30);

    let sheet = table_bytes(&classics::sheet());
    list.run(
        "the program's log",
        &sheet,
        b"<log><pt><v>12</v></pt><pt></pt></log>",
        &[4, 6, 7, 8, 8, 6, 3, 6, 6, 3, 1],
        &[3, 5, 6, 6, 6, 3, 3, 5, 3, 1, 0],
        b"<log><pt><val>12</val></pt><pt><none></none></pt></log>",
    );
    list.same("sheet", "R", 4, classics::sheet().largest());
    list.same("twin", "R", 4, classics::twin().largest());
}

/// REQUIREMENTS part E beyond the examples.
fn numbers_checked(list: &mut List) {
    let flip = table_bytes(&classics::flip(&["a", "b"]));
    list.run("flip <a>x</a>", &flip, b"<a>x</a>", &[5, 7, 6, 5], &[6, 7, 5, 0], b"<a>x</a>");
    let rev = table_bytes(&classics::rev());
    list.document(
        "document 002, figure 1",
        &lend(&rev, 64, 200),
        b"<a><r><b><c></c><d></d></b><e></e></r><f></f></a>",
        0,
        49,
        Some(b"<a><r><e></e><b><d></d><c></c></b></r><f></f></a>"),
    );
    let htm = table_bytes(&classics::htm());
    let log = b"<article><title>T</title><para>a<key>k</key></para><ps>z</ps></article>";
    list.document(
        "document 002, example 2",
        &lend(&htm, 64, 400),
        log,
        0,
        log.len() as u64,
        Some(
            b"<html><head><title>T</title></head><body><h1>T</h1><p>a<em>k</em></p>\
              <h2>Index</h2><ul><li>k</li></ul><h2>Postscript</h2>z</body></html>",
        ),
    );
    let full = [&COPY[..8], &field(0x03, &[0, 0])[..], &COPY[8..]].concat();
    list.same("full copy", "bytes", 38, full.len());
    list.check("full copy", &full, 0, 38);
}

/// REQUIREMENTS B1.7 and B1.8.
fn steps_at_the_limit(list: &mut List) {
    for (values, characters, number, steps) in [(255, 256, 0, 65_536), (256, 255, 8, 0)] {
        let title = format!("value times {values}, {characters} characters");
        let table = table_bytes(&classics::times(values));
        let mut given = lend(&table, 300, 65_536);
        save(&mut given, 0, &[], &[call(0, 1, vec![vec![Held::Character(b'x'); characters]])]);
        let outcome = list.ask(&title, Asked::Finish, &given);
        list.same(&title, "number and steps", (number, steps), (outcome.number, outcome.steps));
        if number == 0 {
            list.same(&title, "handed out", 65_280, outcome.handed);
        }
        let log = vec![b'x'; characters];
        list.document(&title, &lend(&table, 300, 65_536), &log, number, characters as u64, None);
    }
    let many = filled_table(32_768);
    list.check("a rule of 16,000 values", &many, 0, 32_768);
    let mut given = lend(&many, 16, 65_536);
    for (characters, number) in [(0, 0), (1, 0), (2, 0), (3, 0), (4, 8)] {
        let title = format!("16,000 values of {characters} characters");
        save(&mut given, 0, &[], &[call(0, 1, vec![vec![Held::Character(b'y'); characters]])]);
        let outcome = list.ask(&title, Asked::Finish, &given);
        list.same(&title, "number", number, outcome.number);
    }
}

/// "Event order: .. 8, 9, 10", and that only the held rest counts for 9.
fn several_refusals_at_once(list: &mut List) {
    // Each of the values handed on twice, much written before the call.
    let table = classics::table(&["a"], &[0, 1], vec![
        Rule { state: 0, pattern: Pattern::Character, right_side: vec![] },
        Rule {
            state: 1,
            pattern: Pattern::Character,
            right_side: vec![VALUE, siblings(1, vec![vec![VALUE, VALUE]])],
        },
        Rule { state: 1, pattern: Pattern::Empty, right_side: vec![VALUE, VALUE] },
    ]);
    let bytes = table_bytes(&table);
    let wide = |count| vec![call(1, 1, vec![vec![Held::Character(b'z'); count]])];
    for (h, output, count, number) in [
        (64, 62, 62, 9),
        (64, 61, 62, 9),
        (64, 9, 10, 10),
        (64, 10, 10, 0),
        (22, 10, 10, 0),
        (21, 10, 10, 9),
        (21, 9, 10, 9),
    ] {
        let title = format!("H {h}, output {output}, {count} in the argument");
        let mut given = lend(&bytes, h, output);
        save(&mut given, 0, &[], &wide(count));
        list.event(&title, &given, b"x", number, (number == 0) as u64);
    }
    let mut given = lend(&table_bytes(&classics::nested(&[], vec![VALUE, VALUE])), 64, 0);
    let mut inside: Expression = vec![Held::Character(b'z')];
    for _ in 0..20 {
        inside = vec![call(1, 1, vec![inside])];
    }
    save(&mut given, 0, &[], &inside);
    let outcome = list.ask("work before output", Asked::Finish, &given);
    list.same("work before output", "number", 8, outcome.number);

    // 2^19 copies before a call that does not fit either: 8 before 9 before 10.
    let doubling = classics::table(&["a"], &[1], vec![Rule {
        state: 0,
        pattern: Pattern::Character,
        right_side: vec![VALUE, VALUE, siblings(0, vec![vec![VALUE, VALUE]])],
    }]);
    let mut inside: Expression = vec![Held::Character(b'z')];
    for level in 0..20 {
        let mut given = lend(&table_bytes(&doubling), 64, 3);
        save(&mut given, 0, &[], &inside);
        if level > 0 {
            let given = Given { offered: b"x".to_vec(), ..given };
            list.ask("doubling, character", Asked::Event, &given);
        }
        inside = vec![call(0, 1, vec![inside])];
    }

    // "Copy with H 16 and a rule writing 60 characters before its call: accepted".
    let mut right_side = text(&"w".repeat(60));
    right_side.push(siblings(0, vec![]));
    let wordy = classics::table(&[], &[0], vec![Rule { state: 0, pattern: Pattern::Character, right_side }]);
    let given = list.started("60 characters before the call", &table_bytes(&wordy), 16, 60);
    let outcome = list.event("60 characters before the call", &given, b"x", 0, 1);
    list.same("60 characters before the call", "steps", 62, outcome.steps);
}

/// REQUIREMENTS B4, on a fresh Copy of `a` and a 32 byte name.
fn bytes_that_begin_events(list: &mut List) {
    let longest = "n".repeat(32);
    let table = table_bytes(&classics::copy(&["a", "b", &longest]));
    let given = list.started("bytes", &table, 64, 200);
    let n = |count: usize| [b"<".to_vec(), vec![b'n'; count]].concat();
    for bytes in [
        &b""[..], b"<", b"</", b"<a", b"</a", b"&", b"&l", b"&a", b"&am", b"&ap", b"&q", b"&qu",
        b"&gt", b"<zz", b"</zz", b"&lt", b"&apos", b"&quot", b"&amp", b"<_", b"<a-._9",
    ] {
        list.event("11", &given, bytes, 11, 0);
    }
    list.event("11", &given, &n(32), 11, 0);
    for bytes in [
        &b"<1"[..], b"<>", b"</>", b"< a", b"</1", b"<a<", b"<a ", b"&z", b"&gtx", b"&;", b"&#",
        b"&lt ", b">", b"\x00", b"\x7f", b"\x80", b"\xff", b"<!", b"<?", b"<a/", b"<a/>", b"<-",
        b"<.", b"<a\t>", b"</a >", b"</ a>", b"<a=", b"\x0b", b"\x0c", b"\x1f", b"\x08", b"<a\x80",
        b"<a\xffb>", b"<<", b"&&", b"&lt&", b"<//a>", b"</a/>", b"<@a>", b"<a:b>",
    ] {
        list.event("4", &given, bytes, 4, 0);
    }
    list.event("4", &given, &n(33), 4, 0);
    list.event("4", &given, &[n(33), b">".to_vec()].concat(), 4, 0);
    list.event("a name of 32 bytes", &given, &[n(32), b">".to_vec()].concat(), 0, 34);
    list.event("an unknown name", &given, &[n(31), b">".to_vec()].concat(), 5, 0);
    list.event("an unknown name", &given, &[b"<m".to_vec(), vec![b'n'; 31], b">".to_vec()].concat(), 5, 0);
    for (bytes, taken) in [
        (&b"x"[..], 1), (b"x\xff", 1), (b"x&", 1), (b"\t", 1), (b"\n", 1), (b"\r", 1), (b"\r\n", 1),
        (b" ", 1), (b"~", 1), (b"/", 1), (b"]", 1), (b"\"", 1), (b"'", 1), (b"&lt;", 4),
        (b"&gt;x", 4), (b"&amp;", 5), (b"&quot;;", 6), (b"&apos;", 6), (b"<a>", 3), (b"<a><", 3),
        (b"<b>\x00", 3), (b"!", 1), (b";", 1), (b"=", 1),
    ] {
        list.event("an event", &given, bytes, 0, taken);
    }
    // Every byte alone, and every byte inside and after a tag and a reference.
    for byte in 0..=255 {
        for bytes in [vec![byte], vec![b'<', byte], vec![b'<', b'a', byte], vec![b'&', byte], vec![b'<', b'/', byte]] {
            let given = Given { offered: bytes, ..given.clone() };
            list.ask("every byte", Asked::Event, &given);
        }
    }
}

/// REQUIREMENTS B5.
fn names_and_nesting(list: &mut List) {
    let table = table_bytes(&classics::copy(&["a", "b"]));
    let given = list.started("nesting", &table, 200, 400);
    for (bytes, number) in [(&b"</a>"[..], 6), (b"</zz>", 5), (b"<zz>", 5), (b"</ab>", 5), (b"<A>", 5)] {
        list.event("nothing open", &given, bytes, number, 0);
    }
    list.document("<a></zz>", &given, b"<a></zz>", 5, 3, None);
    list.document("<a>", &given, b"<a>", 11, 3, Some(b"<a>"));
    list.document("<a><b></a>", &given, b"<a><b></a>", 6, 6, None);
    let mut open = given;
    for _ in 0..64 {
        let outcome = list.event("64 open", &open, b"<b>", 0, 3);
        carry_on(&mut open, &outcome);
    }
    list.event("the 65th", &open, b"<a>", 7, 0);
    list.event("the 65th, unknown", &open, b"<zz>", 5, 0);
    list.event("another name open", &open, b"</a>", 6, 0);
    let outcome = list.ask("finish with 64 open", Asked::Finish, &open);
    list.same("finish with 64 open", "number", 11, outcome.number);
    let outcome = list.event("the 64th closed", &open, b"</b>", 0, 4);
    list.same("the 64th closed", "its place", 0, outcome.record.names[63]);
}

/// REQUIREMENTS B6.
fn tables(list: &mut List) {
    let name = field(0x01, b"a");
    let state = field(0x02, &[0]);
    let end = field(0x04, &[]);
    let begin = [name.clone(), state.clone()].concat();
    let cut = COPY.len() as u64;
    list.check("no bytes", b"", 1, 0);
    list.check("one state and the end", &[state.clone(), end.clone()].concat(), 0, 7);
    list.check("a byte after the end", &[&COPY[..], &[0]].concat(), 1, cut);
    list.check("the end twice", &[&COPY[..], &end].concat(), 1, cut);
    list.check("the end first", &end, 1, 0);
    list.check("the end first and bytes after it", &[end.clone(), vec![7]].concat(), 1, 0);
    list.check("the end before any state", &[name.clone(), end.clone()].concat(), 1, 4);
    list.check("an end with a byte", &[begin.clone(), field(0x04, &[0])].concat(), 1, 8);
    for length in 0..33 {
        let place = match length {
            0 | 4 | 8 | 21 | 30 => length,
            1..=3 => 0,
            5..=7 => 4,
            9..=20 => 8,
            22..=29 => 21,
            _ => 30,
        };
        list.check("copy, cut", &COPY[..length as usize], 1, place);
    }
    for bad in [&b""[..], b"1", b"-a", b"a b", b"a\x00", b"@a", b"<", b"\xc3\xa4"] {
        list.check("a name that is none", &field(0x01, bad), 1, 0);
    }
    list.check("a name of 33 bytes", &field(0x01, &[b'a'; 33]), 1, 0);
    list.check("a name of 32 bytes", &[field(0x01, &[b'a'; 32]), state.clone(), end.clone()].concat(), 0, 42);
    list.check("a doubled name", &[name.clone(), name.clone()].concat(), 1, 4);
    list.check("a name after a state", &[state.clone(), name.clone()].concat(), 1, 4);
    let rule = field(0x03, &[0, 2]);
    list.check("a name after a rule", &[state.clone(), rule.clone(), name.clone()].concat(), 1, 9);
    list.check("a state after a rule", &[state.clone(), rule.clone(), state.clone()].concat(), 1, 9);
    list.check("a rule before any state", &[name.clone(), rule.clone()].concat(), 1, 4);
    for bad in [&[5][..], &[], &[0, 0], &[255]] {
        list.check("a state that is none", &[name.clone(), field(0x02, bad)].concat(), 1, 4);
    }
    list.check("four values", &[field(0x02, &[4]), end.clone()].concat(), 0, 7);
    for tag in [0, 5, 6, 255] {
        list.check("an unknown field", &[begin.clone(), field(tag, &[])].concat(), 1, 8);
    }

    let names = |count: usize| -> Vec<u8> {
        (0..count).flat_map(|i| field(0x01, format!("n{i}").as_bytes())).collect()
    };
    let states = |count: usize| state.repeat(count);
    let crowd = names(128);
    let at = crowd.len() as u64;
    list.check("128 names", &[crowd.clone(), state.clone(), end.clone()].concat(), 0, at + 7);
    list.check("a 129th name", &[crowd.clone(), name.clone(), state.clone(), end.clone()].concat(), 2, at);
    list.check("a 129th name doubled", &[crowd.clone(), field(0x01, b"n0")].concat(), 1, at);
    list.check("a 129th name of bad bytes", &[crowd.clone(), field(0x01, b"1")].concat(), 1, at);
    list.check("64 states", &[states(64), end.clone()].concat(), 0, 259);
    list.check("a 65th state", &[states(65), end.clone()].concat(), 2, 256);
    list.check("a 65th state of bad content", &[states(64), field(0x02, &[5])].concat(), 1, 256);
    list.check("32,768 bytes", &filled_table(32_768), 0, 32_768);
    list.check("32,767 bytes", &filled_table(32_767), 0, 32_767);
    list.check("32,769 bytes", &filled_table(32_769), 2, 0);
    let mut long = filled_table(32_769);
    long[0] = 9;
    list.check("32,769 bytes and a bad first field", &long, 2, 0);

    // Rules: content after name `a`, states 0 (no values), 1 (one), 2 (four).
    let begin = [name.clone(), field(0x02, &[0]), field(0x02, &[1]), field(0x02, &[4])].concat();
    let at = begin.len() as u64;
    let mut rule = |title: &str, content: &[u8], number: u8| {
        let table = [begin.clone(), field(0x03, content), end.clone()].concat();
        let place = if number == 0 { table.len() as u64 } else { at };
        list.check(title, &table, number, place);
    };
    rule("a rule of no bytes", &[], 1);
    rule("a rule of one byte", &[0], 1);
    rule("a rule of one byte, unknown state", &[9], 1);
    rule("pattern 01 without its name", &[0, 1], 1);
    rule("pattern 01 without its name, unknown state", &[9, 1], 1);
    rule("an empty right side", &[0, 0], 0);
    rule("an unknown pattern", &[0, 7], 3);
    rule("an unknown pattern", &[0, 4], 3);
    rule("an unknown state", &[3, 0], 3);
    rule("an unknown name", &[0, 1, 1], 3);
    rule("a known name", &[0, 1, 0], 0);
    for byte in 0..=255 {
        // Each first byte with nothing behind it: 3, but 11 never closed, 13
        // and 1F have more to say.
        rule("one item byte, empty list", &[0, 0, byte], 3);
        rule("one item byte, element", &[0, 2, byte], 3);
        rule("one item byte, character", &[0, 3, byte], if byte == 0x13 { 0 } else { 3 });
        let leaf = matches!(byte, 9 | 10 | 13 | 32..=126);
        rule("item 12 and a byte", &[0, 0, 0x12, byte], if leaf { 0 } else { 3 });
        rule("item 14 and a byte, no values", &[0, 0, 0x14, byte], 3);
        rule("item 14 and a byte, one value", &[1, 0, 0x14, byte], if byte == 0 { 0 } else { 3 });
        rule("item 14 and a byte, four values", &[2, 0, 0x14, byte], if byte < 4 { 0 } else { 3 });
        rule("item 10 and a byte", &[0, 0, 0x10, byte, 0x1F], if byte == 0 { 0 } else { 3 });
        rule("a source", &[0, 2, 0x15, byte, 0], if byte == 1 || byte == 2 { 0 } else { 3 });
        rule("a called state", &[0, 2, 0x15, 1, byte], if byte == 0 { 0 } else { 3 });
        rule("a called state of one value", &[0, 2, 0x15, 1, byte, 0x1F], if byte == 1 { 0 } else { 3 });
        rule("a called state of four values", &[0, 2, 0x15, 1, byte, 0x1F, 0x1F, 0x1F, 0x1F], if byte == 2 { 0 } else { 3 });
    }
    rule("the matched element under 02", &[0, 2, 0x11, 0x1F], 0);
    rule("the matched element under 01", &[0, 1, 0, 0x11, 0x1F], 0);
    rule("the matched element under 00", &[0, 0, 0x11, 0x1F], 3);
    rule("the matched element under 03", &[0, 3, 0x11, 0x1F], 3);
    rule("the matched character under 02", &[0, 2, 0x13], 3);
    rule("the matched character under 01", &[0, 1, 0, 0x13], 3);
    rule("the matched character under 00", &[0, 0, 0x13], 3);
    rule("a call under 00", &[0, 0, 0x15, 2, 0], 3);
    rule("a call of children under 03", &[0, 3, 0x15, 1, 0], 3);
    rule("a call of siblings under 03", &[0, 3, 0x15, 2, 0], 0);
    rule("a call of children under 01", &[0, 1, 0, 0x15, 1, 0], 0);
    rule("a cut name", &[0, 2, 0x10], 3);
    rule("a cut element", &[0, 2, 0x10, 0], 3);
    rule("a cut call", &[0, 2, 0x15, 2], 3);
    rule("a cut argument", &[0, 2, 0x15, 2, 1], 3);
    rule("three of four arguments", &[0, 2, 0x15, 2, 2, 0x1F, 0x1F, 0x1F], 3);
    rule("over-closed", &[0, 2, 0x1F], 3);
    rule("over-closed after an element", &[0, 2, 0x11, 0x1F, 0x1F], 3);
    rule("over-closed after four arguments", &[0, 2, 0x15, 2, 2, 0x1F, 0x1F, 0x1F, 0x1F, 0x1F], 3);
    let many = |item: &[u8], count: usize| item.repeat(count);
    rule("64 characters", &[vec![0, 2], many(&[0x12, b'x'], 64)].concat(), 0);
    rule("65 characters", &[vec![0, 2], many(&[0x12, b'x'], 65)].concat(), 2);
    rule("65 characters, then FF", &[vec![0, 2], many(&[0x12, b'x'], 65), vec![0xFF]].concat(), 3);
    rule("65 characters, unknown state", &[vec![9, 2], many(&[0x12, b'x'], 65)].concat(), 3);
    rule("32 elements", &[vec![0, 2], many(&[0x11, 0x1F], 32)].concat(), 0);
    rule("33 elements", &[vec![0, 2], many(&[0x11, 0x1F], 33)].concat(), 2);
    rule("64 calls", &[vec![0, 2], many(&[0x15, 2, 0], 64)].concat(), 0);
    rule("65 calls", &[vec![0, 2], many(&[0x15, 2, 0], 65)].concat(), 2);
    rule("32 calls of one value", &[vec![0, 2], many(&[0x15, 2, 1, 0x1F], 32)].concat(), 0);
    rule("33 calls of one value", &[vec![0, 2], many(&[0x15, 2, 1, 0x1F], 33)].concat(), 2);
    let four = [0x15, 2, 2, 0x1F, 0x1F, 0x1F, 0x1F];
    rule("12 calls of four values", &[vec![0, 2], many(&four, 12), many(&[0x13], 0)].concat(), 0);
    rule("13 calls of four values", &[vec![0, 2], many(&four, 13)].concat(), 2);
    rule("12 calls of four values and 4", &[vec![0, 2], many(&four, 12), many(&[0x12, b'x'], 4)].concat(), 0);
    rule("12 calls of four values and 5", &[vec![0, 2], many(&four, 12), many(&[0x12, b'x'], 5)].concat(), 2);
    rule("10,000 values", &[vec![1, 0], many(&[0x14, 0], 10_000)].concat(), 0);
    rule("8 ends", &[vec![0, 2], vec![0x11; 8], vec![0x1F; 8]].concat(), 0);
    rule("9 ends", &[vec![0, 2], vec![0x11; 9], vec![0x1F; 9]].concat(), 2);
    rule("9 ends never given", &[vec![0, 2], vec![0x11; 9]].concat(), 3);
    rule("9 ends and one more", &[vec![0, 2], vec![0x11; 9], vec![0x1F; 10]].concat(), 3);
    rule("4 elements and four arguments", &[vec![0, 2], vec![0x11; 4], four.to_vec(), vec![0x1F; 4]].concat(), 0);
    rule("5 elements and four arguments", &[vec![0, 2], vec![0x11; 5], four.to_vec(), vec![0x1F; 5]].concat(), 2);
    let last = |inner: &[u8]| [&[0x15, 2, 2, 0x1F, 0x1F, 0x1F], inner, &[0x1F]].concat();
    let first = |inner: &[u8]| [&[0x15, 2, 2], inner, &[0x1F, 0x1F, 0x1F, 0x1F]].concat();
    let elements = |count: usize| [vec![0x11; count], vec![0x1F; count]].concat();
    rule("7 ends in a fourth argument", &[vec![0, 2], last(&elements(7))].concat(), 0);
    rule("8 ends in a fourth argument", &[vec![0, 2], last(&elements(8))].concat(), 2);
    rule("4 ends in a first argument", &[vec![0, 2], first(&elements(4))].concat(), 0);
    rule("5 ends in a first argument", &[vec![0, 2], first(&elements(5))].concat(), 2);
    rule("calls in first arguments", &[vec![0, 2], first(&first(&[]))].concat(), 0);
    rule("calls in first arguments", &[vec![0, 2], first(&first(&first(&[])))].concat(), 2);

    // Order of rules.
    let mut pair = |title: &str, one: &[u8], two: &[u8], number: u8| {
        let table = [begin.clone(), field(0x03, one), field(0x03, two), end.clone()].concat();
        let second = at + 3 + one.len() as u64;
        let place = if number == 0 { table.len() as u64 } else { second };
        list.check(title, &table, number, place);
    };
    pair("00 then 02", &[0, 0], &[0, 2], 0);
    pair("02 then 00", &[0, 2], &[0, 0], 3);
    pair("00 twice", &[0, 0], &[0, 0], 3);
    pair("02 twice", &[0, 2], &[0, 2], 3);
    pair("03 twice", &[0, 3], &[0, 3], 3);
    pair("01 twice", &[0, 1, 0], &[0, 1, 0], 3);
    pair("01 then 02", &[0, 1, 0], &[0, 2], 0);
    pair("03 then the next state's 00", &[0, 3], &[1, 0], 0);
    pair("state 1 then state 0", &[1, 0], &[0, 3], 3);
    pair("not increasing and too large", &[0, 2], &[&[0, 2][..], &[0x12, 120].repeat(65)].concat(), 3);
    pair("too short and not increasing", &[0, 2], &[0], 1);
    // Two faulty fields: the earlier one.
    let table = [begin.clone(), field(0x03, &[&[0, 2][..], &[0x11; 9], &[0x1F; 9]].concat()), field(9, b"")].concat();
    list.check("a 2, then a 1", &table, 2, at);
    let table = [begin.clone(), field(0x03, &[0, 9]), end, vec![0]].concat();
    list.check("a 3, then bytes after the end", &table, 3, at);
}

fn call(state: usize, level: usize, arguments: Vec<Expression>) -> Held {
    Held::Call(Call { state, level, arguments })
}

/// A record and its words, with these names open.
fn save(given: &mut Given, area: u8, open: &[u8], expression: &[Held]) {
    let mut words = Vec::new();
    words::encode(&expression.to_vec(), &mut words);
    let mut record = Record { area, ..Record::begun(words.len() as u32) };
    for name in open {
        record = record.with_opened(*name);
    }
    given.record = record;
    let lent = if area == 0 { &mut given.first } else { &mut given.second };
    lent[..words.len()].copy_from_slice(&words);
}

/// REQUIREMENTS B3 and C5: each clause of 13.
fn records(list: &mut List) {
    let flip = table_bytes(&classics::flip(&["a", "b"]));
    let mut good = lend(&flip, 16, 100);
    good.free = 5;
    good.offered = b"x".to_vec();
    let inner = call(0, 2, vec![vec![Held::Start(0), Held::Character(b'&'), call(0, 1, vec![vec![]]), Held::End(1)]]);
    save(&mut good, 1, &[0, 1], &[inner.clone(), Held::End(0), call(0, 3, vec![vec![]])]);
    let mut judge = |title: &str, number: u8, given: &Given| {
        for asked in [Asked::Event, Asked::Chunk, Asked::Finish, Asked::HeldPart] {
            let outcome = list.ask(title, asked, given);
            let expected = match asked {
                Asked::HeldPart => 0,
                Asked::Finish if number == 0 && given.record.open > 0 => 11,
                _ => number,
            };
            list.same(title, "number", expected, outcome.number);
            if asked == Asked::HeldPart {
                let held = if number == 0 { given.record.held as usize } else { 0 };
                list.same(title, "held part", held, outcome.held_part.len());
            }
        }
    };
    judge("a good record", 0, &good);
    let mut edit = |title: &str, number: u8, change: &dyn Fn(&mut Given)| {
        let mut given = good.clone();
        change(&mut given);
        judge(title, number, &given);
    };
    edit("words past the held part", 0, &|g| g.second[11] = 0);
    edit("words of the other area", 0, &|g| g.first.iter_mut().for_each(|w| *w = u32::MAX));
    edit("area 2", 13, &|g| g.record.area = 2);
    edit("area 255", 13, &|g| g.record.area = 255);
    edit("the other area", 13, &|g| g.record.area = 0);
    edit("one word more", 13, &|g| g.record.held += 1);
    edit("one word less", 13, &|g| g.record.held -= 1);
    edit("without the last call", 0, &|g| g.record.held = 8);
    edit("nothing held", 0, &|g| g.record.held = 0);
    edit("held 17", 13, &|g| g.record.held = 17);
    edit("held u32::MAX", 13, &|g| g.record.held = u32::MAX);
    edit("open 65", 13, &|g| g.record.open = 65);
    edit("open 255", 13, &|g| g.record.open = 255);
    edit("a third open, name 0", 0, &|g| g.record.open = 3);
    edit("only one open", 13, &|g| g.record.open = 1);
    edit("only one open, its place clear", 13, &|g| {
        g.record.open = 1;
        g.record.names[1] = 0;
    });
    edit("an unknown name open", 13, &|g| g.record.names[0] = 2);
    edit("an unused place", 13, &|g| g.record.names[2] = 1);
    edit("the last unused place", 13, &|g| g.record.names[MOST_OPEN - 1] = 255);
    edit("finished", 13, &|g| g.record.finished = true);
    edit("finished, nothing held", 13, &|g| {
        g.record.finished = true;
        g.record.held = 0;
    });
    edit("finished, nothing open", 13, &|g| {
        g.record = Record { finished: true, open: 0, names: [0; MOST_OPEN], ..g.record };
    });
    for (title, number, at, to) in [
        ("level 0", 13, 0, word(CALL, 0)),
        ("level 1", 0, 0, word(CALL, 1)),
        ("level open + 1", 0, 0, word(CALL, 3)),
        ("level open + 2", 13, 0, word(CALL, 4)),
        ("level 0 in an argument", 13, 3, word(CALL, 0)),
        ("level open + 1 in an argument", 0, 3, word(CALL, 3)),
        ("level open + 2 in an argument", 13, 3, word(CALL, 4)),
        ("an unknown state", 13, 0, word(CALL, 256 + 1)),
        ("an unknown state in an argument", 13, 3, word(CALL, 256 + 1)),
        ("state 65,536", 13, 0, word(CALL, 1 << 16 | 1)),
        ("a junk bit in a call", 13, 0, word(CALL, 1 << 27 | 1)),
        ("an unknown start tag", 13, 1, word(START, 2)),
        ("a start tag 256", 13, 1, word(START, 256)),
        ("another start tag", 0, 1, word(START, 1)),
        ("an end tag for it", 0, 1, word(END, 1)),
        ("an unknown end tag", 13, 5, word(END, 2)),
        ("character 0", 13, 2, word(CHARACTER, 0)),
        ("character 11", 13, 2, word(CHARACTER, 11)),
        ("character 9", 0, 2, word(CHARACTER, 9)),
        ("character 13", 0, 2, word(CHARACTER, 13)),
        ("character <", 0, 2, word(CHARACTER, 60)),
        ("character 126", 0, 2, word(CHARACTER, 126)),
        ("character 127", 13, 2, word(CHARACTER, 127)),
        ("character 128", 13, 2, word(CHARACTER, 128)),
        ("character 376", 13, 2, word(CHARACTER, 0x178)),
        ("kind 0", 13, 2, word(0, 120)),
        ("kind 6", 13, 2, word(6, 0)),
        ("kind 15", 13, 2, u32::MAX),
        ("an argument ended early", 13, 2, word(END_OF_ARGUMENT, 0)),
        ("an argument not ended", 13, 4, word(CHARACTER, 120)),
        ("the outer argument not ended", 13, 6, word(CHARACTER, 120)),
        ("an end of argument with a bit", 13, 4, word(END_OF_ARGUMENT, 1)),
        ("an end of argument outside", 13, 7, word(END_OF_ARGUMENT, 0)),
        ("a tag first", 13, 0, word(START, 0)),
    ] {
        edit(title, number, &|g| g.second[at] = to);
    }
    for first in [Held::Start(0), Held::End(1), Held::Character(b'x')] {
        let mut given = good.clone();
        save(&mut given, 1, &[0, 1], &[first, inner.clone()]);
        judge("a tag or character before the first call", 13, &given);
        let given = Given { offered: b"<".to_vec(), ..given };
        judge("the same, and a cut event", 13, &given);
        let given = Given { offered: b">".to_vec(), ..given };
        judge("the same, and a bad byte", 13, &given);
    }
    // Empty and not finished is a held expression.
    let mut empty = lend(&flip, 16, 9);
    empty.record = Record::begun(0);
    let outcome = list.event("nothing held", &empty, b"x", 0, 1);
    list.same("nothing held", "steps, area", (0, 1), (outcome.steps, outcome.record.area));
    let outcome = list.ask("nothing held", Asked::Finish, &empty);
    list.same("nothing held", "finish", (0, 0, true), (outcome.number, outcome.steps, outcome.record.finished));
    // A table without rules reaches it after one event.
    let bare = [field(0x02, &[0]), field(0x04, &[])].concat();
    list.run("no rules", &bare, b"xy", &[1, 0, 0], &[0, 0, 0], b"");
    // A finished record: 13 for event, finish and chunk, an empty held part.
    let mut done = lend(&flip, 16, 9);
    done.record = Record { area: 1, ..Record::refused() };
    for (asked, number) in [(Asked::Event, 13), (Asked::Finish, 13), (Asked::Chunk, 13), (Asked::HeldPart, 0)] {
        for offered in [&b""[..], b"x"] {
            let given = Given { offered: offered.to_vec(), ..done.clone() };
            let outcome = list.ask("after finish", asked, &given);
            list.same("after finish", "number", number, outcome.number);
        }
    }
    // A refused start's record, then an event with a good table.
    let mut given = lend(&[], 16, 9);
    given.record = Record { area: 1, held: 5, finished: false, open: 2, names: [3; MOST_OPEN] };
    for (table, h) in [(&b""[..], 16), (&flip[..], 15), (&flip[..], 0), (&flip[..9], 16)] {
        let mut given = Given { table: table.to_vec(), ..given.clone() };
        given.first.truncate(h);
        let outcome = list.ask("a refused start", Asked::Start, &given);
        list.same("a refused start", "record", Record::refused(), outcome.record);
        let mut given = Given { table: flip.clone(), ..lend(&flip, 16, 9) };
        given.record = outcome.record;
        list.event("an event after a refused start", &given, b"x", 13, 0);
    }
}

/// REQUIREMENTS B8 and C11.
fn outputs(list: &mut List) {
    let given = list.started("output", &COPY, 16, 4);
    for (free, number) in [
        (0, 0), (1, 0), (2, 10), (3, 10), (4, 10), (5, 10), (1 << 32, 10), (u64::MAX - 2, 10), (u64::MAX, 10),
    ] {
        let given = Given { free, ..given.clone() };
        let title = format!("<a> at byte {free} of 4");
        list.event(&title, &given, b"<a>", number, if number == 0 { 3 } else { 0 });
        // Nothing is handed out at finish of an empty log.
        let outcome = list.ask(&title, Asked::Finish, &given);
        list.same(&title, "finish", 0, outcome.number);
    }
    let flip = table_bytes(&classics::flip(&["a"]));
    let given = list.started("output", &flip, 16, 0);
    for free in [0, 1, u64::MAX] {
        list.event("nothing handed out", &Given { free, ..given.clone() }, b"<a>", 0, 3);
    }
    for (leaf, written) in [(&b"&lt;"[..], 4), (b"&gt;", 4), (b"&amp;", 5), (b"&quot;", 1), (b"&apos;", 1), (b"\n", 1)] {
        for room in [written - 1, written] {
            let given = list.started("a leaf", &COPY, 16, room);
            let taken = if room == written { leaf.len() as u64 } else { 0 };
            list.event("a leaf", &given, leaf, if room == written { 0 } else { 10 }, taken);
        }
    }
}

/// REQUIREMENTS B7.
fn areas(list: &mut List) {
    for (first, second, number) in [
        (0, 0, 12), (15, 15, 12), (16, 16, 0), (17, 17, 0), (16, 15, 12), (15, 16, 12), (17, 16, 12),
        (8_191, 8_191, 0), (8_192, 8_192, 0), (8_193, 8_193, 12), (8_192, 8_193, 12), (8_192, 8_191, 12),
    ] {
        let title = format!("areas of {first} and {second}");
        let mut given = lend(&COPY, 0, 20);
        given.first = vec![7; first];
        given.second = vec![9; second];
        given.offered = b"<a></a>".to_vec();
        for asked in [Asked::Start, Asked::Document] {
            let outcome = list.ask(&title, asked, &given);
            list.same(&title, "number", number, outcome.number);
        }
        given.record = Record { area: 4, ..Record::begun(99_999) };
        for asked in [Asked::Event, Asked::Finish, Asked::Chunk, Asked::HeldPart] {
            let outcome = list.ask(&title, asked, &given);
            let expected = if asked == Asked::HeldPart { 0 } else { number.max(12 + (number == 0) as u8) };
            list.same(&title, "number beside a bad record", expected, outcome.number);
        }
    }
}

/// REQUIREMENTS B13 and C24: 4,096 nested calls from a saved record.
fn deep_nesting(list: &mut List) {
    let deep = |count: usize| -> Expression {
        (1..count).fold(vec![call(1, 1, vec![vec![]])], |inside, _| vec![call(1, 1, vec![inside])])
    };
    for (elements, output, number, steps) in [(8, 65_536, 10, 0), (2, 65_536, 0, 4 * 4_095 + 2), (0, 0, 0, 2 * 4_095 + 2)] {
        let title = format!("4,096 nested calls, {elements} elements each");
        let table = table_bytes(&classics::nested(&["n"], vec![wrapped(elements, VALUE)]));
        let mut given = lend(&table, 8_192, output);
        save(&mut given, 0, &[], &[call(0, 1, vec![deep(4_095)])]);
        list.same(&title, "held", 8_192, given.record.held);
        let outcome = list.ask(&title, Asked::Finish, &given);
        list.same(&title, "number and steps", (number, steps), (outcome.number, outcome.steps));
        list.event(&title, &given, b"x", 9, 0);
        list.ask(&title, Asked::HeldPart, &given);
    }
    // At a level that only moves, with one open; each argument is visited.
    let table = table_bytes(&classics::nested(&["n"], vec![wrapped(8, VALUE)]));
    let mut given = lend(&table, 8_192, 0);
    let expression = (1..4_096).fold(vec![call(1, 2, vec![vec![]])], |inside, _| vec![call(1, 2, vec![inside])]);
    save(&mut given, 1, &[0], &expression);
    let outcome = list.event("4,096 nested calls move", &given, b"x", 0, 1);
    list.same("4,096 nested calls move", "steps", 4_096, outcome.steps);
    list.event("4,096 nested calls move", &given, b"<n>", 0, 3);
    list.event("4,096 nested calls move", &given, b"</n>", 0, 4);
    // The count of B13: 40,952, here with what it hands out left out.
    let judged = crate::table::read(&table).expect("a classic table");
    let expression = vec![call(0, 1, vec![deep(4_095)])];
    let steps = crate::held::steps(&judged, &expression, crate::held::Event::Finish);
    list.same("REQUIREMENTS B13", "steps", 40_952, steps);
}

/// REQUIREMENTS C25.
fn sheets(list: &mut List) {
    let sheet = table_bytes(&classics::sheet());
    let given = lend(&sheet, 64, 400);
    for (log, out) in [
        (&b"<pt><v>12</v></pt>"[..], &b"<pt><val>12</val></pt>"[..]),
        (b"<pt>zz</pt>", b"<pt><none></none></pt>"),
        (b"<pt><v></v></pt>", b"<pt><val></val></pt>"),
        (b"<pt><v>1</v><v>2</v></pt>", b"<pt><val>1</val></pt>"),
        (b"<log>\n<pt>d<v>&lt;1</v> </pt>\n</log>\n", b"<log><pt><val>&lt;1</val></pt></log>"),
        (b"<v>12</v>", b""),
        (b"", b""),
    ] {
        list.document("sheet", &given, log, 0, log.len() as u64, Some(out));
    }
}

/// REQUIREMENTS B12, "Its answer".
fn chunks(list: &mut List) {
    let given = list.started("chunk", &COPY, 16, 60);
    for (offered, number, taken, handed) in [
        (&b""[..], 0, 0, 0),
        (b"<a>x</a>", 0, 8, 8),
        (b"<a>x</a", 11, 4, 4),
        (b"<a>x</a><", 11, 8, 8),
        (b"<", 11, 0, 0),
        (b"x>", 4, 1, 1),
        (b"x<zz>", 5, 1, 1),
        (b"x</a>y", 6, 1, 1),
        (b"&lt;&amp;&quot;", 0, 15, 10),
    ] {
        let given = Given { offered: offered.to_vec(), free: 7, ..given.clone() };
        let outcome = list.ask("chunk", Asked::Chunk, &given);
        let seen = (outcome.number, outcome.taken, outcome.handed);
        list.same(&format!("chunk {}", show(offered)), "number, taken, handed out", (number, taken, handed), seen);
    }
    let given = Given { offered: b"xyz".to_vec(), free: 58, ..given };
    let outcome = list.ask("chunk", Asked::Chunk, &given);
    list.same("chunk into 2 bytes", "number, taken, handed out", (10, 2, 2), (outcome.number, outcome.taken, outcome.handed));
    let long = b"<a>x&lt;</a>".repeat(5_461);
    let mut given = lend(&COPY, 16, 65_536);
    given.offered = long;
    assert!(first_event(&given.offered).is_ok());
    let outcome = list.ask("a long document", Asked::Document, &given);
    list.same("a long document", "number", 0, outcome.number);
    given.offered.truncate(6_000);
    let flip = table_bytes(&classics::flip(&["a"]));
    given.table = flip;
    let outcome = list.ask("a long document that flip cannot hold", Asked::Document, &given);
    list.same("a long document that flip cannot hold", "number", 9, outcome.number);
}

/// The tables by name, for `compare table`.
pub fn named(name: &str) -> Option<Table> {
    Some(match name {
        "copy" => classics::copy(&["a"]),
        "flip" => classics::flip(&["a", "b"]),
        "twin" => classics::twin(),
        "sheet" => classics::sheet(),
        "m_rev" => classics::rev(),
        "m_htm" => classics::htm(),
        _ => return None,
    })
}
