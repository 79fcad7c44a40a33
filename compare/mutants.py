#!/usr/bin/env python3
"""The judge's teeth: deliberately wrong programs, each of which must be caught.

Copies this crate, makes one edit in the copy's model, builds it and lets the
judge compare itself with the wrong copy behind the pipe (`compare serve`).

    ./mutants.py [CASES [SEED [WORD]]]   (20000, 1; WORD picks edits by their title)

Prints one line for each edit and exits 1 if one was not caught.
"""
import os
import shutil
import subprocess
import sys
import tempfile

# (title, file, old, new): `old` stands exactly once in the file.
EDITS = [
    # table
    ("table limit 32,767", "numbers.rs", "MOST_TABLE: usize = 32_768", "MOST_TABLE: usize = 32_767"),
    ("table limit 32,769", "numbers.rs", "MOST_TABLE: usize = 32_768", "MOST_TABLE: usize = 32_769"),
    ("129 names", "numbers.rs", "MOST_NAMES: usize = 128", "MOST_NAMES: usize = 129"),
    ("65 states", "numbers.rs", "MOST_STATES: usize = 64", "MOST_STATES: usize = 65"),
    ("63 states", "numbers.rs", "MOST_STATES: usize = 64", "MOST_STATES: usize = 63"),
    ("65 words", "numbers.rs", "MOST_WORDS: usize = 64", "MOST_WORDS: usize = 65"),
    ("9 ends", "numbers.rs", "MOST_OWED: usize = 8", "MOST_OWED: usize = 9"),
    ("names of 33 bytes", "alphabet.rs", "LONGEST_NAME: usize = 32", "LONGEST_NAME: usize = 33"),
    ("names of 31 bytes", "alphabet.rs", "LONGEST_NAME: usize = 32", "LONGEST_NAME: usize = 31"),
    ("a digit begins a name", "alphabet.rs", "byte.is_ascii_alphabetic() ||", "byte.is_ascii_alphanumeric() ||"),
    ("no dot in names", "alphabet.rs", "b'-' | b'_' | b'.'", "b'-' | b'_'"),
    ("127 is text", "alphabet.rs", "9 | 10 | 13 | 32..=126", "9 | 10 | 13 | 32..=127"),
    ("13 is no text", "alphabet.rs", "9 | 10 | 13 | 32..=126", "9 | 10 | 32..=126"),
    ("> is text", "alphabet.rs", "b'<' | b'>' | b'&')", "b'<' | b'&')"),
    ("too long at the length", "table.rs", "return Err(Refusal { number: LIMIT, place: 0 });", "return Err(Refusal { number: LIMIT, place: bytes.len() });"),
    ("bytes after the end at the end field", "table.rs", "Refusal { number: FORM, place: next }", "Refusal { number: FORM, place }"),
    ("end before any state accepted", "table.rs", "if table.values.is_empty() || !field.content.is_empty() {", "if !field.content.is_empty() {"),
    ("end with content accepted", "table.rs", "if table.values.is_empty() || !field.content.is_empty() {", "if table.values.is_empty() {"),
    ("doubled names", "table.rs", " || table.number_of(content).is_some()", ""),
    ("names after states", "table.rs", "let late = !table.values.is_empty() || !table.rules.is_empty();", "let late = !table.rules.is_empty();"),
    ("states after rules", "table.rs", "let late = !table.rules.is_empty();\n    match", "let late = false;\n    match"),
    ("five values", "numbers.rs", "MOST_VALUES: u8 = 4", "MOST_VALUES: u8 = 5"),
    ("129th name before its form", "table.rs", "    let late = !table.values.is_empty() || !table.rules.is_empty();", "    if table.names.len() == MOST_NAMES { return Err(LIMIT); }\n    let late = !table.values.is_empty() || !table.rules.is_empty();"),
    ("65th state before its form", "table.rs", "    let late = !table.rules.is_empty();\n    match", "    if table.values.len() == MOST_STATES { return Err(LIMIT); }\n    let late = !table.rules.is_empty();\n    match"),
    ("pattern 01 without name is 3", "table.rs", "        return Err(FORM);\n    }\n    // 3 before 2", "        return Err(if content.len() == 2 && !table.values.is_empty() { RULE } else { FORM });\n    }\n    // 3 before 2"),
    ("rule before any state is 3", "table.rs", "if table.values.is_empty() || !long_enough", "if !long_enough"),
    ("unknown state is 1", "table.rs", "table.values.get(state).ok_or(RULE)?", "table.values.get(state).ok_or(FORM)?"),
    ("equal rules accepted", "table.rs", ">= (state, pattern)", "> (state, pattern)"),
    ("order by pattern only", "table.rs", "(before.state, before.pattern) >= (state, pattern)", "(before.pattern) >= (pattern)"),
    ("2 before not increasing", "table.rs", "    if let Some(before) = table.rules.last() {", "    if items.len() > 130 { return Err(LIMIT); }\n    if let Some(before) = table.rules.last() {"),
    ("2 before 3 at the ninth end", "table.rs", "        self.most_owed = self.most_owed.max(owed);", "        self.most_owed = self.most_owed.max(owed);\n        if owed > 8 { self.at = self.bytes.len(); return Some(vec![]); }"),
    ("unknown element name", "table.rs", "if name as usize >= self.table.names.len()", "if name as usize > self.table.names.len()"),
    ("unknown pattern name", "table.rs", "0x01 if (content[2] as usize) < table.names.len()", "0x01 if (content[2] as usize) <= table.names.len()"),
    ("matched element for characters", "table.rs", "0x11 if matches!(self.pattern, Pattern::Named(_) | Pattern::Other)", "0x11 if self.pattern != Pattern::Empty"),
    ("matched character anywhere", "table.rs", "0x13 if self.pattern == Pattern::Character", "0x13 if self.pattern != Pattern::Empty"),
    ("calls for the empty list", "table.rs", "Pattern::Empty => false,", "Pattern::Empty => true,"),
    ("children of characters", "table.rs", "Pattern::Character => source == Source::Siblings,", "Pattern::Character => true,"),
    ("value one too far", "table.rs", "if value >= self.values", "if value > self.values"),
    ("cut right sides", "table.rs", "return if owed == 0 { Some(items) } else { None };", "return Some(items);"),
    ("a call's size without its values", "table.rs", "1 + values[*state] + inside", "1 + inside"),
    ("an element's size 1", "table.rs", "Item::Element(_, content) => 2 + size(content, values)", "Item::Element(_, content) => 1 + size(content, values)"),
    ("a call owes one at a time", "table.rs", "self.sequence(owed + count - ended)?", "self.sequence(owed + 1)?"),
    ("a call owes all to its end", "table.rs", "self.sequence(owed + count - ended)?", "self.sequence(owed + count)?"),
    ("a value has size 1", "table.rs", "Item::Value(_) => 0,", "Item::Value(_) => 1,"),
    ("other beats named", "table.rs", ".rule(state, Pattern::Named(name))\n                .or_else(|| self.rule(state, Pattern::Other))", ".rule(state, Pattern::Other)\n                .or_else(|| self.rule(state, Pattern::Named(name)))"),
    ("named does not fall back", "table.rs", "\n                .or_else(|| self.rule(state, Pattern::Other))", ""),
    # log
    ("a long name is cut", "log.rs", "                if !fits {\n                    return Err(BYTE);", "                if !fits {\n                    if to - from >= LONGEST_NAME { return Err(CUT); }\n                    return Err(BYTE);"),
    ("an empty tag is an event", "log.rs", "Some(b'>') if to > from => break", "Some(b'>') => break"),
    ("&quot; forgotten", "log.rs", "(b\"&quot;\", b'\"')", "(b\"&quat;\", b'\"')"),
    ("&apos; is a quote", "log.rs", "(b\"&apos;\", b'\\'')", "(b\"&apos;\", b'\"')"),
    ("a cut reference is 4", "log.rs", "Err(if cut { CUT } else { BYTE })", "Err(BYTE)"),
    ("a bad reference is 11", "log.rs", "Err(if cut { CUT } else { BYTE })", "Err(CUT)"),
    ("no bytes are 4", "log.rs", "None => Err(CUT),\n        Some(b'<')", "None => Err(BYTE),\n        Some(b'<')"),
    ("a known name is its beginning", "table.rs", "known == name)", "known.starts_with(name))"),
    # writer
    ("quotes escaped", "writer.rs", "b'&' => out", "b'\"' => out.extend_from_slice(b\"&quot;\"),\n        b'&' => out"),
    ("> not escaped", "writer.rs", "        b'>' => out.extend_from_slice(b\"&gt;\"),\n", ""),
    # held expression
    ("siblings of a start at level 1", "held.rs", "(Event::Start(_), Source::Siblings) => 2", "(Event::Start(_), Source::Siblings) => 1"),
    ("siblings of a character at level 2", "held.rs", "(Event::Character(_), Source::Siblings) => 1", "(Event::Character(_), Source::Siblings) => 2"),
    ("levels in arguments stay", "held.rs", "arguments: call.arguments.iter().map(|a| rewritten(table, a, event)).collect()", "arguments: call.arguments.clone()"),
    ("levels do not go up", "held.rs", "Event::Start(_) => level + 1", "Event::Start(_) => level"),
    ("levels go up at a character", "held.rs", "Event::Character(_) => level,", "Event::Character(_) => level + 1,"),
    ("one step too many", "calls.rs", "self.steps += steps as u64", "self.steps += steps as u64 + 1"),
    ("an element costs 2", "held.rs", "sum = sum.saturating_add(rule_steps(table, content, call, event, known));", "sum = sum.saturating_add(1 + rule_steps(table, content, call, event, known));"),
    ("a value costs only its argument", "held.rs", "sum = sum.saturating_add(argument);", "sum = sum.saturating_add(argument).saturating_sub(1);"),
    ("a value costs once", "held.rs", "                let argument =\n                    *known[*j].get_or_insert_with(|| steps(table, &call.arguments[*j], event));", "                let argument = if known[*j].is_some() { 0 } else { *known[*j].get_or_insert_with(|| steps(table, &call.arguments[*j], event)) };"),
    ("a moved call costs 1", "held.rs", ".fold(1, |sum: u128, a| sum.saturating_add(steps(table, a, event)))", ".fold(1, |sum: u128, a| { let _ = a; sum })"),
    ("unused arguments cost", "held.rs", "rule_steps(table, right_side, call, event, &mut known).saturating_add(1)", "{ let all: u128 = call.arguments.iter().map(|a| steps(table, a, event)).sum(); let used = rule_steps(table, right_side, call, event, &mut known); let seen: u128 = known.iter().flatten().sum(); used + 1 + all - seen }"),
    ("handed out past a call", "held.rs", "        .unwrap_or(expression.len());\n    let rest", "        .unwrap_or(expression.len());\n    if first_call > 0 && expression[..first_call].len() > 40 { expression.truncate(first_call); }\n    let rest"),
    ("the call's own name for item 10", "held.rs", "(Some(name), _) => *name,\n                    (None", "(Some(_), Event::Start(matched)) => matched,\n                    (Some(name), _) => *name,\n                    (None"),
    # words, record
    ("level 0 passes", "words.rs", "if level < 1 || level", "if level"),
    ("level open + 2 passes", "words.rs", "level > self.open + 1", "level > self.open + 2"),
    ("level open + 1 refused", "words.rs", "level > self.open + 1", "level > self.open"),
    ("a tag first passes", "words.rs", "None | Some(Held::Call(_)) => Some(expression),\n        Some(_) => None,", "_ => Some(expression),"),
    ("junk in a call passes", "words.rs", "let state = (payload / 256) as usize;", "let state = (payload / 256 % 256) as usize;"),
    ("junk in a name passes", "words.rs", "((payload as usize) < self.table.names.len())", "(((payload & 255) as usize) < self.table.names.len())"),
    ("junk in an end of argument passes", "words.rs", "END_OF_ARGUMENT if payload == 0 && argument", "END_OF_ARGUMENT if argument"),
    ("an argument may be cut", "words.rs", "return if argument { None } else { Some(expression) };", "return Some(expression);"),
    ("held characters not looked at", "words.rs", "CHARACTER if is_leaf(payload)", "CHARACTER if payload < 128"),
    ("kind of 3 bits", "words.rs", "match word >> 28 {", "match word >> 28 & 7 {"),
    ("area 3 is the second", "record.rs", "1 => second,\n            _ => return None,", "_ => second,"),
    ("open 65 passes", "record.rs", "if open > MOST_OPEN {\n            return None;\n        }", "let open = open.min(MOST_OPEN);"),
    ("unused places not looked at", "record.rs", "names_known && unused_clear && nothing_left", "names_known && (unused_clear || true) && nothing_left"),
    ("open names not looked at", "record.rs", "names_known && unused_clear && nothing_left", "(names_known || true) && unused_clear && nothing_left"),
    ("finished and open passes", "record.rs", "(open == 0 && self.held == 0)", "self.held == 0"),
    ("finished and held passes", "record.rs", "(open == 0 && self.held == 0)", "open == 0"),
    ("an end leaves its place", "record.rs", "        self.names[self.open as usize] = 0;\n", ""),
    ("a refused start is not finished", "record.rs", "Record { finished: true, ..Record::begun(0) }", "Record { finished: false, ..Record::begun(0) }"),
    # calls
    ("12 before the table", "calls.rs", "    let table = table::read(&given.table).map_err(|refusal| refusal.number)?;\n    if areas_refused(given) {\n        return Err(AREA);\n    }", "    if areas_refused(given) {\n        return Err(AREA);\n    }\n    let table = table::read(&given.table).map_err(|refusal| refusal.number)?;"),
    ("H 8,193", "numbers.rs", "MOST_H: usize = 8_192", "MOST_H: usize = 8_193"),
    ("H 15", "numbers.rs", "LEAST_H: usize = 16", "LEAST_H: usize = 15"),
    ("unequal areas", "calls.rs", " || given.second.len() != h", ""),
    ("nothing but a comment", "numbers.rs", "MOST_STEPS: u128 = 65_536;", "MOST_STEPS: u128 = 65_536; /* */"),
    ("work at 65,536", "calls.rs", "if steps > MOST_STEPS", "if steps >= MOST_STEPS"),
    ("work at 65,537", "calls.rs", "if steps > MOST_STEPS", "if steps > MOST_STEPS + 1"),
    ("room at H", "calls.rs", "if size > self.first.len()", "if size >= self.first.len()"),
    ("output at the end", "calls.rs", "if bytes.len() > length - free", "if bytes.len() >= length - free && !bytes.is_empty()"),
    ("none free refused", "calls.rs", "if bytes.len() > length - free", "if bytes.len() > length - free || self.free > length as u64"),
    ("10 before 9", "calls.rs", "        if size > self.first.len() {\n            return Err(ROOM);\n        }\n", "        if size > self.first.len() {\n            let l = self.output.len() as u64;\n            return Err(if bytes.len() as u64 > l - self.free.min(l) { OUTPUT } else { ROOM });\n        }\n"),
    ("9 before 8", "calls.rs", "        if steps > MOST_STEPS {\n            return Err(WORK);\n        }", "        if steps > MOST_STEPS {\n            return Err(if held::size(&expression) + 8 > self.first.len() { ROOM } else { WORK });\n        }"),
    ("whole expression in the room", "calls.rs", "let size = held::size(&rest);\n        if size > self.first.len()", "let size = held::size(&rest);\n        if size + bytes.len() / 7 > self.first.len()"),
    ("free 32 bits", "calls.rs", "usize::try_from(self.free)", "usize::try_from(self.free & 0xFFFF_FFFF)"),
    ("6 before 5", "calls.rs", "                let name = table.number_of(name).ok_or(NAME)?;\n                // \"end tag", "                let name = table.number_of(name).ok_or(if self.record.open == 0 { NEST } else { NAME })?;\n                // \"end tag"),
    ("7 before 5", "calls.rs", "                let name = table.number_of(name).ok_or(NAME)?;\n                // \"a 65th", "                let name = table.number_of(name).ok_or(if self.record.open == 64 { DEPTH } else { NAME })?;\n                // \"a 65th"),
    ("the outermost name closes", "record.rs", "let last = (self.open as usize).checked_sub(1)?;", "let last = if self.open == 0 { return None } else { 0 };"),
    ("11 before 13 at finish", "calls.rs", "    let finished = checked_running(given).and_then(|table| {", "    if given.record.open > 0 && given.record.open < 65 && !given.record.finished && table::read(&given.table).is_ok() && !areas_refused(given) { return unchanged(given, CUT, 0); }\n    let finished = checked_running(given).and_then(|table| {"),
    ("4 before 13", "calls.rs", "    let taken = checked_running(given).and_then(|table| {", "    if table::read(&given.table).is_ok() && !areas_refused(given) && first_event(&given.offered) == Err(BYTE) { return unchanged(given, BYTE, 0); }\n    let taken = checked_running(given).and_then(|table| {"),
    ("finish after finish", "calls.rs", "    if given.record.finished {\n        return Err(RECORD);\n    }\n    Ok(table)", "    Ok(table)"),
    ("finish leaves the area", "calls.rs", "let other = 1 - record.area;", "let other = if record.finished { record.area } else { 1 - record.area };"),
    ("finish is not noted", "calls.rs", "let record = Record { finished: true, ..self.record };", "let record = self.record;"),
    ("the word behind cleared", "calls.rs", "area[..size].copy_from_slice(&words);\n        self.record", "area[..size].copy_from_slice(&words);\n        if size < area.len() { area[size] = 0; }\n        self.record"),
    ("the old area cleared", "calls.rs", "area[..size].copy_from_slice(&words);\n        self.record", "area[..size].copy_from_slice(&words);\n        if other == 1 { self.first[0] = 0 } else { self.second[0] = 0 }\n        self.record"),
    ("the byte behind cleared", "calls.rs", "self.output[free..free + bytes.len()].copy_from_slice(&bytes);", "self.output[free..free + bytes.len()].copy_from_slice(&bytes);\n        if free + bytes.len() < length { self.output[free + bytes.len()] = 0; }"),
    ("a document from the free byte", "calls.rs", "Lent { free: 0, ..Lent::of(given) }", "Lent::of(given)"),
    ("a cut document at the event", "calls.rs", "Err(CUT) => (CUT, length),", "Err(CUT) => (CUT, lent.taken as usize),"),
    ("finish at place 0", "calls.rs", "lent.finish(&table).err().unwrap_or(ACCEPTED), length)", "lent.finish(&table).err().unwrap_or(ACCEPTED), if lent.record.finished { length } else { 0 })"),
    ("a refused document writes nothing", "calls.rs", "    Outcome {\n        place: place as u64,\n        taken: 0,", "    if number == NAME { return unchanged(given, number, place); }\n    Outcome {\n        place: place as u64,\n        taken: 0,"),
    ("a cut chunk is accepted", "calls.rs", "let number = lent.take_all(&table, &given.offered).err().unwrap_or(ACCEPTED);", "let number = lent.take_all(&table, &given.offered).err().filter(|n| *n != CUT).unwrap_or(ACCEPTED);"),
    ("a refused chunk changes nothing", "calls.rs", "    lent.outcome(given, number)\n}", "    if number == OUTPUT { return unchanged(given, number, 0); }\n    lent.outcome(given, number)\n}"),
    ("a chunk of no bytes is 11", "calls.rs", "    let mut lent = Lent::of(given);\n    let number", "    if given.offered.is_empty() { return unchanged(given, CUT, 0); }\n    let mut lent = Lent::of(given);\n    let number"),
    ("a chunk writes from the given byte", "calls.rs", "        self.free += bytes.len() as u64;\n", ""),
    ("held part of the first area", "calls.rs", "let area = if given.record.area == 0 { &given.first } else { &given.second };\n        outcome", "let area = &given.first;\n        outcome"),
    ("held part unchecked", "calls.rs", "if checked(given).is_ok() {", "if given.record.area < 2 && (given.record.held as usize) <= given.first.len().min(given.second.len()) {"),
    ("start clears its area", "calls.rs", "self.first[..words.len()].copy_from_slice(&words);", "self.first.iter_mut().for_each(|w| *w = 0);\n        self.first[..words.len()].copy_from_slice(&words);"),
    ("a refused start keeps the record", "calls.rs", "Outcome { record: Record::refused(), ..unchanged(given, number, 0) }", "unchanged(given, number, 0)"),
    ("an accepted table at place 0", "calls.rs", "unchanged(given, ACCEPTED, given.table.len())", "unchanged(given, ACCEPTED, 0)"),
    ("63 open", "calls.rs", "if self.record.open as usize == MOST_OPEN {", "if self.record.open as usize >= MOST_OPEN - 1 {"),
    ("R of a rewritten call twice", "held.rs", "known).saturating_add(1)", "known).saturating_add(2)"),
    # pipe
    ("lengths not looked at", "wire.rs", "if count > limit {", "if count > limit + 1 {"),
    ("unknown calls answered", "wire.rs", 'b"csefhkd".contains', 'b"csefhkdxag".contains'),
]
# Edits that change nothing a caller can see, which must not be caught: a
# finished record with something open is 13 for every call that has a number by
# 13's last clause too, and its held part is empty either way.
HARMLESS = {"nothing but a comment", "finished and open passes"}


def main():
    cases = sys.argv[1] if len(sys.argv) > 1 else "20000"
    seed = sys.argv[2] if len(sys.argv) > 2 else "1"
    word = sys.argv[3] if len(sys.argv) > 3 else ""
    here = os.path.dirname(os.path.abspath(__file__))
    with tempfile.TemporaryDirectory() as place:
        judge = build(here, os.path.join(place, "judge"))
        missed = 0
        for title, file, old, new in EDITS:
            if word not in title:
                continue
            verdict = try_edit(here, place, judge, cases, seed, file, old, new)
            expected = title in HARMLESS
            good = (verdict == "agrees") == expected
            missed += not good
            print(("ok     " if good else "MISSED ") + f"{title}: {verdict}", flush=True)
        print(f"{missed} missed")
        sys.exit(1 if missed else 0)


def build(source, to):
    """A copy of the sources in `to`, built there; the program's path."""
    os.makedirs(to, exist_ok=True)
    shutil.copy(os.path.join(source, "Cargo.toml"), to)
    shutil.copytree(os.path.join(source, "src"), os.path.join(to, "src"), dirs_exist_ok=True)
    command = ["cargo", "build", "--release", "--offline", "--quiet"]
    environment = dict(os.environ, CARGO_TARGET_DIR=os.path.join(to, "target"), CARGO_INCREMENTAL="1",
                       RUSTFLAGS="-Awarnings -Copt-level=1")
    done = subprocess.run(command, cwd=to, env=environment, capture_output=True, text=True)
    if done.returncode:
        raise RuntimeError(done.stderr[-2000:])
    return os.path.join(to, "target", "release", "compare")


def try_edit(here, place, judge, cases, seed, file, old, new):
    wrong = os.path.join(place, "wrong")
    os.makedirs(wrong, exist_ok=True)
    shutil.copytree(os.path.join(here, "src"), os.path.join(wrong, "src"), dirs_exist_ok=True)
    path = os.path.join(wrong, "src", file)
    text = open(path).read()
    if text.count(old) != 1:
        return f"no edit: its text stands {text.count(old)} times in {file}"
    edited = os.path.join(place, "edited")
    os.makedirs(edited, exist_ok=True)
    shutil.copytree(os.path.join(here, "src"), os.path.join(edited, "src"), dirs_exist_ok=True)
    shutil.copy(os.path.join(here, "Cargo.toml"), edited)
    with open(os.path.join(edited, "src", file), "w") as out:
        out.write(text.replace(old, new))
    try:
        program = build(edited, wrong)
    except RuntimeError as error:
        return f"no edit: {error}"
    done = subprocess.run([judge, "run", cases, seed, "--", program, "serve"], cwd=place, capture_output=True, text=True)
    if done.returncode == 0:
        return "agrees"
    first = [line for line in done.stderr.splitlines() if "differs" in line or "damaged request" in line]
    return "caught: " + (first[0] if first else done.stderr.strip().splitlines()[0])[:100]


if __name__ == "__main__":
    main()
