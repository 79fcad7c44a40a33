//! The independent judge of the sheet rewriter. It reads tables and logs,
//! evaluates a table on the log's tree by document 002's definition 2, models
//! every public call of document 01 with all its numbers, and compares a
//! program behind a pipe (docs/TRIAL.md) with that model, byte for byte. It
//! shares nothing with the crates.

mod alphabet;
mod calls;
mod classics;
mod drive;
mod held;
mod log;
mod make_held;
mod make_log;
mod make_table;
mod meaning;
mod numbers;
mod record;
mod rng;
mod run;
mod scenes;
mod selfcheck;
mod serve;
mod show;
mod shrink;
mod table;
mod tree;
mod vectors;
mod wire;
mod words;
mod writer;

use std::io::{Read, Write};
use std::process::ExitCode;

const USAGE: &str = "usage:
  compare self N SEED                the judge's event model against its evaluator on trees,
                                     N random tables and logs, and the numbers of the papers
  compare run N SEED -- CMD ARGS..   a program behind the pipe of docs/TRIAL.md against the
                                     judge: the fixed cases and N random requests
  compare replay HEX|FILE -- CMD ..  one request, as a failing run printed or saved it
  compare serve                      the judge itself behind that pipe
  compare tree TABLE < LOG           the image of a log, evaluated on its tree
  compare events TABLE < LOG         a log event by event: steps, held, bytes
  compare table NAME|SEED            a table of the papers, or a random one, as bytes";

/// Held expressions and tables of strangers nest thousands deep, and a list of
/// siblings is evaluated by recursion along it.
const STACK: usize = 1 << 30;

fn main() -> ExitCode {
    let arguments: Vec<String> = std::env::args().skip(1).collect();
    let work = move || command(&arguments);
    let thread = std::thread::Builder::new().stack_size(STACK).spawn(work);
    match thread.map(|thread| thread.join()) {
        Ok(Ok(code)) => code,
        Ok(Err(_)) => ExitCode::from(2),
        Err(error) => {
            eprintln!("compare: no thread with a large stack: {error}");
            ExitCode::from(2)
        }
    }
}

fn command(arguments: &[String]) -> ExitCode {
    let words: Vec<&str> = arguments.iter().map(String::as_str).collect();
    let done = match words.as_slice() {
        ["self", count, seed] => numbers_of(count, seed).and_then(|(n, s)| self_check(n, s)),
        ["run", count, seed, "--", _, ..] => {
            numbers_of(count, seed).and_then(|(n, s)| run::run(n, s, &arguments[4..]))
        }
        ["replay", request, "--", _, ..] => run::replay(request, &arguments[3..]),
        ["serve"] => serve::serve().map_err(|error| error.to_string()),
        ["tree", table] => image(table),
        ["events", table] => events(table),
        ["table", which] => table_of(which),
        _ => {
            eprintln!("{USAGE}");
            return ExitCode::from(2);
        }
    };
    match done {
        Ok(()) => ExitCode::SUCCESS,
        Err(fault) => {
            eprintln!("compare: {fault}");
            ExitCode::FAILURE
        }
    }
}

fn numbers_of(count: &str, seed: &str) -> Result<(usize, u64), String> {
    let count = count.parse().map_err(|_| format!("{count} is no number of cases"))?;
    let seed = seed.parse().map_err(|_| format!("{seed} is no seed"))?;
    Ok((count, seed))
}

fn self_check(count: usize, seed: u64) -> Result<(), String> {
    let (fixed, tally) = selfcheck::check(count, seed)?;
    println!("{fixed} fixed cases: every number of the papers agrees");
    println!(
        "{count} random tables and logs of seed {seed}: {} accepted, {} evaluated on trees ({} bytes), {} too long to evaluate, {} held to demand 3",
        tally.accepted, tally.evaluated, tally.bytes, tally.too_long, tally.read_once
    );
    let refused: Vec<String> = (1..14)
        .filter(|number| tally.refused[*number] > 0)
        .map(|number| format!("{number} {}: {}", numbers::called(number as u8), tally.refused[number]))
        .collect();
    println!("refused: {}", refused.join(", "));
    println!("checked {count} cases, all agree");
    Ok(())
}

fn read_table(path: &str) -> Result<table::Table, String> {
    let bytes = std::fs::read(path).map_err(|error| format!("{path}: {error}"))?;
    table::read(&bytes).map_err(|refusal| {
        let number = refusal.number;
        format!("{path}: refused {number} ({}) at {}", numbers::called(number), refusal.place)
    })
}

fn read_log() -> Result<Vec<u8>, String> {
    let mut log = Vec::new();
    std::io::stdin().read_to_end(&mut log).map_err(|error| error.to_string())?;
    Ok(log)
}

fn put(bytes: &[u8]) -> Result<(), String> {
    let mut out = std::io::stdout().lock();
    out.write_all(bytes).and_then(|_| out.flush()).map_err(|error| error.to_string())
}

fn image(path: &str) -> Result<(), String> {
    let table = read_table(path)?;
    let log = read_log()?;
    let tree = tree::build(&log, &table).map_err(|refusal| {
        let number = refusal.number;
        format!("refused {number} ({}) at byte {} of the log", numbers::called(number), refusal.place)
    })?;
    let forest = meaning::image(&table, &tree, u64::MAX).ok_or("out of fuel")?;
    put(&forest.written(&table, usize::MAX).ok_or("too long")?)
}

fn events(path: &str) -> Result<(), String> {
    let table = std::fs::read(path).map_err(|error| format!("{path}: {error}"))?;
    let log = read_log()?;
    let mut given = vectors::lend(&table, numbers::MOST_H, 1 << 23);
    let mut asked = calls::Asked::Start;
    let mut at = 0;
    loop {
        given.offered = log[at..].to_vec();
        let outcome = calls::make(asked, &given);
        println!("{asked:?} at {at}: {}", show::outcome(&outcome));
        if outcome.handed > 0 {
            println!("  out: {}", show::text(&outcome.output[..outcome.handed as usize]));
        }
        at += outcome.taken as usize;
        (given.record, given.first, given.second) = (outcome.record, outcome.first, outcome.second);
        if let Ok(table) = table::read(&table) {
            if let Some(held) = given.record.expression(&table, &given.first, &given.second) {
                println!("  held: {}", show::expression(&table, &held));
            }
        }
        if outcome.number != 0 || given.record.finished {
            return Ok(());
        }
        asked = if at < log.len() { calls::Asked::Event } else { calls::Asked::Finish };
    }
}

fn table_of(which: &str) -> Result<(), String> {
    let table = match (vectors::named(which), which.parse()) {
        (Some(table), _) => table,
        (None, Ok(seed)) => {
            let mut rng = rng::Rng::new(seed);
            if rng.percent(10) { make_table::large(&mut rng) } else { make_table::valid(&mut rng) }
        }
        _ => return Err(format!("{which} is no table of the papers and no seed")),
    };
    put(&table::table_bytes(&table))
}
