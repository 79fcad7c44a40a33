//! The comparison itself, and one request replayed.

use crate::calls::{self, Outcome};
use crate::drive::{Driver, Reply};
use crate::numbers::called;
use crate::rng::Rng;
use crate::scenes::{scene, Case};
use crate::show;
use crate::shrink;
use crate::vectors;
use crate::wire::{self, Request};
use std::collections::BTreeMap;

/// The program is started anew after so many requests.
const RESTART: usize = 5_000;

/// Of so many scenes one is a damaged request.
const SELDOM: usize = 100;

/// The fixed cases, then random ones; the first that differs is an error.
pub fn run(count: usize, seed: u64, command: &[String]) -> Result<(), String> {
    let (fixed, faults) = vectors::all();
    if !faults.is_empty() {
        return Err(faults.join("\n"));
    }
    let mut comparison = Comparison { driver: Driver::new(command), done: 0, seen: BTreeMap::new(), damaged: 0 };
    for case in &fixed {
        comparison.compare(case)?;
    }
    let mut rng = Rng::new(seed);
    let mut random = 0;
    while random < count {
        if rng.below(SELDOM) == 0 {
            comparison.damaged_request(&mut rng)?;
        }
        let mut cases = Vec::new();
        scene(&mut rng, &mut cases);
        cases.truncate(count - random);
        for case in &cases {
            comparison.compare(case)?;
        }
        random += cases.len();
    }
    comparison.driver.stop()?;
    comparison.print();
    println!("compared {} cases ({} fixed, {random} random of seed {seed}), all agree", fixed.len() + random, fixed.len());
    Ok(())
}

struct Comparison {
    driver: Driver,
    done: usize,
    damaged: usize,
    /// How often each call had each number.
    seen: BTreeMap<String, BTreeMap<u8, usize>>,
}

impl Comparison {
    fn compare(&mut self, case: &Case) -> Result<(), String> {
        if self.done % RESTART == RESTART - 1 {
            self.driver.stop()?;
        }
        self.done += 1;
        let reply = self.driver.ask(&case.request);
        if reply != Reply::Answer(wire::answer_bytes(&case.outcome)) {
            return Err(self.told(case, &reply));
        }
        let call = format!("{:?}", case.request.asked);
        *self.seen.entry(call).or_default().entry(case.outcome.number).or_default() += 1;
        Ok(())
    }

    /// The failing case, made small, in words and as a request to replay.
    fn told(&mut self, case: &Case, reply: &Reply) -> String {
        let mut request = case.request.clone();
        let mut reply = reply.clone();
        let slow = matches!(&reply, Reply::Broken(how) if how.starts_with("no answer"));
        if !slow {
            request = shrink::shrunk(&mut self.driver, &request);
            reply = self.driver.ask(&request);
        }
        let title = &case.title;
        format!("case {} differs ({title})\n{}", self.done, failing(&request, &reply))
    }

    /// A request that is none, each in one of the ways of docs/TRIAL.md.
    fn damaged_request(&mut self, rng: &mut Rng) -> Result<(), String> {
        let mut cases = Vec::new();
        while cases.is_empty() {
            scene(rng, &mut cases);
        }
        let mut bytes = wire::request_bytes(&cases[0].request);
        let mut last = false;
        match rng.below(7) {
            0 => bytes[0] = *rng.pick(b"aCxg\x00\xff0"),
            1 => bytes[1..5].copy_from_slice(&40_001_u32.to_be_bytes()),
            2 => {
                let at = *rng.pick(&[5, 9]);
                bytes[at..at + 4].copy_from_slice(&8_301_u32.to_be_bytes());
            }
            3 => {
                let at = *rng.pick(&[13, 17]);
                let length = *rng.pick(&[65_537, u32::MAX, 1 << 31]);
                bytes[at..at + 4].copy_from_slice(&length.to_be_bytes());
            }
            4 => bytes[34] = rng.from_to(2, 255) as u8,
            5 => {
                bytes.truncate(rng.from_to(1, 99));
                last = true;
            }
            _ => {
                bytes.truncate(rng.from_to(1, bytes.len() - 1));
                last = true;
            }
        }
        if !last && rng.percent(50) {
            // The head alone must be enough to see it.
            bytes.truncate(wire::HEAD);
        }
        // A good request before it, so that it is not always the first.
        let first = self.driver.ask(&cases[0].request);
        if first != Reply::Answer(wire::answer_bytes(&cases[0].outcome)) {
            return Err(self.told(&cases[0], &first));
        }
        self.damaged += 1;
        match self.driver.ask_damaged(&bytes, last) {
            Reply::Damaged => Ok(()),
            other => Err(format!("a damaged request is not answered by x alone: {other:?}\n{}", show::hex(&bytes))),
        }
    }

    fn print(&self) {
        for (call, numbers) in &self.seen {
            let counts: Vec<String> = numbers
                .iter()
                .map(|(number, count)| format!("{number} {}: {count}", called(*number)))
                .collect();
            println!("{call}: {}", counts.join(", "));
        }
        println!("damaged requests: {}", self.damaged);
    }
}

/// A request with what was expected and what came.
fn failing(request: &Request, reply: &Reply) -> String {
    let expected = calls::make(request.asked, &request.given);
    let mut told = show::request(request);
    told += &format!("expected: {}\n", show::outcome(&expected));
    told += &match reply {
        Reply::Answer(bytes) => answered(&expected, bytes, request),
        Reply::Damaged => "seen: x, as if the request were damaged\n".to_string(),
        Reply::Broken(how) => format!("seen: {how}\n"),
    };
    let hex = show::hex(&wire::request_bytes(request));
    if hex.len() <= 6_000 {
        told += &format!("replay with: compare replay {hex} -- CMD\n");
    } else {
        let file = "compare-failing.hex";
        told += &match std::fs::write(file, &hex) {
            Ok(()) => format!("replay with: compare replay {file} -- CMD\n"),
            Err(error) => format!("{file}: {error}; the request in hexadecimal:\n{hex}\n"),
        };
    }
    told
}

fn answered(expected: &Outcome, bytes: &[u8], request: &Request) -> String {
    match wire::read_answer(bytes, &request.given) {
        Some(seen) => format!("seen:     {}\n{}", show::outcome(&seen), show::difference(expected, &seen)),
        None => format!("seen: an answer that cannot be read: {}\n", show::hex(&bytes[..bytes.len().min(120)])),
    }
}

/// One request again, with everything about it.
pub fn replay(request: &str, command: &[String]) -> Result<(), String> {
    let text = match show::unhex(request) {
        Some(_) => request.to_string(),
        None => std::fs::read_to_string(request).map_err(|error| format!("{request}: {error}"))?,
    };
    let bytes = show::unhex(&text).ok_or("not hexadecimal")?;
    let request = wire::read_request(&bytes).ok_or("no whole request")?;
    let mut driver = Driver::new(command);
    let reply = driver.ask(&request);
    let expected = calls::make(request.asked, &request.given);
    if reply == Reply::Answer(wire::answer_bytes(&expected)) {
        print!("{}", show::request(&request));
        println!("both: {}", show::outcome(&expected));
        return driver.stop();
    }
    Err(format!("the answers differ\n{}", failing(&request, &reply)))
}
