//! The judge itself behind the protocol of docs/TRIAL.md: what `trial` should
//! do. It lets the comparison be tried without the program.

use crate::calls;
use crate::wire;
use std::io::{self, Read, Write};

pub fn serve() -> io::Result<()> {
    let mut from = io::stdin().lock();
    let mut to = io::stdout().lock();
    loop {
        let mut bytes = Vec::new();
        read_up_to(&mut from, wire::HEAD, &mut bytes)?;
        if bytes.is_empty() {
            return Ok(());
        }
        let request = match wire::request_length(&bytes) {
            None => None,
            Some(length) => {
                read_up_to(&mut from, length - wire::HEAD, &mut bytes)?;
                wire::read_request(&bytes)
            }
        };
        let Some(request) = request else {
            to.write_all(&[wire::DAMAGED])?;
            return to.flush();
        };
        let outcome = calls::make(request.asked, &request.given);
        to.write_all(&wire::answer_bytes(&outcome))?;
        to.flush()?;
    }
}

/// That many bytes, or fewer where the input ends.
fn read_up_to(from: &mut impl Read, count: usize, bytes: &mut Vec<u8>) -> io::Result<()> {
    from.take(count as u64).read_to_end(bytes)?;
    Ok(())
}
