// The mode `audit SETUP LOG` as one would write it in plain Rust: reads the log line by line, and keeps what the lines
// so far say in a map by session and a map by user. It prints the line that the program prints and ends with its
// status. Of setups it reads those that policy.py writes.
#[path = "../common/plain_md5.rs"]
mod plain_md5;
#[path = "../common/plain_sha1.rs"]
mod plain_sha1;
#[path = "twin_line.rs"]
mod twin_line;
#[path = "twin_policy.rs"]
mod twin_policy;
#[path = "twin_setup.rs"]
mod twin_setup;

use std::fs::File;
use std::io::{self, BufRead, BufReader, Read};
use std::process::ExitCode;
use twin_policy::Policy;

/// A run makes at most so many events.
const EVENTS: usize = 1_048_576;

/// So many bytes of a log count.
const BYTES: u64 = 268_435_457;

/// The first line with which a log isn't legal, and why.
struct No {
    line: usize,
    why: &'static str,
}

fn judge(policy: &mut Policy, place: usize, line: &[u8]) -> Result<(), &'static str> {
    if place > EVENTS {
        return Err("count");
    }
    let line = twin_line::read(line).ok_or("text")?;
    if line.number as usize != place {
        return Err("count");
    }
    if policy.take(&line) { Ok(()) } else { Err("event") }
}

fn audit(policy: &mut Policy, mut log: impl BufRead) -> io::Result<Result<usize, No>> {
    let mut line = Vec::new();
    let mut place = 0;
    while log.read_until(b'\n', &mut line)? > 0 {
        place += 1;
        if let Err(why) = judge(policy, place, &line) {
            return Ok(Err(No { line: place, why }));
        }
        line.clear();
    }
    Ok(Ok(place))
}

fn main() -> io::Result<ExitCode> {
    let words: Vec<String> = std::env::args().collect();
    let mut policy = Policy::new(twin_setup::read(&std::fs::read_to_string(&words[2])?));
    let log = BufReader::with_capacity(1 << 16, File::open(&words[3])?.take(BYTES));
    match audit(&mut policy, log)? {
        Ok(lines) => {
            println!("yes {lines}");
            Ok(ExitCode::SUCCESS)
        }
        Err(No { line, why }) => {
            println!("no {line} {why}");
            Ok(ExitCode::from(14))
        }
    }
}
