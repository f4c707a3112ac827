// What main.rt.txt does, over the plain core: the words and the lines are the same.
#![allow(dead_code)]

#[path = "../common/plain_core.rs"]
mod plain_core;
#[path = "../common/plain_ledger.rs"]
mod plain_ledger;
#[path = "../common/plain_md5.rs"]
mod plain_md5;

use plain_core::{Ask, Core, Event, Label, Limits, Name, Step, Why};
use plain_ledger::{HashStep, Ledger};
use plain_md5::step;
use std::time::Instant;

const ACCOUNTS: u32 = 1_024;
const WORKERS: u32 = 64;
const MOST: u32 = 1_000_000;
const LOGINS: u32 = 2;
const CLASSES: u32 = 4;
const OWN: u32 = ACCOUNTS / WORKERS;

/// The passwords of each account in the order in which they may be accepted, the stored one first.
fn chains_of(length: u32) -> Vec<Vec<u64>> {
    let line_of = |account: u32| {
        let behind = |password: &u64| Some(step(*password));
        let line = std::iter::successors(Some(u64::from(account) + 1), behind).take(length as usize);
        let mut line: Vec<u64> = line.collect();
        line.reverse();
        line
    };
    (0..ACCOUNTS).map(line_of).collect()
}

/// The place of a step: the session of its worker, counted from 0, and the step in it.
#[derive(Clone, Copy)]
struct Place {
    worker: u32,
    session: u32,
    step: u32,
}

impl Place {
    fn of(n: u32, length: u32) -> Place {
        let own = n / WORKERS;
        Place { worker: n % WORKERS, session: own / length, step: own % length }
    }

    fn class(self) -> u32 {
        (self.session + self.worker) % CLASSES
    }

    fn account(self) -> u32 {
        self.session / CLASSES % OWN * WORKERS + self.worker
    }

    fn neighbour(self) -> u32 {
        Place { worker: (self.worker + 1) % WORKERS, ..self }.account()
    }
}

struct Script {
    names: Vec<Name>,
    chains: Vec<Vec<u64>>,
    accepted: Vec<usize>,
    length: u32,
}

impl Script {
    fn challenge(&self, account: u32, now: u32) -> Ask {
        let user = self.names.get(account as usize).copied().unwrap_or(Name::of("nobody"));
        Ask::Challenge { user, now: u64::from(now) }
    }

    fn denied_reply(&self, account: u32, is_old: bool) -> Ask {
        let (chain, accepted) = (&self.chains[account as usize], self.accepted[account as usize]);
        reply(if is_old { chain[accepted] } else { chain[accepted + 1].wrapping_add(1) })
    }

    fn next_reply(&mut self, account: u32) -> Ask {
        let accepted = &mut self.accepted[account as usize];
        *accepted += 1;
        reply(self.chains[account as usize][*accepted])
    }

    fn login_ask(&mut self, place: Place, now: u32) -> Ask {
        match place.step {
            2 => self.challenge(place.account(), now),
            3 => self.next_reply(place.account()),
            4 => Ask::Export { len: 12 },
            5 => Ask::Import,
            6 => Ask::OpenFile { mode: 3, name: Label::of("notes") },
            _ => file_ask(place.step),
        }
    }

    fn vain_ask(&self, place: Place, now: u32) -> Ask {
        match place.step {
            2 | 4 | 8 => self.challenge(place.account(), now),
            3 => self.denied_reply(place.account(), true),
            5 => self.denied_reply(place.account(), false),
            6 => self.challenge(ACCOUNTS, now),
            7 => reply(1),
            _ => use_ask(0, place.step),
        }
    }

    fn other_ask(&self, place: Place, now: u32) -> Ask {
        match place.step {
            3 | 4 => self.challenge(place.neighbour(), now),
            5 => self.denied_reply(place.neighbour(), false),
            6 => self.challenge(ACCOUNTS, now),
            7 => Ask::Abandon,
            _ => use_ask(0, place.step),
        }
    }

    fn ask(&mut self, place: Place, now: u32) -> Ask {
        match (place.step, place.class()) {
            (0, _) => Ask::Begin,
            (1, _) => Ask::Banner,
            (2..10, 2) => self.vain_ask(place, now),
            (2..10, 3) => self.other_ask(place, now),
            (2..10, _) => self.login_ask(place, now),
            _ => late_ask(place, self.length - place.step),
        }
    }

    fn step(&mut self, n: u32) -> Step {
        let place = Place::of(n, self.length);
        Step { worker: place.worker, ask: self.ask(place, n / WORKERS) }
    }
}

fn reply(password: u64) -> Ask {
    Ask::Reply { words: None, hex: Some(password) }
}

fn use_ask(handle: u32, step: u32) -> Ask {
    if step % 2 == 0 {
        Ask::ReadAt { handle, offset: 0, max: 4_096 }
    } else {
        Ask::WriteAt { handle, offset: 0, len: 512 }
    }
}

fn file_ask(step: u32) -> Ask {
    use_ask(u32::from(step % 4 < 2), step)
}

fn late_ask(place: Place, left: u32) -> Ask {
    match left {
        1 => Ask::End { why: Why::Finished },
        2 => Ask::Finish,
        3 if place.class() < LOGINS => Ask::CloseFile { handle: 1 },
        _ if place.class() < LOGINS => file_ask(place.step),
        _ => use_ask(0, place.step),
    }
}

/// Makes steps, takes blocks of them, and prints a line of each.
fn run(length: u32, total: u32, count: usize, blocks: usize) {
    let chains = chains_of(total / length / ACCOUNTS / 2 + 5);
    let names: Vec<Name> = (0..ACCOUNTS).map(|account| Name::of(&format!("user{account}"))).collect();
    let stored: Vec<_> = chains.iter().map(|chain| (step as HashStep, 9_999, chain[0])).collect();
    let grants = names.iter().map(|_| vec![(Label::of("notes"), 3)]).collect();
    let limits = Limits { requests: 4_096, tries: 3, hold: 30_000 };
    let mut core = Core::new(Ledger::new(&stored, MOST), &names, grants, limits, WORKERS as usize);
    let accepted = vec![0; ACCOUNTS as usize];
    let mut script = Script { names, chains, accepted, length };
    let steps: Vec<Step> = (0..total).map(|n| script.step(n)).collect();
    let mut events: Vec<Event> = Vec::with_capacity(MOST as usize);
    let mut sum = 0u64;
    for block in steps.chunks(count).take(blocks) {
        let start = Instant::now();
        for step in block {
            let event = core.step(step);
            events.push(event);
            sum = sum.wrapping_mul(31).wrapping_add(event.decision.number());
        }
        println!("{} {} {sum}", block.len(), start.elapsed().as_nanos());
    }
    std::hint::black_box(&events);
}

fn time_hashes(calls: u32) {
    let start = Instant::now();
    let sum = (0..calls).fold(0u64, |sum, _| sum.wrapping_mul(31).wrapping_add(step(sum)));
    println!("{calls} {} {sum}", start.elapsed().as_nanos());
}

fn main() {
    let words: Vec<String> = std::env::args().collect();
    let number = |place: usize| words[place].parse::<u32>().unwrap();
    match words[1].as_str() {
        "hash" => time_hashes(number(2)),
        _ => run(number(1), number(2), number(3) as usize, number(4) as usize),
    }
}
