// What all workers share, under one lock: the plain core, the journal and the log; and the texts of challenges.
use crate::plain_core::{Ask, Core, DECOYS, Event, Label, Limits, Name, Step, Why};
use crate::plain_ledger::{Decision, Ledger};
use crate::twin_chain::Algo;
use std::collections::HashMap;
use std::io::Write;
use std::sync::Mutex;

/// The account of a worker's user.
pub struct Account {
    pub name: Name,
    pub algo: Algo,
    pub seed: String,
    pub sequence: u16,
    pub password: u64,
}

struct Book {
    core: Core,
    journal: Vec<Event>,
    log: Vec<u8>,
}

pub struct Monitor {
    book: Mutex<Book>,
    seeds: HashMap<Name, (Algo, String)>,
}

impl Monitor {
    /// A monitor with as many workers as accounts.
    pub fn new(accounts: Vec<Account>) -> Monitor {
        let names: Vec<Name> = accounts.iter().map(|account| account.name).collect();
        let stored: Vec<_> =
            accounts.iter().map(|account| (account.algo.hash_step(), account.sequence, account.password)).collect();
        let grants = names.iter().map(|_| vec![(Label::of("notes"), 3)]).collect();
        let limits = Limits { requests: 16, tries: 3, hold: 30_000 };
        let core = Core::new(Ledger::new(&stored, u32::MAX), &names, grants, limits, names.len());
        let seeds = accounts.into_iter().map(|account| (account.name, (account.algo, account.seed))).collect();
        Monitor { book: Mutex::new(Book { core, journal: Vec::new(), log: Vec::new() }), seeds }
    }

    /// The session that a worker opens.
    pub fn open(&self, worker: u32) -> u32 {
        self.step(worker, Ask::Begin).session
    }

    pub fn end(&self, worker: u32, why: Why) {
        self.step(worker, Ask::End { why });
    }

    /// What a child is told of its ask: not why a reply is denied.
    pub fn decide(&self, worker: u32, ask: Ask) -> Decision {
        match self.step(worker, ask).decision {
            Decision::Deny { rule: 13..=16, .. } => Decision::Deny { rule: 16, detail: 0 },
            decision => decision,
        }
    }

    fn step(&self, worker: u32, ask: Ask) -> Event {
        let mut book = self.book.lock().unwrap();
        let event = book.core.step(&Step { worker, ask });
        book.note(event);
        event
    }

    /// The text of a challenge.
    pub fn challenge(&self, user: &Name, value: u64) -> String {
        match self.seeds.get(user) {
            Some((algo, seed)) => format!("otp-{} {value} {seed}\n", algo.word()),
            None => format!("otp-md5 {} decoy\n", value - DECOYS),
        }
    }

    pub fn into_parts(self) -> (Vec<Event>, Vec<u8>) {
        let book = self.book.into_inner().unwrap();
        (book.journal, book.log)
    }
}

impl Book {
    /// Keeps an event, and writes its line.
    fn note(&mut self, event: Event) {
        let number = self.journal.len() + 1;
        write!(self.log, "{number} w{} s{} ", event.worker, event.session).unwrap();
        write_ask(&mut self.log, &event.ask);
        match event.decision {
            Decision::Deny { rule, detail } => write!(self.log, " deny {rule} {detail}").unwrap(),
            Decision::Permit { value } => write_permit(&mut self.log, &event.ask, value),
        }
        self.log.push(b'\n');
        self.journal.push(event);
    }
}

fn write_permit(log: &mut Vec<u8>, ask: &Ask, value: u64) {
    match ask {
        Ask::Challenge { .. } | Ask::Export { .. } | Ask::OpenFile { .. } => write!(log, " permit {value}"),
        Ask::Reply { .. } => write!(log, " permit {value:016x}"),
        _ => log.write_all(b" permit"),
    }
    .unwrap();
}

fn write_ask(log: &mut Vec<u8>, ask: &Ask) {
    match ask {
        Ask::Begin => write!(log, "open"),
        Ask::Banner => write!(log, "banner"),
        Ask::Challenge { user, now } => {
            log.extend_from_slice(b"challenge ");
            log.extend_from_slice(user.as_bytes());
            write!(log, " {now}")
        }
        Ask::Reply { .. } => write!(log, "reply"),
        Ask::Abandon => write!(log, "abandon"),
        Ask::Export { len } => write!(log, "export {len}"),
        Ask::Import => write!(log, "import"),
        Ask::ReadAt { handle, offset, max } => write!(log, "read {handle} {offset} {max}"),
        Ask::WriteAt { handle, offset, len } => write!(log, "write {handle} {offset} {len}"),
        Ask::OpenFile { mode, name } => {
            write!(log, "grant {mode} ").unwrap();
            name.as_bytes().iter().try_for_each(|byte| write!(log, "{byte:02x}"))
        }
        Ask::CloseFile { handle } => write!(log, "close {handle}"),
        Ask::Finish => write!(log, "finish"),
        Ask::End { why: Why::Violation { rule } } => write!(log, "end violation {rule}"),
        Ask::End { why: Why::Finished } => write!(log, "end finished"),
        Ask::End { why: Why::Truncated } => write!(log, "end truncated"),
        Ask::End { why: Why::ChildEnded } => write!(log, "end child-ended"),
    }
    .unwrap();
}
