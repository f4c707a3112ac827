// What main.rt.txt does, over the plain ledger: the words and the line are the same.
#[path = "../common/plain_ledger.rs"]
mod plain_ledger;
#[path = "../common/plain_md5.rs"]
mod plain_md5;

use plain_ledger::{Decision, HashStep, Ledger};
use plain_md5::step;
use std::time::Instant;

const ACCOUNTS: u32 = 1_024;
const SPARE: u32 = 4_096;

/// The passwords of the accounts in the order in which they may be accepted, the stored one first.
struct Chains {
    passwords: Vec<u64>,
    length: usize,
}

impl Chains {
    fn new(accepted: u32) -> Chains {
        let length = ((accepted + SPARE) / ACCOUNTS + 2) as usize;
        let mut passwords = Vec::new();
        for account in 0..ACCOUNTS {
            let first = u64::from(account) + 1;
            let password_behind = |password: &u64| Some(step(*password));
            let line: Vec<u64> = std::iter::successors(Some(first), password_behind).take(length).collect();
            passwords.extend(line.iter().rev());
        }
        Chains { passwords, length }
    }

    fn at(&self, account: u32, n: u32) -> u64 {
        self.passwords[account as usize * self.length + n as usize]
    }
}

/// The account of the nth call: each once in 1,024 calls.
fn account_of(n: u32) -> u32 {
    n % ACCOUNTS * 397 % ACCOUNTS
}

/// How many passwords of an account were accepted, where so many were of all.
fn share_of(account: u32, accepted: u32) -> u32 {
    accepted / ACCOUNTS + u32::from(account < accepted % ACCOUNTS)
}

/// Judges a password of an account, and spends it where it is permitted.
fn accept(ledger: &mut Ledger, account: u32, password: u64) -> u64 {
    if account as usize >= ledger.rows.len() || ledger.is_full() {
        return 0;
    }
    match ledger.judge_reply(account, account + 1, None, Some(password)) {
        Decision::Permit { value } if ledger.rows[account as usize].sequence > 0 => {
            ledger.spend(account, value);
            value
        }
        _ => 0,
    }
}

/// The password that an account accepts at the nth call.
fn next_of(chains: &Chains, account: u32, accepted: u32, n: u32) -> u64 {
    chains.at(account, share_of(account, accepted) + 1 + n / ACCOUNTS)
}

/// Judges the nth reply: the next password, the stored one and a wrong one in turn.
fn judge(ledger: &Ledger, chains: &Chains, accepted: u32, n: u32) -> u64 {
    let account = account_of(n);
    let password = match n % 3 {
        0 => next_of(chains, account, accepted, 0),
        1 => chains.at(account, 0),
        _ => next_of(chains, account, accepted, 0).wrapping_add(1),
    };
    ledger.judge_reply(account, account + 1, None, Some(password)).number()
}

/// Accepts the nth password.
fn accept_nth(ledger: &mut Ledger, chains: &Chains, accepted: u32, n: u32) -> u64 {
    let account = account_of(n);
    accept(ledger, account, next_of(chains, account, accepted, n))
}

/// The sum with the answers of so many calls more; each is made from its number and the sum before it.
fn summed(calls: u32, sum: u64, mut answer: impl FnMut(u32, u64) -> u64) -> u64 {
    (0..calls).fold(sum, |sum, n| sum.wrapping_mul(31).wrapping_add(answer(n, sum)))
}

/// A ledger in which so many passwords were accepted, account by account.
fn begun(chains: &Chains, accepted: u32) -> Ledger {
    let accounts: Vec<_> = (0..ACCOUNTS).map(|account| (step as HashStep, 9_999, chains.at(account, 0))).collect();
    let mut ledger = Ledger::new(&accounts, accepted + SPARE);
    for account in 0..ACCOUNTS {
        ledger.hold(account, account + 1, 0);
    }
    for account in 0..ACCOUNTS {
        for n in 0..share_of(account, accepted) {
            accept(&mut ledger, account, chains.at(account, n + 1));
        }
    }
    ledger
}

fn main() {
    let words: Vec<String> = std::env::args().collect();
    let number = |place: usize| words[place].parse::<u32>().unwrap();
    let (what, accepted, rounds, calls) = (words[1].as_str(), number(2), number(3), number(4));
    let chains = Chains::new(accepted);
    let mut sum = 0u64;
    for _ in 0..rounds {
        let mut ledger = begun(&chains, accepted);
        let start = Instant::now();
        sum = match what {
            "reply" => summed(calls, sum, |n, _| judge(&ledger, &chains, accepted, n)),
            "spend" => summed(calls, sum, |n, _| accept_nth(&mut ledger, &chains, accepted, n)),
            _ => summed(calls, sum, |_, sum| step(sum)),
        };
        println!("{calls} {} {sum}", start.elapsed().as_nanos());
    }
}
