// A setup, read from a file as policy.py writes it.

#[derive(Clone, Copy, Debug, PartialEq, Eq)]
pub enum Algo {
    Md5,
    Sha1,
}

pub struct Grant {
    /// The name in hexadecimal, as a log shows it.
    pub name: String,
    pub mode: u8,
}

pub struct Account {
    pub name: String,
    pub algo: Algo,
    pub sequence: u64,
    pub password: u64,
    pub enabled: bool,
    pub grants: Vec<Grant>,
}

#[derive(Default)]
pub struct Setup {
    pub salt: String,
    pub workers: u32,
    pub requests: u32,
    pub tries: u32,
    pub hold: u64,
    pub info: Vec<u32>,
    pub accounts: Vec<Account>,
}

/// A text without its quotation marks.
fn text(value: &str) -> String {
    value.trim_matches('"').to_string()
}

fn number<T: std::str::FromStr>(value: &str) -> T {
    value.parse().unwrap_or_else(|_| panic!("{value} is no number"))
}

/// The parts of a list in brackets, of which none has a comma.
fn parts(value: &str) -> impl Iterator<Item = &str> {
    let inner = value.trim_start_matches('[').trim_end_matches(']');
    inner.split(',').map(str::trim).filter(|part| !part.is_empty())
}

/// The grants of `[{ name = "NAME", mode = MODE }, ..]`.
fn grants(value: &str) -> Vec<Grant> {
    let words: Vec<&str> = parts(value).filter_map(|part| part.split_once(" = ")).map(|pair| pair.1).collect();
    let grant = |pair: &[&str]| Grant {
        name: text(pair[0]).bytes().map(|byte| format!("{byte:02x}")).collect(),
        mode: number(pair[1].trim_end_matches(" }")),
    };
    words.chunks(2).map(grant).collect()
}

fn empty_account() -> Account {
    Account { name: String::new(), algo: Algo::Md5, sequence: 0, password: 0, enabled: true, grants: Vec::new() }
}

fn set_account(account: &mut Account, key: &str, value: &str) {
    match key {
        "name" => account.name = text(value),
        "algorithm" => account.algo = if text(value) == "sha1" { Algo::Sha1 } else { Algo::Md5 },
        "sequence" => account.sequence = number(value),
        "password" => account.password = u64::from_str_radix(&text(value), 16).expect("a password"),
        "enabled" => account.enabled = value == "true",
        "grants" => account.grants = grants(value),
        _ => {}
    }
}

fn set(setup: &mut Setup, key: &str, value: &str) {
    match key {
        "salt" => setup.salt = text(value).to_lowercase(),
        "workers" => setup.workers = number(value),
        "requests" => setup.requests = number(value),
        "tries" => setup.tries = number(value),
        "hold" => setup.hold = number(value),
        "info" => setup.info = parts(value).map(number).collect(),
        _ => {}
    }
}

pub fn read(file: &str) -> Setup {
    let mut setup = Setup::default();
    for line in file.lines() {
        if line == "[[account]]" {
            setup.accounts.push(empty_account());
        } else if let Some((key, value)) = line.split_once(" = ") {
            match setup.accounts.last_mut() {
                Some(account) => set_account(account, key, value),
                None => set(&mut setup, key, value),
            }
        }
    }
    setup
}
