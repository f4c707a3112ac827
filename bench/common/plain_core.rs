// The core as one would write it in plain Rust: a row a worker, the plain ledger, and a map from names to accounts. The
// twin of bench/session_core steps it alone, that of bench/drill under a lock.
use crate::plain_ledger::{Decision, Ledger};
use std::collections::HashMap;

/// A short text, and how many of its bytes count.
#[derive(Clone, Copy, Debug, PartialEq, Eq, Hash)]
pub struct Short<const N: usize> {
    bytes: [u8; N],
    len: u8,
}

impl<const N: usize> Short<N> {
    pub fn of(text: &str) -> Short<N> {
        let mut bytes = [0; N];
        bytes[..text.len()].copy_from_slice(text.as_bytes());
        Short { bytes, len: text.len() as u8 }
    }

    pub fn as_bytes(&self) -> &[u8] {
        &self.bytes[..self.len as usize]
    }
}

pub type Name = Short<32>;
pub type Label = Short<64>;

/// Why a session ends.
#[derive(Clone, Copy, Debug)]
pub enum Why {
    Finished,
    ChildEnded,
    Truncated,
    Violation { rule: u8 },
}

#[derive(Clone, Copy, Debug)]
pub enum Ask {
    Begin,
    Banner,
    Challenge { user: Name, now: u64 },
    Reply { words: Option<u64>, hex: Option<u64> },
    Abandon,
    Export { len: u16 },
    Import,
    ReadAt { handle: u32, offset: u64, max: u16 },
    WriteAt { handle: u32, offset: u64, len: u16 },
    OpenFile { mode: u8, name: Label },
    CloseFile { handle: u32 },
    Finish,
    End { why: Why },
}

impl Ask {
    fn number(&self) -> u32 {
        match self {
            Ask::Begin | Ask::End { .. } => 0,
            Ask::Banner => 1,
            Ask::Challenge { .. } => 2,
            Ask::Reply { .. } => 3,
            Ask::Abandon => 4,
            Ask::Export { .. } => 5,
            Ask::Import => 6,
            Ask::ReadAt { .. } => 7,
            Ask::WriteAt { .. } => 8,
            Ask::OpenFile { .. } => 9,
            Ask::CloseFile { .. } => 10,
            Ask::Finish => 13,
        }
    }
}

#[derive(Clone, Copy, Debug)]
pub struct Step {
    pub worker: u32,
    pub ask: Ask,
}

#[derive(Clone, Copy, Debug)]
pub struct Event {
    pub worker: u32,
    pub session: u32,
    pub ask: Ask,
    pub decision: Decision,
}

#[derive(Clone, Copy, PartialEq, Eq)]
enum Phase {
    Pre,
    Challenged,
    Verified,
    User,
    Over,
}

/// What is known of a worker's open session.
struct Row {
    session: u32,
    phase: Phase,
    asked: u32,
    denied: u32,
    had: u32,
    /// The account of the last challenge; none where it was a decoy's.
    account: Option<u32>,
    /// The grant and the mode of each handle.
    handles: [Option<(u32, u8)>; 8],
}

/// How many asks a session may make, how many denied replies it may have, and how long a hold lasts.
pub struct Limits {
    pub requests: u32,
    pub tries: u32,
    pub hold: u64,
}

pub struct Core {
    ledger: Ledger,
    accounts: HashMap<Name, u32>,
    grants: Vec<Vec<(Label, u8)>>,
    rows: Vec<Option<Row>>,
    limits: Limits,
    begun: u32,
}

const PERMIT: Decision = Decision::Permit { value: 0 };

/// What is added to a decoy's number in the value of a challenge.
pub const DECOYS: u64 = 10_000;

const SALT: [u8; 5] = *b"decoy";

fn deny(rule: u8, detail: u32) -> Decision {
    Decision::Deny { rule, detail }
}

/// Whether a phase permits a kind.
fn permits(phase: Phase, ask: &Ask) -> bool {
    match ask {
        Ask::ReadAt { .. } | Ask::WriteAt { .. } | Ask::Finish => true,
        Ask::Banner => matches!(phase, Phase::Pre | Phase::Challenged),
        Ask::Challenge { .. } => phase == Phase::Pre,
        Ask::Reply { .. } | Ask::Abandon => phase == Phase::Challenged,
        Ask::Export { .. } => phase == Phase::Verified,
        _ => phase == Phase::User,
    }
}

fn is_once(ask: &Ask) -> bool {
    matches!(ask, Ask::Banner | Ask::Export { .. } | Ask::Import)
}

/// The number of a name's decoy: the MD5 of salt and name.
fn decoy(user: &Name) -> u64 {
    let mut words = [0u32; 16];
    let text = [&SALT[..], user.as_bytes()].concat();
    let mut bytes = [0u8; 64];
    bytes[..text.len()].copy_from_slice(&text);
    bytes[text.len()] = 0x80;
    bytes[56..].copy_from_slice(&(8 * text.len() as u64).to_le_bytes());
    for (word, four) in words.iter_mut().zip(bytes.chunks_exact(4)) {
        *word = u32::from_le_bytes(four.try_into().unwrap());
    }
    crate::plain_md5::folded(words) % 65_536 % 1_000
}

impl Core {
    pub fn new(ledger: Ledger, names: &[Name], grants: Vec<Vec<(Label, u8)>>, limits: Limits, workers: usize) -> Core {
        Core {
            ledger,
            accounts: names.iter().copied().zip(0..).collect(),
            grants,
            rows: (0..workers).map(|_| None).collect(),
            limits,
            begun: 0,
        }
    }

    pub fn step(&mut self, step: &Step) -> Event {
        let decision = self.decide(step.worker, &step.ask);
        let session = self.settle(step.worker, &step.ask, decision);
        Event { worker: step.worker, session, ask: step.ask, decision }
    }

    fn decide(&self, worker: u32, ask: &Ask) -> Decision {
        match (&self.rows[worker as usize], ask) {
            (None, Ask::Begin) => Decision::Permit { value: u64::from(self.begun) + 1 },
            (Some(_), Ask::End { .. }) => PERMIT,
            (Some(row), ask) if !matches!(ask, Ask::Begin) => self.decide_in(row, ask),
            _ => deny(6, ask.number()),
        }
    }

    fn decide_in(&self, row: &Row, ask: &Ask) -> Decision {
        if row.phase == Phase::Over {
            return deny(6, ask.number());
        }
        if row.asked == self.limits.requests {
            return deny(1, self.limits.requests);
        }
        if !permits(row.phase, ask) {
            return deny(6, ask.number());
        }
        if is_once(ask) && row.had >> ask.number() & 1 == 1 {
            return deny(7, ask.number());
        }
        match ask {
            Ask::Challenge { user, now } => self.decide_challenge(row, user, *now),
            Ask::Reply { words, hex } => self.decide_reply(row, *words, *hex),
            Ask::Export { .. } => Decision::Permit { value: u64::from(row.account.unwrap_or(0)) },
            Ask::ReadAt { handle, .. } => decide_use(row, *handle, 1),
            Ask::WriteAt { handle, .. } => decide_use(row, *handle, 2),
            Ask::OpenFile { mode, name } => self.decide_open(row, *mode, name),
            Ask::CloseFile { handle } if !is_open(row, *handle) => deny(17, *handle),
            _ => PERMIT,
        }
    }

    fn decide_challenge(&self, row: &Row, user: &Name, now: u64) -> Decision {
        if row.denied >= self.limits.tries {
            return deny(8, self.limits.tries);
        }
        let account = self.accounts.get(user).map(|account| &self.ledger.rows[*account as usize]);
        match account {
            Some(account) if account.sequence > 0 => match account.holder {
                Some(holder) if holder != row.session && now < account.moment + self.limits.hold => deny(12, holder),
                _ => Decision::Permit { value: u64::from(account.sequence) - 1 },
            },
            _ => Decision::Permit { value: DECOYS + decoy(user) },
        }
    }

    fn decide_reply(&self, row: &Row, words: Option<u64>, hex: Option<u64>) -> Decision {
        match row.account {
            Some(account) => self.ledger.judge_reply(account, row.session, words, hex),
            None if words.is_none() && hex.is_none() => deny(14, 0),
            None => deny(16, 0),
        }
    }

    fn decide_open(&self, row: &Row, mode: u8, name: &Label) -> Decision {
        let Some(free) = row.handles.iter().position(|handle| handle.is_none()) else {
            return deny(19, 8);
        };
        let grants = row.account.map_or(&[][..], |account| &self.grants[account as usize]);
        match grants.iter().find(|grant| grant.0 == *name) {
            None => deny(20, 0),
            Some(grant) if grant.1 & mode == mode => Decision::Permit { value: free as u64 + 1 },
            Some(_) => deny(21, u32::from(mode)),
        }
    }

    /// What an event makes of the accounts and of its worker's row; gives its session.
    fn settle(&mut self, worker: u32, ask: &Ask, decision: Decision) -> u32 {
        let place = worker as usize;
        match (ask, decision) {
            (Ask::Begin, Decision::Permit { .. }) => return self.open(place),
            (Ask::End { .. }, Decision::Permit { .. }) => return self.end(place),
            _ => {}
        }
        let Some(row) = &mut self.rows[place] else {
            return 0;
        };
        row.asked += u32::from(!matches!(ask, Ask::Begin | Ask::End { .. }));
        match decision {
            Decision::Permit { value } => settle_permit(&mut self.ledger, &self.accounts, row, ask, value),
            Decision::Deny { rule, .. } => settle_denial(&mut self.ledger, row, ask, rule),
        }
        row.session
    }

    fn open(&mut self, place: usize) -> u32 {
        self.begun += 1;
        let session = self.begun;
        let handles = [None; 8];
        self.rows[place] = Some(Row { session, phase: Phase::Pre, asked: 0, denied: 0, had: 0, account: None, handles });
        session
    }

    fn end(&mut self, place: usize) -> u32 {
        let Some(row) = self.rows[place].take() else {
            return 0;
        };
        release(&mut self.ledger, row.account, row.session);
        row.session
    }
}

/// The session no longer holds the account, where it did.
fn release(ledger: &mut Ledger, account: Option<u32>, session: u32) {
    if let Some(account) = account {
        let row = &mut ledger.rows[account as usize];
        if row.holder == Some(session) {
            row.holder = None;
        }
    }
}

fn settle_permit(ledger: &mut Ledger, accounts: &HashMap<Name, u32>, row: &mut Row, ask: &Ask, value: u64) {
    row.had |= 1 << ask.number();
    match ask {
        Ask::Challenge { user, now } => {
            row.phase = Phase::Challenged;
            row.account = if value < DECOYS { accounts.get(user).copied() } else { None };
            if let Some(account) = row.account {
                ledger.hold(account, row.session, *now);
            }
        }
        Ask::Reply { .. } => {
            row.phase = Phase::Verified;
            if let Some(account) = row.account {
                ledger.spend(account, value);
                release(ledger, row.account, row.session);
            }
        }
        Ask::Abandon => {
            row.phase = Phase::Pre;
            release(ledger, row.account, row.session);
        }
        Ask::Export { .. } => row.phase = Phase::User,
        Ask::OpenFile { mode, .. } => row.handles[value as usize - 1] = Some((0, *mode)),
        Ask::CloseFile { handle } => row.handles[*handle as usize - 1] = None,
        Ask::Finish => {
            row.phase = Phase::Over;
            release(ledger, row.account, row.session);
        }
        _ => {}
    }
}

fn settle_denial(ledger: &mut Ledger, row: &mut Row, ask: &Ask, rule: u8) {
    if matches!(ask, Ask::Reply { .. }) {
        row.denied += 1;
        row.phase = Phase::Pre;
        release(ledger, row.account, row.session);
    }
    if rule <= 7 {
        row.phase = Phase::Over;
        release(ledger, row.account, row.session);
    }
}

fn is_open(row: &Row, handle: u32) -> bool {
    (1..=8).contains(&handle) && row.handles[handle as usize - 1].is_some()
}

fn decide_use(row: &Row, handle: u32, needed: u8) -> Decision {
    if handle == 0 {
        return PERMIT;
    }
    match row.handles.get(handle as usize - 1).copied().flatten() {
        None => deny(17, handle),
        Some((_, mode)) if mode & needed == needed => PERMIT,
        Some(_) => deny(18, handle),
    }
}
