// The ledger as one would write it in plain Rust: a row an account, and an ordered set of the accepted passwords.
use std::collections::BTreeSet;

/// An algorithm's hash step: the password that follows from a password.
pub type HashStep = fn(u64) -> u64;

#[derive(Clone, Copy, Debug, PartialEq, Eq)]
pub enum Decision {
    Permit { value: u64 },
    Deny { rule: u8, detail: u32 },
}

impl Decision {
    /// The decision as one number.
    pub fn number(self) -> u64 {
        match self {
            Decision::Permit { value } => value,
            Decision::Deny { rule, detail } => u64::from(rule) << 32 | u64::from(detail),
        }
    }
}

pub struct Row {
    pub step: HashStep,
    pub sequence: u16,
    pub password: u64,
    pub taker: u32,
    pub moment: u64,
    pub holder: Option<u32>,
}

pub struct Ledger {
    pub rows: Vec<Row>,
    pub kept: BTreeSet<(u32, u64)>,
    pub spent: u32,
    pub cap: u32,
}

impl Ledger {
    /// Accounts by their hash steps, sequences and stored passwords; `cap` passwords more may be accepted.
    pub fn new(accounts: &[(HashStep, u16, u64)], cap: u32) -> Ledger {
        let row_of = |&(step, sequence, password): &(HashStep, u16, u64)| Row {
            step,
            sequence,
            password,
            taker: 0,
            moment: 0,
            holder: None,
        };
        Ledger {
            rows: accounts.iter().map(row_of).collect(),
            kept: (0..).zip(accounts.iter().map(|account| account.2)).collect(),
            spent: 0,
            cap,
        }
    }

    pub fn is_full(&self) -> bool {
        self.spent >= self.cap
    }

    fn was_accepted(&self, account: u32, password: u64) -> bool {
        self.kept.contains(&(account, password))
    }

    /// Rules 13 to 16: the hold is lost, there is no reading, the password was used, and it doesn't match.
    pub fn judge_reply(&self, account: u32, session: u32, words: Option<u64>, hex: Option<u64>) -> Decision {
        let row = &self.rows[account as usize];
        if row.holder != Some(session) {
            return Decision::Deny { rule: 13, detail: row.taker };
        }
        if words.is_none() && hex.is_none() {
            return Decision::Deny { rule: 14, detail: 0 };
        }
        let readings = || [words, hex].into_iter().flatten();
        for password in readings() {
            if (row.step)(password) == row.password && !self.was_accepted(account, password) {
                return Decision::Permit { value: password };
            }
        }
        let was_used = readings().any(|password| self.was_accepted(account, password));
        Decision::Deny { rule: if was_used { 15 } else { 16 }, detail: 0 }
    }

    pub fn hold(&mut self, account: u32, session: u32, now: u64) {
        let row = &mut self.rows[account as usize];
        row.taker = session;
        row.moment = now;
        row.holder = Some(session);
    }

    pub fn spend(&mut self, account: u32, password: u64) {
        self.kept.insert((account, password));
        let row = &mut self.rows[account as usize];
        row.sequence -= 1;
        row.password = password;
        self.spent += 1;
    }
}
