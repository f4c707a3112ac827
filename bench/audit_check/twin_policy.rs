// The policy over the lines of a log so far.
use crate::twin_line::{Ask, Decision, Line};
use crate::twin_setup::{Account, Algo, Setup};
use crate::{plain_md5, plain_sha1};
use std::collections::{HashMap, HashSet};

/// The value of a permitted CHALLENGE is below this, unless it names a decoy.
const DECOYS_FROM: u64 = 10_000;

/// A session has so many files open at most.
const HANDLES: usize = 8;

const PERMIT: Decision = Decision::Permit { value: 0 };

fn deny(rule: u8, detail: u32) -> Decision {
    Decision::Deny { rule, detail }
}

#[derive(Clone, Copy, PartialEq, Eq)]
enum Phase {
    Over,
    Pre,
    Challenged,
    Verified,
    User,
}

/// Of a permitted CHALLENGE.
#[derive(Clone, Copy)]
struct Taking {
    /// The user's place, where there is such an account.
    user: Option<usize>,
    value: u64,
}

impl Taking {
    fn is_decoy(&self) -> bool {
        self.value >= DECOYS_FROM
    }
}

#[derive(Default)]
struct Session {
    asked: u32,
    denied: u32,
    is_over: bool,
    has_banner: bool,
    has_export: bool,
    has_import: bool,
    /// The last one, which stays when the session has given its user up.
    taking: Option<Taking>,
    is_taken: bool,
    verified: Option<usize>,
    /// The modes of the open files.
    handles: [Option<u8>; HANDLES],
}

impl Session {
    fn phase(&self) -> Phase {
        if self.is_over {
            Phase::Over
        } else if self.has_export {
            Phase::User
        } else if self.verified.is_some() {
            Phase::Verified
        } else if self.is_taken {
            Phase::Challenged
        } else {
            Phase::Pre
        }
    }

    /// Rules 6 and 7.
    fn judge_phase(&self, ask: &Ask) -> Option<Decision> {
        let phase = self.phase();
        let (is_permitted, had) = match ask {
            Ask::Read { .. } | Ask::Write { .. } | Ask::Note | Ask::Finish => (phase != Phase::Over, false),
            Ask::Banner => (matches!(phase, Phase::Pre | Phase::Challenged), self.has_banner),
            Ask::Challenge { .. } => (phase == Phase::Pre, false),
            Ask::Reply | Ask::Abandon => (phase == Phase::Challenged, false),
            Ask::Export => (phase == Phase::Verified, self.has_export),
            Ask::Import => (phase == Phase::User, self.has_import),
            _ => (phase == Phase::User, false),
        };
        if !is_permitted {
            Some(deny(6, number_of(ask)))
        } else if had {
            Some(deny(7, number_of(ask)))
        } else {
            None
        }
    }

    fn mode_of(&self, handle: u32) -> Option<u8> {
        let place = (handle as usize).checked_sub(1)?;
        *self.handles.get(place)?
    }

    fn judge_use(&self, handle: u32, needed: u8) -> Decision {
        if handle == 0 {
            return PERMIT;
        }
        match self.mode_of(handle) {
            None => deny(17, handle),
            Some(mode) if mode & needed == needed => PERMIT,
            Some(_) => deny(18, handle),
        }
    }

    fn judge_close(&self, handle: u32) -> Decision {
        if self.mode_of(handle).is_some() { PERMIT } else { deny(17, handle) }
    }

    /// Opens or closes a file.
    fn set_handle(&mut self, handle: u64, mode: Option<u8>) {
        self.handles[handle as usize - 1] = mode;
    }
}

fn number_of(ask: &Ask) -> u32 {
    match ask {
        Ask::Open | Ask::Bad { .. } | Ask::End => 0,
        Ask::Banner => 1,
        Ask::Challenge { .. } => 2,
        Ask::Reply => 3,
        Ask::Abandon => 4,
        Ask::Export => 5,
        Ask::Import => 6,
        Ask::Read { .. } => 7,
        Ask::Write { .. } => 8,
        Ask::Grant { .. } => 9,
        Ask::Close { .. } => 10,
        Ask::Info { .. } => 11,
        Ask::Note => 12,
        Ask::Finish => 13,
    }
}

struct User {
    account: Account,
    /// The password that was accepted last.
    current: u64,
    accepted: HashSet<u64>,
    /// The session that took the user last, or 0, and its moment.
    taker: u32,
    moment: u64,
}

impl User {
    fn new(account: Account) -> User {
        let current = account.password;
        User { account, current, accepted: HashSet::from([current]), taker: 0, moment: 0 }
    }

    fn sequence(&self) -> u64 {
        (self.account.sequence + 1).saturating_sub(self.accepted.len() as u64)
    }

    fn is_live(&self) -> bool {
        self.account.enabled && self.sequence() > 0
    }

    fn is_next(&self, password: u64) -> bool {
        let behind = match self.account.algo {
            Algo::Md5 => plain_md5::step(password),
            Algo::Sha1 => plain_sha1::step(password),
        };
        behind == self.current && !self.accepted.contains(&password)
    }
}

pub struct Policy {
    setup: Setup,
    users: Vec<User>,
    places: HashMap<String, usize>,
    openings: u32,
    /// The open session of each worker, or 0.
    open: Vec<u32>,
    /// The open sessions.
    sessions: HashMap<u32, Session>,
}

impl Policy {
    pub fn new(mut setup: Setup) -> Policy {
        let users: Vec<User> = std::mem::take(&mut setup.accounts).into_iter().map(User::new).collect();
        let places = users.iter().enumerate().map(|(place, user)| (user.account.name.clone(), place)).collect();
        let open = vec![0; setup.workers as usize];
        Policy { setup, users, places, openings: 0, open, sessions: HashMap::new() }
    }

    /// A line more: whether it may stand after those so far. If it may, its event is kept.
    pub fn take(&mut self, line: &Line) -> bool {
        let Some(&open) = self.open.get(line.worker as usize) else {
            return false;
        };
        let is_opening = line.ask == Ask::Open && matches!(line.decision, Decision::Permit { .. });
        let session = if is_opening { self.openings + 1 } else { open };
        if line.session != session || !self.may_be(line, open) {
            return false;
        }
        self.settle(line);
        true
    }

    /// Whether the decision of a line may be. Of a reply the log shows no readings, so where they decide each
    /// decision may stand that some readings lead to.
    fn may_be(&self, line: &Line, open: u32) -> bool {
        let decision = self.judge(open, &line.ask);
        if line.ask != Ask::Reply || decision != deny(14, 0) {
            return line.decision == decision;
        }
        let taking = self.sessions.get(&open).and_then(|session| session.taking);
        let is_decoy = taking.is_some_and(|taking| taking.is_decoy());
        match line.decision {
            Decision::Permit { value } => !is_decoy && self.is_next(taking, value),
            Decision::Deny { rule, detail } => detail == 0 && (rule == 14 || rule == 16 || rule == 15 && !is_decoy),
        }
    }

    fn is_next(&self, taking: Option<Taking>, password: u64) -> bool {
        let user = taking.and_then(|taking| taking.user);
        user.is_some_and(|place| self.users[place].is_next(password))
    }

    /// The first rule that applies, or a permit. A reply has no readings.
    fn judge(&self, open: u32, ask: &Ask) -> Decision {
        match ask {
            Ask::Open if open == 0 => return Decision::Permit { value: u64::from(self.openings) + 1 },
            Ask::End if open != 0 => return PERMIT,
            Ask::Open | Ask::End => return deny(6, 0),
            _ => {}
        }
        let Some(session) = self.sessions.get(&open).filter(|session| !session.is_over) else {
            return deny(6, number_of(ask));
        };
        if session.asked == self.setup.requests {
            return deny(1, self.setup.requests);
        }
        if let Ask::Bad { rule, detail } = *ask {
            return deny(rule, detail);
        }
        session.judge_phase(ask).unwrap_or_else(|| self.judge_kind(open, session, ask))
    }

    fn judge_kind(&self, open: u32, session: &Session, ask: &Ask) -> Decision {
        match *ask {
            Ask::Challenge { user, now } => self.judge_challenge(open, session, user, now),
            Ask::Reply => self.judge_reply(open, session),
            Ask::Export => Decision::Permit { value: session.verified.unwrap_or(0) as u64 },
            Ask::Read { handle } => session.judge_use(handle, 1),
            Ask::Write { handle } => session.judge_use(handle, 2),
            Ask::Grant { mode, name } => self.judge_grant(session, mode, name),
            Ask::Close { handle } => session.judge_close(handle),
            Ask::Info { number } => self.judge_info(session, number),
            _ => PERMIT,
        }
    }

    fn judge_challenge(&self, open: u32, session: &Session, name: &str, now: u64) -> Decision {
        if session.denied >= self.setup.tries {
            return deny(8, self.setup.tries);
        }
        let user = self.places.get(name).map(|place| &self.users[*place]).filter(|user| user.is_live());
        let Some(user) = user else {
            return Decision::Permit { value: DECOYS_FROM + self.decoy(name) };
        };
        let is_held = user.taker != open && self.is_held(user);
        if is_held && now < user.moment.saturating_add(self.setup.hold) {
            deny(12, user.taker)
        } else {
            Decision::Permit { value: user.sequence() - 1 }
        }
    }

    /// Whether the session that took a user last still holds the user.
    fn is_held(&self, user: &User) -> bool {
        let Some(session) = self.sessions.get(&user.taker) else {
            return false;
        };
        let is_of = |taking: &Taking| {
            let place = taking.user.filter(|_| !taking.is_decoy());
            place.is_some_and(|place| self.users[place].account.name == user.account.name)
        };
        !session.is_over && session.is_taken && session.taking.as_ref().is_some_and(is_of)
    }

    /// The number of a name's decoy: of the MD5 of the salt and the name, folded.
    fn decoy(&self, name: &str) -> u64 {
        let message = [self.setup.salt.as_bytes(), name.as_bytes()].concat();
        let mut block = [0; 64];
        block[..message.len()].copy_from_slice(&message);
        block[message.len()] = 0x80;
        block[56..].copy_from_slice(&(8 * message.len() as u64).to_le_bytes());
        let word = |place: usize| u32::from_le_bytes(block[4 * place..4 * place + 4].try_into().expect("four bytes"));
        plain_md5::folded(std::array::from_fn(word)) % 65_536 % 1_000
    }

    fn judge_reply(&self, open: u32, session: &Session) -> Decision {
        match session.taking {
            Some(taking) if taking.is_decoy() => deny(14, 0),
            Some(Taking { user: Some(place), .. }) => {
                let user = &self.users[place];
                if user.taker == open && self.is_held(user) { deny(14, 0) } else { deny(13, user.taker) }
            }
            _ => deny(13, 0),
        }
    }

    fn judge_grant(&self, session: &Session, mode: u8, name: &str) -> Decision {
        let Some(free) = session.handles.iter().position(Option::is_none) else {
            return deny(19, HANDLES as u32);
        };
        let grants = session.verified.map_or(&[][..], |place| &self.users[place].account.grants);
        match grants.iter().find(|grant| grant.name == name) {
            None => deny(20, 0),
            Some(grant) if grant.mode & mode == mode => Decision::Permit { value: free as u64 + 1 },
            Some(_) => deny(21, u32::from(mode)),
        }
    }

    fn judge_info(&self, session: &Session, number: u32) -> Decision {
        if !self.setup.info.contains(&number) {
            return deny(22, number);
        }
        Decision::Permit { value: session.verified.map_or(0, |place| self.users[place].sequence()) }
    }

    /// Keeps what the event of a line says.
    fn settle(&mut self, line: &Line) {
        let open = &mut self.open[line.worker as usize];
        match (line.ask, line.decision) {
            (Ask::Open, Decision::Permit { .. }) => {
                self.openings += 1;
                *open = self.openings;
                self.sessions.insert(self.openings, Session::default());
            }
            (Ask::End, Decision::Permit { .. }) => {
                self.sessions.remove(open);
                *open = 0;
            }
            (Ask::End, _) => {}
            _ => self.settle_request(line),
        }
    }

    fn settle_request(&mut self, line: &Line) {
        let Some(session) = self.sessions.get_mut(&line.session) else {
            return;
        };
        session.asked += u32::from(line.ask != Ask::Open);
        if line.ask == Ask::Reply {
            session.is_taken = false;
        }
        match line.decision {
            Decision::Deny { rule, .. } => {
                session.is_over |= rule <= 7;
                session.denied += u32::from(line.ask == Ask::Reply && (13..=16).contains(&rule));
            }
            Decision::Permit { value } => self.settle_permit(line, value),
        }
    }

    fn settle_permit(&mut self, line: &Line, value: u64) {
        let Some(session) = self.sessions.get_mut(&line.session) else {
            return;
        };
        match line.ask {
            Ask::Banner => session.has_banner = true,
            Ask::Challenge { user, now } => {
                let taking = Taking { user: self.places.get(user).copied(), value };
                session.taking = Some(taking);
                session.is_taken = true;
                if let Some(place) = taking.user.filter(|_| !taking.is_decoy()) {
                    self.users[place].taker = line.session;
                    self.users[place].moment = now;
                }
            }
            Ask::Reply => {
                if let Some(place) = session.taking.and_then(|taking| taking.user) {
                    session.verified = Some(place);
                    self.users[place].accepted.insert(value);
                    self.users[place].current = value;
                }
            }
            Ask::Abandon => session.is_taken = false,
            Ask::Export => session.has_export = true,
            Ask::Import => session.has_import = true,
            Ask::Grant { mode, .. } => session.set_handle(value, Some(mode)),
            Ask::Close { handle } => session.set_handle(u64::from(handle), None),
            Ask::Finish => session.is_over = true,
            _ => {}
        }
    }
}
