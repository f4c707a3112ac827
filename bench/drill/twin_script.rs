// The frames of requests, and what the children of a drill send.
use crate::plain_core::{Ask, Label, Name};

pub struct Script {
    pub pre: Vec<u8>,
    pub user: Vec<u8>,
}

/// The least state that a child leaves to its successor.
const LEAST_RECORD: &[u8] = b"OTS1\x01\0\0\x02\0\0\x03\x08\0\0\0\0\0\0\0\0\0";

pub fn push_frame(out: &mut Vec<u8>, kind: u32, process: u32, body: &[u8]) {
    out.extend_from_slice(&kind.to_le_bytes());
    out.extend_from_slice(&(body.len() as u16 + 16).to_le_bytes());
    out.extend_from_slice(&[0; 6]);
    out.extend_from_slice(&process.to_le_bytes());
    out.extend_from_slice(body);
}

/// The kind and the body of the first frame, and what stands after it.
pub fn frame_at(bytes: &[u8]) -> Option<(u32, &[u8], &[u8])> {
    let header = bytes.get(..16)?;
    let kind = u32::from_le_bytes(header[..4].try_into().unwrap());
    let len = u16::from_le_bytes(header[4..6].try_into().unwrap()) as usize;
    let body = bytes.get(16..len)?;
    Some((kind, body, &bytes[len..]))
}

fn number_at(body: &[u8], at: usize) -> u32 {
    u32::from_le_bytes(body[at..at + 4].try_into().unwrap())
}

/// The offset of a READ or a WRITE, which stands after the handle.
fn offset_of(body: &[u8]) -> u64 {
    u64::from_le_bytes(body[4..12].try_into().unwrap())
}

fn text_of(body: &[u8]) -> &str {
    std::str::from_utf8(body).expect("a text")
}

pub fn request_of(kind: u32, body: &[u8]) -> Ask {
    match kind {
        1 => Ask::Banner,
        2 => Ask::Challenge { user: Name::of(text_of(body)), now: 1_000 },
        3 => Ask::Reply { words: None, hex: u64::from_str_radix(text_of(body), 16).ok() },
        4 => Ask::Abandon,
        5 => Ask::Export { len: body.len() as u16 },
        6 => Ask::Import,
        7 => Ask::ReadAt {
            handle: number_at(body, 0),
            offset: offset_of(body),
            max: u16::from_le_bytes([body[12], body[13]]),
        },
        8 => Ask::WriteAt { handle: number_at(body, 0), offset: offset_of(body), len: body.len() as u16 - 12 },
        9 => Ask::OpenFile { mode: body[0], name: Label::of(text_of(&body[1..])) },
        10 => Ask::CloseFile { handle: number_at(body, 0) },
        13 => Ask::Finish,
        _ => panic!("no request of a drill"),
    }
}

#[derive(Clone, Copy, PartialEq)]
pub enum Class {
    LogsIn,
    Repeats,
    Exports,
    BreaksOff,
}

impl Class {
    fn of(n: u32, worker: u32, session: u32) -> Class {
        [Class::LogsIn, Class::Repeats, Class::Exports, Class::BreaksOff][((n + worker + session) % 4) as usize]
    }

    /// What the children of a worker's sessions send.
    pub fn plan(n: u32, worker: u32, chain: &[u64]) -> Vec<Script> {
        let mut next = 8 * n as usize;
        let mut plan = Vec::new();
        for session in 0..8 * n {
            let class = Class::of(n, worker, session);
            plan.push(class.script(worker, chain[next], chain[next - 1]));
            if class == Class::LogsIn {
                next -= 1;
            }
        }
        plan
    }

    fn script(self, worker: u32, current: u64, right: u64) -> Script {
        let mut pre = Vec::new();
        let mut user = Vec::new();
        let name = format!("d{worker}");
        let mut ask = |kind: u32, body: &[u8]| push_frame(&mut pre, kind, 0, body);
        match self {
            Class::LogsIn => {
                ask(1, b"");
                ask(2, name.as_bytes());
                ask(3, format!("{right:016x}").as_bytes());
                ask(5, LEAST_RECORD);
                let place = [&1_u32.to_le_bytes()[..], &[0; 8]].concat();
                push_frame(&mut user, 6, 0, b"");
                push_frame(&mut user, 9, 0, b"\x03notes");
                push_frame(&mut user, 8, 0, &[&place[..], b"drill"].concat());
                push_frame(&mut user, 7, 0, &[&place[..], &16_u16.to_le_bytes()].concat());
                push_frame(&mut user, 10, 0, &1_u32.to_le_bytes());
                push_frame(&mut user, 13, 0, b"");
            }
            Class::Repeats => {
                ask(2, name.as_bytes());
                ask(3, format!("{current:016x}").as_bytes());
                ask(13, b"");
            }
            Class::Exports => ask(5, LEAST_RECORD),
            Class::BreaksOff => {
                ask(2, name.as_bytes());
                ask(4, b"");
                ask(2, b"nobody");
                pre.extend_from_slice(&[13, 0, 0, 0, 16, 0, 0]);
            }
        }
        Script { pre, user }
    }
}
