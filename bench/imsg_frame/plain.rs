// The same work as main.rt.txt, with a plain buffer in Rust.
use std::env;
use std::hint::black_box;
use std::time::Instant;

const HEADER_LEN: usize = 16;
const ROUND_LEN: usize = 196_608;

#[derive(Clone, Copy, PartialEq)]
enum Width {
    Narrow,
    Wide,
}

#[allow(dead_code)]
struct Header {
    kind: u32,
    len: u32,
    flags: u16,
    peerid: u32,
    pid: u32,
}

struct Frame<'a> {
    header: Header,
    body: &'a [u8],
}

enum Next<'a> {
    Frame(Frame<'a>),
    NotYet,
    Bad { len: u16 },
}

struct Reader {
    width: Width,
    max: usize,
    bytes: Vec<u8>,
    start: usize,
    end: usize,
}

fn u32_at(bytes: &[u8], at: usize) -> u32 {
    u32::from_le_bytes(bytes[at..at + 4].try_into().unwrap())
}

impl Reader {
    fn new(width: Width, max: usize) -> Reader {
        Reader { width, max, bytes: vec![0; 2 * max], start: 0, end: 0 }
    }

    fn feed(&mut self, piece: &[u8]) -> usize {
        let taken = piece.len().min(self.max - (self.end - self.start));
        if self.bytes.len() - self.end < taken {
            self.bytes.copy_within(self.start..self.end, 0);
            self.end -= self.start;
            self.start = 0;
        }
        let end = self.end + taken;
        self.bytes[self.end..end].copy_from_slice(&piece[..taken]);
        self.end = end;
        taken
    }

    fn next(&mut self) -> Next<'_> {
        let held = &self.bytes[self.start..self.end];
        if held.len() < HEADER_LEN {
            return Next::NotYet;
        }
        let number = u32_at(held, 4);
        let (len, flags) = match self.width {
            Width::Narrow => (number & 0xffff, (number >> 16) as u16),
            Width::Wide => (number & 0x7fff_ffff, (number >> 31) as u16),
        };
        let header = Header {
            kind: u32_at(held, 0),
            len,
            flags,
            peerid: u32_at(held, 8),
            pid: u32_at(held, 12),
        };
        let len = len as usize;
        if len < HEADER_LEN || len > self.max {
            return Next::Bad { len: len.min(65_535) as u16 };
        }
        if held.len() < len {
            return Next::NotYet;
        }
        let body = self.start + HEADER_LEN;
        self.start += len;
        Next::Frame(Frame { header, body: &self.bytes[body..self.start] })
    }
}

fn round_of(frame_len: usize) -> Vec<u8> {
    let mut stream = Vec::new();
    while stream.len() < ROUND_LEN {
        for number in [8, frame_len as u32, 9, 10] {
            stream.extend_from_slice(&number.to_le_bytes());
        }
        stream.extend_from_slice(&vec![7; frame_len - HEADER_LEN]);
    }
    stream
}

#[inline(never)]
fn read_all(reader: &mut Reader, stream: &[u8], piece_len: usize, rounds: u64) -> (u64, u64) {
    let mut frames = 0u64;
    let mut sum = 0u64;
    for _ in 0..rounds {
        for piece in stream.chunks(piece_len) {
            let mut rest = piece;
            while !rest.is_empty() {
                let taken = reader.feed(rest);
                rest = &rest[taken..];
                loop {
                    match reader.next() {
                        Next::Frame(frame) => {
                            let last = frame.body.last().copied().unwrap_or(0);
                            frames = frames.wrapping_add(1);
                            sum = sum.wrapping_add(frame.header.kind as u64 + last as u64);
                        }
                        Next::NotYet => break,
                        Next::Bad { len } => {
                            black_box(len);
                            break;
                        }
                    }
                }
            }
        }
    }
    (frames, sum)
}

fn main() {
    let words: Vec<String> = env::args().collect();
    let number_of = |i: usize| words[i].parse::<usize>().unwrap();
    let (width, max) = match words[1].as_str() {
        "wide" => (Width::Wide, 65_536),
        _ => (Width::Narrow, 16_384),
    };
    let stream = round_of(number_of(2));
    let mut reader = Reader::new(width, max);
    let start = Instant::now();
    let (frames, sum) = read_all(&mut reader, black_box(&stream), number_of(3), number_of(4) as u64);
    let nanos = start.elapsed().as_nanos();
    println!("{frames} {nanos} {sum}");
}
