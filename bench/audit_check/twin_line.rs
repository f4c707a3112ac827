// A line of a log: `NUMBER wWORKER sSESSION ASK DECISION` and a newline.
use std::str::FromStr;

#[derive(Clone, Copy, Debug, PartialEq, Eq)]
pub enum Ask<'a> {
    Open,
    Banner,
    Challenge { user: &'a str, now: u64 },
    Reply,
    Abandon,
    Export,
    Import,
    Read { handle: u32 },
    Write { handle: u32 },
    /// The name is in hexadecimal.
    Grant { mode: u8, name: &'a str },
    Close { handle: u32 },
    Info { number: u32 },
    Note,
    Finish,
    Bad { rule: u8, detail: u32 },
    End,
}

#[derive(Clone, Copy, Debug, PartialEq, Eq)]
pub enum Decision {
    Permit { value: u64 },
    Deny { rule: u8, detail: u32 },
}

#[derive(Clone, Copy, Debug)]
pub struct Line<'a> {
    pub number: u32,
    pub worker: u32,
    pub session: u32,
    pub ask: Ask<'a>,
    pub decision: Decision,
}

/// The words of a line that are still to be read.
struct Words<'a>(std::str::Split<'a, char>);

impl<'a> Words<'a> {
    fn next(&mut self) -> Option<&'a str> {
        self.0.next()
    }

    fn number<T: FromStr>(&mut self) -> Option<T> {
        number(self.next()?)
    }

    /// A number within a range.
    fn within<T: FromStr + PartialOrd>(&mut self, least: T, most: T) -> Option<T> {
        self.number().filter(|number| (least..=most).contains(number))
    }

    /// A number after a letter.
    fn lettered(&mut self, letter: char) -> Option<u32> {
        number(self.next()?.strip_prefix(letter)?)
    }
}

/// A number without a sign and without zeros in front of it.
fn number<T: FromStr>(word: &str) -> Option<T> {
    let is_plain = word == "0" || word.starts_with(|first| ('1'..='9').contains(&first));
    if is_plain { word.parse().ok() } else { None }
}

fn is_name(word: &str) -> bool {
    let is_in = |byte: u8| matches!(byte, b'a'..=b'z' | b'_' | b'0'..=b'9' | b'-');
    word.len() <= 32 && word.starts_with(|first| matches!(first, 'a'..='z' | '_')) && word.bytes().all(is_in)
}

fn digit(byte: u8) -> Option<u8> {
    match byte {
        b'0'..=b'9' => Some(byte - b'0'),
        b'a'..=b'f' => Some(byte - b'a' + 10),
        _ => None,
    }
}

/// Whether a word is 1 to 64 bytes in hexadecimal that pass a test, which has their places too.
fn is_hex(word: &str, passes: impl Fn(usize, u8) -> bool) -> bool {
    let byte_of = |pair: &[u8]| Some(digit(pair[0])? << 4 | digit(pair[1])?);
    let mut bytes = word.as_bytes().chunks_exact(2).map(byte_of).enumerate();
    (2..=128).contains(&word.len())
        && word.len() % 2 == 0
        && bytes.all(|(place, byte)| byte.is_some_and(|byte| passes(place, byte)))
}

fn is_label(word: &str) -> bool {
    is_hex(word, |place, byte| match byte {
        b'a'..=b'z' => true,
        b'0'..=b'9' | b'.' | b'_' | b'-' => place > 0,
        _ => false,
    })
}

fn is_note(word: &str) -> bool {
    is_hex(word, |_, byte| (b' '..=b'~').contains(&byte))
}

fn end<'a>(words: &mut Words<'a>) -> Option<Ask<'a>> {
    match words.next()? {
        "finished" | "child-ended" | "truncated" | "link-fault" | "keeper-fault" | "log-lost" => {}
        "bad-frame" => {
            words.number::<u16>()?;
        }
        "violation" => {
            words.within(1u8, 7)?;
        }
        _ => return None,
    }
    Some(Ask::End)
}

/// What stands after the handle of a read or a write.
fn place_and_len(words: &mut Words) -> Option<(u64, u16)> {
    Some((words.number()?, words.number()?))
}

fn ask<'a>(words: &mut Words<'a>) -> Option<Ask<'a>> {
    let ask = match words.next()? {
        "open" => Ask::Open,
        "banner" => Ask::Banner,
        "challenge" => Ask::Challenge { user: words.next().filter(|word| is_name(word))?, now: words.number()? },
        "reply" => Ask::Reply,
        "abandon" => Ask::Abandon,
        "export" => words.number::<u16>().map(|_| Ask::Export)?,
        "import" => Ask::Import,
        "read" => {
            let handle = words.number()?;
            place_and_len(words).map(|_| Ask::Read { handle })?
        }
        "write" => {
            let handle = words.number()?;
            place_and_len(words).map(|_| Ask::Write { handle })?
        }
        "grant" => Ask::Grant { mode: words.number()?, name: words.next().filter(|word| is_label(word))? },
        "close" => Ask::Close { handle: words.number()? },
        "info" => Ask::Info { number: words.number()? },
        "note" => words.next().filter(|word| is_note(word)).map(|_| Ask::Note)?,
        "finish" => Ask::Finish,
        "bad" => Ask::Bad { rule: words.within(2, 5)?, detail: words.number()? },
        "end" => end(words)?,
        _ => return None,
    };
    Some(ask)
}

/// A password of sixteen digits.
fn password(word: &str) -> Option<u64> {
    let is_plain = word.len() == 16 && word.bytes().all(|byte| digit(byte).is_some());
    if is_plain { u64::from_str_radix(word, 16).ok() } else { None }
}

fn permit(words: &mut Words, session: u32, ask: &Ask) -> Option<Decision> {
    let value = match ask {
        Ask::Open => u64::from(session),
        Ask::Reply => password(words.next()?)?,
        Ask::Challenge { .. } | Ask::Export | Ask::Grant { .. } | Ask::Info { .. } => words.number()?,
        _ => 0,
    };
    Some(Decision::Permit { value })
}

fn decision(words: &mut Words, session: u32, ask: &Ask) -> Option<Decision> {
    match words.next()? {
        "permit" => permit(words, session, ask),
        "deny" => Some(Decision::Deny { rule: words.within(1, 22)?, detail: words.number()? }),
        _ => None,
    }
}

/// Reads a line with its newline.
pub fn read(line: &[u8]) -> Option<Line<'_>> {
    let text = std::str::from_utf8(line.strip_suffix(b"\n")?).ok()?;
    let mut words = Words(text.split(' '));
    let number = words.number()?;
    let worker = words.lettered('w')?;
    let session = words.lettered('s')?;
    let ask = ask(&mut words)?;
    let decision = decision(&mut words, session, &ask)?;
    if words.next().is_some() {
        return None;
    }
    Some(Line { number, worker, session, ask, decision })
}
