// The algorithms and the chains of passwords of RFC 2289.
use crate::plain_ledger::HashStep;
use crate::{plain_md5, plain_sha1};

#[derive(Clone, Copy)]
pub enum Algo {
    Md5,
    Sha1,
}

impl Algo {
    pub fn hash_step(self) -> HashStep {
        match self {
            Algo::Md5 => plain_md5::step,
            Algo::Sha1 => plain_sha1::step,
        }
    }

    pub fn word(self) -> &'static str {
        match self {
            Algo::Md5 => "md5",
            Algo::Sha1 => "sha1",
        }
    }
}

/// The passwords of a seed and a phrase, which have 55 bytes together at most, at 0 to a count.
pub fn chain(algo: Algo, seed: &str, phrase: &str, count: u32) -> Vec<u64> {
    let message = [seed.as_bytes(), phrase.as_bytes()].concat();
    let bits = 8 * message.len() as u32;
    let mut block = [message, vec![0x80]].concat();
    block.resize(64, 0);
    let word_at = |place: usize| -> [u8; 4] { block[4 * place..4 * place + 4].try_into().unwrap() };
    let first = match algo {
        Algo::Md5 => {
            let mut words: [u32; 16] = std::array::from_fn(|place| u32::from_le_bytes(word_at(place)));
            words[14] = bits;
            plain_md5::folded(words)
        }
        Algo::Sha1 => {
            let mut words: [u32; 16] = std::array::from_fn(|place| u32::from_be_bytes(word_at(place)));
            words[15] = bits;
            plain_sha1::folded(words)
        }
    };
    let step = algo.hash_step();
    std::iter::successors(Some(first), |password| Some(step(*password))).take(count as usize + 1).collect()
}
