// The same work as main.rt.txt, with Rust's Mutex around the same object.
use std::sync::Mutex;
use std::time::Instant;

#[allow(dead_code)]
#[derive(Clone, Copy)]
struct Added {
    owner: u32,
    call: u8,
    total: u64,
}

struct Tally {
    total: u64,
    log: Vec<Added>,
}

impl Tally {
    fn new(threads: u32, calls: u32) -> Tally {
        Tally { total: 0, log: Vec::with_capacity(threads as usize * calls as usize) }
    }

    fn apply(&mut self, who: u32, call: u8) -> Added {
        let added = Added { owner: who, call, total: self.total + u64::from(call) };
        self.log.push(added);
        self.total = added.total;
        added
    }
}

fn call_all(tally: Tally, threads: u32, call: u8, calls: u32) -> Tally {
    let shared = Mutex::new(tally);
    std::thread::scope(|scope| {
        for who in 0..threads {
            let shared = &shared;
            scope.spawn(move || {
                for _ in 0..calls {
                    shared.lock().unwrap().apply(who, call);
                }
            });
        }
    });
    shared.into_inner().unwrap()
}

fn main() {
    let mut words = std::env::args().skip(1).map(|word| word.parse::<u32>().unwrap());
    let (Some(threads), Some(calls)) = (words.next(), words.next()) else { return };
    let tally = Tally::new(threads, calls);
    let start = Instant::now();
    let tally = call_all(tally, threads, 3, calls);
    let nanos = start.elapsed().as_nanos();
    let sum = tally.log.last().map_or(0, |added| added.total);
    println!("{} {sum} {nanos}", tally.log.len());
}
