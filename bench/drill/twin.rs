// The drill of N as one would write it in plain Rust: the children's bytes are frames in memory, workers read them frame
// by frame, decide each request under one lock, write a line for each event into a log in memory, and reply by frames.
// Prints the counts of the journal as `otplogd drill N` does. Called as `twin N THREADS`.
#[path = "../common/plain_core.rs"]
mod plain_core;
#[path = "../common/plain_ledger.rs"]
#[allow(dead_code)]
mod plain_ledger;
#[path = "../common/plain_md5.rs"]
mod plain_md5;
#[path = "../common/plain_sha1.rs"]
mod plain_sha1;
mod twin_chain;
mod twin_monitor;
mod twin_script;

use plain_core::{Ask, Event, Name, Why};
use plain_ledger::Decision;
use std::collections::BTreeMap;
use std::fmt::Write;
use twin_chain::Algo;
use twin_monitor::{Account, Monitor};
use twin_script::{Class, Script, frame_at, request_of};

const WORKERS: u32 = 4;

/// What a worker keeps from session to session: what its children were told, and its user's file.
#[derive(Default)]
struct Post {
    talks: Vec<Vec<u8>>,
    file: Vec<u8>,
}

/// Serves one child, and gives why it ended, or none where the next child is to start.
fn serve_child(monitor: &Monitor, worker: u32, session: u32, bytes: &[u8], post: &mut Post) -> Option<Why> {
    let mut told = Vec::new();
    let mut rest = bytes;
    let end = loop {
        let Some((kind, body, behind)) = frame_at(rest) else {
            break Some(if rest.is_empty() { Why::ChildEnded } else { Why::Truncated });
        };
        rest = behind;
        let ask = request_of(kind, body);
        let decision = monitor.decide(worker, ask);
        let reply = act(monitor, &ask, decision, body, post);
        twin_script::push_frame(&mut told, kind | 256, session, &reply);
        match (ask, decision) {
            (_, Decision::Deny { rule, .. }) if rule <= 7 => break Some(Why::Violation { rule }),
            (Ask::Finish, Decision::Permit { .. }) => break Some(Why::Finished),
            (Ask::Export { .. }, Decision::Permit { .. }) => break None,
            _ => {}
        }
    };
    post.talks.push(told);
    end
}

/// Does what was permitted, and gives the body of the reply.
fn act(monitor: &Monitor, ask: &Ask, decision: Decision, body: &[u8], post: &mut Post) -> Vec<u8> {
    let value = match decision {
        Decision::Deny { rule, detail } => return [&[1, rule][..], &detail.to_le_bytes()].concat(),
        Decision::Permit { value } => value,
    };
    let mut reply = vec![0];
    match ask {
        Ask::Banner => reply.extend_from_slice(b"OTP login"),
        Ask::Challenge { user, .. } => reply.extend_from_slice(monitor.challenge(user, value).as_bytes()),
        Ask::WriteAt { .. } => {
            let bytes = &body[12..];
            post.file.resize(post.file.len().max(bytes.len()), 0);
            post.file[..bytes.len()].copy_from_slice(bytes);
        }
        Ask::ReadAt { max, .. } => reply.extend_from_slice(&post.file[..post.file.len().min(usize::from(*max))]),
        Ask::OpenFile { .. } => reply.extend_from_slice(&(value as u32).to_le_bytes()),
        _ => {}
    }
    reply
}

fn serve(monitor: &Monitor, worker: u32, scripts: &[Script]) -> Post {
    let mut post = Post::default();
    for script in scripts {
        let session = monitor.open(worker);
        let mut end = serve_child(monitor, worker, session, &script.pre, &mut post);
        if end.is_none() {
            end = serve_child(monitor, worker, session, &script.user, &mut post);
        }
        monitor.end(worker, end.unwrap_or(Why::ChildEnded));
    }
    post
}

/// The place and the word of an end in the counts.
fn end_of(why: Why) -> (u8, &'static str) {
    match why {
        Why::Finished => (0, "finished"),
        Why::ChildEnded => (1, "child-ended"),
        Why::Truncated => (2, "truncated"),
        Why::Violation { .. } => (4, "violation"),
    }
}

fn counts_of(journal: &[Event]) -> String {
    let count = |is: &dyn Fn(&Event) -> bool| journal.iter().filter(|event| is(event)).count();
    let mut rules = BTreeMap::new();
    let mut ends = BTreeMap::new();
    for event in journal {
        if let Decision::Deny { rule, .. } = event.decision {
            *rules.entry(rule).or_insert(0) += 1;
        }
        if let Ask::End { why } = event.ask {
            *ends.entry(end_of(why)).or_insert(0) += 1;
        }
    }
    let mut text = format!(
        "sessions {}\nevents {}\npermitted {}\ndenied {}\naccepted {}\n",
        count(&|event| matches!(event.ask, Ask::Begin)),
        journal.len(),
        count(&|event| matches!(event.decision, Decision::Permit { .. })),
        count(&|event| matches!(event.decision, Decision::Deny { .. })),
        count(&|event| matches!((&event.ask, event.decision), (Ask::Reply { .. }, Decision::Permit { .. }))),
    );
    for (rule, times) in rules {
        writeln!(text, "rule {rule} {times}").unwrap();
    }
    for ((_, word), times) in ends {
        writeln!(text, "end {word} {times}").unwrap();
    }
    text
}

fn main() {
    let mut words = std::env::args().skip(1).map(|word| word.parse::<u32>().expect("a number"));
    let (n, threads) = (words.next().expect("N"), words.next().unwrap_or(4));
    let mut accounts = Vec::new();
    let mut plans = Vec::new();
    for worker in 0..WORKERS {
        let algo = if worker % 2 == 0 { Algo::Md5 } else { Algo::Sha1 };
        let seed = format!("drill{worker}");
        let chain = twin_chain::chain(algo, &seed, &format!("drill phrase {n}"), 8 * n);
        plans.push(Class::plan(n, worker, &chain));
        accounts.push(Account {
            name: Name::of(&format!("d{worker}")),
            algo,
            seed,
            sequence: 8 * n as u16,
            password: chain[8 * n as usize],
        });
    }
    let monitor = Monitor::new(accounts);
    let posts: Vec<Post> = if threads == 1 {
        (0..).zip(&plans).map(|(worker, plan)| serve(&monitor, worker, plan)).collect()
    } else {
        std::thread::scope(|scope| {
            let served: Vec<_> =
                (0..).zip(&plans).map(|(worker, plan)| scope.spawn({ let monitor = &monitor; move || serve(monitor, worker, plan) })).collect();
            served.into_iter().map(|post| post.join().unwrap()).collect()
        })
    };
    let (journal, log) = monitor.into_parts();
    assert_eq!(log.iter().filter(|byte| **byte == b'\n').count(), journal.len());
    assert!(posts.iter().all(|post| !post.talks.is_empty()));
    print!("{}", counts_of(&journal));
}
