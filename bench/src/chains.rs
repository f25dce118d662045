//! The chains that are timed.

use harness::oracle::Oracle;
use harness::random;
use harness::record::{write, Entry, Record};
use harness::subject::Subject;

pub struct Workload {
    pub name: &'static str,
    /// Each starts from a fresh history.
    pub chains: Vec<Vec<Vec<u8>>>,
}

pub fn workloads() -> Vec<Workload> {
    let one = |name, chain: Vec<Record>| Workload {
        name,
        chains: vec![chain.iter().map(write).collect()],
    };
    vec![
        one("growing views to 256 entries", growing()),
        one("five nodes repeat one 256-entry view", repeating()),
        one("64 certificates with commits and checks", certificates()),
        Workload {
            name: "mixed small chains",
            chains: mixed(),
        },
        one("a full history with forks", full()),
        one("64 leaders' logs, grown and kept again", leaders()),
    ]
}

/// Entry `index` of a log whose term rises every eight entries. Eight bytes
/// of content: `fork` tells logs apart.
fn entry(index: u32, fork: u8) -> Entry {
    Entry {
        index,
        term: 1 + index / 8,
        configuration: false,
        content: vec![fork, 1, 2, 3, 4, 5, 6, index as u8].into(),
    }
}

fn view(node: u32, entries: Vec<Entry>) -> Record {
    Record::View {
        node,
        marked: false,
        entries,
    }
}

fn log(length: u32) -> Vec<Entry> {
    (1..=length).map(|index| entry(index, 0)).collect()
}

fn growing() -> Vec<Record> {
    (1..=256).map(|length| view(0, log(length))).collect()
}

fn repeating() -> Vec<Record> {
    (0..100).map(|turn| view(turn % 5, log(256))).collect()
}

/// Each election after a longer commit, each followed by a check; half of the
/// leaders lack what was committed.
fn certificates() -> Vec<Record> {
    let mut chain = vec![view(0, log(256)), view(1, log(256))];
    for number in 1..=64 {
        let commit = 4 * number;
        let term = 1 + commit / 8;
        chain.push(Record::Commit {
            node: number % 2,
            index: commit,
        });
        chain.push(Record::Terms {
            old: commit - 4,
            new: commit,
            term,
        });
        chain.push(Record::Election {
            leader: number % 2,
            term: term + 1,
            length: Some(commit - number % 2),
        });
        chain.push(Record::Check);
    }
    chain
}

/// A log for each of 64 pairs of leader and term, and then each grown and kept again, four times over.
fn leaders() -> Vec<Record> {
    let leader = |pair: u32| Record::Leader {
        node: pair % 8,
        term: 1 + pair / 8,
    };
    let mut chain = Vec::new();
    for turn in 1..=5 {
        chain.extend((0..8).map(|node| view(node, log(16 * turn))));
        chain.extend((0..64).map(leader));
    }
    chain
}

/// The accepted records of 2,000 random chains, those with long logs left out.
fn mixed() -> Vec<Vec<Vec<u8>>> {
    let mut oracle = Oracle::default();
    let is_small = |chain: &Vec<Vec<u8>>| chain.iter().map(Vec::len).sum::<usize>() <= 600;
    let small = (0..)
        .map(|number| random::chain(7, number))
        .filter(is_small);
    let mut accepted = |chain: Vec<Vec<u8>>| {
        oracle.fresh();
        chain
            .into_iter()
            .filter(|record| oracle.submit(record).refusal == 0)
            .collect()
    };
    small.take(2000).map(&mut accepted).collect()
}

/// 512 prefixes: a log of 256 entries and sixteen forks of it, 16 entries
/// each. Then all nodes show, commit and check, over and over.
fn full() -> Vec<Record> {
    let fork = |number: u32| {
        let kept = 15 * number;
        let mut entries = log(kept);
        entries.extend((kept + 1..=kept + 16).map(|index| entry(index, 1 + number as u8)));
        // Only a few forks keep the terms, so that findings stay within 128.
        if number >= 5 {
            entries[kept as usize..]
                .iter_mut()
                .for_each(|e| e.term += 100 + number);
        }
        view(1 + number, entries)
    };
    let mut chain = vec![view(0, log(256))];
    chain.extend((0..16).map(fork));
    chain.push(Record::Commit {
        node: 0,
        index: 240,
    });
    chain.push(Record::Terms {
        old: 0,
        new: 240,
        term: 40,
    });
    // Four leaders of forks, and twelve with the log that was committed.
    for number in 0..16 {
        let (leader, length) = if number < 4 {
            (1 + number, 15 * number + 16)
        } else {
            (0, 256)
        };
        chain.push(Record::Election {
            leader,
            term: 41 + number,
            length: Some(length),
        });
    }
    for turn in 0..4 {
        chain.push(view(0, log(256)));
        chain.extend((0..16).map(fork));
        for node in 0..17 {
            chain.push(Record::Commit {
                node,
                index: if node == 0 {
                    241 + turn
                } else {
                    15 * (node - 1) + 1
                },
            });
        }
        chain.push(Record::Terms {
            old: 240 + turn,
            new: 241 + turn,
            term: 40,
        });
        chain.push(Record::Check);
    }
    chain
}

/// Records that are written, over and over.
pub struct Written {
    pub name: &'static str,
    pub records: Vec<Record>,
}

/// As many entries as there can be, each with as much content.
pub fn largest(marked: bool) -> Record {
    let full = |index| Entry {
        index,
        term: u32::MAX - index,
        configuration: false,
        content: vec![index as u8; 32].into(),
    };
    Record::View {
        node: 63,
        marked,
        entries: (1..=256).map(full).collect(),
    }
}

pub fn written() -> Vec<Written> {
    let largest = largest(false);
    let mut small = certificates();
    small.retain(|record| !matches!(record, Record::View { .. }));
    small.extend((1..=64).map(|node| view(node - 1, log(node % 3))));
    vec![
        Written {
            name: "the largest view",
            records: vec![largest; 20],
        },
        Written {
            name: "small records",
            records: small,
        },
    ]
}
