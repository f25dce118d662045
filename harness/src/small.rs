//! All chains of at most so many out of a dozen small records.

use crate::record::{write, Entry, Record, Row};

fn entry(index: u32, term: u32, content: &[u8]) -> Entry {
    Entry {
        index,
        term,
        configuration: false,
        content: content.into(),
    }
}

fn view(node: u32, entries: &[Entry]) -> Record {
    Record::View {
        node,
        marked: false,
        entries: entries.to_vec(),
    }
}

fn terms(old: u32, new: u32, term: u32) -> Record {
    Record::Terms { old, new, term }
}

fn commit(node: u32, index: u32) -> Record {
    Record::Commit { node, index }
}

fn elect(leader: u32, term: u32, length: Option<u32>) -> Record {
    Record::Election {
        leader,
        term,
        length,
    }
}

fn leader(node: u32, term: u32) -> Record {
    Record::Leader { node, term }
}

/// Twelve records, and what comes before every chain of them.
pub struct Dozen {
    pub name: &'static str,
    pub start: Vec<Vec<u8>>,
    pub records: Vec<Vec<u8>>,
}

impl Dozen {
    fn new(name: &'static str, start: &[Record], records: [Record; 12]) -> Self {
        Self {
            name,
            start: start.iter().map(write).collect(),
            records: records.iter().map(write).collect(),
        }
    }
}

/// One dozen of all kinds, one that turns on views and commits, one that turns
/// on leaders' logs, and one that turns on commit terms, marks and checks. An LG-05 needs five records at
/// least, so the last begins with a view and a commit already there.
pub fn dozens() -> [Dozen; 4] {
    let row = Row {
        node: 1,
        floor: 1,
        commit: 0,
        last: 2,
        floor_configuration: None,
        actual_configuration: None,
    };
    let (a, b) = (entry(1, 1, b"a"), entry(1, 1, b"b"));
    let second = entry(2, 2, b"");
    let all_kinds = [
        view(1, &[a.clone()]),
        view(1, &[a.clone(), second.clone()]),
        view(2, &[b.clone(), second.clone()]),
        view(2, &[]),
        commit(1, 1),
        commit(1, 2),
        commit(2, 2),
        terms(0, 2, 2),
        terms(2, 1, 5),
        elect(2, 3, Some(1)),
        Record::Check,
        Record::Rows(vec![row]),
    ];
    let commits = [
        view(0, &[a.clone()]),
        view(0, &[a.clone(), second.clone()]),
        view(0, &[b.clone(), second.clone()]),
        view(0, &[a.clone(), entry(3, 2, b"")]),
        view(63, &[a.clone(), entry(2, 2, b"c")]),
        view(63, &[b.clone(), entry(2, 3, b"")]),
        commit(0, 0),
        commit(0, 1),
        commit(0, 2),
        commit(63, 1),
        commit(63, 2),
        terms(0, 1, 1),
    ];
    let leaders = [
        view(1, &[]),
        view(1, &[a.clone()]),
        view(1, &[a.clone(), second.clone()]),
        view(1, &[b.clone(), second.clone()]),
        view(1, &[a.clone(), entry(2, 2, b"c")]),
        view(1, &[a.clone(), entry(3, 2, b"")]),
        view(1, &[a.clone(), second.clone(), entry(3, 2, b"")]),
        view(1, &[entry(2, 1, b"a")]),
        view(2, &[b.clone()]),
        leader(1, 1),
        leader(1, 2),
        leader(2, 1),
    ];
    let before_marks = [view(1, &[a.clone(), second.clone()]), commit(1, 1)];
    let marks = [
        commit(1, 2),
        view(2, &[b, second]),
        terms(0, 1, 3),
        terms(0, 2, 1),
        terms(1, 2, 2),
        terms(0, 2, 0),
        elect(1, 2, Some(2)),
        elect(2, 2, None),
        elect(1, 3, Some(1)),
        elect(2, 4, Some(2)),
        elect(1, 1, Some(0)),
        Record::Check,
    ];
    [
        Dozen::new("all kinds", &[], all_kinds),
        Dozen::new("views and commits", &[], commits),
        Dozen::new("leaders' logs", &[], leaders),
        Dozen::new("terms and marks", &before_marks, marks),
    ]
}

/// How many chains of at most `most` records there are, the empty one left out.
pub fn count(most: u32) -> u64 {
    (1..=most).map(|length| 12_u64.pow(length)).sum()
}

/// The chains of exactly `length` records: everything is compared after every
/// record, so their beginnings are all the shorter chains.
pub fn chains(dozen: &Dozen, length: u32) -> impl Iterator<Item = Vec<Vec<u8>>> + '_ {
    (0..12_u64.pow(length)).map(move |number| {
        let mut chain = dozen.start.clone();
        for place in 0..length {
            let which = number / 12_u64.pow(place) % 12;
            chain.push(dozen.records[which as usize].clone());
        }
        chain
    })
}
