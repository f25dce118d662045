//! Chains that reach each limit of document 01, and one past it.

use crate::record::{write, Entry, Record, Row, Writer};

pub struct Limit {
    pub name: &'static str,
    pub chain: Vec<Vec<u8>>,
    /// The refusal of each record, 0 where it is accepted.
    pub refusals: Vec<u32>,
}

/// A story in which each record stands with the refusal it must meet.
#[derive(Default)]
struct Story {
    chain: Vec<Vec<u8>>,
    refusals: Vec<u32>,
}

impl Story {
    fn ok(self, record: Record) -> Self {
        self.meets(0, record)
    }

    fn meets(self, refusal: u32, record: Record) -> Self {
        self.bytes(refusal, write(&record))
    }

    fn bytes(mut self, refusal: u32, record: Vec<u8>) -> Self {
        self.chain.push(record);
        self.refusals.push(refusal);
        self
    }

    fn named(self, name: &'static str) -> Limit {
        Limit {
            name,
            chain: self.chain,
            refusals: self.refusals,
        }
    }
}

/// A view of `length` entries of one term; the content of entry 1 tells logs
/// apart, so two that differ in it differ in every prefix.
fn log(node: u32, length: u32, term: u32, first: &[u8]) -> Record {
    let entries = (1..=length).map(|index| Entry {
        index,
        term,
        configuration: false,
        content: if index == 1 { first.into() } else { [].into() },
    });
    Record::View {
        node,
        marked: false,
        entries: entries.collect(),
    }
}

fn commit(node: u32, index: u32) -> Record {
    Record::Commit { node, index }
}

fn terms(old: u32, new: u32, term: u32) -> Record {
    Record::Terms { old, new, term }
}

fn elect(leader: u32, term: u32, length: Option<u32>) -> Record {
    Record::Election {
        leader,
        term,
        length,
    }
}

pub fn limits() -> Vec<Limit> {
    vec![
        prefixes(),
        prefixes_by_one(),
        six_before_seven(),
        findings(),
        findings_by_one(),
        commit_meets_seven(),
        check_meets_seven(),
        certificates(),
        certificates_of_one_term(),
        indexes(),
        contents(),
        counts(),
        rows_of_all_nodes(),
        greatest_values(),
        leader_logs(),
        leader_meets_seven(),
    ]
}

fn prefixes() -> Limit {
    let mut gap = log(2, 3, 1, b"a");
    if let Record::View { entries, .. } = &mut gap {
        entries[2].index = 256;
    }
    Story::default()
        .ok(log(0, 256, 1, b"a"))
        .ok(log(1, 256, 2, b"b"))
        .meets(6, log(2, 1, 3, b"c"))
        .meets(6, log(2, 256, 3, b"c"))
        .ok(log(2, 256, 1, b"a"))
        .ok(log(0, 7, 2, b"b"))
        .ok(gap)
        .meets(6, log(0, 1, 1, b""))
        .ok(commit(0, 7))
        .ok(commit(2, 2))
        .ok(log(3, 0, 1, b""))
        .named("512 prefixes, then a new one")
}

fn prefixes_by_one() -> Limit {
    Story::default()
        .ok(log(0, 256, 1, b"a"))
        .ok(log(1, 255, 2, b"b"))
        .meets(6, log(2, 2, 3, b"c"))
        .ok(log(2, 1, 3, b"c"))
        .meets(6, log(1, 256, 2, b"b"))
        .ok(log(1, 255, 2, b"b"))
        .named("511 prefixes, then two, then one")
}

fn six_before_seven() -> Limit {
    Story::default()
        .ok(log(0, 256, 1, b"a"))
        .ok(log(1, 200, 2, b"b"))
        .meets(6, log(2, 129, 1, b"c"))
        .ok(log(3, 50, 1, b"c"))
        .meets(6, log(4, 57, 1, b"c"))
        .ok(log(4, 56, 1, b"c"))
        .meets(7, log(5, 56, 1, b"c"))
        .named("6 where 7 would come as well")
}

fn findings() -> Limit {
    Story::default()
        .ok(log(0, 130, 1, b"a"))
        .meets(7, log(1, 129, 1, b"b"))
        .ok(log(1, 128, 1, b"b"))
        .ok(log(1, 128, 1, b"b"))
        .ok(log(1, 128, 1, b"c"))
        .meets(7, log(2, 1, 1, b"b"))
        .meets(7, log(1, 129, 1, b"b"))
        .ok(log(2, 130, 1, b"a"))
        .named("128 findings, then more, then the same again")
}

fn findings_by_one() -> Limit {
    Story::default()
        .ok(log(0, 100, 1, b"a"))
        .ok(log(1, 100, 1, b"b"))
        .meets(7, log(2, 29, 1, b"b"))
        .ok(log(2, 27, 1, b"b"))
        .meets(7, log(3, 2, 1, b"b"))
        .ok(log(3, 1, 1, b"b"))
        .ok(log(2, 27, 1, b"c"))
        .named("127 findings, then two, then one")
}

fn commit_meets_seven() -> Limit {
    Story::default()
        .ok(log(0, 128, 1, b"a"))
        .ok(commit(0, 2))
        .ok(commit(1, 200))
        .ok(log(1, 127, 1, b"b"))
        .ok(commit(1, 1))
        .ok(commit(1, 1))
        .ok(commit(1, 200))
        .meets(7, commit(1, 2))
        .ok(commit(1, 1))
        .ok(commit(1, 0))
        .meets(7, commit(1, 2))
        .named("a commit that would be the 129th finding")
}

fn check_meets_seven() -> Limit {
    Story::default()
        .ok(log(0, 126, 1, b"a"))
        .ok(log(1, 126, 1, b"b"))
        .ok(commit(0, 3))
        .ok(terms(0, 3, 1))
        .ok(elect(2, 2, None))
        .ok(elect(1, 3, Some(3)))
        .ok(elect(0, 3, Some(3)))
        .ok(elect(1, 4, Some(2)))
        .meets(7, Record::Check)
        .ok(terms(0, 3, 0))
        .meets(7, Record::Check)
        .named("a check that would find the 129th, twice")
}

fn certificates() -> Limit {
    let mut story = Story::default()
        .ok(log(0, 2, 1, b"a"))
        .ok(commit(0, 2))
        .ok(terms(0, 2, 1));
    for number in 0..64 {
        story = story.ok(elect(number, 70 - number, (number == 0).then_some(2)));
    }
    story
        .meets(10, elect(0, 1, Some(2)))
        .meets(10, elect(1, 1, None))
        .meets(9, elect(0, 1, Some(3)))
        .meets(9, elect(1, 1, Some(1)))
        .ok(Record::Check)
        .ok(Record::Check)
        .named("64 certificates of 64 terms, then one more")
}

fn certificates_of_one_term() -> Limit {
    let mut story = Story::default().ok(log(0, 3, 1, b"a"));
    for number in 0..64 {
        story = story.ok(elect(
            number % 3,
            7,
            (number % 3 == 0).then_some(number % 4),
        ));
    }
    story
        .meets(10, elect(0, 7, None))
        .ok(Record::Check)
        .ok(commit(0, 1))
        .ok(terms(0, 1, 6))
        .ok(Record::Check)
        .ok(commit(0, 3))
        .ok(terms(0, 3, 5))
        .ok(Record::Check)
        .named("64 certificates of one term")
}

/// Kind and fields as they come, limits or not.
fn raw(fields: &[(u32, usize)]) -> Vec<u8> {
    let mut w = Writer::default();
    for (value, width) in fields {
        w.put(*value, *width);
    }
    w.bytes
}

fn leader(node: u32, term: u32) -> Record {
    Record::Leader { node, term }
}

fn leader_logs() -> Limit {
    let mut story = Story::default().ok(log(0, 2, 1, b"a"));
    for number in 0..64 {
        story = story.ok(leader(63 - number, u32::MAX - number % 2));
    }
    story
        .meets(14, leader(0, 1))
        .meets(14, leader(63, 0))
        .ok(leader(63, u32::MAX))
        .ok(log(0, 1, 1, b"a"))
        .ok(leader(0, u32::MAX - 1))
        .meets(14, leader(0, u32::MAX))
        .bytes(2, raw(&[(7, 4), (0, 6), (0, 30)]))
        .bytes(3, raw(&[(7, 4), (0, 6), (1, 32), (1, 6)]))
        .named("64 leaders' logs, then one more")
}

fn leader_meets_seven() -> Limit {
    let mut story = Story::default()
        .ok(log(0, 128, 1, b"a"))
        .ok(leader(0, 1))
        .ok(leader(2, 1))
        .ok(log(1, 127, 1, b"b"))
        .ok(log(2, 1, 1, b"a"))
        .ok(leader(2, 1))
        .ok(log(0, 127, 1, b"a"))
        .ok(leader(0, 1))
        .ok(leader(0, 1))
        .ok(log(2, 0, 1, b""))
        .meets(7, leader(2, 1))
        .meets(7, leader(2, 1))
        .ok(log(0, 126, 1, b"a"))
        .ok(leader(0, 1))
        .ok(log(2, 2, 1, b"a"))
        .ok(leader(2, 1));
    for number in 0..62 {
        story = story.ok(leader(number, 2));
    }
    story
        .ok(log(2, 0, 1, b""))
        .meets(7, leader(2, 1))
        .meets(14, leader(63, 2))
        .named("a leader that would be the 129th finding, and 14 before it")
}

fn indexes() -> Limit {
    let one_entry = |index| raw(&[(1, 4), (0, 6), (1, 10), (index, 10), (1, 32), (0, 6)]);
    Story::default()
        .ok(log(1, 256, 1, b"a"))
        .bytes(0, one_entry(256))
        .bytes(4, one_entry(257))
        .bytes(4, one_entry(0))
        .bytes(4, one_entry(1023))
        .ok(commit(1, 256))
        .bytes(4, raw(&[(2, 4), (1, 6), (257, 10)]))
        .ok(terms(256, 256, 1))
        .ok(terms(0, 256, 2))
        .bytes(4, raw(&[(3, 4), (257, 10), (1, 10), (1, 32)]))
        .bytes(4, raw(&[(3, 4), (0, 10), (257, 10), (1, 32)]))
        .meets(8, terms(256, 255, 1))
        .ok(elect(1, 3, Some(256)))
        .ok(elect(1, 3, Some(255)))
        .bytes(4, raw(&[(4, 4), (1, 6), (3, 32), (1, 1), (257, 10)]))
        .bytes(4, raw(&[(4, 4), (1, 6), (3, 32), (0, 1), (1, 10)]))
        .meets(9, elect(2, 3, Some(256)))
        .ok(Record::Check)
        .named("index 256, then 257")
}

fn contents() -> Limit {
    let of = |length: u32, last: u32| {
        let mut fields = vec![(1, 4), (0, 6), (1, 10), (1, 10), (1, 32), (length, 6)];
        fields.extend((1..length).map(|byte| (byte, 8)));
        fields.extend((length > 0).then_some((last, 8)));
        raw(&fields)
    };
    Story::default()
        .bytes(0, of(32, 5))
        .bytes(0, of(32, 6))
        .bytes(0, of(31, 5))
        .bytes(4, of(33, 5))
        .bytes(4, of(63, 5))
        .bytes(0, of(0, 0))
        .named("content of 32 bytes, then 33")
}

fn counts() -> Limit {
    let mut whole = log(5, 256, 9, b"w");
    if let Record::View { entries, .. } = &mut whole {
        entries
            .iter_mut()
            .for_each(|entry| entry.content = [7; 32].into());
    }
    let mut cut = write(&whole);
    cut.pop();
    Story::default()
        .bytes(4, raw(&[(1, 4), (0, 6), (257, 10)]))
        .bytes(2, raw(&[(1, 4), (0, 6), (256, 10)]))
        .bytes(2, cut)
        .ok(whole)
        .bytes(4, raw(&[(6, 4), (257, 10)]))
        .bytes(2, raw(&[(6, 4), (256, 10)]))
        .bytes(0, raw(&[(6, 4), (0, 10)]))
        .named("count 256, then 257")
}

fn rows_of_all_nodes() -> Limit {
    let row = |node| Row {
        node,
        floor: 256,
        commit: 256,
        last: 256,
        floor_configuration: Some((256, u32::MAX)),
        actual_configuration: Some((256, u32::MAX)),
    };
    let all: Vec<Row> = (0..64).map(row).collect();
    let mut last_identity = all.clone();
    last_identity[63].actual_configuration = Some((256, 0));
    let mut last_absent = last_identity.clone();
    last_absent[62].actual_configuration = None;
    let mut twice = all.clone();
    twice.push(row(63));
    Story::default()
        .ok(Record::Rows(all))
        .ok(Record::Rows(last_identity))
        .ok(Record::Rows(last_absent))
        .meets(5, Record::Rows(twice))
        .named("64 rows, then a 65th")
}

fn greatest_values() -> Limit {
    Story::default()
        .ok(log(63, 3, u32::MAX, &[255; 32]))
        .ok(commit(63, 3))
        .ok(terms(0, 3, u32::MAX))
        .ok(elect(63, u32::MAX, Some(3)))
        .ok(elect(62, u32::MAX, None))
        .ok(Record::Check)
        .ok(terms(2, 3, u32::MAX - 1))
        .ok(Record::Check)
        .ok(log(62, 3, u32::MAX, &[254; 32]))
        .ok(commit(62, 3))
        .named("node 63 and the greatest term")
}
