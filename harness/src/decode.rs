//! What the bytes of a history stand for: docs/LAYOUT.md in Rust, made from
//! that page alone.

use crate::state::{remembered, Certificate, LeaderLog, Prefix, State, View};
use crate::subject::Finding;

/// A table: where it starts, and how wide its rows are.
struct Table(usize, usize);

const HEAD: Table = Table(0, 10);
const NODES: Table = Table(10, 6);
const TERMS: Table = Table(394, 4);
const CERTIFICATES: Table = Table(1418, 11);
const FINDINGS: Table = Table(2122, 8);
const PREFIXES: Table = Table(3146, 42);
const LEADER_LOGS: Table = Table(24_650, 9);

pub const LENGTH: usize = 25_226;

/// The bytes of one row.
struct Row<'a>(&'a [u8]);

impl Table {
    /// The rows from the first on.
    fn rows<'a>(&self, history: &'a [u8]) -> impl Iterator<Item = Row<'a>> {
        history[self.0..].chunks_exact(self.1).map(Row)
    }
}

impl Row<'_> {
    /// A field, high byte first.
    fn field(&self, at: usize, bytes: usize) -> u32 {
        let field = self.0[at..at + bytes].iter();
        field.fold(0, |all, byte| all << 8 | u32::from(*byte))
    }

    fn number(&self, at: usize, bytes: usize) -> usize {
        self.field(at, bytes) as usize
    }
}

pub fn decode(history: &[u8]) -> State {
    assert_eq!(history.len(), LENGTH);
    let head = Row(&history[HEAD.0..][..HEAD.1]);
    let prefixes = PREFIXES.rows(history).take(head.number(0, 2));
    let terms = TERMS.rows(history).take(head.number(2, 2));
    let certificates = CERTIFICATES.rows(history).take(head.number(6, 1));
    let findings = FINDINGS.rows(history).take(head.number(7, 1));
    let leader_logs = LEADER_LOGS.rows(history).take(head.number(9, 1));
    let stored: Vec<Prefix> = prefixes.map(|row| prefix(&row)).collect();
    let mut state = State {
        remembered: remembered(&stored),
        stored,
        committed: head.number(4, 2),
        owner: head.field(8, 1),
        terms: terms.map(|row| row.field(0, 4)).collect(),
        certificates: certificates.map(|row| certificate(&row)).collect(),
        findings: findings.map(|row| finding(&row)).collect(),
        leader_logs: leader_logs.map(|row| leader_log(&row)).collect(),
        ..State::default()
    };
    for (node, row) in (0..64).zip(NODES.rows(history)) {
        let (front, last, unseen) = (row.number(0, 2), row.field(2, 2), row.field(4, 2));
        let shows = (front, last) != (0, 0);
        let view = View { node, front, last };
        state.views.extend(shows.then_some(view));
        state.unseen.extend((unseen != 0).then_some((node, unseen)));
    }
    state.leader_logs.sort();
    state
}

/// Sets the marks of the first certificates that are held.
pub fn put_marks(history: &mut [u8], marks: &[u32]) {
    let held = Row(&history[HEAD.0..][..HEAD.1]).number(6, 1);
    let rows = history[CERTIFICATES.0..].chunks_mut(CERTIFICATES.1);
    for (row, mark) in rows.take(held).zip(marks) {
        row[6..8].copy_from_slice(&(*mark as u16).to_be_bytes());
    }
}

fn prefix(row: &Row) -> Prefix {
    let size = row.number(9, 1).min(32);
    Prefix {
        parent: row.number(0, 2),
        index: row.field(2, 2),
        term: row.field(4, 4),
        configuration: row.field(8, 1) == 1,
        content: row.0[10..10 + size].into(),
    }
}

fn certificate(row: &Row) -> Certificate {
    let present = row.field(10, 1) == 1;
    Certificate {
        term: row.field(0, 4),
        number: row.field(9, 1),
        leader: row.field(8, 1),
        log: present.then(|| row.number(4, 2)),
        mark: row.field(6, 2),
    }
}

fn leader_log(row: &Row) -> LeaderLog {
    LeaderLog {
        leader: row.field(0, 1),
        term: row.field(1, 4),
        front: row.number(5, 2),
        last: row.field(7, 2),
    }
}

fn finding(row: &Row) -> Finding {
    Finding {
        name: row.field(0, 1),
        node: row.field(1, 1),
        index: row.field(2, 2),
        term: row.field(4, 4),
    }
}
