//! Figures 7 and 8 of the Raft paper, with the findings that the paper's own
//! words ask for.

use crate::record::{write, Entry, Record};
use crate::subject::Finding;

pub struct Figure {
    pub name: &'static str,
    pub chain: Vec<Vec<u8>>,
    /// Name, node, index, term.
    pub findings: Vec<Finding>,
}

impl Figure {
    fn new(name: &'static str, story: &[Record], findings: &[(u32, u32, u32, u32)]) -> Self {
        let finding = |(name, node, index, term): &(u32, u32, u32, u32)| Finding {
            name: *name,
            node: *node,
            index: *index,
            term: *term,
        };
        Self {
            name,
            chain: story.iter().map(write).collect(),
            findings: findings.iter().map(finding).collect(),
        }
    }
}

/// A log as the figures draw it: a term in each box. In one term one leader
/// makes one entry for an index, so the content follows from the term.
fn log(node: u32, terms: &[u32]) -> Record {
    let entries = (1..).zip(terms).map(|(index, term)| Entry {
        index,
        term: *term,
        configuration: false,
        content: vec![*term as u8, index as u8].into(),
    });
    Record::View {
        node,
        marked: false,
        entries: entries.collect(),
    }
}

fn commit(node: u32, index: u32) -> Record {
    Record::Commit { node, index }
}

fn in_term(old: u32, new: u32, term: u32) -> Record {
    Record::Terms { old, new, term }
}

fn elect(leader: u32, term: u32, length: u32) -> Record {
    Record::Election {
        leader,
        term,
        length: Some(length),
    }
}

pub fn figures() -> Vec<Figure> {
    let mut figures = Vec::new();

    // Figure 7: the leader of term 8 is node 0, the followers (a) to (f) are
    // nodes 1 to 6. Entry 9 is on four of the seven, so it may be committed.
    let mut seven = vec![
        log(0, &[1, 1, 1, 4, 4, 5, 5, 6, 6, 6]),
        log(1, &[1, 1, 1, 4, 4, 5, 5, 6, 6]),
        log(2, &[1, 1, 1, 4]),
        log(3, &[1, 1, 1, 4, 4, 5, 5, 6, 6, 6, 6]),
        log(4, &[1, 1, 1, 4, 4, 5, 5, 6, 6, 6, 7, 7]),
        log(5, &[1, 1, 1, 4, 4, 4, 4]),
        log(6, &[1, 1, 1, 2, 2, 2, 3, 3, 3, 3, 3]),
        in_term(0, 3, 1),
        in_term(3, 5, 4),
        in_term(5, 7, 5),
        in_term(7, 9, 6),
        commit(0, 9),
        commit(1, 9),
        commit(2, 4),
        commit(3, 9),
        commit(4, 9),
        commit(5, 5),
        commit(6, 3),
        elect(6, 2, 3),
        elect(6, 3, 6),
        elect(5, 4, 3),
        elect(4, 7, 10),
        elect(0, 8, 10),
        Record::Check,
    ];
    figures.push(Figure::new(
        "7: every follower log is possible",
        &seven,
        &[],
    ));
    // (f) could never win term 8: its log lacks what was committed.
    seven.extend([elect(6, 8, 11), Record::Check]);
    figures.push(Figure::new("7: (f) wins term 8", &seven, &[(5, 6, 9, 8)]));
    // Had (f) committed its own entry 4, two committed prefixes would differ.
    seven.push(commit(6, 4));
    let both = [(4, 6, 4, 0), (5, 6, 9, 8)];
    figures.push(Figure::new("7: (f) commits its entry 4", &seven, &both));

    // Figure 8: servers S1 to S5 are nodes 1 to 5.
    let mut story = vec![
        log(1, &[1]),
        in_term(0, 1, 1),
        commit(1, 1),
        elect(1, 2, 1),
        log(1, &[1, 2]),
        log(2, &[1, 2]),
        log(3, &[1]),
        log(4, &[1]),
        log(5, &[1]),
        Record::Check,
    ];
    figures.push(Figure::new("8 (a): S1 leads term 2", &story, &[]));
    story.extend([elect(5, 3, 1), log(5, &[1, 3]), Record::Check]);
    figures.push(Figure::new("8 (b): S5 leads term 3", &story, &[]));
    story.extend([
        elect(1, 4, 2),
        log(3, &[1, 2]),
        log(1, &[1, 2, 4]),
        Record::Check,
    ]);
    figures.push(Figure::new("8 (c): S1 leads term 4", &story, &[]));

    let overwritten = [
        elect(5, 5, 2),
        log(1, &[1, 3]),
        log(2, &[1, 3]),
        log(3, &[1, 3]),
        log(4, &[1, 3]),
        Record::Check,
    ];
    let mut right = story.clone();
    right.extend(overwritten.clone());
    figures.push(Figure::new("8 (d): S5 overwrites entry 2", &right, &[]));
    // The mistake that the figure warns of: entry 2 counted as committed by
    // its replicas, in term 4.
    let mut wrong = story.clone();
    wrong.extend([in_term(1, 2, 4), commit(1, 2)]);
    wrong.extend(overwritten);
    wrong.extend([in_term(1, 2, 5), commit(5, 2)]);
    let lost = [(4, 5, 2, 0), (5, 5, 2, 5)];
    figures.push(Figure::new(
        "8 (d): entry 2 was committed by count",
        &wrong,
        &lost,
    ));

    story.extend([
        log(2, &[1, 2, 4]),
        log(3, &[1, 2, 4]),
        in_term(1, 3, 4),
        commit(1, 3),
        commit(2, 3),
        commit(3, 2),
        elect(2, 5, 3),
        Record::Check,
    ]);
    figures.push(Figure::new("8 (e): entry 3 commits entry 2", &story, &[]));
    // "S5 cannot win an election" then; had it won, it would be named.
    story.extend([elect(5, 6, 2), Record::Check]);
    figures.push(Figure::new(
        "8 (e): S5 wins term 6",
        &story,
        &[(5, 5, 3, 6)],
    ));
    figures
}
