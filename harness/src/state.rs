//! What a history holds, in document 01's terms: compared after every record.

use std::collections::BTreeMap;
use std::fmt::Debug;
use std::sync::Arc;

use crate::subject::Finding;

/// A prefix by number: 0 is the empty one, k + 1 the one of place k in `stored`.
/// Where the stored prefixes are alike, so are prefixes of one number.
pub type Number = usize;

/// Of a prefix that is not stored; no sound history has one.
pub const UNSTORED: Number = usize::MAX;

/// A prefix: the one that it extends, its index, and its last entry.
#[derive(Clone, Debug, Eq, PartialEq)]
pub struct Prefix {
    pub parent: Number,
    pub index: u32,
    pub term: u32,
    pub configuration: bool,
    pub content: Arc<[u8]>,
}

#[derive(Clone, Debug, Eq, PartialEq)]
pub struct View {
    pub node: u32,
    pub front: Number,
    /// The last index that the view showed, past its front where it has a gap.
    pub last: u32,
}

#[derive(Clone, Debug, Eq, PartialEq)]
pub struct Certificate {
    pub term: u32,
    /// Within its term, from 0.
    pub number: u32,
    pub leader: u32,
    pub log: Option<Number>,
    pub mark: u32,
}

/// The view kept for a leader of a term.
#[derive(Clone, Debug, Eq, Ord, PartialEq, PartialOrd)]
pub struct LeaderLog {
    pub leader: u32,
    pub term: u32,
    pub front: Number,
    pub last: u32,
}

#[derive(Clone, Debug, Default, Eq, PartialEq)]
pub struct State {
    /// The distinct nonempty prefixes of accepted fronts, in the order first seen.
    pub stored: Vec<Prefix>,
    /// The first prefix seen of an index and term.
    pub remembered: BTreeMap<(u32, u32), Number>,
    /// Of the nodes that showed an entry, ascending.
    pub views: Vec<View>,
    /// By leader, then term.
    pub leader_logs: Vec<LeaderLog>,
    /// Node and index, ascending.
    pub unseen: Vec<(u32, u32)>,
    /// 0, with owner 0, where there is none.
    pub committed: Number,
    pub owner: u32,
    pub terms: Vec<u32>,
    /// By term, then arrival.
    pub certificates: Vec<Certificate>,
    /// The distinct findings, in the order found.
    pub findings: Vec<Finding>,
}

/// "The pair (index, term) remembers the first prefix seen."
pub fn remembered(stored: &[Prefix]) -> BTreeMap<(u32, u32), Number> {
    let mut first = BTreeMap::new();
    for (number, prefix) in (1..).zip(stored) {
        first.entry((prefix.index, prefix.term)).or_insert(number);
    }
    first
}

impl State {
    pub fn length(&self, prefix: Number) -> u32 {
        let stored = prefix.checked_sub(1).and_then(|k| self.stored.get(k));
        stored.map_or(0, |prefix| prefix.index)
    }

    /// The first part in which the two differ, as both have it.
    pub fn difference(&self, other: &Self) -> Option<String> {
        let Self {
            stored,
            remembered,
            views,
            leader_logs,
            unseen,
            committed,
            owner,
            terms,
            certificates,
            findings,
        } = self;
        part("stored prefixes", stored, &other.stored)
            .or_else(|| part("remembered prefixes", remembered, &other.remembered))
            .or_else(|| part("views", views, &other.views))
            .or_else(|| part("leaders' logs", leader_logs, &other.leader_logs))
            .or_else(|| part("unseen marks", unseen, &other.unseen))
            .or_else(|| part("committed prefix", committed, &other.committed))
            .or_else(|| part("owner", owner, &other.owner))
            .or_else(|| part("commit terms", terms, &other.terms))
            .or_else(|| part("certificates", certificates, &other.certificates))
            .or_else(|| part("findings", findings, &other.findings))
    }
}

fn part<T: Debug + PartialEq>(name: &str, one: &T, two: &T) -> Option<String> {
    (one != two).then(|| format!("{name}: the Rust has {one:?}, the other {two:?}"))
}
