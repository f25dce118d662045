//! The driver: one record at a time, as decoded fields, through the Rust.
//!
//! Nothing here decides anything. A `Call` is the cluster of the nodes that
//! the record names, or the numbers that the Rust's function takes; `run`
//! calls that function and hands back what the Rust answered. A caller that
//! wants to take a record back runs it on a clone.

use std::collections::BTreeMap;

use rafter::{
    BootstrapLogEntry, CommittedConfiguration, LogEntry, LogEntryKind, LogIndex, Node, NodeId,
    Role, SharedPayload, Term,
};

use crate::Cluster;

use super::catalog;
use super::invariants::check_commit_safety;
use super::observations::{Observation, ObservationSet};
use super::state::{CommitHistory, ElectionHistory, ExplorationState, LogicalLogHistory};

/// One entry of a view.
pub struct ViewEntry {
    pub index: u64,
    pub term: u64,
    pub configuration: bool,
    pub content: SharedPayload,
}

/// One row of kind 6. A configuration is its index and identity.
pub struct RowFields {
    pub node: u64,
    pub floor: u64,
    pub commit: u64,
    pub last: u64,
    pub floor_configuration: Option<(u64, u64)>,
    pub actual_configuration: Option<(u64, u64)>,
}

/// A violation's numbers. `name` is 1, 3, 4 or 5 for LG-01, LG-03, LG-04, LG-05.
#[derive(Clone, Copy, Debug, Eq, Ord, PartialEq, PartialOrd)]
pub struct Violation {
    pub name: u64,
    pub node: u64,
    pub index: u64,
    pub term: u64,
}

/// What the three histories hold, in the Rust's own shapes; a map is a list
/// in its order, and a prefix is its number. Violations, unseen and unknown
/// are handed out apart.
pub struct Kept {
    /// `prefixes_by_index_term`: index, term, prefix.
    pub remembered: Vec<(u64, u64, usize)>,
    /// `last_views_by_node`: node, and all that its view showed.
    pub views: Vec<(u64, Vec<ViewEntry>)>,
    /// `leader_logs_by_term`: leader, term, and all that its view showed.
    pub leader_logs: Vec<(u64, u64, Vec<ViewEntry>)>,
    pub committed_prefix: Option<usize>,
    pub committed_prefix_owner: Option<u64>,
    pub committed_in_terms: Vec<u64>,
    /// `elected_by_term`: a term, and its certificates.
    pub elections: Vec<(u64, Vec<Elected>)>,
    /// `leader_completeness_checked_through`: leader, term and number within
    /// the term; checked through.
    pub checked: Vec<((u64, u64, usize), u64)>,
}

/// What an election record makes of a certificate.
pub struct Elected {
    pub leader: u64,
    pub term: u64,
    pub log: Option<usize>,
}

/// The three histories that records write.
#[derive(Clone, Default)]
pub struct Histories {
    logs: LogicalLogHistory,
    commits: CommitHistory,
    elections: ElectionHistory,
}

/// One record, ready to be run.
pub struct Call(Kind);

enum Kind {
    View(Cluster),
    Commit(Cluster),
    Terms(LogIndex, LogIndex, Term),
    Election(NodeId, Term, Option<LogIndex>),
    Check,
    Rows(Box<ExplorationState>),
    Leader(Cluster),
}

impl Call {
    pub fn view(node: u64, entries: impl Iterator<Item = ViewEntry>) -> Self {
        let log = entries.map(|entry| BootstrapLogEntry {
            index: LogIndex(entry.index),
            term: Term(entry.term),
            kind: LogEntryKind {
                configuration: entry.configuration,
                content: entry.content,
            },
        });
        let shown = Node {
            log: log.collect(),
            ..Node::default()
        };
        Self(Kind::View(one_node(node, shown)))
    }

    pub fn commit(node: u64, index: u64) -> Self {
        let shown = Node {
            commit_index: LogIndex(index),
            ..Node::default()
        };
        Self(Kind::Commit(one_node(node, shown)))
    }

    pub fn commit_terms(old: u64, new: u64, term: u64) -> Self {
        Self(Kind::Terms(LogIndex(old), LogIndex(new), Term(term)))
    }

    pub fn election(leader: u64, term: u64, length: Option<u64>) -> Self {
        let length = length.map(LogIndex);
        Self(Kind::Election(NodeId(leader), Term(term), length))
    }

    pub fn check() -> Self {
        Self(Kind::Check)
    }

    pub fn rows(rows: impl Iterator<Item = RowFields>) -> Self {
        let mut nodes = BTreeMap::new();
        let mut commit_floors = BTreeMap::new();
        let mut configuration_floors = BTreeMap::new();
        for row in rows {
            let node = Node {
                commit_index: LogIndex(row.commit),
                last_log_index: LogIndex(row.last),
                committed_configuration: configuration(row.actual_configuration),
                ..Node::default()
            };
            nodes.insert(NodeId(row.node), node);
            commit_floors.insert(NodeId(row.node), LogIndex(row.floor));
            configuration_floors.insert(NodeId(row.node), configuration(row.floor_configuration));
        }
        let cluster = Cluster::of(nodes);
        let state = ExplorationState::of_rows(cluster, commit_floors, configuration_floors);
        Self(Kind::Rows(Box::new(state)))
    }
}

impl Histories {
    /// The flags or the rule, and the node of a failing row. Nothing, and
    /// nothing done, for an election whose leader's view gives no such log.
    /// Panics for commit terms with old above new, the list lengthened already.
    pub fn run(&mut self, call: &Call) -> Option<(u64, u64)> {
        match &call.0 {
            Kind::View(cluster) => {
                let _ = self.logs.observe_one(cluster);
                Some((0, 0))
            }
            Kind::Leader(cluster) => Some((flags(self.logs.observe_one(cluster)), 0)),
            Kind::Commit(cluster) => {
                let marks = self.commits.observe_commit(cluster, &self.logs);
                Some((flags(marks), 0))
            }
            Kind::Terms(old, new, term) => {
                self.commits.commit_terms(*old, *new, *term);
                Some((0, 0))
            }
            Kind::Election(leader, term, None) => {
                self.elections.elect(*leader, *term, None);
                Some((0, 0))
            }
            Kind::Election(leader, term, Some(length)) => {
                let log = self.logs.front_through(*leader, *length)?;
                self.elections.elect(*leader, *term, Some(log));
                Some((0, 0))
            }
            Kind::Check => Some((flags(self.commits.check_leaders(&self.elections)), 0)),
            Kind::Rows(state) => Some(match check_commit_safety(state, &[]) {
                Ok(()) => (0, 0),
                Err(failure) => (
                    rule(failure.invariant(), failure.message()),
                    digits(failure.message())[0],
                ),
            }),
        }
    }

    /// The node as leader of the term, with all that its view showed last:
    /// ready to be run. A node without a view has the empty one.
    pub fn leader(&self, node: u64, term: u64) -> Call {
        let view = self.logs.last_views().get(&NodeId(node));
        let entries = view.into_iter().flat_map(|view| &view.entries);
        let log = entries.map(|(index, entry)| BootstrapLogEntry {
            index: *index,
            term: entry.term,
            kind: entry.kind.clone(),
        });
        let shown = Node {
            log: log.collect(),
            role: Role::Leader,
            current_term: Term(term),
            ..Node::default()
        };
        Call(Kind::Leader(one_node(node, shown)))
    }

    /// How many pairs of leader and term a log is kept for.
    pub fn leader_logs(&self) -> usize {
        self.logs.leader_logs_by_term.len()
    }

    /// The violations since the last call. They are only ever inserted, so
    /// taking them out loses nothing that the Rust looks at again.
    pub fn take_violations(&mut self) -> Vec<Violation> {
        let mut found = Vec::new();
        for violation in std::mem::take(&mut self.logs.violations) {
            found.push(numbers(violation.invariant, &violation.message));
        }
        for violation in std::mem::take(&mut self.commits.violations) {
            found.push(numbers(violation.invariant, &violation.message));
        }
        found
    }

    /// The violations that a check would find, certificate by certificate in
    /// the Rust's order of them: one is judged alone where the marks of all
    /// others are out of reach. The histories stay.
    pub fn check_one_by_one(&self) -> Vec<Violation> {
        let keys = self.keys();
        let mut found = Vec::new();
        for one in &keys {
            let mut alone = Self {
                commits: self.commits.clone(),
                ..Self::default()
            };
            let marks = &mut alone.commits.leader_completeness_checked_through;
            let others = keys.iter().filter(|key| *key != one);
            marks.extend(others.map(|key| (*key, LogIndex(u64::MAX))));
            let _ = alone.commits.check_leaders(&self.elections);
            found.append(&mut alone.take_violations());
        }
        found
    }

    /// Sets the marks of the first certificates.
    pub fn set_marks(&mut self, marks: impl Iterator<Item = u64>) {
        let marked = self.keys().into_iter().zip(marks.map(LogIndex));
        self.commits
            .leader_completeness_checked_through
            .extend(marked);
    }

    /// The certificates, by term, then arrival, as marks name them.
    fn keys(&self) -> Vec<(NodeId, Term, usize)> {
        let mut keys = Vec::new();
        for (term, certificates) in &self.elections.elected_by_term {
            let numbered = certificates.iter().enumerate();
            keys.extend(numbered.map(|(number, one)| (one.leader_id, *term, number)));
        }
        keys
    }

    /// Commits that no view reached: node, index.
    pub fn unseen(&self) -> Vec<(u64, u64)> {
        let marks = &self.commits.unwitnessed_committed_prefixes;
        marks
            .iter()
            .map(|(node, index)| (node.0, index.0))
            .collect()
    }

    /// Committed indexes without a commit term.
    pub fn unknown(&self) -> Vec<u64> {
        let indexes = &self.commits.unwitnessed_commit_terms;
        indexes.iter().map(|index| index.0).collect()
    }

    /// All that they hold. `child` gives a prefix's number from that of the
    /// prefix one shorter, 0 for the empty one, and its last entry. Panics if
    /// a part is written that no record of kinds 1 to 7 reaches, and that is
    /// left out here.
    pub fn kept(&self, child: &dyn Fn(usize, &LogEntry) -> usize) -> Kept {
        let commits = &self.commits;
        let reached = self.logs.is_of_views_and_leaders() && commits.certificates.is_empty();
        assert!(reached && commits.configuration_proposals.is_empty());
        let mut numbers = self.logs.numbers(child);
        let remembered = self.logs.prefixes_by_index_term.iter();
        let remembered = remembered
            .map(|((index, term), prefix)| (index.0, term.0, numbers.of(prefix)))
            .collect();
        let committed = commits.committed_prefix.as_ref();
        let committed = committed.map(|prefix| numbers.of(prefix));
        let mut elections = Vec::new();
        for (term, certificates) in &self.elections.elected_by_term {
            let elected = certificates.iter().map(|one| Elected {
                leader: one.leader_id.0,
                term: one.term.0,
                log: one
                    .logical_prefix_at_election
                    .as_ref()
                    .map(|prefix| numbers.of(prefix)),
            });
            elections.push((term.0, elected.collect()));
        }
        let checked = commits.leader_completeness_checked_through.iter();
        let checked = checked
            .map(|((leader, term, number), through)| ((leader.0, term.0, *number), through.0));
        Kept {
            remembered,
            views: self.views(),
            leader_logs: self.kept_for_leaders(),
            committed_prefix: committed,
            committed_prefix_owner: commits.owner().map(|node| node.0),
            committed_in_terms: commits.committed_in_terms.iter().map(|t| t.0).collect(),
            elections,
            checked: checked.collect(),
        }
    }

    fn views(&self) -> Vec<(u64, Vec<ViewEntry>)> {
        let mut views = Vec::new();
        for (node, view) in self.logs.last_views() {
            views.push((node.0, shown(&view.entries)));
        }
        views
    }

    fn kept_for_leaders(&self) -> Vec<(u64, u64, Vec<ViewEntry>)> {
        let logs = self.logs.leader_logs_by_term.iter();
        logs.map(|((leader, term), view)| (leader.0, term.0, shown(&view.entries)))
            .collect()
    }

    /// Length and owner of the committed prefix.
    pub fn committed(&self) -> Option<(u64, u64)> {
        let prefix = self.commits.committed_prefix.as_ref()?;
        let owner = self.commits.owner()?;
        Some((prefix.through().0, owner.0))
    }
}

/// All that a view showed.
fn shown(entries: &BTreeMap<LogIndex, LogEntry>) -> Vec<ViewEntry> {
    let entries = entries.iter().map(|(index, entry)| ViewEntry {
        index: index.0,
        term: entry.term.0,
        configuration: entry.kind.configuration,
        content: entry.kind.content.clone(),
    });
    entries.collect()
}

fn one_node(node: u64, shown: Node) -> Cluster {
    Cluster::of(BTreeMap::from([(NodeId(node), shown)]))
}

fn configuration(fields: Option<(u64, u64)>) -> Option<CommittedConfiguration> {
    fields.map(|(index, config_id)| CommittedConfiguration {
        index: LogIndex(index),
        config_id,
    })
}

/// The documents' flags for the marks that the four calls can set.
fn flags(marks: ObservationSet) -> u64 {
    let flag = |mark, number| if marks.contains(mark) { number } else { 0 };
    flag(Observation::CommittedPrefixHistoryComparisons, 1)
        + flag(Observation::CrossNodeCommittedPrefixAgreementChecks, 2)
        + flag(Observation::LaterTermLeaderPriorPrefixChecks, 4)
        + flag(Observation::SameTermLeaderLogGrowth, 8)
}

fn numbers(invariant: &str, message: &str) -> Violation {
    let found = digits(message);
    match (invariant, found.as_slice()) {
        (catalog::LG_01_LEADER_APPEND_ONLY, &[node, term]) => Violation {
            name: 1,
            node,
            index: 0,
            term,
        },
        (catalog::LG_03_LOG_MATCHING, &[node, index, term]) => Violation {
            name: 3,
            node,
            index,
            term,
        },
        (catalog::LG_04_COMMITTED_PREFIX_STABILITY, &[node, index]) => Violation {
            name: 4,
            node,
            index,
            term: 0,
        },
        (catalog::LG_05_LEADER_COMPLETENESS, &[node, term, index]) => Violation {
            name: 5,
            node,
            index,
            term,
        },
        _ => unreachable!("a violation that no record can cause: {invariant}: {message}"),
    }
}

fn rule(invariant: &str, message: &str) -> u64 {
    match invariant {
        catalog::CM_01_COMMIT_INDEX_MONOTONICITY_AND_BOUNDS if message.contains("regressed") => 1,
        catalog::CM_01_COMMIT_INDEX_MONOTONICITY_AND_BOUNDS => 4,
        catalog::MB_04_MONOTONE_CONFIGURATION_TRANSITION_AND_IDENTITY
            if message.contains("regressed") =>
        {
            2
        }
        catalog::MB_04_MONOTONE_CONFIGURATION_TRANSITION_AND_IDENTITY => 3,
        _ => unreachable!("a failure that no row can cause: {invariant}: {message}"),
    }
}

/// The numbers in a message, from the left.
fn digits(message: &str) -> Vec<u64> {
    message
        .split(|c: char| !c.is_ascii_digit())
        .filter(|run| !run.is_empty())
        .map(|run| run.parse().expect("a number that a unit printed"))
        .collect()
}
