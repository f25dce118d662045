//! The judge: the Rust's histories, and around them what document 01 adds.
//!
//! The Rust decides findings, flags, unseen, unknown, the committed prefix,
//! refusal 8 (its panic) and 9 (its view gives no such log), and holds the
//! state. The rest is this file's and `record`'s, from document 01: reading,
//! the limits of 6, 7, 10 and 14, the stored prefixes, the leader list and the
//! order of findings, found and printed.

use std::collections::{BTreeSet, HashMap};
use std::panic::{self, catch_unwind, AssertUnwindSafe};
use std::sync::Arc;

use rafter_sim::model_check::judge::{Call, Histories, RowFields, ViewEntry, Violation};

use crate::record::{read, Configuration, Entry, Record, Row};
use crate::rust_state::of_the_rust;
use crate::state::{Number, Prefix, State, UNSTORED};
use crate::subject::{Answer, Finding, Lists, Subject};

/// Refusal 8 is the Rust's panic. It is caught, and need not be printed; any
/// other panic is.
pub fn hush_refusal_8() {
    let before = panic::take_hook();
    panic::set_hook(Box::new(move |info| {
        let expected = info
            .location()
            .is_some_and(|at| at.file().ends_with("commit/prefix.rs"));
        if !expected {
            before(info);
        }
    }));
}

const PREFIX_LIMIT: usize = 512;
const FINDING_LIMIT: usize = 128;
const CERTIFICATE_LIMIT: usize = 64;
const LEADER_LOG_LIMIT: usize = 64;

#[derive(Default)]
pub struct Oracle {
    histories: Histories,
    prefixes: Prefixes,
    /// In the order found.
    findings: Vec<Finding>,
    certificates: usize,
}

impl Subject for Oracle {
    fn fresh(&mut self) {
        *self = Self::default();
    }

    fn submit(&mut self, record: &[u8]) -> Answer {
        match read(record).and_then(|record| self.take(record)) {
            Ok(answer) => answer,
            Err(refusal) => Answer::refused(refusal),
        }
    }

    fn lists(&self) -> Lists {
        let leaders: BTreeSet<_> = self
            .findings
            .iter()
            .filter(|finding| finding.name == 5)
            .map(|finding| (finding.term, finding.node))
            .collect();
        let mut findings = self.findings.clone();
        findings.sort_by_key(|f| (f.name, f.node, f.term, f.index));
        let unseen = self.histories.unseen();
        let unknown = self.histories.unknown();
        let (length, owner) = self.histories.committed().unwrap_or((0, 0));
        Lists {
            findings,
            leaders: leaders.into_iter().collect(),
            unseen: unseen
                .into_iter()
                .map(|(n, i)| (n as u32, i as u32))
                .collect(),
            unknown: unknown.into_iter().map(|i| i as u32).collect(),
            committed: (length as u32, owner as u32),
        }
    }

    fn state(&self) -> State {
        let unseen = self.histories.unseen().into_iter();
        let number = |parent, term: u64, configuration, content: &Arc<[u8]>| {
            let child = self
                .prefixes
                .child(parent, term as u32, configuration, content);
            child.unwrap_or(UNSTORED)
        };
        let kept = self.histories.kept(&|parent, entry| {
            let kind = &entry.kind;
            number(parent, entry.term.0, kind.configuration, &kind.content)
        });
        let front = |view: &[ViewEntry]| {
            let front = (1..).zip(view).take_while(|(place, e)| e.index == *place);
            front.fold(0, |parent, (_, e)| {
                number(parent, e.term, e.configuration, &e.content)
            })
        };
        State {
            unseen: unseen.map(|(n, i)| (n as u32, i as u32)).collect(),
            findings: self.findings.clone(),
            stored: self.prefixes.stored.clone(),
            ..of_the_rust(kept, front)
        }
    }

    fn set_marks(&mut self, marks: &[u32]) {
        self.histories
            .set_marks(marks.iter().map(|mark| u64::from(*mark)));
    }

    /// The oracle has no bytes; a refused record's clone is dropped.
    fn bytes(&self, out: &mut Vec<u8>) {
        out.clear();
    }
}

impl Oracle {
    fn take(&mut self, record: Record) -> Result<Answer, u32> {
        let call = call(&record, &self.histories);
        let mut next = self.histories.clone();
        match record {
            Record::View { entries, .. } => {
                let missing = self.prefixes.missing(front(&entries));
                if self.prefixes.stored.len() + missing > PREFIX_LIMIT {
                    return Err(6);
                }
                next.run(&call);
                self.keep(next)?;
                let made = self.prefixes.store(front(&entries));
                Ok(Answer::accepted(made as u32))
            }
            Record::Commit { .. } | Record::Check => {
                let (flags, _) = next.run(&call).unwrap_or_default();
                self.keep(next)?;
                Ok(Answer::accepted(flags as u32))
            }
            Record::Terms { .. } => {
                catch_unwind(AssertUnwindSafe(|| next.run(&call))).map_err(|_| 8_u32)?;
                self.keep(next)?;
                Ok(Answer::default())
            }
            Record::Election { .. } => {
                next.run(&call).ok_or(9_u32)?;
                if self.certificates == CERTIFICATE_LIMIT {
                    return Err(10);
                }
                self.certificates += 1;
                self.keep(next)?;
                Ok(Answer::default())
            }
            Record::Leader { .. } => {
                let (flags, _) = next.run(&call).unwrap_or_default();
                if next.leader_logs() > LEADER_LOG_LIMIT {
                    return Err(14);
                }
                self.keep(next)?;
                Ok(Answer::accepted(flags as u32))
            }
            Record::Rows(_) => {
                let (rule, node) = next.run(&call).unwrap_or_default();
                Ok(Answer {
                    refusal: 0,
                    value: rule as u32,
                    node: node as u32,
                })
            }
        }
    }

    /// Keeps the clone that a record was run on: 7, and it is dropped, where
    /// the distinct findings would be too many.
    fn keep(&mut self, mut next: Histories) -> Result<(), u32> {
        let mut found: Vec<Finding> = next.take_violations().into_iter().map(finding).collect();
        found.retain(|f| !self.findings.contains(f));
        if self.findings.len() + found.len() > FINDING_LIMIT {
            return Err(7);
        }
        if found.len() > 1 {
            self.put_in_order(&mut found);
        }
        self.findings.extend(found);
        self.histories = next;
        Ok(())
    }

    /// The order in which one record finds; the Rust puts its findings into a
    /// set. A view's are of one node, by index; a check's come certificate by
    /// certificate.
    fn put_in_order(&self, found: &mut [Finding]) {
        if found[0].name != 5 {
            found.sort_by_key(|f| f.index);
            return;
        }
        let each = self.histories.check_one_by_one().into_iter().map(finding);
        let order: Vec<Finding> = each.collect();
        found.sort_by_key(|f| order.iter().position(|other| other == f));
    }
}

fn finding(violation: Violation) -> Finding {
    Finding {
        name: violation.name as u32,
        node: violation.node as u32,
        index: violation.index as u32,
        term: violation.term as u32,
    }
}

/// A record's fields in the Rust's own units. A leader's view is the one that
/// the histories hold.
pub fn call(record: &Record, histories: &Histories) -> Call {
    match record {
        Record::View { node, entries, .. } => {
            let entries = entries.iter().map(|entry| ViewEntry {
                index: u64::from(entry.index),
                term: u64::from(entry.term),
                configuration: entry.configuration,
                content: Arc::clone(&entry.content),
            });
            Call::view(u64::from(*node), entries)
        }
        Record::Commit { node, index } => Call::commit(u64::from(*node), u64::from(*index)),
        Record::Terms { old, new, term } => {
            Call::commit_terms(u64::from(*old), u64::from(*new), u64::from(*term))
        }
        Record::Election {
            leader,
            term,
            length,
        } => Call::election(u64::from(*leader), u64::from(*term), length.map(u64::from)),
        Record::Check => Call::check(),
        Record::Rows(rows) => Call::rows(rows.iter().map(row_fields)),
        Record::Leader { node, term } => histories.leader(u64::from(*node), u64::from(*term)),
    }
}

fn row_fields(row: &Row) -> RowFields {
    let configuration =
        |c: Configuration| c.map(|(index, identity)| (u64::from(index), u64::from(identity)));
    RowFields {
        node: u64::from(row.node),
        floor: u64::from(row.floor),
        commit: u64::from(row.commit),
        last: u64::from(row.last),
        floor_configuration: configuration(row.floor_configuration),
        actual_configuration: configuration(row.actual_configuration),
    }
}

/// The entries 1, 2, .. up to the first gap.
fn front(entries: &[Entry]) -> &[Entry] {
    let end = entries
        .iter()
        .zip(1..)
        .take_while(|(entry, place)| entry.index == *place)
        .count();
    &entries[..end]
}

/// The distinct nonempty prefixes of all accepted fronts, as a tree. The Rust
/// keeps only the first of each index and term, so it cannot be asked.
#[derive(Default)]
struct Prefixes {
    children: HashMap<(Number, u32, bool, Arc<[u8]>), Number>,
    /// In the order first seen: the one of place k has number k + 1.
    stored: Vec<Prefix>,
}

impl Prefixes {
    fn child(
        &self,
        parent: Number,
        term: u32,
        configuration: bool,
        content: &Arc<[u8]>,
    ) -> Option<Number> {
        let key = (parent, term, configuration, Arc::clone(content));
        self.children.get(&key).copied()
    }

    fn with(&self, parent: Number, entry: &Entry) -> Option<Number> {
        self.child(parent, entry.term, entry.configuration, &entry.content)
    }

    fn missing(&self, front: &[Entry]) -> usize {
        let mut at = 0;
        for (place, entry) in front.iter().enumerate() {
            match self.with(at, entry) {
                Some(child) => at = child,
                None => return front.len() - place,
            }
        }
        0
    }

    /// How many were new.
    fn store(&mut self, front: &[Entry]) -> usize {
        let before = self.stored.len();
        let mut at = 0;
        for entry in front {
            at = match self.with(at, entry) {
                Some(child) => child,
                None => {
                    self.stored.push(Prefix {
                        parent: at,
                        index: entry.index,
                        term: entry.term,
                        configuration: entry.configuration,
                        content: Arc::clone(&entry.content),
                    });
                    let number = self.stored.len();
                    let content = Arc::clone(&entry.content);
                    let key = (at, entry.term, entry.configuration, content);
                    self.children.insert(key, number);
                    number
                }
            };
        }
        self.stored.len() - before
    }
}
