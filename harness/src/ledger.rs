//! Document 01's plain ledger, which demand 3 is held against: entries
//! written out, no marks, no findings. Here it is held against the judge.

use std::collections::{BTreeMap, BTreeSet};

use crate::record::{Entry, Record};

struct Election {
    leader: u32,
    term: u32,
    log: Option<Vec<Entry>>,
}

#[derive(Default)]
pub struct Ledger {
    fronts: BTreeMap<u32, Vec<Entry>>,
    committed: Vec<Entry>,
    /// A commit term for each index that has one.
    terms: BTreeMap<u32, u32>,
    elections: Vec<Election>,
}

impl Ledger {
    fn front(&self, node: u32) -> &[Entry] {
        self.fronts.get(&node).map_or(&[], Vec::as_slice)
    }

    /// An accepted record. It is not told of refused ones.
    pub fn take(&mut self, record: Record) {
        match record {
            Record::View { node, entries, .. } => {
                let front = (1..)
                    .zip(entries)
                    .take_while(|(place, entry)| entry.index == *place);
                self.fronts
                    .insert(node, front.map(|(_, entry)| entry).collect());
            }
            Record::Commit { node, index } => {
                let front = self.front(node);
                if index > 0 && front.len() >= index as usize {
                    let shown = &front[..index as usize];
                    if shown.len() > self.committed.len() && shown.starts_with(&self.committed) {
                        self.committed = shown.to_vec();
                    }
                }
            }
            Record::Terms { old, new, term } => {
                if term != 0 {
                    for index in old + 1..=new {
                        let place = self.terms.entry(index).or_insert(term);
                        *place = term.min(*place);
                    }
                }
            }
            Record::Election {
                leader,
                term,
                length,
            } => {
                let log = length.map(|length| self.front(leader)[..length as usize].to_vec());
                self.elections.push(Election { leader, term, log });
            }
            Record::Check | Record::Rows(_) | Record::Leader { .. } => {}
        }
    }

    /// Term and leader of each election that lacks a committed entry of an earlier term.
    pub fn leaders(&self) -> Vec<(u32, u32)> {
        let lacking = self.elections.iter().filter(|election| {
            (1..=self.committed.len()).any(|index| {
                let earlier = self
                    .terms
                    .get(&(index as u32))
                    .is_some_and(|t| *t < election.term);
                let through = &self.committed[..index];
                earlier
                    && !election
                        .log
                        .as_ref()
                        .is_some_and(|log| log.starts_with(through))
            })
        });
        let once: BTreeSet<_> = lacking
            .map(|election| (election.term, election.leader))
            .collect();
        once.into_iter().collect()
    }
}
