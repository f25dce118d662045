//! What is compared: something that takes records as bytes, has lists and holds
//! a state.

use crate::state::State;

/// What one record is answered. Refusal 0 means accepted.
#[derive(Clone, Copy, Debug, Default, Eq, PartialEq)]
pub struct Answer {
    pub refusal: u32,
    pub value: u32,
    pub node: u32,
}

impl Answer {
    pub fn accepted(value: u32) -> Self {
        Self {
            value,
            ..Self::default()
        }
    }

    pub fn refused(refusal: u32) -> Self {
        Self {
            refusal,
            ..Self::default()
        }
    }
}

/// The derived order is not the printed one, which has the term before the index.
#[derive(Clone, Copy, Debug, Eq, Ord, PartialEq, PartialOrd)]
pub struct Finding {
    /// 1, 3, 4 or 5 for LG-01, LG-03, LG-04, LG-05.
    pub name: u32,
    pub node: u32,
    pub index: u32,
    /// 0 for LG-04.
    pub term: u32,
}

/// The lists of the printed sheet.
#[derive(Clone, Debug, Default, Eq, PartialEq)]
pub struct Lists {
    pub findings: Vec<Finding>,
    /// term, leader
    pub leaders: Vec<(u32, u32)>,
    /// node, index
    pub unseen: Vec<(u32, u32)>,
    pub unknown: Vec<u32>,
    /// length, owner; 0, 0 if none
    pub committed: (u32, u32),
}

impl Lists {
    /// As sets. Nothing is dropped, so a row that stands twice is noticed.
    pub fn sorted(mut self) -> Self {
        self.findings.sort();
        self.leaders.sort();
        self.unseen.sort();
        self.unknown.sort();
        self
    }
}

pub trait Subject {
    /// Starts over with a fresh history.
    fn fresh(&mut self);
    fn submit(&mut self, record: &[u8]) -> Answer;
    /// In printed order.
    fn lists(&self) -> Lists;
    /// What its history holds.
    fn state(&self) -> State;
    /// Sets the marks of the first certificates, by term, then arrival.
    fn set_marks(&mut self, marks: &[u32]);
    /// What document 01's plain ledger says holds only then.
    fn grown_from_fresh(&self) -> bool {
        true
    }
    /// Writes every byte of the history over `out`: a refused record must leave them all.
    fn bytes(&self, out: &mut Vec<u8>);
}
