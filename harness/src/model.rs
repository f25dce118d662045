//! Document 01 once more, and kind 7 of document 02, as plainly as it can be said: lists and loops, with
//! a reader of its own and nothing of the oracle or of `record`.
//!
//! It stands beside the library `history`, or in its place where that is not
//! made; what it is compared with is the Rust. It can also make one mistake on purpose: `harness
//! mistakes` shows that the chains notice each of them.

use std::sync::Arc;

use crate::state::{self, remembered, Number, State, View, UNSTORED};
use crate::subject::{Answer, Finding, Lists, Subject};

/// One mistake each, `Mistake::None` being the document.
#[derive(Clone, Copy, Debug, Default, Eq, PartialEq)]
pub enum Mistake {
    #[default]
    None,
    /// Document 01 names the first four as near at hand.
    MarkLeftUp,
    LastEntryOnly,
    MismatchReplaces,
    WalkEndsAtFirst,
    ShorterViewKeptOut,
    LaterViewBringsCommitIn,
    EntriesPastGapCount,
    UnseenStays,
    UnseenForgottenByView,
    OwnerStays,
    FlagTwoForOwner,
    FirstRelevantIndex,
    EqualTermRelevant,
    ZeroTermRelevant,
    AbsentTermRelevant,
    ZerosLowerMarks,
    EqualTermLowersMark,
    GreaterTermReplaces,
    CheckEndsAtFirst,
    ElectionKeepsFront,
    AbsentLogPasses,
    FillingIgnored,
    RiseBeforeLimit,
    AbsentFieldsIgnored,
    MarksIgnored,
    MarkBeforeTerm,
    SixCountsEntries,
    FoundCountsAsMade,
    SevenCountsRepeats,
    SevenBeforeSix,
    TenBeforeNine,
    RefusedViewReplaces,
    RefusedCommitClearsUnseen,
    RefusedCheckMovesMarks,
    RowsBeforeRules,
    LeaderTwice,
    FirstLeaderLogJudged,
    EntriesPastGapNotCounted,
    GapJudged,
    GrowthWithoutLonger,
    LeaderLogOfAnyTerm,
    OlderViewLeftAtRewrite,
    SevenBeforeFourteen,
    LastIndexOfFront,
    /// Seen only from marks past the committed end (`marked`).
    AllMarksMove,
    /// These are seen in the state alone.
    MarkLoweredToZero,
    CertificatesKeptByArrival,
    CheckByArrival,
}

pub const MISTAKES: [Mistake; 48] = [
    Mistake::MarkLeftUp,
    Mistake::LastEntryOnly,
    Mistake::MismatchReplaces,
    Mistake::WalkEndsAtFirst,
    Mistake::ShorterViewKeptOut,
    Mistake::LaterViewBringsCommitIn,
    Mistake::EntriesPastGapCount,
    Mistake::UnseenStays,
    Mistake::UnseenForgottenByView,
    Mistake::OwnerStays,
    Mistake::FlagTwoForOwner,
    Mistake::FirstRelevantIndex,
    Mistake::EqualTermRelevant,
    Mistake::ZeroTermRelevant,
    Mistake::AbsentTermRelevant,
    Mistake::ZerosLowerMarks,
    Mistake::EqualTermLowersMark,
    Mistake::GreaterTermReplaces,
    Mistake::CheckEndsAtFirst,
    Mistake::ElectionKeepsFront,
    Mistake::AbsentLogPasses,
    Mistake::FillingIgnored,
    Mistake::RiseBeforeLimit,
    Mistake::AbsentFieldsIgnored,
    Mistake::MarksIgnored,
    Mistake::MarkBeforeTerm,
    Mistake::SixCountsEntries,
    Mistake::FoundCountsAsMade,
    Mistake::SevenCountsRepeats,
    Mistake::SevenBeforeSix,
    Mistake::TenBeforeNine,
    Mistake::RefusedViewReplaces,
    Mistake::RefusedCommitClearsUnseen,
    Mistake::RefusedCheckMovesMarks,
    Mistake::RowsBeforeRules,
    Mistake::LeaderTwice,
    Mistake::FirstLeaderLogJudged,
    Mistake::EntriesPastGapNotCounted,
    Mistake::GapJudged,
    Mistake::GrowthWithoutLonger,
    Mistake::LeaderLogOfAnyTerm,
    Mistake::OlderViewLeftAtRewrite,
    Mistake::SevenBeforeFourteen,
    Mistake::LastIndexOfFront,
    Mistake::AllMarksMove,
    Mistake::MarkLoweredToZero,
    Mistake::CertificatesKeptByArrival,
    Mistake::CheckByArrival,
];

#[derive(Clone, Debug, Eq, PartialEq)]
struct Entry {
    term: u64,
    configuration: bool,
    /// Shared, so that equality of entries that are copies is quick.
    content: Arc<[u8]>,
}

type Prefix = Vec<Entry>;

struct Certificate {
    leader: u64,
    term: u64,
    log: Option<Prefix>,
    mark: usize,
}

/// The view kept for a leader of a term.
#[derive(Clone, Default)]
struct LeaderLog {
    leader: u64,
    term: u64,
    front: Prefix,
    last: u64,
}

#[derive(Default)]
pub struct Model {
    mistake: Mistake,
    /// Distinct nonempty prefixes of accepted fronts, in the order first seen.
    stored: Vec<Prefix>,
    /// Node, front and last index; one for each node that has a view.
    views: Vec<(u64, Prefix, u64)>,
    unseen: Vec<(u64, u64)>,
    committed: Prefix,
    owner: u64,
    terms: Vec<u64>,
    /// In the order of arrival.
    certificates: Vec<Certificate>,
    findings: Vec<Finding>,
    /// In the order first kept.
    leader_logs: Vec<LeaderLog>,
}

/// The fields of a row: node, floor, commit, last, floor configuration
/// (present, index, identity), actual configuration likewise.
type Row = [u64; 10];

enum Fields {
    View(u64, Vec<(u64, Entry)>),
    Commit(u64, u64),
    Terms(u64, u64, u64),
    Election(u64, u64, bool, u64),
    Check,
    Rows(Vec<Row>),
    Leader(u64, u64),
}

impl Model {
    pub fn with(mistake: Mistake) -> Self {
        Self {
            mistake,
            ..Self::default()
        }
    }

    fn is(&self, mistake: Mistake) -> bool {
        self.mistake == mistake
    }
}

impl Subject for Model {
    fn fresh(&mut self) {
        *self = Self::with(self.mistake);
    }

    fn submit(&mut self, record: &[u8]) -> Answer {
        let answer = parse(record, self.mistake).and_then(|fields| match fields {
            Fields::View(node, entries) => self.view(node, entries),
            Fields::Commit(node, index) => self.commit(node, index),
            Fields::Terms(old, new, term) => self.commit_terms(old, new, term),
            Fields::Election(leader, term, present, length) => {
                self.election(leader, term, present, length)
            }
            Fields::Check => self.check(),
            Fields::Rows(rows) => Ok(self.rows(&rows)),
            Fields::Leader(node, term) => self.leader(node, term),
        });
        match answer {
            Ok((value, node)) => Answer {
                refusal: 0,
                value,
                node,
            },
            Err(refusal) => Answer::refused(refusal),
        }
    }

    fn lists(&self) -> Lists {
        let mut findings = self.findings.clone();
        findings.sort_by_key(|f| (f.name, f.node, f.term, f.index));
        let mut leaders: Vec<(u32, u32)> = Vec::new();
        for f in self.findings.iter().filter(|f| f.name == 5) {
            if self.is(Mistake::LeaderTwice) || !leaders.contains(&(f.term, f.node)) {
                leaders.push((f.term, f.node));
            }
        }
        leaders.sort();
        let known = |index: &usize| self.terms.get(index - 1).is_some_and(|term| *term != 0);
        let unknown = (1..=self.committed.len()).filter(|index| !known(index));
        Lists {
            findings,
            leaders,
            unseen: self.unseen_marks(),
            unknown: unknown.map(|index| index as u32).collect(),
            committed: (self.committed.len() as u32, self.owner as u32),
        }
    }

    fn state(&self) -> State {
        let shown = self.views.iter().filter(|(_, _, last)| *last != 0);
        let stored = self.prefixes();
        State {
            remembered: remembered(&stored),
            stored,
            views: shown
                .map(|(node, front, last)| View {
                    node: *node as u32,
                    front: self.number(front),
                    last: *last as u32,
                })
                .collect(),
            unseen: self.unseen_marks(),
            committed: self.number(&self.committed),
            owner: self.owner as u32,
            terms: self.terms.iter().map(|term| *term as u32).collect(),
            certificates: self.numbered(),
            leader_logs: self.kept_for_leaders(),
            findings: self.findings.clone(),
        }
    }

    fn set_marks(&mut self, marks: &[u32]) {
        for (place, mark) in self.in_order().into_iter().zip(marks) {
            self.certificates[place].mark = *mark as usize;
        }
    }

    /// Every part of the history, each behind its length. Stored prefixes are
    /// only ever added, so their number stands for them.
    fn bytes(&self, out: &mut Vec<u8>) {
        out.clear();
        let mut put = |number: u64| out.extend(number.to_be_bytes());
        put(self.stored.len() as u64);
        put(self.views.len() as u64);
        for (node, front, last) in &self.views {
            put(*node);
            put_prefix(&mut put, front);
            put(*last);
        }
        for (node, index) in &self.unseen {
            put(*node);
            put(*index);
        }
        put(self.unseen.len() as u64);
        put_prefix(&mut put, &self.committed);
        put(self.owner);
        self.terms.iter().for_each(|term| put(*term));
        put(self.terms.len() as u64);
        for certificate in &self.certificates {
            put(certificate.leader);
            put(certificate.term);
            put(certificate.mark as u64);
            put_prefix(&mut put, certificate.log.as_deref().unwrap_or(&[]));
            put(u64::from(certificate.log.is_some()));
        }
        put(self.certificates.len() as u64);
        for f in &self.findings {
            [f.name, f.node, f.index, f.term]
                .iter()
                .for_each(|n| put(u64::from(*n)));
        }
        put(self.findings.len() as u64);
        for kept in &self.leader_logs {
            put(kept.leader);
            put(kept.term);
            put_prefix(&mut put, &kept.front);
            put(kept.last);
        }
        put(self.leader_logs.len() as u64);
    }
}

fn put_prefix(put: &mut impl FnMut(u64), prefix: &[Entry]) {
    put(prefix.len() as u64);
    for entry in prefix {
        put(entry.term);
        put(u64::from(entry.configuration));
        put(entry.content.len() as u64);
        entry.content.iter().for_each(|byte| put(u64::from(*byte)));
    }
}

type Outcome = Result<(u32, u32), u32>;

impl Model {
    /// The places of certificates by term, then arrival: a stable sort.
    fn in_order(&self) -> Vec<usize> {
        let mut order: Vec<usize> = (0..self.certificates.len()).collect();
        if !self.is(Mistake::CertificatesKeptByArrival) {
            order.sort_by_key(|place| self.certificates[*place].term);
        }
        order
    }

    /// A prefix's place among the stored ones, from 1.
    fn number(&self, prefix: &[Entry]) -> Number {
        if prefix.is_empty() {
            return 0;
        }
        // From the end: the one that a prefix extends mostly stands right before it.
        let place = self.stored.iter().rposition(|stored| stored == prefix);
        place.map_or(UNSTORED, |place| place + 1)
    }

    /// Node and index, ascending.
    fn unseen_marks(&self) -> Vec<(u32, u32)> {
        let marks = self.unseen.iter();
        let mut unseen: Vec<_> = marks.map(|(n, i)| (*n as u32, *i as u32)).collect();
        unseen.sort();
        unseen
    }

    fn prefixes(&self) -> Vec<state::Prefix> {
        let row = |prefix: &Prefix| {
            let (last, parent) = prefix.split_last().expect("a prefix that is not empty");
            state::Prefix {
                parent: self.number(parent),
                index: prefix.len() as u32,
                term: last.term as u32,
                configuration: last.configuration,
                content: Arc::clone(&last.content),
            }
        };
        self.stored.iter().map(row).collect()
    }

    fn numbered(&self) -> Vec<state::Certificate> {
        let mut all: Vec<state::Certificate> = Vec::new();
        for place in self.in_order() {
            let one = &self.certificates[place];
            let term = one.term as u32;
            all.push(state::Certificate {
                term,
                number: all.iter().filter(|before| before.term == term).count() as u32,
                leader: one.leader as u32,
                log: one.log.as_ref().map(|log| self.number(log)),
                mark: one.mark as u32,
            });
        }
        all
    }

    /// By leader, then term.
    fn kept_for_leaders(&self) -> Vec<state::LeaderLog> {
        let logs = self.leader_logs.iter().map(|kept| state::LeaderLog {
            leader: kept.leader as u32,
            term: kept.term as u32,
            front: self.number(&kept.front),
            last: kept.last as u32,
        });
        let mut logs: Vec<_> = logs.collect();
        logs.sort();
        logs
    }

    fn front(&self, node: u64) -> &[Entry] {
        let found = self.views.iter().find(|(n, _, _)| *n == node);
        found.map_or(&[], |(_, front, _)| front.as_slice())
    }

    fn same(&self, left: &[Entry], right: &[Entry]) -> bool {
        if self.is(Mistake::LastEntryOnly) {
            return left.len() == right.len() && left.last() == right.last();
        }
        left == right
    }

    /// The findings with these, each once; 7 when they would exceed 128.
    fn with_findings(&self, new: &[Finding]) -> Result<Vec<Finding>, u32> {
        let mut all = self.findings.clone();
        for finding in new {
            if !all.contains(finding) {
                all.push(*finding);
            }
        }
        let count = match self.mistake {
            Mistake::SevenCountsRepeats => self.findings.len() + new.len(),
            _ => all.len(),
        };
        if count > 128 {
            return Err(7);
        }
        Ok(all)
    }

    fn view(&mut self, node: u64, entries: Vec<(u64, Entry)>) -> Outcome {
        let mut front: Prefix = Vec::new();
        let last = entries.last().map_or(0, |(index, _)| *index);
        for (index, entry) in entries {
            if index != front.len() as u64 + 1 && !self.is(Mistake::EntriesPastGapCount) {
                break;
            }
            front.push(entry);
        }
        let last = match self.mistake {
            Mistake::LastIndexOfFront => front.len() as u64,
            _ => last,
        };

        let mut missing = Vec::new();
        let mut found = Vec::new();
        for length in 1..=front.len() {
            let prefix = &front[..length];
            let mut alike = self.stored.iter().filter(|p| p.len() == length);
            if !alike.any(|p| p == prefix) {
                missing.push(prefix.to_vec());
            }
            let term = front[length - 1].term;
            let remembered = self
                .stored
                .iter()
                .find(|p| p.len() == length && p[length - 1].term == term);
            if remembered.is_some_and(|first| !self.same(first, prefix)) {
                found.push(Finding {
                    name: 3,
                    node: node as u32,
                    index: length as u32,
                    term: term as u32,
                });
                if self.is(Mistake::WalkEndsAtFirst) {
                    break;
                }
            }
        }
        if self.is(Mistake::RefusedViewReplaces) {
            self.replace_view(node, front.clone(), last);
        }
        let more = match self.mistake {
            Mistake::SixCountsEntries => front.len(),
            _ => missing.len(),
        };
        if self.is(Mistake::SevenBeforeSix) {
            self.with_findings(&found)?;
        }
        if self.stored.len() + more > 512 {
            return Err(6);
        }
        self.findings = self.with_findings(&found)?;
        let made = match self.mistake {
            Mistake::FoundCountsAsMade => front.len(),
            _ => missing.len(),
        };
        self.stored.extend(missing);
        if self.is(Mistake::UnseenForgottenByView) {
            self.unseen.retain(|(n, _)| *n != node);
        }
        if !(self.is(Mistake::ShorterViewKeptOut) && front.len() < self.front(node).len()) {
            self.replace_view(node, front, last);
        }
        if self.is(Mistake::LaterViewBringsCommitIn) {
            if let Some((_, index)) = self.unseen.iter().find(|(n, _)| *n == node).copied() {
                let _ = self.commit(node, index);
            }
        }
        Ok((made as u32, 0))
    }

    fn replace_view(&mut self, node: u64, front: Prefix, last: u64) {
        self.views.retain(|(n, _, _)| *n != node);
        self.views.push((node, front, last));
        self.views.sort_by_key(|(n, _, _)| *n);
    }

    fn commit(&mut self, node: u64, index: u64) -> Outcome {
        let reach = index as usize;
        if index == 0 || self.front(node).len() < reach {
            if !self.is(Mistake::UnseenStays) {
                self.unseen.retain(|(n, _)| *n != node);
            }
            if index != 0 {
                self.unseen.push((node, index));
            }
            return Ok((0, 0));
        }
        let seen = self.front(node)[..reach].to_vec();
        let end = seen.len().min(self.committed.len());
        let agree = self.same(&seen[..end], &self.committed[..end]);
        if self.is(Mistake::RefusedCommitClearsUnseen) {
            self.unseen.retain(|(n, _)| *n != node);
        }
        let mut value = 0;
        if !agree {
            let finding = Finding {
                name: 4,
                node: node as u32,
                index: end as u32,
                term: 0,
            };
            self.findings = self.with_findings(&[finding])?;
        } else if !self.committed.is_empty() {
            value = 1;
            if self.owner != node || self.is(Mistake::FlagTwoForOwner) {
                value += 2;
            }
        }
        if !self.is(Mistake::UnseenStays) {
            self.unseen.retain(|(n, _)| *n != node);
        }
        let kept = agree || self.is(Mistake::MismatchReplaces);
        if kept && seen.len() > self.committed.len() {
            if !self.is(Mistake::OwnerStays) || self.committed.is_empty() {
                self.owner = node;
            }
            self.committed = seen;
        }
        Ok((value, 0))
    }

    fn commit_terms(&mut self, old: u64, new: u64, term: u64) -> Outcome {
        if old > new {
            return Err(8);
        }
        let mut first_changed = None;
        while (self.terms.len() as u64) < new {
            self.terms.push(0);
            if self.is(Mistake::ZerosLowerMarks) && first_changed.is_none() {
                first_changed = Some(self.terms.len());
            }
        }
        for index in old as usize + 1..=new as usize {
            let place = self.terms[index - 1];
            let replaces = place == 0 || place > term || self.is(Mistake::GreaterTermReplaces);
            if term != 0 && replaces {
                self.terms[index - 1] = term;
                first_changed = first_changed.or(Some(index));
            }
        }
        if self.is(Mistake::MarkLeftUp) {
            return Ok((0, 0));
        }
        if let Some(first) = first_changed {
            let least = if self.is(Mistake::EqualTermLowersMark) {
                term
            } else {
                term + 1
            };
            for certificate in &mut self.certificates {
                if certificate.term >= least && certificate.mark >= first {
                    certificate.mark = match self.mistake {
                        Mistake::MarkLoweredToZero => 0,
                        _ => first - 1,
                    };
                }
            }
        }
        Ok((0, 0))
    }

    fn election(&mut self, leader: u64, term: u64, present: bool, length: u64) -> Outcome {
        let full = self.certificates.len() == 64;
        if full && self.is(Mistake::TenBeforeNine) {
            return Err(10);
        }
        let front = self.front(leader);
        if length as usize > front.len() {
            return Err(9);
        }
        if full {
            return Err(10);
        }
        let end = match self.mistake {
            Mistake::ElectionKeepsFront => front.len(),
            _ => length as usize,
        };
        let log = present.then(|| front[..end].to_vec());
        self.certificates.push(Certificate {
            leader,
            term,
            log,
            mark: 0,
        });
        Ok((0, 0))
    }

    /// A committed index whose commit term is recorded as zero.
    pub fn has_committed_zero(&self) -> bool {
        let recorded = self.terms.iter().take(self.committed.len());
        recorded.into_iter().any(|term| *term == 0)
    }

    /// The last committed index after the mark with a recorded term, not zero, below the certificate's.
    fn relevant(&self, certificate: &Certificate) -> Option<usize> {
        let below = |index: &usize| match self.terms.get(index - 1) {
            None => self.is(Mistake::AbsentTermRelevant),
            Some(0) if !self.is(Mistake::ZeroTermRelevant) => false,
            Some(term) if self.is(Mistake::EqualTermRelevant) => *term <= certificate.term,
            Some(term) => *term < certificate.term,
        };
        let mut after = (certificate.mark + 1..=self.committed.len()).filter(below);
        if self.is(Mistake::FirstRelevantIndex) {
            after.next()
        } else {
            after.last()
        }
    }

    fn check(&mut self) -> Outcome {
        let end = self.committed.len();
        let order = match self.mistake {
            Mistake::CheckByArrival => (0..self.certificates.len()).collect(),
            _ => self.in_order(),
        };
        let mut value = 0;
        let mut found = Vec::new();
        let mut moved = Vec::new();
        for place in order {
            let certificate = &self.certificates[place];
            if end <= certificate.mark {
                continue;
            }
            moved.push(place);
            let Some(index) = self.relevant(certificate) else {
                continue;
            };
            value = 4;
            let lacking = match &certificate.log {
                None => !self.is(Mistake::AbsentLogPasses),
                Some(log) => {
                    log.len() < index || !self.same(&log[..index], &self.committed[..index])
                }
            };
            if lacking {
                found.push(Finding {
                    name: 5,
                    node: certificate.leader as u32,
                    index: index as u32,
                    term: certificate.term as u32,
                });
                if self.is(Mistake::CheckEndsAtFirst) {
                    break;
                }
            }
        }
        if self.is(Mistake::RefusedCheckMovesMarks) {
            moved
                .iter()
                .for_each(|place| self.certificates[*place].mark = end);
        }
        self.findings = self.with_findings(&found)?;
        if self.is(Mistake::AllMarksMove) && !moved.is_empty() {
            moved = (0..self.certificates.len()).collect();
        }
        moved
            .iter()
            .for_each(|place| self.certificates[*place].mark = end);
        Ok((value, 0))
    }

    /// The node's present view against the one kept for it in the term.
    fn leader(&mut self, leader: u64, term: u64) -> Outcome {
        let shown = self.views.iter().find(|(n, _, _)| *n == leader);
        let (front, mut last) =
            shown.map_or_else(Default::default, |(_, front, last)| (front.clone(), *last));
        if self.is(Mistake::EntriesPastGapNotCounted) {
            last = front.len() as u64;
        }
        let present = LeaderLog {
            leader,
            term,
            front,
            last,
        };
        let any_term = self.is(Mistake::LeaderLogOfAnyTerm);
        let of_pair =
            |kept: &LeaderLog| kept.leader == leader && (kept.term == term || any_term);
        let place = self.leader_logs.iter().position(of_pair);
        let older = match place {
            Some(place) => Some(self.leader_logs[place].clone()),
            None => self
                .is(Mistake::FirstLeaderLogJudged)
                .then(LeaderLog::default),
        };
        let (value, rewrites) = older.map_or((0, false), |older| self.held(&older, &present));
        let lg01 = Finding {
            name: 1,
            node: leader as u32,
            index: 0,
            term: term as u32,
        };
        let found: &[Finding] = if rewrites { &[lg01] } else { &[] };
        if self.is(Mistake::SevenBeforeFourteen) && place.is_none() {
            // One that would be judged brings no finding, so this asks of the findings as they are.
            if self.findings.len() == 128 && self.leader_logs.len() == 64 {
                return Err(7);
            }
        }
        if place.is_none() && self.leader_logs.len() == 64 {
            return Err(14);
        }
        self.findings = self.with_findings(found)?;
        match place {
            Some(_) if rewrites && self.is(Mistake::OlderViewLeftAtRewrite) => {}
            Some(place) => self.leader_logs[place] = present,
            None => self.leader_logs.push(present),
        }
        Ok((value, 0))
    }

    /// The flag of growth, and whether the newer view rewrites the older.
    fn held(&self, older: &LeaderLog, newer: &LeaderLog) -> (u32, bool) {
        if newer.last < older.last {
            return (0, true);
        }
        let through = older.last as usize;
        let gap = older.front.len() < through || newer.front.len() < through;
        if gap && !self.is(Mistake::GapJudged) {
            return (0, false);
        }
        let end = through.min(older.front.len()).min(newer.front.len());
        if !self.same(&older.front[..end], &newer.front[..end]) {
            return (0, true);
        }
        let longer = newer.last > older.last || self.is(Mistake::GrowthWithoutLonger);
        (if longer { 8 } else { 0 }, false)
    }

    fn rows(&self, rows: &[Row]) -> (u32, u32) {
        let fails = |rule: u32, row: &Row| {
            let [_, floor, commit, last, has_floor, floor_at, floor_id, has_now, now_at, now_id] =
                *row;
            match rule {
                1 => commit < floor,
                2 => has_floor == 1 && (has_now == 0 || now_at < floor_at),
                3 => has_floor == 1 && has_now == 1 && now_at == floor_at && now_id != floor_id,
                _ => commit > last,
            }
        };
        let mut pairs: Vec<(u32, &Row)> = Vec::new();
        for rule in 1..=4 {
            pairs.extend(rows.iter().map(|row| (rule, row)));
        }
        if self.is(Mistake::RowsBeforeRules) {
            pairs.sort_by_key(|(_, row)| row[0]);
        }
        let failing = pairs.into_iter().find(|(rule, row)| fails(*rule, row));
        failing.map_or((0, 0), |(rule, row)| (rule, row[0] as u32))
    }
}

/// The bits of a record not yet read.
struct Bits {
    all: Vec<bool>,
    at: usize,
}

impl Bits {
    fn take(&mut self, width: usize) -> Result<u64, u32> {
        let bits = self.all.get(self.at..self.at + width).ok_or(2_u32)?;
        self.at += width;
        Ok(bits
            .iter()
            .fold(0, |number, bit| 2 * number + u64::from(*bit)))
    }

    fn up_to(&mut self, width: usize, limit: u64) -> Result<u64, u32> {
        let number = self.take(width)?;
        if number > limit {
            return Err(4);
        }
        Ok(number)
    }
}

fn parse(record: &[u8], mistake: Mistake) -> Result<Fields, u32> {
    let bit = |place: usize| record[place / 8] & (128 >> (place % 8)) != 0;
    let mut bits = Bits {
        all: (0..8 * record.len()).map(bit).collect(),
        at: 0,
    };
    let absent_limit = |width: u32| match mistake {
        Mistake::AbsentFieldsIgnored => 2_u64.pow(width) - 1,
        _ => 0,
    };
    let fields = match bits.take(4)? {
        kind @ (1 | 9) => {
            let marked = kind == 9;
            let node = bits.take(6)?;
            let count = bits.up_to(10, 256)?;
            let mut entries: Vec<(u64, Entry)> = Vec::new();
            for _ in 0..count {
                let index = bits.take(10)?;
                let rises = entries.last().is_none_or(|(before, _)| index > *before);
                if mistake == Mistake::RiseBeforeLimit && !rises {
                    return Err(5);
                }
                if index == 0 || index > 256 {
                    return Err(4);
                }
                if !rises {
                    return Err(5);
                }
                let early = marked && mistake == Mistake::MarkBeforeTerm;
                let mut mark = early && bits.take(1)? == 1;
                let term = bits.take(32)?;
                if marked && !early {
                    mark = bits.take(1)? == 1;
                }
                let configuration = mark && mistake != Mistake::MarksIgnored;
                let length = bits.up_to(6, 32)?;
                let mut content = Vec::new();
                for _ in 0..length {
                    content.push(bits.take(8)? as u8);
                }
                let content = content.into();
                let entry = Entry {
                    term,
                    configuration,
                    content,
                };
                entries.push((index, entry));
            }
            Fields::View(node, entries)
        }
        2 => Fields::Commit(bits.take(6)?, bits.up_to(10, 256)?),
        3 => Fields::Terms(bits.up_to(10, 256)?, bits.up_to(10, 256)?, bits.take(32)?),
        4 => {
            let leader = bits.take(6)?;
            let term = bits.take(32)?;
            let present = bits.take(1)? == 1;
            let limit = if present { 256 } else { absent_limit(10) };
            let length = bits.up_to(10, limit)?;
            Fields::Election(leader, term, present, if present { length } else { 0 })
        }
        5 => Fields::Check,
        6 => {
            let count = bits.up_to(10, 256)?;
            let mut rows: Vec<Row> = Vec::new();
            for _ in 0..count {
                let mut row = [0; 10];
                row[0] = bits.take(6)?;
                if rows.last().is_some_and(|before| row[0] <= before[0]) {
                    return Err(5);
                }
                for place in 1..4 {
                    row[place] = bits.up_to(10, 256)?;
                }
                for at in [4, 7] {
                    row[at] = bits.take(1)?;
                    let present = row[at] == 1;
                    row[at + 1] = bits.up_to(10, if present { 256 } else { absent_limit(10) })?;
                    let any = u64::from(u32::MAX);
                    row[at + 2] = bits.up_to(32, if present { any } else { absent_limit(32) })?;
                }
                rows.push(row);
            }
            Fields::Rows(rows)
        }
        7 => Fields::Leader(bits.take(6)?, bits.take(32)?),
        _ => return Err(1),
    };
    let left = &bits.all[bits.at..];
    if left.len() > 7 || (left.contains(&true) && mistake != Mistake::FillingIgnored) {
        return Err(3);
    }
    Ok(fields)
}
