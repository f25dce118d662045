//! Two subjects side by side, record by record, and the smallest chain on
//! which they part.

use crate::ledger::Ledger;
use crate::record::{read, write, Record};
use crate::state::State;
use crate::subject::{Answer, Lists, Subject};

/// Where and how the second subject parts from the first.
#[derive(Clone, Debug)]
pub struct Difference {
    /// From 1.
    pub record: usize,
    pub what: String,
}

/// What was compared, for the report.
#[derive(Clone, Copy, Default)]
pub struct Counts {
    pub chains: u64,
    pub records: u64,
    /// Accepted, by kind 1 to 7 and 9.
    pub accepted: [u64; 10],
    /// By refusal.
    pub refused: [u64; 20],
    /// Chains that ended with a finding, by name 1 to 5.
    pub found: [u64; 6],
    pub unseen: u64,
    pub unknown: u64,
    /// Records by the sum of flags.
    pub flags: [u64; 9],
    /// Failing rows by rule.
    pub rules: [u64; 5],
    /// Accepted checks, whose leader list the ledger must have as well, and
    /// those of them where it was not empty.
    pub ledger_checks: u64,
    pub ledger_leaders: u64,
    /// States compared, and those of them with a view that has a gap, with a
    /// certificate without a log, and with a mark neither zero nor at the
    /// committed end.
    pub states: u64,
    pub gaps: u64,
    /// With a log kept for a leader that has a gap.
    pub kept_gaps: u64,
    pub logless: u64,
    pub marks_between: u64,
    /// With a mark past it, which no history grown from fresh has.
    pub marks_past: u64,
}

impl Counts {
    fn note(&mut self, record: &[u8], answer: Answer) {
        self.records += 1;
        if answer.refusal != 0 {
            self.refused[answer.refusal as usize] += 1;
            return;
        }
        let kind = usize::from(record[0] >> 4);
        self.accepted[kind] += 1;
        match kind {
            2 | 5 | 7 => self.flags[answer.value as usize] += 1,
            6 => self.rules[answer.value as usize] += 1,
            _ => {}
        }
    }

    fn hold(&mut self, held: &State) {
        let end = held.length(held.committed);
        let certificates = &held.certificates;
        let gap = held.views.iter().any(|v| v.last > held.length(v.front));
        let logless = certificates.iter().any(|c| c.log.is_none());
        let between = certificates.iter().any(|c| c.mark > 0 && c.mark < end);
        let kept_gap = held.leader_logs.iter().any(|l| l.last > held.length(l.front));
        self.states += 1;
        self.kept_gaps += u64::from(kept_gap);
        self.gaps += u64::from(gap);
        self.logless += u64::from(logless);
        self.marks_between += u64::from(between);
        self.marks_past += u64::from(certificates.iter().any(|c| c.mark > end));
    }

    fn end(&mut self, lists: &Lists) {
        self.chains += 1;
        for name in 1..6 {
            let any = lists.findings.iter().any(|f| f.name as usize == name);
            self.found[name] += u64::from(any);
        }
        self.unseen += u64::from(!lists.unseen.is_empty());
        self.unknown += u64::from(!lists.unknown.is_empty());
    }
}

/// The answer, all lists and the state after every record; where a record is
/// refused, every byte that the second subject holds; at accepted checks the
/// judge's leader list with the plain ledger's; and at the end the lists in
/// printed order.
pub fn compare(
    oracle: &mut dyn Subject,
    subject: &mut dyn Subject,
    chain: &[Vec<u8>],
    counts: &mut Counts,
) -> Option<Difference> {
    oracle.fresh();
    subject.fresh();
    let mut before = Vec::new();
    let mut after = Vec::new();
    let mut ledger = oracle.grown_from_fresh().then(Ledger::default);
    let mut expected = (oracle.lists().sorted(), oracle.state());
    for (number, record) in (1..).zip(chain) {
        subject.bytes(&mut before);
        let judged = oracle.submit(record);
        let answer = subject.submit(record);
        counts.note(record, judged);
        let mut what = answers(judged, answer);
        if judged.refusal == 0 {
            expected = (oracle.lists().sorted(), oracle.state());
            let ledger = ledger.as_mut();
            what = what.or(ledger.and_then(|l| ledgers(l, record, &expected.0, counts)));
        } else {
            subject.bytes(&mut after);
            let refusal = judged.refusal;
            what = what.or((before != after).then(|| format!("refusal {refusal} changed bytes")));
        }
        let held = (subject.lists().sorted(), subject.state());
        let what = what.or_else(|| differing(&expected.0, &held.0));
        if let Some(what) = what.or_else(|| expected.1.difference(&held.1)) {
            return Some(Difference {
                record: number,
                what,
            });
        }
        counts.hold(&expected.1);
    }
    counts.end(&expected.0);
    differing(&oracle.lists(), &subject.lists()).map(|what| Difference {
        record: chain.len(),
        what: format!("as printed: {what}"),
    })
}

fn answers(one: Answer, two: Answer) -> Option<String> {
    (one != two).then(|| format!("the judge answers {one:?}, the other {two:?}"))
}

fn differing(one: &Lists, two: &Lists) -> Option<String> {
    (one != two).then(|| format!("the judge has {one:?}, the other {two:?}"))
}

/// Tells the ledger of an accepted record, and holds the leader lists together at a check.
fn ledgers(
    ledger: &mut Ledger,
    record: &[u8],
    expected: &Lists,
    counts: &mut Counts,
) -> Option<String> {
    let record = read(record).ok()?;
    let check = record == Record::Check;
    ledger.take(record);
    if !check {
        return None;
    }
    counts.ledger_checks += 1;
    counts.ledger_leaders += u64::from(!expected.leaders.is_empty());
    let leaders = ledger.leaders();
    (leaders != expected.leaders)
        .then(|| format!("the ledger has {leaders:?}, the judge {expected:?}"))
}

/// Drops records, then entries and rows, for as long as the two still part.
pub fn smallest(
    oracle: &mut dyn Subject,
    subject: &mut dyn Subject,
    chain: &[Vec<u8>],
) -> (Vec<Vec<u8>>, Difference) {
    let mut parts = |chain: &[Vec<u8>]| compare(oracle, subject, chain, &mut Counts::default());
    let mut best = chain.to_vec();
    let mut found = parts(&best).expect("a chain on which the two part");
    best.truncate(found.record);
    loop {
        let mut smaller = None;
        for candidate in without_one(&best) {
            if let Some(difference) = parts(&candidate) {
                smaller = Some((candidate, difference));
                break;
            }
        }
        match smaller {
            None => return (best, found),
            Some((candidate, difference)) => {
                best = candidate;
                best.truncate(difference.record);
                found = difference;
            }
        }
    }
}

/// The chain without one record, or with one record less one entry or row.
fn without_one(chain: &[Vec<u8>]) -> Vec<Vec<Vec<u8>>> {
    let mut smaller = Vec::new();
    for place in 0..chain.len() {
        let mut rest = chain.to_vec();
        rest.remove(place);
        smaller.push(rest);
    }
    for place in 0..chain.len() {
        for record in shorter(&chain[place]) {
            let mut rest = chain.to_vec();
            rest[place] = record;
            smaller.push(rest);
        }
    }
    smaller
}

fn shorter(record: &[u8]) -> Vec<Vec<u8>> {
    match read(record) {
        Ok(Record::View {
            node,
            marked,
            entries,
        }) => (0..entries.len())
            .rev()
            .map(|place| {
                let mut entries = entries.clone();
                entries.remove(place);
                write(&Record::View {
                    node,
                    marked,
                    entries,
                })
            })
            .collect(),
        Ok(Record::Rows(rows)) => (0..rows.len())
            .map(|place| {
                let mut rows = rows.clone();
                rows.remove(place);
                write(&Record::Rows(rows))
            })
            .collect(),
        _ => Vec::new(),
    }
}

pub fn hex(bytes: &[u8]) -> String {
    bytes.iter().map(|byte| format!("{byte:02x}")).collect()
}
