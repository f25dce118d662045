//! The Rust's own state in document 01's terms. Where the two hold the same
//! in other shapes they are made alike here, and nowhere else; each place
//! says why, and docs/DIFFERENCES.md has its smallest input.

use std::collections::BTreeMap;

use rafter_sim::model_check::judge::{Elected, Kept, ViewEntry};

use crate::state::{Certificate, LeaderLog, Number, State, View};

/// The parts that the Rust has. `front` is the number of the front of a view.
/// The numbers, the findings' order and the stored prefixes are document 01's
/// alone, and come from `oracle`.
pub fn of_the_rust(kept: Kept, front: impl Fn(&[ViewEntry]) -> Number) -> State {
    let mut marks: Marks = kept.checked.into_iter().collect();
    let certificates = certificates(kept.elections, &mut marks);
    assert!(marks.is_empty(), "marks of no certificate: {marks:?}");
    let remembered = kept.remembered.into_iter();
    let views = kept.views.iter();
    let logs = kept.leader_logs.iter();
    State {
        remembered: remembered
            .map(|(index, term, prefix)| ((index as u32, term as u32), prefix))
            .collect(),
        views: views
            .filter_map(|(node, entries)| view(*node, entries, &front))
            .collect(),
        leader_logs: logs
            .map(|(leader, term, entries)| leader_log(*leader, *term, entries, &front))
            .collect(),
        // The Rust has no committed prefix and no owner at first. The bytes
        // have prefix number 0 and owner 0: a commit of index 0 keeps nothing,
        // so the empty prefix is never a committed one.
        committed: kept.committed_prefix.unwrap_or(0),
        owner: kept.committed_prefix_owner.unwrap_or(0) as u32,
        terms: kept.committed_in_terms.iter().map(|t| *t as u32).collect(),
        certificates,
        ..State::default()
    }
}

/// The Rust keeps every entry that a view showed, document 01 its front and
/// its last index: "only the front is used". The Rust tells an empty view
/// from none; document 01 does not ("no view counts as front 0").
fn view(node: u64, entries: &[ViewEntry], front: impl Fn(&[ViewEntry]) -> Number) -> Option<View> {
    let last = entries.last()?.index as u32;
    Some(View {
        node: node as u32,
        front: front(entries),
        last,
    })
}

/// Here the empty view is kept as any other.
fn leader_log(
    leader: u64,
    term: u64,
    entries: &[ViewEntry],
    front: impl Fn(&[ViewEntry]) -> Number,
) -> LeaderLog {
    LeaderLog {
        leader: leader as u32,
        term: term as u32,
        front: front(entries),
        last: entries.last().map_or(0, |entry| entry.index as u32),
    }
}

/// By leader, term and number within the term.
type Marks = BTreeMap<(u64, u64, usize), u64>;

/// Takes the marks out that certificates have. The Rust makes a mark at the
/// first check, document 01 with the certificate, as zero; the Rust's check
/// reads one that is absent as zero.
fn certificates(elections: Vec<(u64, Vec<Elected>)>, marks: &mut Marks) -> Vec<Certificate> {
    let mut all = Vec::new();
    for (term, elected) in elections {
        all.extend(elected.into_iter().enumerate().map(|(number, one)| {
            assert_eq!(one.term, term, "a certificate stands under its term");
            let mark = marks.remove(&(one.leader, term, number)).unwrap_or(0);
            Certificate {
                term: term as u32,
                number: number as u32,
                leader: one.leader as u32,
                log: one.log,
                mark: mark as u32,
            }
        }));
    }
    all
}
