//! Stand-in, and the door to `last_views_by_node`, private to the parent, and
//! to the entries of prefixes.

use std::collections::BTreeMap;

use rafter::{LogEntry, LogIndex, NodeId, Term};

use crate::model_check::observations::ObservationSet;
use crate::Cluster;

use super::{LogPrefixWitness, LogicalLogHistory, LogicalLogView};

impl LogicalLogHistory {
    /// `observe_cluster` on a cluster of one node. It replaces the views of
    /// all nodes by those of its cluster, so the lost ones are put back.
    pub(in crate::model_check) fn observe_one(&mut self, cluster: &Cluster) -> ObservationSet {
        let mut views = std::mem::take(&mut self.last_views_by_node);
        let marks = self.observe_cluster(cluster);
        views.append(&mut self.last_views_by_node);
        self.last_views_by_node = views;
        marks
    }

    /// `prefix_from_view` on the node's view: nothing where it has a gap or
    /// ends before. A node without a view has the empty one.
    pub(in crate::model_check) fn front_through(
        &self,
        node: NodeId,
        length: LogIndex,
    ) -> Option<LogPrefixWitness> {
        let empty = LogicalLogView {
            snapshot: None,
            entries: BTreeMap::new(),
        };
        let view = self.last_views_by_node.get(&node).unwrap_or(&empty);
        self.prefix_from_view(view, length)
    }

    pub(in crate::model_check) fn numbers<'a>(
        &self,
        child: &'a dyn Fn(usize, &LogEntry) -> usize,
    ) -> Numbers<'a> {
        Numbers {
            child,
            told: BTreeMap::new(),
        }
    }

    pub(in crate::model_check) fn last_views(&self) -> &BTreeMap<NodeId, LogicalLogView> {
        &self.last_views_by_node
    }

    /// Whether the parts that only snapshots and appends write are as they
    /// were at first.
    pub(in crate::model_check) fn is_of_views_and_leaders(&self) -> bool {
        self.snapshot_prefixes_by_owner_transfer.is_empty()
            && self.unwitnessed_snapshots.is_empty()
            && self.append_prev_log_violations.is_empty()
            && self.append_stored_suffix_violations.is_empty()
    }
}

/// The number of a prefix, told by that of the prefix one shorter and its last
/// entry: so prefixes are read out, entry by entry, and each entry once.
pub(in crate::model_check) struct Numbers<'a> {
    child: &'a dyn Fn(usize, &LogEntry) -> usize,
    /// Numbers that were told already, by index and term. Whether it is the
    /// same prefix the Rust says: at once where it is the same node.
    told: BTreeMap<(LogIndex, Term), (LogPrefixWitness, usize)>,
}

impl Numbers<'_> {
    pub(in crate::model_check) fn of(&mut self, prefix: &LogPrefixWitness) -> usize {
        let (shorter, longer) = self.told_end(prefix);
        let mut number = shorter;
        for prefix in longer.into_iter().rev() {
            let entry = prefix.last().expect("a prefix that is not empty");
            number = (self.child)(number, entry);
            let key = (prefix.through(), entry.term);
            self.told.entry(key).or_insert((prefix, number));
        }
        number
    }

    /// The number of the longest shorter prefix that was told, 0 for the
    /// empty one, and the prefixes past it, the longest first.
    fn told_end(&self, prefix: &LogPrefixWitness) -> (usize, Vec<LogPrefixWitness>) {
        let mut longer = Vec::new();
        let mut rest = prefix.clone();
        while let Some(entry) = rest.last() {
            let told = self.told.get(&(rest.through(), entry.term));
            if let Some((_, number)) = told.filter(|(known, _)| *known == rest) {
                return (*number, longer);
            }
            let shorter = LogIndex(rest.through().0 - 1);
            let shorter = rest.slice_through(shorter).expect("a shorter prefix");
            longer.push(std::mem::replace(&mut rest, shorter));
        }
        (0, longer)
    }
}
