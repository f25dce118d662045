//! Stand-in: the parts of the model checker that the history needs, and
//! `judge`, the door through which the harness reaches them.

mod catalog;
mod explorers;
mod helpers;
mod invariants;
pub mod judge;
mod linearizability;
mod observations;
mod scheduling;
mod state;
mod types;

pub use catalog::reviewed_invariant_id;
pub use types::{Action, Failure, FailureKind, NodeSummary, ProposalId, ReplayCheck, StateSummary};
