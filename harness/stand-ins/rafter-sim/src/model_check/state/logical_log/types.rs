//! Stand-in: gathers the three files of types that are at hand.

mod prefix;
mod view;
mod violation;

pub(crate) use prefix::LogPrefixWitness;
pub(crate) use view::LogicalLogView;
pub(crate) use violation::LogicalLogViolation;
