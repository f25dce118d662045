//! Stand-in: rows have no snapshots, so their geometry holds.

use super::{Action, Cluster, Failure};

mod geometry;

pub(super) use geometry::check_snapshot_log_geometry;

pub(in crate::model_check) fn check_restart_snapshot_safety() {}

fn check_snapshot_covered_prefixes_in_cluster(
    _cluster: &Cluster,
    _trace: &[Action],
) -> Result<(), Failure> {
    Ok(())
}

fn check_snapshot_next_retained_indices_in_cluster(
    _cluster: &Cluster,
    _trace: &[Action],
) -> Result<(), Failure> {
    Ok(())
}

fn check_snapshot_persisted_boundaries_in_cluster(
    _cluster: &Cluster,
    _trace: &[Action],
) -> Result<(), Failure> {
    Ok(())
}
