//! Stand-in for the crate `rafter`, whose files are not at hand.
//!
//! Document 01 fixes three plain numbers and an entry of a term and content
//! bytes, compared field by field; T-09 of document 02 gives the entry a mark. Everything else is an empty shell: a name
//! that the files of docs/src mention and that no record ever reaches.

use std::collections::BTreeSet;
use std::fmt;
use std::sync::Arc;

macro_rules! unit {
    ($name:ident) => {
        #[derive(Clone, Copy, Debug, Default, Eq, Hash, Ord, PartialEq, PartialOrd)]
        pub struct $name(pub u64);

        // A bare number, so that findings can be read back from messages.
        impl fmt::Display for $name {
            fn fmt(&self, f: &mut fmt::Formatter<'_>) -> fmt::Result {
                write!(f, "{}", self.0)
            }
        }
    };
}

unit!(NodeId);
unit!(LogIndex);
unit!(Term);
unit!(SnapshotTransferId);

impl LogIndex {
    pub const ZERO: Self = Self(0);

    pub const fn next(self) -> Self {
        Self(self.0 + 1)
    }
}

/// Content bytes. Shared, as the name in the Rust says, so that cloning an
/// entry costs the Rust no copy of the bytes; equality is that of the bytes.
pub type SharedPayload = Arc<[u8]>;

#[derive(Clone, Debug, Eq, Hash, PartialEq)]
pub struct LogEntryKind {
    /// A configuration entry; else a portion record.
    pub configuration: bool,
    pub content: SharedPayload,
}

#[derive(Clone, Debug, Eq, Hash, PartialEq)]
pub struct LogEntry {
    pub term: Term,
    pub kind: LogEntryKind,
}

#[derive(Clone, Debug, Eq, Hash, PartialEq)]
pub struct BootstrapLogEntry {
    pub index: LogIndex,
    pub term: Term,
    pub kind: LogEntryKind,
}

#[derive(Clone, Debug, Default, Eq, Hash, PartialEq)]
pub struct BootstrapState {
    pub snapshot: Option<BootstrapSnapshot>,
    pub log: Vec<BootstrapLogEntry>,
}

/// Never made: views of document 01 have no snapshot.
#[derive(Clone, Debug, Eq, Hash, PartialEq)]
pub struct BootstrapSnapshot {
    pub metadata: RaftSnapshotMetadata,
}

impl BootstrapSnapshot {
    pub fn transfer_id(&self) -> SnapshotTransferId {
        SnapshotTransferId(0)
    }
}

#[derive(Clone, Copy, Debug, Default, Eq, Hash, PartialEq)]
pub enum Role {
    #[default]
    Follower,
    Leader,
}

#[derive(Clone, Copy, Debug, Eq, Hash, Ord, PartialEq, PartialOrd)]
pub struct CommittedConfiguration {
    pub index: LogIndex,
    pub config_id: u64,
}

/// A node as one record shows it: only what the history asks of it.
#[derive(Clone, Debug, Default, Hash)]
pub struct Node {
    pub log: Vec<BootstrapLogEntry>,
    pub commit_index: LogIndex,
    pub last_log_index: LogIndex,
    pub committed_configuration: Option<CommittedConfiguration>,
    pub role: Role,
    pub current_term: Term,
    pub effective_membership: MembershipConfig,
}

impl Node {
    pub fn commit_index(&self) -> LogIndex {
        self.commit_index
    }

    pub fn last_log_index(&self) -> LogIndex {
        self.last_log_index
    }

    pub fn snapshot_index(&self) -> LogIndex {
        LogIndex::ZERO
    }

    pub fn role(&self) -> Role {
        self.role
    }

    pub fn current_term(&self) -> Term {
        self.current_term
    }

    pub fn effective_membership(&self) -> MembershipConfig {
        self.effective_membership.clone()
    }

    /// A row shows no entries, only its last index, so LG-04 of one state
    /// (`check_cross_node_committed_prefix_agreement`) has nothing to compare.
    pub fn log_entries_from(&self, _first: LogIndex) -> Vec<LogEntry> {
        Vec::new()
    }

    pub fn validate_derived_state(&self) -> Result<(), String> {
        Ok(())
    }
}

#[derive(Clone, Debug, Eq, Hash, PartialEq)]
pub struct MembershipSet(pub BTreeSet<NodeId>);

impl MembershipSet {
    pub fn voters(&self) -> &BTreeSet<NodeId> {
        &self.0
    }

    fn has_majority(&self, nodes: &BTreeSet<NodeId>) -> bool {
        2 * self.0.intersection(nodes).count() > self.0.len()
    }
}

#[derive(Clone, Debug, Eq, Hash, PartialEq)]
pub struct JointMembership {
    pub old: MembershipSet,
    pub new: MembershipSet,
}

impl JointMembership {
    pub fn old(&self) -> &MembershipSet {
        &self.old
    }

    pub fn new_membership(&self) -> &MembershipSet {
        &self.new
    }
}

#[derive(Clone, Debug, Eq, Hash, PartialEq)]
pub enum MembershipConfig {
    Stable(MembershipSet),
    Joint(JointMembership),
}

/// One voter: `check_membership_quorum_validity` wants none empty, and the
/// records of kinds 1 to 6 carry no membership.
impl Default for MembershipConfig {
    fn default() -> Self {
        Self::Stable(MembershipSet(BTreeSet::from([NodeId(0)])))
    }
}

impl MembershipConfig {
    pub fn has_quorum(&self, nodes: impl Iterator<Item = NodeId>) -> bool {
        let nodes = nodes.collect();
        match self {
            Self::Stable(set) => set.has_majority(&nodes),
            Self::Joint(joint) => joint.old.has_majority(&nodes) && joint.new.has_majority(&nodes),
        }
    }
}

// From here on: shells.

macro_rules! shell {
    ($($name:ident),*) => {
        $(#[derive(Clone, Copy, Debug, Default, Eq, Hash, Ord, PartialEq, PartialOrd)]
        pub struct $name;)*
    };
}

shell!(
    InMemorySnapshotChunkSource,
    LocalProposalDropReason,
    LocalProposalId,
    ProposalRejection,
    ReadIndexCancelReason,
    ReadIndexRejection
);

#[derive(Clone, Debug, Eq, Hash, PartialEq)]
pub enum Message {
    RequestVote(()),
    RequestVoteResponse(()),
    InstallSnapshot(()),
    InstallSnapshotChunk(()),
}

#[derive(Clone, Debug, Hash)]
pub struct NodeConfig;

impl NodeConfig {
    pub fn new(_id: NodeId, _peers: Vec<NodeId>, _ticks: u64) -> Result<Self, String> {
        Ok(Self)
    }

    pub fn with_pre_vote(self, _on: bool) -> Self {
        self
    }

    pub fn with_check_quorum(self, _on: bool) -> Self {
        self
    }
}

#[derive(Clone, Debug, Eq, Hash, PartialEq)]
pub struct RaftSnapshotMetadata {
    pub last_included_index: LogIndex,
    pub last_included_term: Term,
}

impl RaftSnapshotMetadata {
    pub fn new(
        _group: SnapshotGroupId,
        _writer: NodeId,
        last_included_index: LogIndex,
        last_included_term: Term,
        _hard_state_term: Term,
        _application: ApplicationSnapshotMetadata,
    ) -> Result<Self, String> {
        Ok(Self {
            last_included_index,
            last_included_term,
        })
    }
}

pub struct SnapshotGroupId;

impl SnapshotGroupId {
    pub fn new(_name: &str) -> Result<Self, String> {
        Ok(Self)
    }
}

pub struct ApplicationSnapshotKind;

impl ApplicationSnapshotKind {
    pub fn new(_name: &str) -> Result<Self, String> {
        Ok(Self)
    }
}

pub struct ApplicationSnapshotVersion;

impl ApplicationSnapshotVersion {
    pub fn new(_number: u32) -> Result<Self, String> {
        Ok(Self)
    }
}

pub struct ApplicationSnapshotMetadata;

impl ApplicationSnapshotMetadata {
    pub fn new(_kind: ApplicationSnapshotKind, _version: ApplicationSnapshotVersion) -> Self {
        Self
    }
}
