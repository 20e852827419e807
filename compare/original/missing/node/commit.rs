// Stands in for the missing node/commit.rs: the names only. Nothing here makes such a node.

use super::{Marker, NoDisconnect, NoWitness, Node};
use crate::types::arrow::FinalArrow;
use crate::{Cmr, Ihr};

#[derive(Copy, Clone, PartialEq, Eq, PartialOrd, Ord, Debug, Hash)]
pub enum Commit {}

#[derive(Clone, Debug)]
pub struct CommitData {
    pub arrow: FinalArrow,
}

impl Marker for Commit {
    type CachedData = CommitData;
    type Witness = NoWitness;
    type Disconnect = NoDisconnect;
    type SharingId = Ihr;

    fn compute_sharing_id(_: Cmr, _: &CommitData) -> Option<Ihr> {
        None
    }
}

pub type CommitNode = Node<Commit>;
