// Stands in for the missing node/disconnect.rs: what hangs on the right of a disconnect.

use crate::dag::Dag;
use std::sync::Arc;

pub trait Disconnectable<C> {
    fn disconnect_dag_arc(self, other: Arc<C>) -> Dag<Arc<C>>;
    fn disconnect_dag_ref<'s>(&'s self, other: &'s C) -> Dag<&'s C>;
}

/// A node of the same kind.
impl<C> Disconnectable<C> for Arc<C> {
    fn disconnect_dag_arc(self, other: Arc<C>) -> Dag<Arc<C>> {
        Dag::Binary(other, self)
    }
    fn disconnect_dag_ref<'s>(&'s self, other: &'s C) -> Dag<&'s C> {
        Dag::Binary(other, self)
    }
}

/// A node of the same kind, or nothing.
impl<C> Disconnectable<C> for Option<Arc<C>> {
    fn disconnect_dag_arc(self, other: Arc<C>) -> Dag<Arc<C>> {
        match self {
            Some(right) => Dag::Binary(other, right),
            None => Dag::Unary(other),
        }
    }
    fn disconnect_dag_ref<'s>(&'s self, other: &'s C) -> Dag<&'s C> {
        match self {
            Some(right) => Dag::Binary(other, right),
            None => Dag::Unary(other),
        }
    }
}

/// Nothing.
#[derive(Copy, Clone, Debug, PartialEq, Eq, PartialOrd, Ord, Hash)]
pub struct NoDisconnect;

impl<C> Disconnectable<C> for NoDisconnect {
    fn disconnect_dag_arc(self, other: Arc<C>) -> Dag<Arc<C>> {
        Dag::Unary(other)
    }
    fn disconnect_dag_ref<'s>(&'s self, other: &'s C) -> Dag<&'s C> {
        Dag::Unary(other)
    }
}
