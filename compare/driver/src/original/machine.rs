//! Runs on the unmodified bit machine.

use crate::original::cells;
use crate::original::nodes::Nodes;
use simplicity::bit_machine::{ExecTracker, ExecutionError, FrameIter, NodeOutput};
use simplicity::jet::CoreEnv;
use simplicity::node::Inner;
use simplicity::{BitMachine, RedeemNode, Value};
use std::collections::HashMap;
use std::sync::Arc;

/// Follows a run beside the machine: counts visits of each node, and knows which node comes next,
/// which names the node of a refusal (the original gives only entropy or hash). Every visit is
/// compared with what was expected.
struct Follow<'a> {
    index: HashMap<usize, usize>,
    next: Vec<&'a RedeemNode>,
    visits: Vec<u32>,
}

impl<'a> Follow<'a> {
    /// Nothing visited, the last node to come.
    fn new(nodes: &'a Nodes) -> Self {
        let place = |(k, n): (usize, &Option<Arc<RedeemNode>>)| Some((Arc::as_ptr(n.as_ref()?) as usize, k));
        Follow {
            index: nodes.iter().enumerate().filter_map(place).collect(),
            next: vec![nodes.last().unwrap().as_ref().unwrap()],
            visits: vec![0; nodes.len()],
        }
    }

    /// The node that would be visited next.
    fn upcoming(&self) -> usize {
        let node: *const RedeemNode = *self.next.last().unwrap();
        self.index[&(node as usize)]
    }
}

impl ExecTracker for Follow<'_> {
    fn visit_node(&mut self, node: &RedeemNode, mut input: FrameIter, _: NodeOutput) {
        let me = self.next.pop().unwrap();
        assert!(std::ptr::eq(me, node), "the machine went elsewhere");
        self.visits[self.index[&(node as *const _ as usize)]] += 1;
        match me.inner() {
            Inner::InjL(c) | Inner::InjR(c) | Inner::Take(c) | Inner::Drop(c) => self.next.push(c),
            Inner::Comp(l, r) | Inner::Pair(l, r) | Inner::Disconnect(l, r) => {
                self.next.push(r);
                self.next.push(l);
            }
            Inner::Case(l, r) => self.next.push(if input.next() == Some(true) { r } else { l }),
            Inner::AssertL(c, _) | Inner::AssertR(_, c) => self.next.push(c),
            _ => {}
        }
    }
}

/// How a run ended.
#[derive(Clone, Debug)]
pub struct Ended {
    /// The output's compact bits, or number and place of the refusal (18, 19).
    pub result: Result<Vec<bool>, (u32, usize)>,
    /// Visits of each node, a failing one included.
    pub visits: Vec<u32>,
    /// The machine's cells.
    pub cells: Vec<u8>,
}

/// One run, its cells filled beforehand with `old`, which is long enough.
pub fn run(nodes: &Nodes, input: &Value, old: &[u8]) -> Ended {
    let root = nodes.last().unwrap().as_ref().unwrap();
    let mut machine = BitMachine::for_program(root).expect("within the original's limits");
    let store = cells::of(&mut machine);
    store.copy_from_slice(&old[..store.len()]);
    machine.input(input).expect("an input of the source type");
    let mut follow = Follow::new(nodes);
    let result = match machine.exec_with_tracker(root, &CoreEnv::new(), &mut follow) {
        Ok(value) => Ok(value.iter_compact().collect()),
        Err(ExecutionError::ReachedFailNode(_)) => Err((18, follow.upcoming())),
        Err(ExecutionError::ReachedPrunedBranch(_)) => Err((19, follow.upcoming())),
        Err(e) => panic!("{e}"),
    };
    if let Err((_, place)) = result {
        follow.visits[place] += 1;
    }
    Ended { result, visits: follow.visits, cells: cells::of(&mut machine).to_vec() }
}
