//! How the original bounds and runs programs: what docs/DIFFERENCES.md says of it, each shown by a run.

use compare::bits::pack;
use compare::making::{any_value, families, types, Made};
use compare::original::machine::{self, Ended};
use compare::original::nodes::{self, Needs};
use compare::original::{decode, typing, write};
use compare::rng::Rng;
use compare::row::Row;
use simplicity::bit_machine::{ExecTracker, FrameIter, NodeOutput};
use simplicity::jet::CoreEnv;
use simplicity::node::Inner;
use simplicity::types::{arrow::FinalArrow, Final};
use simplicity::{BitMachine, Cmr, Cost, NodeBounds, RedeemNode, Value, Word};
use std::sync::Arc;

const OLD: [u8; 65_536] = [0xff; 65_536];

fn run(made: &Made, input: &Value, old: &[u8]) -> Ended {
    machine::run(&nodes::make(&made.rows, &made.arrows, &[]), input, old)
}

fn needs(rows: Vec<Row>, ty: &Arc<Final>) -> Needs {
    let made = families::fixed(rows, ty, ty);
    nodes::needs(&nodes::make(&made.rows, &made.arrows, &[]))
}

#[test]
fn bounds_of_the_known_runs() {
    let one = Final::unit();
    let of = |cells, frames, cost| Needs { cells, frames, cost };
    assert_eq!(needs(vec![Row::Unit], &one), of(0, 2, 100));
    assert_eq!(needs(vec![Row::Iden], &types::word(0)), of(2, 2, 101));
    assert_eq!(needs(vec![Row::Unit, Row::Iden, Row::Comp(0, 1)], &one), of(0, 3, 300));
    assert_eq!(needs(families::doubled_iden(17), &one).cost, 26_214_300);
    assert_eq!(needs(families::doubled_iden(18), &one).cost, 52_428_700);
    assert_eq!(needs(families::nested_comp(1_022), &one).frames, 1_024);
}

#[test]
fn costs_stop_at_32_bits() {
    assert_eq!(needs(families::doubled_iden(40), &Final::unit()).cost, u64::from(u32::MAX));
}

#[test]
fn padding_keeps_old_cells() {
    let target = types::sum(&Final::unit(), &types::word(0));
    let made = families::fixed(vec![Row::Unit, Row::InjL(0)], &Final::unit(), &target);
    for (old, left) in [(0xff, 0x7f), (0x00, 0x00)] {
        let ended = run(&made, &Value::unit(), &[old]);
        assert_eq!(ended.cells, [left]);
        assert_eq!(ended.result, Ok(vec![false]));
    }
}

#[test]
fn an_output_without_width_is_the_unit_value() {
    let mut ty = Final::unit();
    for _ in 0..1_023 {
        ty = types::product(&ty, &ty);
    }
    let made = families::fixed(vec![Row::Iden], &ty, &ty);
    let nodes = nodes::make(&made.rows, &made.arrows, &[]);
    let root = nodes[0].as_ref().unwrap();
    let mut machine = BitMachine::for_program(root).unwrap();
    let output = machine.exec(root, &CoreEnv::new()).unwrap();
    assert!(output.is_unit() && !ty.is_unit());
}

#[test]
fn a_disconnect_hands_on_the_computed_root() {
    let rows = vec![Row::Iden, Row::Iden, Row::Disconnect(0, 1)];
    let made = families::fixed(rows, &types::word(3), &types::product(&types::word(8), &types::word(3)));
    let nodes = nodes::make(&made.rows, &made.arrows, &[]);
    let bounds = nodes[2].as_ref().unwrap().bounds();
    assert_eq!((bounds.extra_cells, bounds.extra_frames), (528, 2));
    assert_eq!(nodes::needs(&nodes).cost, 100 + 528 + 264 + 256 + 364 + 108);
    let output = pack(&run(&made, &Value::u8(0xa7), &OLD).result.unwrap());
    assert_eq!(output[..32], Cmr::iden().to_byte_array());
    assert_eq!(output[32], 0xa7);
}

#[test]
fn a_disconnect_with_one_child_is_decoded() {
    let rows = vec![Row::Iden, Row::Disconnect1(0)];
    assert_eq!(decode::decode(&write::program(&rows)).unwrap().0, rows);
}

/// Which nodes a tracker is told of, and whether as terminal ones.
struct Told(Vec<bool>);

impl ExecTracker for Told {
    fn visit_node(&mut self, _: &RedeemNode, _: FrameIter, output: NodeOutput) {
        self.0.push(matches!(output, NodeOutput::Success(_)));
    }
}

#[test]
fn a_word_is_not_told_as_terminal_and_a_failing_visit_is_not_told() {
    let rows = vec![
        Row::Word(Word::u1(1)),
        Row::Unit,
        Row::Pair(0, 1),
        Row::Unit,
        Row::Hidden([9; 32]),
        Row::Case(3, 4),
        Row::Comp(2, 5),
    ];
    let arrows = typing::infer(&rows, None).unwrap();
    let nodes = nodes::make(&rows, &arrows, &[]);
    let root = nodes[6].as_ref().unwrap();
    let mut machine = BitMachine::for_program(root).unwrap();
    let mut told = Told(vec![]);
    assert!(machine.exec_with_tracker(root, &CoreEnv::new(), &mut told).is_err());
    assert_eq!(told.0, [false, false, false, true]);
    let ended = machine::run(&nodes, &Value::unit(), &OLD);
    assert_eq!(ended.result, Err((19, 5)));
    assert_eq!(ended.visits, [1, 1, 1, 0, 0, 1, 1]);
}

#[test]
fn the_original_has_limits_of_its_own() {
    let wide = types::product(&types::word(30), &types::word(30));
    let arrow = FinalArrow { source: Arc::clone(&wide), target: wide };
    assert!(BitMachine::for_program(&RedeemNode::make(arrow, Inner::Iden)).is_err());
}

#[test]
fn cells_of_huge_types_wrap() {
    let child = NodeBounds::witness(1);
    let cells = std::panic::catch_unwind(|| NodeBounds::comp(child, child, usize::MAX).extra_cells);
    if cfg!(debug_assertions) {
        assert!(cells.is_err());
    } else {
        assert_eq!(cells.unwrap(), 0);
    }
}

#[test]
fn the_cost_of_a_huge_type_wraps() {
    assert_eq!(Cost::of_type(1 << 32).to_string(), "0");
}

#[test]
fn equal_nodes_are_written_once() {
    let rows = vec![Row::Unit, Row::Unit, Row::Pair(0, 1)];
    assert_eq!(decode::decode(&write::program(&rows)).unwrap().0, rows);
    let arrows = typing::infer(&rows, None).unwrap();
    let nodes = nodes::make(&rows, &arrows, &[]);
    let again = nodes[2].as_ref().unwrap().to_vec_without_witness();
    assert_eq!(again, write::program(&[Row::Unit, Row::Pair(0, 0)]));
}

#[test]
fn old_cells_change_no_output() {
    let mut rng = Rng::new(2);
    for seed in 0..20 {
        let made = families::gates(60, seed);
        let arrows = typing::infer(&made, None).unwrap();
        let made = Made { rows: made, arrows };
        let values = nodes::zeros(&made.rows, &made.arrows);
        let nodes = nodes::make(&made.rows, &made.arrows, &values);
        let input = any_value(&mut rng, &made.arrows.last().unwrap().source);
        let ends = [&OLD[..], &[0; 65_536]].map(|old| machine::run(&nodes, &input, old));
        assert_eq!(ends[0].result, ends[1].result);
        assert_eq!(ends[0].visits, ends[1].visits);
    }
}
