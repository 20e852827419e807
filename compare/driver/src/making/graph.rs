//! Nodes in any order, put into the order in which a program has them.

use crate::row::Row;

/// The rows that the root needs, left first and children before parents, and which of the given
/// rows each one was.
pub fn canonical(rows: &[Row], root: usize) -> (Vec<Row>, Vec<usize>) {
    let mut place = vec![usize::MAX; rows.len()];
    let (mut out, mut from) = (vec![], vec![]);
    let mut stack = vec![(root, false)];
    while let Some((at, ready)) = stack.pop() {
        if place[at] != usize::MAX {
            continue;
        }
        if ready {
            place[at] = out.len();
            out.push(rows[at].moved(|child| place[child]));
            from.push(at);
            continue;
        }
        stack.push((at, true));
        let (l, r) = rows[at].children();
        stack.extend([r, l].into_iter().flatten().map(|child| (child, false)));
    }
    (out, from)
}
