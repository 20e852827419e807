// Stands in for the missing types/incomplete.rs: text of an incomplete type in an error message.
// The real one prints the type; this one says only what stands at its top.

use super::{Bound, BoundRef, Context};
use std::fmt;
use std::sync::Arc;

#[derive(Clone, Debug)]
pub struct Incomplete(String);

impl Incomplete {
    pub fn from_bound_ref<'brand>(ctx: &Context<'brand>, bound: BoundRef<'brand>) -> Arc<Self> {
        Arc::new(Incomplete(match ctx.get(&bound) {
            Bound::Free(name) => name,
            Bound::Complete(data) => format!("complete, {} wide", data.bit_width()),
            Bound::Sum(..) => "sum".into(),
            Bound::Product(..) => "product".into(),
        }))
    }
}

impl fmt::Display for Incomplete {
    fn fmt(&self, f: &mut fmt::Formatter<'_>) -> fmt::Result {
        f.write_str(&self.0)
    }
}
