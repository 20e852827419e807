// Stands in for the missing types/mod.rs.
//
// Unification is in the unmodified context.rs and union_bound.rs, the arrows of each
// node kind in the unmodified arrow.rs. What had to be written here: the plain data
// (Bound, Type, Error), and `Type::finalize`, which is real logic: an occurs check,
// then free variables become unit and the rest is built bottom up with `Final::sum`
// and `Final::product`.

pub mod arrow;
mod context;
mod final_data;
mod incomplete;
mod precomputed;
mod union_bound;
mod variable;

use self::union_bound::{PointerLike, UbElement, WithGhostToken};
use crate::dag::{Dag, DagLike};

use std::collections::HashSet;
use std::fmt;
use std::sync::Arc;

pub use arrow::{Arrow, FinalArrow};
pub use context::{BoundRef, Context};
pub use final_data::{CompleteBound, Final, TypeTooLargeError};
pub use incomplete::Incomplete;

use context::{BoundRefSharing, OccursCheckId};

/// Error of type inference.
#[non_exhaustive]
#[derive(Clone, Debug)]
pub enum Error {
    /// A bound conflicted with an existing one
    Bind { existing_bound: Arc<Incomplete>, new_bound: Arc<Incomplete>, hint: &'static str },
    /// A type occurs within itself
    OccursCheck,
    /// Nodes of different inference contexts were combined
    InferenceContextMismatch,
}

impl fmt::Display for Error {
    fn fmt(&self, f: &mut fmt::Formatter<'_>) -> fmt::Result {
        match self {
            Error::Bind { existing_bound, new_bound, hint } => {
                write!(f, "failed to apply bound `{new_bound}` to existing bound `{existing_bound}`: {hint}")
            }
            Error::OccursCheck => f.write_str("infinitely-sized type"),
            Error::InferenceContextMismatch => f.write_str("nodes of two different inference contexts"),
        }
    }
}

impl std::error::Error for Error {}

/// State of one equivalence class of types.
#[derive(Clone)]
enum Bound<'brand> {
    Free(String),
    Complete(Arc<Final>),
    Sum(TypeInner<'brand>, TypeInner<'brand>),
    Product(TypeInner<'brand>, TypeInner<'brand>),
}

impl Bound<'_> {
    fn shallow_clone(&self) -> Self {
        self.clone()
    }
}

#[derive(Clone)]
struct TypeInner<'brand> {
    bound: UbElement<'brand, BoundRef<'brand>>,
}

impl TypeInner<'_> {
    fn shallow_clone(&self) -> Self {
        self.clone()
    }
}

/// A type, complete or not, of an inference context.
#[derive(Clone)]
pub struct Type<'brand> {
    ctx: Context<'brand>,
    inner: TypeInner<'brand>,
}

impl<'brand> Type<'brand> {
    fn wrap(ctx: &Context<'brand>, bound: BoundRef<'brand>) -> Self {
        Type { ctx: ctx.shallow_clone(), inner: TypeInner { bound: UbElement::new(bound) } }
    }

    pub fn free(ctx: &Context<'brand>, name: String) -> Self {
        Self::wrap(ctx, ctx.alloc_free(name))
    }
    pub fn unit(ctx: &Context<'brand>) -> Self {
        Self::wrap(ctx, ctx.alloc_unit())
    }
    pub fn complete(ctx: &Context<'brand>, data: Arc<Final>) -> Self {
        Self::wrap(ctx, ctx.alloc_complete(data))
    }
    pub fn two_two_n(ctx: &Context<'brand>, n: usize) -> Self {
        Self::complete(ctx, precomputed::nth_power_of_2(n))
    }
    pub fn sum(ctx: &Context<'brand>, left: Self, right: Self) -> Self {
        Self::wrap(ctx, ctx.alloc_sum(left, right))
    }
    pub fn product(ctx: &Context<'brand>, left: Self, right: Self) -> Self {
        Self::wrap(ctx, ctx.alloc_product(left, right))
    }
    pub fn shallow_clone(&self) -> Self {
        self.clone()
    }

    /// The complete type, free variables taken as unit.
    pub fn finalize(&self) -> Result<Arc<Final>, Error> {
        enum Task<'brand> {
            Enter(BoundRef<'brand>),
            Leave(OccursCheckId<'brand>),
        }

        let root = self.ctx.get_root_ref(&self.inner.bound);
        if let Bound::Complete(data) = self.ctx.get(&root) {
            return Ok(data);
        }

        let mut stack = vec![Task::Enter(root.shallow_clone())];
        let mut open = HashSet::new();
        let mut done = HashSet::new();
        while let Some(task) = stack.pop() {
            let bound = match task {
                Task::Leave(id) => {
                    open.remove(&id);
                    done.insert(id);
                    continue;
                }
                Task::Enter(bound) => bound,
            };
            let id = bound.occurs_check_id();
            if done.contains(&id) {
                continue;
            }
            if !open.insert(id) {
                return Err(Error::OccursCheck);
            }
            stack.push(Task::Leave(id));
            if let Dag::Binary((_, l), (_, r)) = (&self.ctx, bound).as_dag_node() {
                stack.push(Task::Enter(r));
                stack.push(Task::Enter(l));
            }
        }

        let mut finalized: Vec<Arc<Final>> = vec![];
        for item in (&self.ctx, root).post_order_iter::<BoundRefSharing>() {
            let bound = self.ctx.get(&item.node.1);
            let child = |i: Option<usize>| Arc::clone(&finalized[i.unwrap()]);
            let data = match bound {
                Bound::Complete(ref data) => Arc::clone(data),
                Bound::Free(_) => Final::unit(),
                Bound::Sum(..) => Final::sum(child(item.left_index), child(item.right_index)),
                Bound::Product(..) => Final::product(child(item.left_index), child(item.right_index)),
            };
            if !matches!(bound, Bound::Complete(_)) {
                self.ctx.reassign_non_complete(item.node.1, Bound::Complete(Arc::clone(&data)));
            }
            finalized.push(data);
        }
        Ok(finalized.pop().unwrap())
    }
}

impl fmt::Debug for Type<'_> {
    fn fmt(&self, f: &mut fmt::Formatter<'_>) -> fmt::Result {
        fmt::Display::fmt(self, f)
    }
}

impl fmt::Display for Type<'_> {
    fn fmt(&self, f: &mut fmt::Formatter<'_>) -> fmt::Result {
        let root = self.ctx.get_root_ref(&self.inner.bound);
        match self.ctx.get(&root) {
            Bound::Free(name) => f.write_str(&name),
            Bound::Complete(data) => fmt::Display::fmt(&data, f),
            Bound::Sum(..) => f.write_str("(.. + ..)"),
            Bound::Product(..) => f.write_str("(.. x ..)"),
        }
    }
}
