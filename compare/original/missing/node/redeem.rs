// Stands in for the missing node/redeem.rs: nodes with complete arrows, witnesses and bounds.
// The bounds come from the unmodified analysis.rs; written here is only which width
// goes to which of its parameters.

use super::{Inner, Marker, Node};
use crate::analysis::NodeBounds;
use crate::types::arrow::FinalArrow;
use crate::{Cmr, FailEntropy, Ihr, Imr, Value};
use std::sync::Arc;

#[derive(Copy, Clone, PartialEq, Eq, PartialOrd, Ord, Debug, Hash)]
pub enum Redeem {}

impl Marker for Redeem {
    type CachedData = Arc<RedeemData>;
    type Witness = Value;
    type Disconnect = Arc<RedeemNode>;
    type SharingId = Ihr;

    fn compute_sharing_id(_: Cmr, data: &Arc<RedeemData>) -> Option<Ihr> {
        Some(data.ihr)
    }
}

pub type RedeemNode = Node<Redeem>;

#[derive(Clone, Debug)]
pub struct RedeemData {
    imr: Imr,
    ihr: Ihr,
    arrow: FinalArrow,
    bounds: NodeBounds,
}

type RedeemInner = Inner<Arc<RedeemNode>, Arc<RedeemNode>, Value>;

impl RedeemData {
    pub fn new(arrow: FinalArrow, inner: &RedeemInner) -> Self {
        let b = |n: &Arc<RedeemNode>| n.bounds();
        let i = |n: &Arc<RedeemNode>| n.cached_data().imr.as_cmr();
        let bounds = match inner {
            Inner::Iden => NodeBounds::iden(arrow.target.bit_width()),
            Inner::Unit => NodeBounds::unit(),
            Inner::InjL(c) => NodeBounds::injl(b(c)),
            Inner::InjR(c) => NodeBounds::injr(b(c)),
            Inner::Take(c) => NodeBounds::take(b(c)),
            Inner::Drop(c) => NodeBounds::drop(b(c)),
            Inner::Comp(l, r) => NodeBounds::comp(b(l), b(r), l.arrow().target.bit_width()),
            Inner::Case(l, r) => NodeBounds::case(b(l), b(r)),
            Inner::AssertL(c, _) => NodeBounds::assertl(b(c)),
            Inner::AssertR(_, c) => NodeBounds::assertr(b(c)),
            Inner::Pair(l, r) => NodeBounds::pair(b(l), b(r)),
            Inner::Disconnect(l, r) => NodeBounds::disconnect(
                b(l),
                b(r),
                l.arrow().target.as_product().unwrap().0.bit_width(),
                l.arrow().source.bit_width(),
                l.arrow().target.bit_width(),
            ),
            Inner::Witness(_) => NodeBounds::witness(arrow.target.bit_width()),
            Inner::Fail(_) => NodeBounds::fail(),
            Inner::Jet(j) => NodeBounds::jet(j.as_ref()),
            Inner::Word(w) => NodeBounds::const_word(w),
        };
        let imr = match inner {
            Inner::Iden => Imr::of_cmr(Cmr::iden()),
            Inner::Unit => Imr::of_cmr(Cmr::unit()),
            Inner::InjL(c) => Imr::of_cmr(Cmr::injl(i(c))),
            Inner::InjR(c) => Imr::of_cmr(Cmr::injr(i(c))),
            Inner::Take(c) => Imr::of_cmr(Cmr::take(i(c))),
            Inner::Drop(c) => Imr::of_cmr(Cmr::drop(i(c))),
            Inner::Comp(l, r) => Imr::of_cmr(Cmr::comp(i(l), i(r))),
            Inner::Case(l, r) => Imr::of_cmr(Cmr::case(i(l), i(r))),
            Inner::AssertL(c, cmr) => Imr::of_cmr(Cmr::case(i(c), *cmr)),
            Inner::AssertR(cmr, c) => Imr::of_cmr(Cmr::case(*cmr, i(c))),
            Inner::Pair(l, r) => Imr::of_cmr(Cmr::pair(i(l), i(r))),
            Inner::Disconnect(l, r) => Imr::disconnect(l.cached_data().imr, r.cached_data().imr),
            Inner::Witness(v) => Imr::witness(v),
            Inner::Fail(e) => Imr::of_cmr(Cmr::fail(*e)),
            Inner::Jet(j) => Imr::of_cmr(Cmr::jet(j.as_ref())),
            Inner::Word(w) => Imr::of_cmr(Cmr::const_word(w)),
        };
        RedeemData { imr, ihr: Ihr::new(imr, &arrow), arrow, bounds }
    }
}

impl RedeemNode {
    /// A node from its parts; the commitment root comes from the unmodified `Node::from_parts`.
    pub fn make(arrow: FinalArrow, inner: RedeemInner) -> Arc<Self> {
        let data = Arc::new(RedeemData::new(arrow, &inner));
        Arc::new(Node::from_parts(inner, data))
    }
    pub fn arrow(&self) -> &FinalArrow {
        &self.cached_data().arrow
    }
    pub fn bounds(&self) -> NodeBounds {
        self.cached_data().bounds
    }
    pub fn ihr(&self) -> Ihr {
        self.cached_data().ihr
    }
}
