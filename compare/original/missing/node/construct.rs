// Stands in for the missing node/construct.rs: nodes whose cached data is an inferred arrow.
// Every constructor hands on to the unmodified arrow.rs.

use super::{CoreConstructible, DisconnectConstructible, Marker, Node, WitnessConstructible};
use crate::jet::Jet;
use crate::types::{self, arrow::Arrow, Context};
use crate::value::Word;
use crate::{BitIter, Cmr, FailEntropy, Value};

use std::marker::PhantomData;
use std::sync::Arc;

#[derive(Copy, Clone, PartialEq, Eq, PartialOrd, Ord, Debug, Hash)]
pub struct Construct<'brand>(PhantomData<fn(&'brand ()) -> &'brand ()>);

/// No two such nodes are ever shared.
#[derive(Copy, Clone, PartialEq, Eq, PartialOrd, Ord, Debug, Hash)]
pub enum Never {}

impl<'brand> Marker for Construct<'brand> {
    type CachedData = ConstructData<'brand>;
    type Witness = Option<Value>;
    type Disconnect = Option<Arc<ConstructNode<'brand>>>;
    type SharingId = Never;

    fn compute_sharing_id(_: Cmr, _: &Self::CachedData) -> Option<Never> {
        None
    }
}

pub type ConstructNode<'brand> = Node<Construct<'brand>>;

impl<'brand> ConstructNode<'brand> {
    pub fn arrow(&self) -> &Arrow<'brand> {
        &self.cached_data().arrow
    }

    /// Decodes a program and closes the stream.
    pub fn decode<I: Iterator<Item = u8>, J: Jet>(
        ctx: &Context<'brand>,
        mut bits: BitIter<I>,
    ) -> Result<Arc<Self>, crate::decode::Error> {
        let node = crate::decode::decode_expression::<_, J>(ctx, &mut bits)?;
        bits.close()?;
        Ok(node)
    }
}

#[derive(Clone, Debug)]
pub struct ConstructData<'brand> {
    arrow: Arrow<'brand>,
}

fn data(arrow: Arrow<'_>) -> ConstructData<'_> {
    ConstructData { arrow }
}

impl<'brand> CoreConstructible<'brand> for ConstructData<'brand> {
    fn iden(ctx: &Context<'brand>) -> Self {
        data(Arrow::iden(ctx))
    }
    fn unit(ctx: &Context<'brand>) -> Self {
        data(Arrow::unit(ctx))
    }
    fn injl(child: &Self) -> Self {
        data(Arrow::injl(&child.arrow))
    }
    fn injr(child: &Self) -> Self {
        data(Arrow::injr(&child.arrow))
    }
    fn take(child: &Self) -> Self {
        data(Arrow::take(&child.arrow))
    }
    fn drop_(child: &Self) -> Self {
        data(Arrow::drop_(&child.arrow))
    }
    fn comp(left: &Self, right: &Self) -> Result<Self, types::Error> {
        Ok(data(Arrow::comp(&left.arrow, &right.arrow)?))
    }
    fn case(left: &Self, right: &Self) -> Result<Self, types::Error> {
        Ok(data(Arrow::case(&left.arrow, &right.arrow)?))
    }
    fn assertl(left: &Self, _: Cmr) -> Result<Self, types::Error> {
        Ok(data(Arrow::assertl(&left.arrow)?))
    }
    fn assertr(_: Cmr, right: &Self) -> Result<Self, types::Error> {
        Ok(data(Arrow::assertr(&right.arrow)?))
    }
    fn pair(left: &Self, right: &Self) -> Result<Self, types::Error> {
        Ok(data(Arrow::pair(&left.arrow, &right.arrow)?))
    }
    fn fail(ctx: &Context<'brand>, _: FailEntropy) -> Self {
        data(Arrow::fail(ctx))
    }
    fn const_word(ctx: &Context<'brand>, word: Word) -> Self {
        data(Arrow::const_word(ctx, &word))
    }
    fn jet(ctx: &Context<'brand>, jet: &dyn Jet) -> Self {
        data(Arrow::jet(ctx, jet))
    }
    fn arrow(&self) -> &Arrow<'brand> {
        &self.arrow
    }
}

impl<'brand> DisconnectConstructible<'brand, Option<Arc<ConstructNode<'brand>>>> for ConstructData<'brand> {
    fn disconnect(left: &Self, right: &Option<Arc<ConstructNode<'brand>>>) -> Result<Self, types::Error> {
        let right = right.as_ref().map(|node| node.cached_data().arrow());
        Ok(data(Arrow::disconnect(&left.arrow, &right)?))
    }
}

impl<'brand> WitnessConstructible<'brand, Option<Value>> for ConstructData<'brand> {
    fn witness(ctx: &Context<'brand>, _: Option<Value>) -> Self {
        data(Arrow::witness(ctx))
    }
}
