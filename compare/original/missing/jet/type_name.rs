// Stands in for the missing jet/type_name.rs. There are no jets, so nothing here is called.

use crate::types::{Context, Type};

#[derive(Copy, Clone, Debug, PartialEq, Eq, PartialOrd, Ord, Hash)]
pub struct TypeName(());

impl TypeName {
    pub fn to_type<'brand>(&self, _ctx: &Context<'brand>) -> Type<'brand> {
        unreachable!("no jets")
    }
    pub fn to_bit_width(&self) -> usize {
        unreachable!("no jets")
    }
}
