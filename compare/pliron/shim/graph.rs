//! Stands in for what graph/walkers.rs has beside it in pliron.
//!
//! `post_order` is used where a region is erased. Operations have no successors here, so no block is reached from another,
//! and the order is taken to be that of the region. `dominance` is asked only in verification, which is not run.
pub mod traversals {
    pub mod region {
        use crate::{
            basic_block::BasicBlock,
            context::{Context, Ptr},
            linked_list::ContainsLinkedList,
            region::Region,
        };
        pub fn post_order(ctx: &Context, region: &Ptr<Region>) -> Vec<Ptr<BasicBlock>> {
            region.deref(ctx).iter(ctx).collect()
        }
    }
}
pub mod dominance {
    use crate::{
        context::{Context, Ptr},
        operation::Operation,
        value::Value,
    };
    #[derive(Default)]
    pub struct DomInfo;
    impl DomInfo {
        pub fn value_strictly_dominates_op(&mut self, _: &Context, _: Value, _: Ptr<Operation>) -> bool {
            unimplemented!("dominance")
        }
    }
}
