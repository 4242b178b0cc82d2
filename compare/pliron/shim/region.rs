//! Stands in for pliron's region.rs, which is not among the twelve files: a list of blocks in an operation. The calls that
//! are compared run through it: the list is worked by pliron's own linked_list.rs, and what is written here is who owns
//! whom, and that what lies in a region goes with it.
use crate::{
    basic_block::BasicBlock,
    common_traits::Verify,
    context::{Arena, Context, Ptr, private::ArenaObj},
    linked_list::{ContainsLinkedList, private},
    operation::Operation,
    result::Result,
};

pub struct Region {
    self_ptr: Ptr<Region>,
    parent_op: Ptr<Operation>,
    first: Option<Ptr<BasicBlock>>,
    last: Option<Ptr<BasicBlock>>,
    /// In pliron an interface of the operation answers this; here it is the mark that the region was made with.
    pub graph: bool,
}

impl Region {
    pub(crate) fn new(ctx: &mut Context, parent_op: Ptr<Operation>) -> Ptr<Region> {
        Self::alloc(ctx, |self_ptr| Region { self_ptr, parent_op, first: None, last: None, graph: false })
    }
    pub fn get_parent_op(&self) -> Ptr<Operation> {
        self.parent_op
    }
    pub fn find_index_in_parent(&self, ctx: &Context) -> usize {
        self.parent_op.deref(ctx).regions().position(|r| r == self.self_ptr).expect("Region missing in its parent")
    }
    pub fn has_ssa_dominance(&self, _ctx: &Context) -> bool {
        !self.graph
    }
    pub fn drop_all_uses(ptr: Ptr<Self>, ctx: &Context) {
        let blocks: Vec<_> = ptr.deref(ctx).iter(ctx).collect();
        for b in blocks {
            BasicBlock::drop_all_uses(b, ctx);
        }
    }
}
/// How many operations, blocks and regions the context holds. Not in pliron: it shows what a panic left lying about.
pub fn held(ctx: &Context) -> (usize, usize, usize) {
    (ctx.operations.len(), ctx.basic_blocks.len(), ctx.regions.len())
}

impl PartialEq for Region {
    fn eq(&self, other: &Self) -> bool {
        self.self_ptr == other.self_ptr
    }
}
impl private::ContainsLinkedList<BasicBlock> for Region {
    fn set_head(&mut self, head: Option<Ptr<BasicBlock>>) {
        self.first = head;
    }
    fn set_tail(&mut self, tail: Option<Ptr<BasicBlock>>) {
        self.last = tail;
    }
}
impl ContainsLinkedList<BasicBlock> for Region {
    fn get_head(&self) -> Option<Ptr<BasicBlock>> {
        self.first
    }
    fn get_tail(&self) -> Option<Ptr<BasicBlock>> {
        self.last
    }
}
impl ArenaObj for Region {
    fn get_arena(ctx: &Context) -> &Arena<Self> {
        &ctx.regions
    }
    fn get_arena_mut(ctx: &mut Context) -> &mut Arena<Self> {
        &mut ctx.regions
    }
    fn get_self_ptr(&self, _ctx: &Context) -> Ptr<Self> {
        self.self_ptr
    }
    fn dealloc_sub_objects(ptr: Ptr<Self>, ctx: &mut Context) {
        let blocks: Vec<_> = ptr.deref(ctx).iter(ctx).collect();
        for b in blocks {
            ArenaObj::dealloc(b, ctx);
        }
    }
}
impl Verify for Region {
    fn verify(&self, ctx: &Context) -> Result<()> {
        self.iter(ctx).try_for_each(|b| b.deref(ctx).verify(ctx))
    }
}
