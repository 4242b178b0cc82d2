//! A context and a rewriter of pliron, with names for what was made.
use crate::kinds::make;
use crate::words::{parted, word};
use pliron::basic_block::BasicBlock;
use pliron::context::{Context, Ptr};
use pliron::irbuild::inserter::{BlockInsertionPoint, OpInsertionPoint};
use pliron::irbuild::listener::Recorder;
use pliron::irbuild::rewriter::IRRewriter;
use pliron::operation::Operation;
use pliron::region::Region;
use pliron::value::Value;

#[derive(Clone, Copy, PartialEq)]
pub enum Node {
    Op(Ptr<Operation>),
    Block(Ptr<BasicBlock>),
    Region(Ptr<Region>),
}

pub struct Named {
    pub name: String,
    pub node: Node,
    /// Its results or arguments, kept from when it was made: pliron gives none of what has gone.
    pub values: Vec<Value>,
}

pub struct Bench {
    pub ctx: Context,
    pub rewriter: IRRewriter<Recorder>,
    pub names: Vec<Named>,
    /// An operation, a block and a region that have gone: they stand for what was never made.
    nobody: (Ptr<Operation>, Ptr<BasicBlock>, Ptr<Region>),
}

impl Bench {
    pub fn new() -> Bench {
        let mut ctx = Context::new();
        let op = make(&mut ctx, 0, 0, vec![], &[], &[false]);
        let region = op.deref(&ctx).get_region(0);
        let block = BasicBlock::new(&mut ctx, None, vec![]);
        block.insert_at_back(region, &ctx);
        Operation::erase(op, &mut ctx);
        assert!(op.try_deref(&ctx).is_err() && region.try_deref(&ctx).is_err() && block.try_deref(&ctx).is_err());
        Bench { ctx, rewriter: IRRewriter::default(), names: vec![], nobody: (op, block, region) }
    }

    /// The last thing of this name; `x/1` is the region 1 of the operation x.
    pub fn node(&self, text: &str) -> Node {
        if text.contains('/') {
            return Node::Region(self.region(text));
        }
        match self.names.iter().rfind(|named| named.name == text) {
            Some(named) => named.node,
            None => Node::Op(self.nobody.0),
        }
    }

    pub fn op(&self, text: &str) -> Ptr<Operation> {
        match self.node(text) {
            Node::Op(op) => op,
            _ => self.nobody.0,
        }
    }

    pub fn block(&self, text: &str) -> Ptr<BasicBlock> {
        match self.node(text) {
            Node::Block(block) => block,
            _ => self.nobody.1,
        }
    }

    pub fn region(&self, text: &str) -> Ptr<Region> {
        let (name, index) = parted(text, "/");
        let found = match self.op(name).try_deref(&self.ctx) {
            Ok(op) => op.regions().nth(index as usize),
            Err(_) => None,
        };
        found.unwrap_or(self.nobody.2)
    }

    /// `x.1` is the result 1 of the operation x, or the argument 1 of the block x. An index that there is not is asked of
    /// pliron, which panics.
    pub fn value(&self, text: &str) -> Value {
        let (name, index) = parted(text, ".");
        let index = index as usize % 256;
        let node = match self.node(name) {
            Node::Region(_) => Node::Op(self.nobody.0),
            node => node,
        };
        if let Some(named) = self.names.iter().find(|named| named.node == node)
            && let Some(value) = named.values.get(index)
        {
            return *value;
        }
        match node {
            Node::Block(block) => block.deref(&self.ctx).get_argument(index),
            Node::Op(op) => op.deref(&self.ctx).get_result(index),
            Node::Region(_) => unreachable!(),
        }
    }

    /// The values named from the word `from` on, up to an arrow or a slash.
    pub fn values(&self, line: &str, from: usize) -> Vec<Value> {
        line.split_whitespace()
            .take_while(|each| *each != "->" && *each != "/")
            .skip(from)
            .map(|each| self.value(each))
            .collect()
    }

    /// The point that the words at `from` and behind it tell.
    pub fn op_point(&self, line: &str, from: usize) -> OpInsertionPoint {
        let name = word(line, from + 1);
        match word(line, from) {
            "start" => OpInsertionPoint::AtBlockStart(self.block(name)),
            "end" => OpInsertionPoint::AtBlockEnd(self.block(name)),
            "after" => OpInsertionPoint::AfterOperation(self.op(name)),
            "before" => OpInsertionPoint::BeforeOperation(self.op(name)),
            _ => OpInsertionPoint::Unset,
        }
    }

    pub fn block_point(&self, line: &str, from: usize) -> BlockInsertionPoint {
        let name = word(line, from + 1);
        match word(line, from) {
            "start" => BlockInsertionPoint::AtRegionStart(self.region(name)),
            "end" => BlockInsertionPoint::AtRegionEnd(self.region(name)),
            "after" => BlockInsertionPoint::AfterBlock(self.block(name)),
            "before" => BlockInsertionPoint::BeforeBlock(self.block(name)),
            _ => BlockInsertionPoint::Unset,
        }
    }

    pub fn call(&mut self, name: &str, node: Node, values: Vec<Value>) {
        self.names.push(Named { name: name.to_string(), node, values });
    }

    /// The name of a node, `?` where it has none.
    pub fn name_of(&self, node: Node) -> &str {
        self.names.iter().rfind(|named| named.node == node).map_or("?", |named| &named.name)
    }

    /// The name of a value; also where its definer has gone.
    pub fn value_text(&self, value: Value) -> String {
        for named in &self.names {
            if let Some(index) = named.values.iter().position(|each| *each == value) {
                return format!("{}.{index}", named.name);
            }
        }
        "?".to_string()
    }
}
