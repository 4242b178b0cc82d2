//! What the bench holds, as text.
use crate::bench::{Bench, Node};
use crate::kinds::number_of;
use pliron::context::Ptr;
use pliron::irbuild::inserter::{Inserter, OpInsertionPoint};
use pliron::irbuild::listener::RecorderEvent;
use pliron::linked_list::{ContainsLinkedList, LinkedList};
use pliron::operation::Operation;
use pliron::r#type::Typed;
use std::fmt::Write;

fn point_text(bench: &Bench, point: OpInsertionPoint) -> String {
    let (word, node) = match point {
        OpInsertionPoint::Unset => return "unset".to_string(),
        OpInsertionPoint::AtBlockStart(block) => ("start", Node::Block(block)),
        OpInsertionPoint::AtBlockEnd(block) => ("end", Node::Block(block)),
        OpInsertionPoint::AfterOperation(op) => ("after", Node::Op(op)),
        OpInsertionPoint::BeforeOperation(op) => ("before", Node::Op(op)),
    };
    format!("{word} {}", bench.name_of(node))
}

fn event_text(bench: &Bench, event: &RecorderEvent) -> String {
    let op_name = |op: &Ptr<Operation>| bench.name_of(Node::Op(*op));
    match event {
        RecorderEvent::InsertedOperation(op) => format!("inserted {}", op_name(op)),
        RecorderEvent::InsertedBlock(block) => format!("inserted block {}", bench.name_of(Node::Block(*block))),
        RecorderEvent::ErasedOperation(op) => format!("erased {}", op_name(op)),
        RecorderEvent::ErasedBlock(block) => format!("erased block {}", bench.name_of(Node::Block(*block))),
        RecorderEvent::ErasedRegion(_) => "erased region".to_string(),
        RecorderEvent::ReplacedValueUses { old_value, old_type, new_value } => format!(
            "replaced {} of type {} by {}",
            bench.value_text(*old_value),
            number_of(&bench.ctx, *old_type),
            bench.value_text(*new_value)
        ),
        RecorderEvent::ValueTypeChanged { value, old_type, new_type } => format!(
            "type of {} from {} to {}",
            bench.value_text(*value),
            number_of(&bench.ctx, *old_type),
            number_of(&bench.ctx, *new_type)
        ),
        RecorderEvent::UnlinkedOperation(op, place) => {
            format!("unlinked {} from {}", op_name(op), point_text(bench, *place))
        }
        RecorderEvent::UnlinkedBlock(block, _) => format!("unlinked block {}", bench.name_of(Node::Block(*block))),
    }
}

/// The records, parted by commas.
pub fn records_text(bench: &Bench) -> String {
    let all: Vec<_> = bench.rewriter.get_listener().events.iter().map(|event| event_text(bench, event)).collect();
    all.join(", ")
}

/// An operation with its operands and types.
pub fn op_line(bench: &Bench, op: Ptr<Operation>) -> String {
    let op = op.deref(&bench.ctx);
    let mut text = format!("{} {}", op.attributes.1, op.attributes.2);
    for operand in op.operands() {
        write!(text, " {}", bench.value_text(operand)).unwrap();
    }
    text.push_str(" ->");
    for each in op.result_types() {
        write!(text, " {}", number_of(&bench.ctx, each)).unwrap();
    }
    text
}

/// All that can be seen of the context and the rewriter, to tell whether a call changed anything. It also counts what the
/// context holds, so that something that was made and lies nowhere is seen.
pub fn look(bench: &Bench) -> String {
    let ctx = &bench.ctx;
    let mut text = format!("{:?} ", pliron::region::held(ctx));
    text.push_str(&point_text(bench, bench.rewriter.get_insertion_point()));
    write!(text, " [{}]", records_text(bench)).unwrap();
    let name = |node: Option<Node>| node.map_or("none", |node| bench.name_of(node));
    for named in &bench.names {
        write!(text, "; {}", named.name).unwrap();
        match named.node {
            Node::Op(op) => {
                let Ok(held) = op.try_deref(ctx) else {
                    text.push_str(" gone");
                    continue;
                };
                write!(
                    text,
                    " {} in {} behind {} before {} regions",
                    op_line(bench, op),
                    name(held.get_parent_block().map(Node::Block)),
                    name(held.get_prev().map(Node::Op)),
                    name(held.get_next().map(Node::Op))
                )
                .unwrap();
                for region in held.regions() {
                    write!(text, " {}", region.deref(ctx).graph).unwrap();
                }
                for value in held.results() {
                    write!(text, " used {}", value.num_uses(ctx)).unwrap();
                }
            }
            Node::Block(block) => {
                let Ok(held) = block.try_deref(ctx) else {
                    text.push_str(" gone");
                    continue;
                };
                write!(
                    text,
                    " in {} behind {} before {} from {} to {}",
                    name(held.get_parent_op(ctx).map(Node::Op)),
                    name(held.get_prev().map(Node::Block)),
                    name(held.get_next().map(Node::Block)),
                    name(held.get_head().map(Node::Op)),
                    name(held.get_tail().map(Node::Op))
                )
                .unwrap();
                for value in held.arguments() {
                    write!(text, " {} used {}", number_of(ctx, value.get_type(ctx)), value.num_uses(ctx)).unwrap();
                }
            }
            Node::Region(_) => {}
        }
    }
    text
}
