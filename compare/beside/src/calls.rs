//! One line: a call of pliron, and what it answers.
use crate::bench::{Bench, Node};
use crate::kinds::{make, number_of, type_of};
use crate::show::{op_line, records_text};
use crate::words::{marks, number, types, word};
use pliron::graph::walkers::uninterruptible::immutable::walk_op;
use pliron::graph::walkers::{IRNode, WALKCONFIG_PREORDER_FORWARD};
use pliron::irbuild::inserter::Inserter;
use pliron::irbuild::rewriter::Rewriter;
use pliron::linked_list::{ContainsLinkedList, LinkedList};
use pliron::r#type::Typed;

/// The words of calls that change something.
pub fn changes(first: &str) -> bool {
    [
        "make", "block", "point", "insert", "append", "unlink", "move", "type", "uses", "replace", "values", "erase",
        "fill", "retype",
    ]
    .contains(&first)
}

/// The calls of the rewriter; false where the line has another word.
fn change(bench: &mut Bench, line: &str) -> bool {
    let first = word(line, 1);
    let second = word(line, 2);
    match word(line, 0) {
        "make" => {
            let operands = bench.values(line, 4);
            let kind = (number(second) % 65536) as u16;
            let note = number(word(line, 3));
            let op = make(&mut bench.ctx, kind, note, operands, &types(line), &marks(line));
            let results = op.deref(&bench.ctx).results().collect();
            bench.call(first, Node::Op(op), results);
        }
        "block" => {
            let point = bench.block_point(line, 2);
            let types = types(line).into_iter().map(|n| type_of(&bench.ctx, n)).collect();
            let block = bench.rewriter.create_block(&mut bench.ctx, point, None, types);
            let arguments = block.deref(&bench.ctx).arguments().collect();
            bench.call(first, Node::Block(block), arguments);
        }
        "point" => {
            let point = bench.op_point(line, 1);
            bench.rewriter.set_insertion_point(point);
        }
        "insert" => {
            let op = bench.op(first);
            bench.rewriter.insert_operation(&bench.ctx, op);
        }
        "append" => {
            let op = bench.op(first);
            bench.rewriter.append_operation(&bench.ctx, op);
        }
        "unlink" => {
            let op = bench.op(first);
            bench.rewriter.unlink_operation(&bench.ctx, op);
        }
        "move" => {
            let op = bench.op(first);
            let point = bench.op_point(line, 2);
            bench.rewriter.move_operation(&bench.ctx, op, point);
        }
        "type" => {
            let value = bench.value(first);
            let to = type_of(&bench.ctx, number(second));
            bench.rewriter.set_value_type(&bench.ctx, value, to);
        }
        "uses" => {
            let old = bench.value(first);
            let new = bench.value(second);
            bench.rewriter.replace_value_uses_with(&bench.ctx, old, new);
        }
        "replace" => {
            let op = bench.op(first);
            let new = bench.op(second);
            bench.rewriter.replace_operation(&mut bench.ctx, op, new);
        }
        "values" => {
            let op = bench.op(first);
            let values = bench.values(line, 2);
            bench.rewriter.replace_operation_with_values(&mut bench.ctx, op, values);
        }
        "erase" => match bench.node(first) {
            Node::Op(op) => bench.rewriter.erase_operation(&mut bench.ctx, op),
            Node::Block(block) => bench.rewriter.erase_block(&mut bench.ctx, block),
            Node::Region(region) => bench.rewriter.erase_region(&mut bench.ctx, region),
        },
        _ => return false,
    }
    true
}

/// The nodes that pliron's walk meets, but for the regions.
fn walk(bench: &Bench, name: &str) -> String {
    let mut met = vec![];
    walk_op(&bench.ctx, &mut met, &WALKCONFIG_PREORDER_FORWARD, bench.op(name), |_, met, node| match node {
        IRNode::Operation(op) => met.push(Node::Op(op)),
        IRNode::BasicBlock(block) => met.push(Node::Block(block)),
        IRNode::Region(_) => {}
    });
    met.iter().map(|node| format!(" {}", bench.name_of(*node))).collect()
}

/// The places of a node.
fn place(bench: &Bench, question: &str, name: &str) -> String {
    let ctx = &bench.ctx;
    let (op, block) = (bench.op(name), bench.block(name));
    let node = match question {
        "next" => op.deref(ctx).get_next().map(Node::Op),
        "prev" => op.deref(ctx).get_prev().map(Node::Op),
        "parent" => op.deref(ctx).get_parent_block().map(Node::Block),
        "first" => block.deref(ctx).get_head().map(Node::Op),
        "last" => block.deref(ctx).get_tail().map(Node::Op),
        "next-block" => block.deref(ctx).get_next().map(Node::Block),
        "prev-block" => block.deref(ctx).get_prev().map(Node::Block),
        _ => None,
    };
    node.map_or("none", |node| bench.name_of(node)).to_string()
}

/// What is read.
fn read(bench: &mut Bench, line: &str) -> String {
    let first = word(line, 1);
    match word(line, 0) {
        "walk" => walk(bench, first),
        "records" => records_text(bench),
        "show" => op_line(bench, bench.op(first)),
        "typeof" => number_of(&bench.ctx, bench.value(first).get_type(&bench.ctx)).to_string(),
        "retype" => {
            let value = bench.value(first);
            let times = number(word(line, 2));
            for turn in 0..times {
                let to = type_of(&bench.ctx, 100 + turn % 2);
                bench.rewriter.set_value_type(&bench.ctx, value, to);
            }
            format!("{times} accepted")
        }
        "fill" => {
            // As often as `trials` tries it; there is no limit here.
            for _ in 0..600 {
                make(&mut bench.ctx, 1, 0, vec![], &[], &[]);
            }
            "600 made".to_string()
        }
        // Neither is in pliron.
        "part" | "generation" => "not compared".to_string(),
        question => place(bench, question, first),
    }
}

/// Makes the call that the line tells, and answers what is to be printed of it.
pub fn run(bench: &mut Bench, line: &str) -> String {
    if change(bench, line) { "ok".to_string() } else { read(bench, line) }
}
