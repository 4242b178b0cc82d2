//! Operations and types as pliron wants them: one `Op` for every kind, one `Type` whose only content is its number.
use pliron::common_traits::Verify;
use pliron::context::{Context, Ptr};
use pliron::dialect::DialectName;
use pliron::op::{ConcreteOpInfo, Op, OpId, OpObj};
use pliron::operation::Operation;
use pliron::printable::{Printable, State};
use pliron::result::Result;
use pliron::storage_uniquer::TypeValueHash;
use pliron::r#type::{Type, TypeHandle, TypeId};
use pliron::value::Value;
use std::fmt::Formatter;

fn ours() -> DialectName {
    DialectName("ours".try_into().unwrap())
}

struct AnyOp(Ptr<Operation>);

impl Printable for AnyOp {
    fn fmt(&self, _: &Context, _: &State, f: &mut Formatter<'_>) -> std::fmt::Result {
        write!(f, "an operation")
    }
}

impl Op for AnyOp {
    fn get_operation(&self) -> Ptr<Operation> {
        self.0
    }
    fn get_opid(&self) -> OpId {
        OpId { dialect: ours(), name: "op".try_into().unwrap() }
    }
    fn verify_interfaces(&self, _: &Context) -> Result<()> {
        Ok(())
    }
    fn verify(&self, _: &Context) -> Result<()> {
        Ok(())
    }
    fn from_operation(op: Ptr<Operation>) -> Self {
        AnyOp(op)
    }
    fn get_concrete_op_info() -> ConcreteOpInfo {
        fn object(op: Ptr<Operation>) -> OpObj {
            Box::new(AnyOp(op))
        }
        ConcreteOpInfo(object, std::any::TypeId::of::<AnyOp>())
    }
}

#[derive(Debug, Hash, PartialEq, Eq)]
struct Numbered(u32);

impl Printable for Numbered {
    fn fmt(&self, _: &Context, _: &State, f: &mut Formatter<'_>) -> std::fmt::Result {
        write!(f, "{}", self.0)
    }
}

impl Verify for Numbered {
    fn verify(&self, _: &Context) -> Result<()> {
        Ok(())
    }
}

impl Type for Numbered {
    fn hash_type(&self) -> TypeValueHash {
        TypeValueHash(self.0 as u64)
    }
    fn eq_type(&self, other: &dyn Type) -> bool {
        other.downcast_ref::<Numbered>() == Some(self)
    }
    fn get_type_id(&self) -> TypeId {
        Self::get_type_id_static()
    }
    fn get_type_id_static() -> TypeId {
        TypeId { dialect: ours(), name: "type".try_into().unwrap() }
    }
    fn verify_interfaces(&self, _: &Context) -> Result<()> {
        Ok(())
    }
}

/// The type with this number.
pub fn type_of(ctx: &Context, number: u32) -> TypeHandle {
    Numbered::instantiate(Numbered(number), ctx).to_handle()
}

pub fn number_of(ctx: &Context, handle: TypeHandle) -> u32 {
    handle.deref(ctx).downcast_ref::<Numbered>().expect("a type that was not made here").0
}

/// An operation in no block. Kind and note stand beside the attributes (shim/text.rs).
pub fn make(
    ctx: &mut Context,
    kind: u16,
    note: u32,
    operands: Vec<Value>,
    types: &[u32],
    marks: &[bool],
) -> Ptr<Operation> {
    let types = types.iter().map(|n| type_of(ctx, *n)).collect();
    let op = Operation::new(ctx, AnyOp::get_concrete_op_info(), types, operands, vec![], marks.len());
    op.deref_mut(ctx).attributes.1 = kind;
    op.deref_mut(ctx).attributes.2 = note;
    let regions: Vec<_> = op.deref(ctx).regions().collect();
    for (region, mark) in regions.into_iter().zip(marks) {
        region.deref_mut(ctx).graph = *mark;
    }
    op
}
