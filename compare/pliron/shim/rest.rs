//! Stand-ins for op, pass, builtin, storage_uniquer, uniqued_any, utils and the linkme re-export.
//!
//! What the compared calls run through: the table of types (`storage_uniquer`), the set of a value's uses
//! (`utils::table::SmallSet`), `utils::vec_exns`, and the names of values (`builtin::given_names`), of which there are none.
//! The rest is there so that the twelve files compile.
pub mod linkme {
    pub use shim_macros::distributed_slice;
}
pub mod std_deps {
    pub mod sync {
        pub use std::sync::LazyLock;
    }
}
pub mod uniqued_any {
    pub struct UniquedAny(#[allow(dead_code)] Box<dyn std::any::Any + Send>);
}

pub mod storage_uniquer {
    use std::{
        cell::{RefCell, UnsafeCell},
        collections::HashMap,
    };
    #[derive(Clone, Copy, PartialEq, Eq, Hash)]
    pub struct TypeValueHash(pub u64);
    impl From<TypeValueHash> for u64 {
        fn from(h: TypeValueHash) -> u64 {
            h.0
        }
    }
    /// A row that only grows; its elements do not move.
    pub struct Row<T>(UnsafeCell<Vec<Box<T>>>);
    impl<T> Row<T> {
        pub fn get(&self, i: usize) -> Option<&T> {
            unsafe { &*self.0.get() }.get(i).map(|b| &**b)
        }
        fn push(&self, t: T) -> usize {
            let v = unsafe { &mut *self.0.get() };
            v.push(Box::new(t));
            v.len() - 1
        }
    }
    pub struct UniqueStore<T> {
        pub(crate) unique_store: Row<T>,
        by_hash: RefCell<HashMap<u64, Vec<usize>>>,
    }
    impl<T> Default for UniqueStore<T> {
        fn default() -> Self {
            UniqueStore { unique_store: Row(UnsafeCell::new(Vec::new())), by_hash: RefCell::default() }
        }
    }
    impl<T> UniqueStore<T> {
        pub fn get(&self, h: TypeValueHash, is: &dyn Fn(&T) -> bool) -> Option<usize> {
            let m = self.by_hash.borrow();
            m.get(&h.0)?.iter().copied().find(|i| is(self.unique_store.get(*i).unwrap()))
        }
        pub fn get_or_create_unique(&self, t: T, h: TypeValueHash, eq: &dyn Fn(&T, &T) -> bool) -> usize {
            if let Some(i) = self.get(h, &|o| eq(&t, o)) {
                return i;
            }
            let i = self.unique_store.push(t);
            self.by_hash.borrow_mut().entry(h.0).or_default().push(i);
            i
        }
    }
}

pub mod utils {
    pub mod table {
        use std::collections::{HashMap, HashSet};
        pub type HMap<K, V> = HashMap<K, V>;
        pub type HSet<K> = HashSet<K>;
        pub type IMap<K, V> = HashMap<K, V>;
        /// A set in the order in which its elements came, so that a run gives the same each time. N is how many pliron keeps
        /// in place.
        pub struct SmallSet<T, const N: usize>(Vec<T>);
        impl<T, const N: usize> Default for SmallSet<T, N> {
            fn default() -> Self {
                SmallSet(Vec::new())
            }
        }
        impl<T: Eq + Copy, const N: usize> SmallSet<T, N> {
            pub fn is_empty(&self) -> bool {
                self.0.is_empty()
            }
            pub fn len(&self) -> usize {
                self.0.len()
            }
            pub fn contains(&self, t: &T) -> bool {
                self.0.contains(t)
            }
            pub fn iter(&self) -> impl Iterator<Item = &T> {
                self.0.iter()
            }
            pub fn insert(&mut self, t: T) -> bool {
                let new = !self.contains(&t);
                if new {
                    self.0.push(t);
                }
                new
            }
            pub fn remove(&mut self, t: &T) -> bool {
                let place = self.0.iter().position(|x| x == t);
                place.map(|i| self.0.remove(i)).is_some()
            }
        }
    }
    pub mod vec_exns {
        pub trait VecExtns<T> {
            fn new_init<F: FnMut(usize) -> T>(n: usize, f: F) -> Self;
            fn push_back(&mut self, t: T) -> usize;
        }
        impl<T> VecExtns<T> for Vec<T> {
            fn new_init<F: FnMut(usize) -> T>(n: usize, f: F) -> Self {
                (0..n).map(f).collect()
            }
            fn push_back(&mut self, t: T) -> usize {
                self.push(t);
                self.len() - 1
            }
        }
    }
    pub mod trait_cast {
        use std::any::Any;
        pub fn any_to_trait<T: ?Sized + 'static>(_: &dyn Any) -> Option<&T> {
            None
        }
        pub fn impls_trait_static<T, I: ?Sized + 'static>() -> bool {
            false
        }
    }
}

pub mod op {
    use crate::{
        context::{Context, Ptr},
        dialect::DialectName,
        identifier::Identifier,
        operation::Operation,
        parsable::{Parsable, ParseResult, StateStream},
        printable::{self, Printable},
        result::Result,
    };
    #[derive(Clone, Copy)]
    pub struct ConcreteOpInfo(pub fn(Ptr<Operation>) -> OpObj, pub std::any::TypeId);
    pub type OpObj = Box<dyn Op>;
    #[derive(Clone, PartialEq, Eq, Hash)]
    pub struct OpId {
        pub dialect: DialectName,
        pub name: Identifier,
    }
    impl Printable for OpId {
        fn fmt(&self, _: &Context, _: &printable::State, f: &mut std::fmt::Formatter<'_>) -> std::fmt::Result {
            write!(f, "{}.{}", self.dialect, self.name)
        }
    }
    impl Parsable for OpId {
        type Arg = ();
        type Parsed = OpId;
        fn parse<'a>(_: &mut StateStream<'a>, _: ()) -> ParseResult<'a, OpId> {
            unimplemented!()
        }
    }
    pub trait Op: Printable {
        fn get_operation(&self) -> Ptr<Operation>;
        fn get_opid(&self) -> OpId;
        fn verify_interfaces(&self, ctx: &Context) -> Result<()>;
        fn verify(&self, ctx: &Context) -> Result<()>;
        /// For `op_impls`: no operation here is a terminator.
        fn from_operation(op: Ptr<Operation>) -> Self
        where
            Self: Sized;
        fn get_concrete_op_info() -> ConcreteOpInfo
        where
            Self: Sized;
    }
    /// No interface is implemented: no terminators, no successors.
    pub fn op_impls<T: ?Sized>(_op: &dyn Op) -> bool {
        false
    }
    pub(crate) type OpParserFn =
        for<'a> fn(&mut StateStream<'a>, Vec<(Identifier, crate::location::Location)>) -> ParseResult<'a, OpObj>;
}

pub mod pass {
    use crate::{
        context::{Context, Ptr},
        irbuild::IRStatus,
        operation::Operation,
        result::Result,
    };
    #[derive(Default)]
    pub struct PassResult {
        pub ir_changed: IRStatus,
    }
    pub struct AnalysisManager;
    pub trait Pass {
        fn name(&self) -> &'static str;
        fn run(&mut self, op: Ptr<Operation>, ctx: &mut Context, a: &mut AnalysisManager) -> Result<PassResult>;
    }
}

pub mod builtin {
    pub mod op_interfaces {
        pub trait IsTerminatorInterface {}
        pub trait NoTerminatorInterface {}
    }
    /// No names are kept.
    pub mod given_names {
        use crate::{
            basic_block::BasicBlock,
            context::{Context, Ptr},
            identifier::Identifier,
            operation::Operation,
        };
        type N = Option<Identifier>;
        pub fn get_operation_result_name(_: &Context, _: Ptr<Operation>, _: usize) -> N {
            None
        }
        pub fn set_operation_result_name(_: &Context, _: Ptr<Operation>, _: usize, _: N) {}
        pub fn insert_operation_result_name(_: &Context, _: Ptr<Operation>, _: usize, _: N) {}
        pub fn remove_operation_result_name(_: &Context, _: Ptr<Operation>, _: usize) {}
        pub fn get_block_arg_name(_: &Context, _: Ptr<BasicBlock>, _: usize) -> N {
            None
        }
        pub fn set_block_arg_name(_: &Context, _: Ptr<BasicBlock>, _: usize, _: N) {}
        pub fn insert_block_arg_name(_: &Context, _: Ptr<BasicBlock>, _: usize, _: N) {}
        pub fn remove_block_arg_name(_: &Context, _: Ptr<BasicBlock>, _: usize) {}
    }
}
