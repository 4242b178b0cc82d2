//! Stand-ins for the crates slotmap, log, downcast_rs and combine, so that nothing has to be fetched.
//! `extern crate shims as slotmap;` and so on makes each name resolve here. Of these only slotmap matters to the calls that
//! are compared: it holds the operations, blocks and regions, and tells a dead key from a live one.
use std::marker::PhantomData;

// ---- log: nothing is evaluated ----
#[macro_export]
macro_rules! trace { ($($t:tt)*) => { if false { let _ = format!($($t)*); } }; }
#[macro_export]
macro_rules! error {
    (target: $g:expr, $($t:tt)*) => { $crate::trace!($($t)*) };
    ($($t:tt)*) => { $crate::trace!($($t)*) };
}

// ---- downcast_rs ----
pub trait Downcast: std::any::Any {
    fn as_any(&self) -> &dyn std::any::Any;
}
impl<T: std::any::Any> Downcast for T {
    fn as_any(&self) -> &dyn std::any::Any {
        self
    }
}
#[macro_export]
macro_rules! impl_downcast {
    ($t:ident) => {
        impl dyn $t {
            pub fn is<T: $t>(&self) -> bool {
                self.as_any().is::<T>()
            }
            pub fn downcast_ref<T: $t>(&self) -> Option<&T> {
                self.as_any().downcast_ref::<T>()
            }
        }
    };
}

// ---- slotmap: slots reused last freed first, version odd while filled ----
#[derive(Clone, Copy, PartialEq, Eq, Hash, PartialOrd, Ord, Default)]
pub struct KeyData {
    pub idx: u32,
    pub version: u32,
}
impl std::fmt::Debug for KeyData {
    fn fmt(&self, f: &mut std::fmt::Formatter<'_>) -> std::fmt::Result {
        write!(f, "{}v{}", self.idx, self.version)
    }
}
pub trait Key: Copy {
    fn from_data(d: KeyData) -> Self;
    fn data(self) -> KeyData;
}
#[macro_export]
macro_rules! new_key_type {
    ($(#[$m:meta])* $v:vis struct $n:ident; ) => {
        $(#[$m])*
        #[derive(Clone, Copy, PartialEq, Eq, Hash, PartialOrd, Ord, Debug, Default)]
        $v struct $n($crate::KeyData);
        impl $crate::Key for $n {
            fn from_data(d: $crate::KeyData) -> Self { $n(d) }
            fn data(self) -> $crate::KeyData { self.0 }
        }
    };
}
struct Slot<V> {
    version: u32,
    v: Option<V>,
}
pub struct SlotMap<K: Key, V> {
    slots: Vec<Slot<V>>,
    free: Vec<u32>,
    live: usize,
    _k: PhantomData<fn() -> K>,
}
impl<K: Key, V> Default for SlotMap<K, V> {
    fn default() -> Self {
        Self::with_key()
    }
}
impl<K: Key, V> SlotMap<K, V> {
    pub fn with_key() -> Self {
        SlotMap { slots: Vec::new(), free: Vec::new(), live: 0, _k: PhantomData }
    }
    pub fn is_empty(&self) -> bool {
        self.live == 0
    }
    pub fn len(&self) -> usize {
        self.live
    }
    pub fn insert_with_key<F: FnOnce(K) -> V>(&mut self, f: F) -> K {
        let idx = self.free.pop().unwrap_or_else(|| {
            self.slots.push(Slot { version: 0, v: None });
            self.slots.len() as u32 - 1
        });
        let s = &mut self.slots[idx as usize];
        s.version += 1;
        let k = K::from_data(KeyData { idx, version: s.version });
        s.v = Some(f(k));
        self.live += 1;
        k
    }
    pub fn insert(&mut self, v: V) -> K {
        self.insert_with_key(|_| v)
    }
    pub fn get(&self, k: K) -> Option<&V> {
        let d = k.data();
        let s = self.slots.get(d.idx as usize)?;
        if s.version == d.version { s.v.as_ref() } else { None }
    }
    pub fn remove(&mut self, k: K) -> Option<V> {
        self.get(k)?;
        let d = k.data();
        let s = &mut self.slots[d.idx as usize];
        s.version += 1;
        self.free.push(d.idx);
        self.live -= 1;
        s.v.take()
    }
    pub fn iter(&self) -> impl Iterator<Item = (K, &V)> {
        self.slots
            .iter()
            .enumerate()
            .filter_map(|(i, s)| s.v.as_ref().map(|v| (K::from_data(KeyData { idx: i as u32, version: s.version }), v)))
    }
}

// ---- combine: types only, no parser ever runs ----
pub trait Stream {
    type Error;
}
pub struct ParseResult<T, E>(pub Result<(T, ()), E>);
impl<T, E> ParseResult<T, E> {
    pub fn into_result(self) -> Result<(T, ()), E> {
        self.0
    }
}
impl<T, E> From<ParseResult<T, E>> for Result<(T, ()), E> {
    fn from(r: ParseResult<T, E>) -> Self {
        r.0
    }
}
/// The one parser: what it would read and give.
pub struct P<I, O>(PhantomData<fn(I) -> O>);
impl<I, O> P<I, O> {
    pub fn none() -> Self {
        P(PhantomData)
    }
}
pub trait Parser<I: Stream>: Sized {
    type Output;
    type PartialState;
    fn parse_stream(&mut self, _i: &mut I) -> ParseResult<Self::Output, I::Error> {
        unimplemented!("parsing")
    }
    fn with<Q: Parser<I>>(self, _q: Q) -> P<I, Q::Output> {
        P::none()
    }
    fn and<Q: Parser<I>>(self, _q: Q) -> P<I, (Self::Output, Q::Output)> {
        P::none()
    }
    fn skip<Q: Parser<I>>(self, _q: Q) -> P<I, Self::Output> {
        P::none()
    }
    fn then<N: Parser<I>, F: FnMut(Self::Output) -> N>(self, _f: F) -> P<I, N::Output> {
        P::none()
    }
    fn map<B, F: FnMut(Self::Output) -> B>(self, _f: F) -> P<I, B> {
        P::none()
    }
}
impl<I: Stream, O> Parser<I> for P<I, O> {
    type Output = O;
    type PartialState = ();
}
impl<I: Stream, A: Parser<I>, B: Parser<I>> Parser<I> for (A, B) {
    type Output = (A::Output, B::Output);
    type PartialState = ();
}
impl<I: Stream, A: Parser<I>, B: Parser<I>, C: Parser<I>, D: Parser<I>> Parser<I> for (A, B, C, D) {
    type Output = (A::Output, B::Output, C::Output, D::Output);
    type PartialState = ();
}
pub fn parser<I: Stream, O, F: FnMut(&mut I) -> Result<(O, ()), I::Error>>(_f: F) -> P<I, O> {
    P::none()
}
pub fn optional<I: Stream, Q: Parser<I>>(_q: Q) -> P<I, Option<Q::Output>> {
    P::none()
}
pub fn attempt<I: Stream, Q: Parser<I>>(_q: Q) -> P<I, Q::Output> {
    P::none()
}
pub fn token<I: Stream>(_c: char) -> P<I, char> {
    P::none()
}
pub fn sep_by<F: Extend<Q::Output> + Default, Q: Parser<I>, S: Parser<I>, I: Stream>(_q: Q, _s: S) -> P<I, F> {
    P::none()
}
pub mod parser {
    pub use super::Parser;
    pub mod char {
        use crate::{P, Stream};
        pub fn spaces<I: Stream>() -> P<I, ()> {
            P::none()
        }
        pub fn char<I: Stream>(_c: ::core::primitive::char) -> P<I, ::core::primitive::char> {
            P::none()
        }
    }
}
