//! Stand-ins for names, locations, errors, printing, parsing, attributes and dialects.
//!
//! The twelve files name them, so they have to be there to compile; but for `Location` (none is known), `AttributeDict`
//! (kind and note) and errors, no call that is compared comes here. Parsers cannot be run.
#[macro_export]
macro_rules! shim_error {
    ($k:ident, $loc:expr, $s:literal $($t:tt)*) => {
        $crate::result::Error { kind: stringify!($k), err: format!($s $($t)*).into(), loc: $loc.clone() }
    };
    ($k:ident, $loc:expr, $e:expr) => {
        $crate::result::Error { kind: stringify!($k), err: Box::new($e), loc: $loc.clone() }
    };
}
#[macro_export]
macro_rules! verify_error { ($l:expr, $($t:tt)*) => { $crate::shim_error!(verify, $l, $($t)*) }; }
#[macro_export]
macro_rules! verify_err { ($($t:tt)*) => { Err($crate::verify_error!($($t)*)) }; }
#[macro_export]
macro_rules! verify_err_noloc { ($($t:tt)*) => { Err($crate::shim_error!(verify, $crate::location::Location::Unknown, $($t)*)) }; }
#[macro_export]
macro_rules! arg_error { ($l:expr, $($t:tt)*) => { $crate::shim_error!(arg, $l, $($t)*) }; }
#[macro_export]
macro_rules! arg_error_noloc { ($($t:tt)*) => { $crate::shim_error!(arg, $crate::location::Location::Unknown, $($t)*) }; }
#[macro_export]
macro_rules! arg_err_noloc { ($($t:tt)*) => { Err($crate::arg_error_noloc!($($t)*)) }; }
#[macro_export]
macro_rules! input_err { ($l:expr, $($t:tt)*) => { Err($crate::shim_error!(input, $l, $($t)*)) }; }
#[macro_export]
macro_rules! ident {
    ($s:literal) => {
        $crate::identifier::Identifier::try_from($s).unwrap()
    };
}
#[macro_export]
macro_rules! impl_printable_for_display {
    ($t:ty) => {
        impl $crate::printable::Printable for $t {
            fn fmt(
                &self,
                _: &$crate::context::Context,
                _: &$crate::printable::State,
                f: &mut core::fmt::Formatter<'_>,
            ) -> core::fmt::Result {
                core::fmt::Display::fmt(self, f)
            }
        }
    };
}

pub mod location {
    #[derive(Clone, Debug, PartialEq, Eq)]
    pub enum Location {
        Unknown,
        Named(String),
    }
    impl Location {
        pub fn is_unknown(&self) -> bool {
            *self == Location::Unknown
        }
        pub fn source(&self) -> Option<()> {
            None
        }
    }
}

pub mod result {
    use crate::{
        context::Context,
        location::Location,
        printable::{self, Printable},
    };
    #[derive(Debug)]
    pub struct Error {
        pub kind: &'static str,
        pub err: Box<dyn core::error::Error + Send + Sync>,
        pub loc: Location,
    }
    pub type Result<T> = core::result::Result<T, Error>;
    impl Printable for Error {
        fn fmt(&self, _: &Context, _: &printable::State, f: &mut std::fmt::Formatter<'_>) -> std::fmt::Result {
            write!(f, "{}: {}", self.kind, self.err)
        }
    }
}

pub mod common_traits {
    use crate::{context::Context, identifier::Identifier, result::Result};
    pub trait Named {
        fn given_name(&self, ctx: &Context) -> Option<Identifier>;
        fn id(&self, ctx: &Context) -> Identifier;
        fn unique_name(&self, ctx: &Context) -> Identifier {
            self.given_name(ctx).unwrap_or_else(|| self.id(ctx))
        }
    }
    pub trait Verify {
        fn verify(&self, ctx: &Context) -> Result<()>;
    }
    pub trait RcShare {
        fn share(&self) -> Self;
    }
}

pub mod identifier {
    use crate::{
        parsable::{Parsable, ParseResult, StateStream},
        result::{Error, Result},
    };
    #[derive(Clone, Debug, PartialEq, Eq, Hash, PartialOrd, Ord)]
    pub struct Identifier(String);
    impl TryFrom<&str> for Identifier {
        type Error = Error;
        fn try_from(s: &str) -> Result<Self> {
            Ok(Identifier(s.into()))
        }
    }
    impl TryFrom<String> for Identifier {
        type Error = Error;
        fn try_from(s: String) -> Result<Self> {
            Ok(Identifier(s))
        }
    }
    impl From<Identifier> for String {
        fn from(i: Identifier) -> String {
            i.0
        }
    }
    impl core::fmt::Display for Identifier {
        fn fmt(&self, f: &mut core::fmt::Formatter<'_>) -> core::fmt::Result {
            f.write_str(&self.0)
        }
    }
    impl AsRef<str> for Identifier {
        fn as_ref(&self) -> &str {
            &self.0
        }
    }
    impl core::ops::Add for Identifier {
        type Output = Identifier;
        fn add(self, o: Identifier) -> Identifier {
            Identifier(self.0 + &o.0)
        }
    }
    impl_printable_for_display!(Identifier);
    impl Parsable for Identifier {
        type Arg = ();
        type Parsed = Identifier;
        fn parse<'a>(_: &mut StateStream<'a>, _: ()) -> ParseResult<'a, Identifier> {
            unimplemented!()
        }
    }
}

pub mod printable {
    use crate::{common_traits::RcShare, context::Context};
    use core::fmt::{Display, Formatter, Result};
    #[derive(Clone, Default)]
    pub struct State;
    pub enum RegionPrintDepthLimit {
        Max(usize),
    }
    impl State {
        pub fn set_region_print_depth_limit(&self, _: RegionPrintDepthLimit) {}
        pub fn indent(&self) {}
    }
    impl RcShare for State {
        fn share(&self) -> State {
            State
        }
    }
    pub enum ListSeparator {
        CharSpace(char),
        CharNewline(char),
    }
    pub fn indented_nl(_: &State) -> &'static str {
        "\n  "
    }
    pub struct Shown<'a, T: ?Sized>(&'a T, &'a Context, State);
    impl<T: Printable + ?Sized> Display for Shown<'_, T> {
        fn fmt(&self, f: &mut Formatter<'_>) -> Result {
            self.0.fmt(self.1, &self.2, f)
        }
    }
    pub trait Printable {
        fn fmt(&self, ctx: &Context, state: &State, f: &mut Formatter<'_>) -> Result;
        fn print<'a>(&'a self, ctx: &'a Context, state: &State) -> Shown<'a, Self>
        where
            Self: Sized,
        {
            Shown(self, ctx, state.clone())
        }
        fn disp<'a>(&'a self, ctx: &'a Context) -> Shown<'a, Self>
        where
            Self: Sized,
        {
            Shown(self, ctx, State)
        }
    }
    impl<T: Printable + ?Sized> Printable for &T {
        fn fmt(&self, ctx: &Context, state: &State, f: &mut Formatter<'_>) -> Result {
            (**self).fmt(ctx, state, f)
        }
    }
}

pub mod parsable {
    pub use crate::combine::Parser;
    use crate::{
        basic_block::BasicBlock,
        combine::{P, Stream},
        context::{Context, Ptr},
        identifier::Identifier,
        location::Location,
        result,
        value::Value,
    };
    #[derive(Debug)]
    pub struct NoParse(pub result::Error);
    impl From<result::Error> for NoParse {
        fn from(e: result::Error) -> Self {
            NoParse(e)
        }
    }
    pub type ParseResult<'a, T> = core::result::Result<(T, ()), <StateStream<'a> as Stream>::Error>;
    pub struct NameTracker;
    impl NameTracker {
        pub fn ssa_def(&mut self, _: &Context, _: &(Identifier, Location), _: Value) -> result::Result<()> {
            unimplemented!()
        }
        pub fn block_def(&mut self, _: &Context, _: &(Identifier, Location), _: Ptr<BasicBlock>) -> result::Result<()> {
            unimplemented!()
        }
    }
    pub struct State<'a> {
        pub ctx: &'a mut Context,
        pub name_tracker: NameTracker,
    }
    pub struct StateStream<'a> {
        pub state: State<'a>,
    }
    impl Stream for StateStream<'_> {
        type Error = NoParse;
    }
    pub trait StreamLocation {
        fn loc(&self) -> Location;
    }
    impl StreamLocation for StateStream<'_> {
        fn loc(&self) -> Location {
            Location::Unknown
        }
    }
    pub trait IntoParseResult<T> {
        fn into_parse_result<'a>(self) -> ParseResult<'a, T>;
    }
    impl<T> IntoParseResult<T> for result::Result<T> {
        fn into_parse_result<'a>(self) -> ParseResult<'a, T> {
            Ok((self?, ()))
        }
    }
    pub trait Parsable {
        type Arg: Clone + 'static;
        type Parsed;
        fn parse<'a>(s: &mut StateStream<'a>, arg: Self::Arg) -> ParseResult<'a, Self::Parsed>
        where
            Self: Sized;
        fn parser<'a>(_arg: Self::Arg) -> P<StateStream<'a>, Self::Parsed>
        where
            Self: Sized,
        {
            P::none()
        }
    }
    impl Parsable for usize {
        type Arg = ();
        type Parsed = usize;
        fn parse<'a>(_: &mut StateStream<'a>, _: ()) -> ParseResult<'a, usize> {
            unimplemented!()
        }
    }
}

pub mod irfmt {
    pub mod parsers {
        use crate::{
            combine::{P, Parser},
            location::Location,
            parsable::StateStream as S,
            r#type::TypeHandle,
        };
        pub fn spaced<'a, Q: Parser<S<'a>>>(_q: Q) -> P<S<'a>, Q::Output> {
            P::none()
        }
        pub fn location<'a>() -> P<S<'a>, Location> {
            P::none()
        }
        pub fn type_parser<'a>() -> P<S<'a>, TypeHandle> {
            P::none()
        }
        pub fn list_parser<'a, Q: Parser<S<'a>>>(_: char, _q: Q) -> P<S<'a>, Vec<Q::Output>> {
            P::none()
        }
        pub fn delimited_list_parser<'a, Q: Parser<S<'a>>>(
            _: char,
            _: char,
            _: char,
            _q: Q,
        ) -> P<S<'a>, Vec<Q::Output>> {
            P::none()
        }
    }
    pub mod printers {
        use crate::{
            context::Context,
            printable::{ListSeparator, Printable, State},
        };
        use core::fmt::{Formatter, Result};
        pub struct By<I, F>(I, ListSeparator, F);
        impl<I: Iterator + Clone, F: Fn(I::Item, &Context, &State, &mut Formatter<'_>) -> Result> Printable for By<I, F> {
            fn fmt(&self, ctx: &Context, s: &State, f: &mut Formatter<'_>) -> Result {
                for (i, x) in self.0.clone().enumerate() {
                    match self.1 {
                        _ if i == 0 => {}
                        ListSeparator::CharSpace(c) => write!(f, "{c} ")?,
                        ListSeparator::CharNewline(c) => write!(f, "{c}\n  ")?,
                    }
                    (self.2)(x, ctx, s, f)?;
                }
                Ok(())
            }
        }
        pub fn iter_with_sep_by<I: Iterator + Clone, F: Fn(I::Item, &Context, &State, &mut Formatter<'_>) -> Result>(
            i: I,
            s: ListSeparator,
            f: F,
        ) -> By<I, F> {
            By(i, s, f)
        }
        type One<T> = fn(T, &Context, &State, &mut Formatter<'_>) -> Result;
        fn one<T: Printable>(t: T, c: &Context, s: &State, f: &mut Formatter<'_>) -> Result {
            t.fmt(c, s, f)
        }
        pub fn iter_with_sep<I: Iterator<Item: Printable> + Clone>(i: I, s: ListSeparator) -> By<I, One<I::Item>> {
            By(i, s, one::<I::Item>)
        }
        pub fn list_with_sep<T: Printable>(v: &[T], s: ListSeparator) -> By<core::slice::Iter<'_, T>, One<&T>> {
            By(v.iter(), s, one)
        }
    }
    pub mod outlined {
        use crate::{
            basic_block::BasicBlock,
            context::{Context, Ptr},
            location::Location,
            operation::Operation,
            parsable::{NoParse, StateStream},
            printable::State,
        };
        type R<T> = core::result::Result<T, NoParse>;
        pub fn parse_outlines(_: &mut StateStream<'_>) -> R<()> {
            unimplemented!()
        }
        pub fn postparse_outline(_: &mut StateStream<'_>, _: Ptr<Operation>) -> R<()> {
            unimplemented!()
        }
        pub fn register_block_for_outline(_: &mut StateStream<'_>, _: usize, _: Ptr<BasicBlock>, _: Location) -> R<()> {
            unimplemented!()
        }
        pub fn preprint_outline_operation(
            _: &Context,
            _: Ptr<Operation>,
            _: State,
            _: &mut core::fmt::Formatter<'_>,
        ) -> core::fmt::Result {
            Ok(())
        }
        pub fn preprint_outline_block(
            _: &Context,
            _: Ptr<BasicBlock>,
            _: State,
            _: &mut core::fmt::Formatter<'_>,
        ) -> core::fmt::Result {
            Ok(())
        }
        pub fn print_outlines(_: &Context, _: State, _: &mut core::fmt::Formatter<'_>) -> core::fmt::Result {
            Ok(())
        }
    }
}

pub mod attribute {
    use crate::{
        context::Context,
        identifier::Identifier,
        parsable::{Parsable, ParseResult, StateStream},
        printable::{Printable, State},
        result::Result,
        utils::table::HMap,
    };
    pub trait Attribute: Send {}
    /// No attributes. In their place the kind and the note, so that an operation carries them without a change to
    /// operation.rs.
    #[derive(Default)]
    pub struct AttributeDict(pub HMap<Identifier, Box<dyn Attribute>>, pub u16, pub u32);
    impl AttributeDict {
        pub fn clone_skip_outlined(&self, _: &Context) -> AttributeDict {
            AttributeDict(HMap::default(), self.1, self.2)
        }
    }
    impl Printable for AttributeDict {
        fn fmt(&self, _: &Context, _: &State, _: &mut core::fmt::Formatter<'_>) -> core::fmt::Result {
            Ok(())
        }
    }
    impl Parsable for AttributeDict {
        type Arg = ();
        type Parsed = AttributeDict;
        fn parse<'a>(_: &mut StateStream<'a>, _: ()) -> ParseResult<'a, AttributeDict> {
            unimplemented!()
        }
    }
    pub fn verify_attr(_: &dyn Attribute, _: &Context) -> Result<()> {
        Ok(())
    }
}

pub mod dialect {
    use crate::{
        context::Context,
        identifier::Identifier,
        op::{OpId, OpParserFn},
        parsable::{Parsable, ParseResult, StateStream},
        r#type::{TypeId, TypeParserFn},
        utils::table::HMap,
    };
    #[derive(Clone, Debug, PartialEq, Eq, Hash)]
    pub struct DialectName(pub Identifier);
    impl core::fmt::Display for DialectName {
        fn fmt(&self, f: &mut core::fmt::Formatter<'_>) -> core::fmt::Result {
            write!(f, "{}", self.0)
        }
    }
    impl Parsable for DialectName {
        type Arg = ();
        type Parsed = DialectName;
        fn parse<'a>(_: &mut StateStream<'a>, _: ()) -> ParseResult<'a, DialectName> {
            unimplemented!()
        }
    }
    #[derive(Default)]
    pub struct Dialect {
        pub(crate) ops: HMap<OpId, OpParserFn>,
        pub(crate) types: HMap<TypeId, TypeParserFn>,
    }
    impl Dialect {
        pub fn register<'a>(ctx: &'a mut Context, name: &DialectName) -> &'a mut Dialect {
            ctx.dialects.entry(name.clone()).or_default()
        }
        pub(crate) fn add_type(&mut self, t: TypeId, p: TypeParserFn) {
            self.types.insert(t, p);
        }
    }
}
