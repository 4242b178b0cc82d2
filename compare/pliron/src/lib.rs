//! pliron 0.20.0: twelve of its own files, brought in unchanged by build.rs, over stand-ins for the rest of the crate.
//! The stand-ins are named so that the `use` lines of those files find them.
#![allow(dead_code, unused_imports, private_interfaces)]
extern crate alloc;
extern crate self as pliron;
pub extern crate shim_macros as pliron_derive;
pub extern crate shim_macros as thiserror;
pub extern crate shims as combine;
pub extern crate shims as downcast_rs;
pub extern crate shims as log;
pub extern crate shims as slotmap;

#[path = "../shim/text.rs"]
#[macro_use]
mod text;
pub use text::{attribute, common_traits, dialect, identifier, irfmt, location, parsable, printable, result};
#[path = "../shim/rest.rs"]
mod rest;
pub use rest::{builtin, linkme, op, pass, std_deps, storage_uniquer, uniqued_any, utils};
#[path = "../shim/region.rs"]
pub mod region;

include!(concat!(env!("OUT_DIR"), "/tree/root.rs"));
