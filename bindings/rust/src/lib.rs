//! Licence expressions on the terminal: a safe crate over the proved static library `libterminal.a`.
//!
//! It reads an SPDX licence expression, says exactly what is wrong with a bad one, writes its canonical text, and picks
//! the licences to ship under out of those that are accepted. All of that is the library's work; this crate lends it
//! the caller's bytes and gives its answers types. Document 01 of the project has the exact rules.
//!
//! ```
//! use tasgilfrem::{parse, Mode, Node};
//!
//! let tree = parse(b"MIT OR ISC AND 0BSD", Mode::STRICT)?;
//! assert_eq!(tree.nodes().len(), 5);
//! assert!(matches!(tree.nodes()[4], Node::Or));
//!
//! let refusal = parse(b"MIT +", Mode::STRICT).unwrap_err();
//! assert_eq!(refusal.number(), 5);
//! println!("{}", refusal.show(b"MIT +"));
//! # Ok::<(), tasgilfrem::Refusal>(())
//! ```
//!
//! ```text
//! MIT +
//!    ^
//! 5 at 3..4: white space stands before the `+`
//! ```
//!
//! # Linking
//!
//! `tools/library`, run in the project, proves the library and writes `target/staticlib/libterminal.a`, for
//! x86-64. The crate says that it links it; the compiler is told where it is:
//!
//! ```text
//! rustc --edition 2021 --crate-type rlib -L native=target/staticlib bindings/rust/src/lib.rs
//! RUSTFLAGS="-L native=target/staticlib" cargo build
//! ```
//!
//! There is no build script and no dependency. The library has no state: every function may be called from any thread.

#![deny(unsafe_code)]
#![deny(unsafe_op_in_unsafe_fn)]
#![warn(missing_docs)]

mod answer;
mod canonical;
mod list;
mod mode;
mod names;
#[allow(unsafe_code)]
mod raw;
mod refusal;
mod sets;
mod show;
mod span;
mod tokens;
mod tree;
mod width;

pub use canonical::{Canonical, canonical, canonical_into};
pub use list::{Entries, List, entry, make_list};
pub use mode::Mode;
pub use names::{ExceptionId, LicenceId};
pub use refusal::{Expected, ListFault, Refusal};
pub use sets::{Choice, Found, Listing, Sets, choice, found, listing, sets};
pub use show::Shown;
pub use span::Span;
pub use tokens::{Reference, Step, Token, Tokens, step, tokens};
pub use tree::{Addition, Branch, Leaf, Licence, Node, Subtree, Tree, parse};
