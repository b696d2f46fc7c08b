//! A heap whose objects are collected and moved while threads use them: the library of `covremuj.h`, for Rust.
//!
//! A thread works through a [`Mutator`], which has 16 roots. An object has up to 16 references and 16 numbers, and lives as long as some root
//! leads to it. A [`Root`] is one of the 16 while the value lives. There are no barriers to place and nothing to scan, and no call of this crate is unsafe: who
//! uses a root as what it is not is answered [`Error::Bad`].
//!
//! ```
//! use covremuj::{Config, Error, Heap, Root, Shape};
//!
//! struct Node;
//! impl Shape for Node {
//!     const REFERENCES: u32 = 1;
//!     const NUMBERS: u32 = 1;
//! }
//!
//! # fn main() -> Result<(), Error> {
//! let heap = Heap::open(&Config { regions: 16, region_words: 256, mutators: 2, helpers: 1, reserve: 2 })?;
//! std::thread::scope(|scope| {
//!     while let Some(me) = heap.mutator() {
//!         scope.spawn(move || -> Result<(), Error> {
//!             for _ in 0..20 {
//!                 let mut list: Root<Node> = me.null()?;
//!                 for i in 1..=100 {
//!                     let node = me.make::<Node>()?; // may wait for a collection
//!                     node.write(0, i)?;
//!                     node.set(0, &list)?;
//!                     list.assign(&node)?;
//!                 }
//!                 let mut sum = 0;
//!                 for _ in 0..100 {
//!                     sum += list.read(0)?;
//!                     list.advance(0)?;
//!                 }
//!                 assert_eq!(sum, 5050);
//!             }
//!             Ok(())
//!         });
//!     }
//! });
//! # Ok(())
//! # }
//! ```
//!
//! The functions that this crate calls are proved, as the repository's `docs/LIBRARY.md` says; this crate is not. A mutator may go to another
//! thread, and is used by one at a time:
//!
//! ```compile_fail
//! fn shared<T: Sync>() {}
//! shared::<covremuj::Mutator>();
//! ```
//!
//! A mutator ends before its heap:
//!
//! ```compile_fail
//! # use covremuj::{Config, Heap};
//! let mutator;
//! {
//!     let heap = Heap::open(&Config { regions: 4, region_words: 64, mutators: 1, helpers: 0, reserve: 0 }).unwrap();
//!     mutator = heap.mutator().unwrap();
//! }
//! drop(mutator);
//! ```

mod error;
mod ffi;
mod heap;
mod mutator;
mod root;

pub use error::Error;
pub use heap::{Config, Heap, Phase, Place, Renewal, Seats, Worker};
pub use mutator::{Command, Mutator, Name, Progress, Reply};
pub use root::{Any, Root, Shape};

/// Roots of a mutator.
pub const ROOTS: u32 = 16;
