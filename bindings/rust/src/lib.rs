//! A set of whole numbers with weights that threads share. The updates and queries of one key are proved in the library behind it; this crate
//! keeps by its types what the library asks of its callers.
//!
//! A [`Trie`] is opened for a number of users. Each thread opens a [`User`], which updates the set, or takes a [`Look`] at it: a snapshot that
//! queries are asked of.
//!
//! ```
//! use augtrie::Trie;
//!
//! let trie = Trie::new(12, 2, 1 << 21)?;
//! std::thread::scope(|scope| {
//!     for i in 0..2 {
//!         let mut user = trie.user()?;
//!         scope.spawn(move || {
//!             for key in 0..50 {
//!                 user.insert(2 * key + i).expect("the trie is open");
//!             }
//!             let look = user.look().expect("the trie is open");
//!             assert!(look.rank(4096) >= 50);
//!         });
//!     }
//!     Ok::<(), augtrie::Error>(())
//! })?;
//! let report = trie.close()?;
//! assert_eq!((report.size, report.inserts, report.removals), (100, 100, 0));
//! # Ok::<(), augtrie::Error>(())
//! ```
//!
//! While there is a look, its user's updates are made through it, and one thread at a time has a user or its look:
//!
//! ```compile_fail,E0499
//! # let mut user = augtrie::Trie::new(4, 1, 1 << 20).unwrap().user().unwrap();
//! let look = user.look().unwrap();
//! user.insert(7).unwrap();
//! look.len();
//! ```
//!
//! And who follows a trie by the changes between snapshots looks at what [`Look::again`] answers:
//!
//! ```compile_fail
//! # #![deny(unused_must_use)]
//! # let mut user = augtrie::Trie::new(4, 1, 1 << 20)?.user()?;
//! # let mut look = user.look()?;
//! look.again()?;
//! # Ok::<(), augtrie::Error>(())
//! ```
//!
//! ```compile_fail,E0277
//! # let user = augtrie::Trie::new(4, 1, 1 << 20).unwrap().user().unwrap();
//! fn shared<T: Sync>(_: T) {}
//! shared(user);
//! ```
//!
//! ```compile_fail,E0277
//! # let mut user = augtrie::Trie::new(4, 1, 1 << 20).unwrap().user().unwrap();
//! let look = user.look().unwrap();
//! std::thread::scope(|scope| { scope.spawn(|| look.len()); });
//! ```
#![warn(missing_docs, clippy::undocumented_unsafe_blocks)]

mod changes;
mod error;
mod ffi;
mod look;
mod shared;
mod trie;
mod user;

use error::Given;
use std::ffi::CStr;

pub use changes::{Change, Changes};
pub use error::Error;
pub use ffi::{Report, Span};
pub use look::{Again, Iter, Look};
pub use trie::Trie;
pub use user::{Put, Told, User};

/// The number that a call answered, or why it did nothing.
fn number(answer: i64) -> Result<u32, Error> {
    number_of(answer, Given::default())
}

/// The same, with what the call was given.
fn number_of(answer: i64, given: Given) -> Result<u32, Error> {
    u32::try_from(answer).map_err(|_| Error::of_code(answer, given))
}

/// The weight that a call told, or none if the key was no member.
fn weight(told: i64) -> Option<u32> {
    u32::try_from(told).ok()
}

/// The version of the library that is linked.
#[must_use]
pub fn version() -> &'static str {
    // SAFETY: the library tells a text that ends with a zero and stays as long as the program.
    let text = unsafe { CStr::from_ptr(ffi::aug_version()) };
    text.to_str().unwrap_or_default()
}
