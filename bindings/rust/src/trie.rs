use crate::error::Given;
use crate::ffi::{self, Report};
use crate::shared::Shared;
use crate::user::User;
use crate::{Error, number, number_of};
use std::sync::PoisonError;

/// A trie: a set of keys below `2^bits` with a weight of 32 bits each. Its clones are the same trie, and any thread may have one.
///
/// A thread works with a [`User`] of its own. The trie is open until [`close`](Trie::close), or until the last clone and the last user are
/// dropped, in any order.
///
/// ```
/// use augtrie::{Error, Trie};
///
/// let trie = Trie::new(12, 2, 1 << 21)?;
/// let mut user = trie.user()?;
/// assert_eq!(user.insert(7), Ok(true));
/// assert_eq!(trie.close()?.size, 1);
/// assert_eq!(user.insert(8), Err(Error::Closed));
/// # Ok::<(), Error>(())
/// ```
#[derive(Debug, Clone)]
#[must_use = "a trie closes when nobody has it any longer"]
pub struct Trie(Shared);

impl Trie {
    /// No table may take more bytes.
    pub const MOST_BYTES: u64 = 3 << 29;

    /// Opens the empty trie for keys of 1 to 16 bits and 1 to 64 users at a time, whose table takes at most so many bytes: twice as many
    /// while it is opened. With more bytes it is full less often: 168 bytes go to each key below `2^bits`, and each update takes `120 * bits` of the
    /// others until it is full. For as many updates as there are keys, `1 << 22` are enough with 11 bits, and `1 << 26` with 15.
    /// Refused with `BadBits`, `BadUsers`, `BadBytes` if the bytes are fewer than [`least_bytes`](Trie::least_bytes) or more than `MOST_BYTES`, and
    /// `NoMemory`.
    pub fn new(bits: u32, users: u32, bytes: u64) -> Result<Trie, Error> {
        let shared = Shared::new(bits, users).ok_or(Error::NoMemory)?;
        let answer = ffi::aug_open(&mut shared.handle.write().unwrap_or_else(PoisonError::into_inner), bits, users, bytes);
        number_of(answer, Given { bits, users, bytes, ..Given::default() })?;
        Ok(Trie(shared))
    }

    /// The fewest bytes that [`new`](Trie::new) takes for so many bits and users: with these, each user has 64 updates until the table is full. Refused
    /// with `BadBits` and `BadUsers`.
    pub fn least_bytes(bits: u32, users: u32) -> Result<u64, Error> {
        let given = Given { bits, users, ..Given::default() };
        number_of(ffi::aug_least_bytes(bits, users), given).map(u64::from)
    }

    /// Opens a user. Refused with `NoUser` if all are open, `NoMemory`, and `Closed`: by a `close` of another thread from its beginning on.
    pub fn user(&self) -> Result<User, Error> {
        // Whoever keeps readers off is closing the trie.
        let handle = self.0.handle.try_read().map_err(|_| Error::Closed)?;
        let mut user = ffi::User::CLOSED;
        number_of(ffi::aug_user_open(&handle, &mut user), Given { users: self.0.users, ..Given::default() })?;
        Ok(User { handle: user, trie: self.0.clone() })
    }

    /// Lays a piece of the next round out, once the table is nearly full: true if there is more to do now. Updates do the same in between; a thread that
    /// has a processor to spare takes that work off them if it calls this again and again, and sleeps a little after each `false`. Refused with
    /// `Closed`, as `user`.
    pub fn tend(&self) -> Result<bool, Error> {
        let handle = self.0.handle.try_read().map_err(|_| Error::Closed)?;
        Ok(number(ffi::aug_tend(&handle))? == 1)
    }

    /// Closes the trie, and tells what its life came to. Its users answer `Closed` from then on, and so does a second `close`, but looks that are open answer
    /// as before. It waits for the calls that users are in, and for no look.
    pub fn close(&self) -> Result<Report, Error> {
        let mut handle = self.0.handle.write().unwrap_or_else(PoisonError::into_inner);
        let mut report = Report::default();
        number(ffi::aug_close(&mut handle, Some(&mut report)))?;
        Ok(report)
    }

    /// How many bits keys have: they are below `2^bits`.
    #[must_use]
    pub fn bits(&self) -> u32 {
        self.0.bits
    }
}
