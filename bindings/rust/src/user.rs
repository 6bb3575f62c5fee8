use crate::error::Given;
use crate::ffi::{self, Member};
use crate::look::Look;
use crate::shared::Shared;
use crate::{Error, number, weight};

// The code for no such member.
const NONE: i64 = -1;

/// What came of putting a key in with a weight.
#[derive(Debug, Clone, Copy, PartialEq, Eq)]
#[must_use = "an update may be refused, and then nothing was stored"]
pub enum Put {
    /// The key was no member, and is one now.
    Accepted,
    /// The key was a member, and has the new weight now.
    Replaced {
        /// The weight that it had.
        before: u32,
    },
    /// Another user changed the key meanwhile, and nothing was stored.
    Refused,
}

/// What a key weighed before an amount was added to its weight, or taken away, and what it weighs after that.
#[derive(Debug, Clone, Copy, PartialEq, Eq, Hash)]
pub struct Told {
    /// The weight before, if the key was a member.
    pub before: Option<u32>,
    /// The weight after it, if the key is a member.
    pub now: Option<u32>,
}

/// A user of a trie, for one thread at a time: it updates the set, or looks at it. Dropping it frees its place for another.
///
/// Updates are refused with `Closed` if the trie was closed, and `BadKey` if the key is not below `2^bits`. Most wait for nobody. If the
/// user's part of the table is full, an update waits for whoever takes a further part or lays a piece of the next round out, and so may the next look. If the
/// table is full, it begins a new round of it, and waits for the call that each other user is in: so a thread that stands still in an update or a new look
/// stops all others of these then.
///
/// Nobody waits for a look, with one exception. The table has three parts, each for a round, and a look keeps the part of its round. So while
/// looks of two different earlier rounds are open, the round at work is the last: once that is full, updates wait until the looks of one of the
/// two are dropped, or show newer snapshots by [`again`](Look::again). Threads that have such looks themselves, and update by them or by other
/// users, may wait for one another: each drops its look, or takes it again, from time to time.
///
/// ```
/// use augtrie::{Error, Put, Told, Trie};
///
/// let trie = Trie::new(12, 1, 1 << 21)?;
/// let mut user = trie.user()?;
/// assert_eq!(user.put(7, 25), Ok(Put::Accepted));
/// assert_eq!(user.add(7, 5), Ok(Told { before: Some(25), now: Some(30) }));
/// assert_eq!(user.sub(7, 31), Err(Error::TooLittle));
/// assert_eq!(user.look()?.get(7), Some(30));
/// assert_eq!(user.insert_all(&[7, 8, 9]), Ok(2));
/// assert_eq!(user.pop_first(), Ok(Some((7, 30))));
/// assert_eq!((user.remove(8), user.remove(8)), (Ok(Some(8)), Ok(None)));
/// # Ok::<(), Error>(())
/// ```
#[derive(Debug)]
pub struct User {
    pub(crate) handle: ffi::User,
    // The trie is closed after its users.
    pub(crate) trie: Shared,
}

// The updates of a user, and of a look for its user: whoever has `handle()` and `bits()`.
macro_rules! updates {
    ($type:ty) => {
        impl $type {
            /// Puts a key in, with the key itself as its weight. True if it was not there.
            pub fn insert(&mut self, key: u32) -> Result<bool, Error> {
                let answer = ffi::aug_insert(self.handle(), key);
                self.number(answer, &[key]).map(|done| done == 1)
            }

            // The number that an update of keys answered.
            fn number(&self, answer: i64, keys: &[u32]) -> Result<u32, Error> {
                u32::try_from(answer).map_err(|_| Error::of_code(answer, Given { keys, bits: self.bits(), ..Given::default() }))
            }

            // Makes an update of a key that tells what the key weighed: its answer, and that.
            fn tell(&mut self, key: u32, update: impl FnOnce(&mut ffi::User, u32, Option<&mut ffi::Told>) -> i64) -> Result<(u32, Told), Error> {
                let mut told = ffi::Told::default();
                let answer = update(self.handle(), key, Some(&mut told));
                let answer = self.number(answer, &[key])?;
                Ok((answer, Told { before: weight(told.before), now: weight(told.now) }))
            }

            /// Takes a key out, and tells the weight that it had, or `None` if it was no member. It is made again if another user changed the key
            /// meanwhile.
            pub fn remove(&mut self, key: u32) -> Result<Option<u32>, Error> {
                loop {
                    let (answer, told) = self.tell(key, |user, key, told| ffi::aug_remove(user, key, told))?;
                    if answer == 1 || told.before.is_none() {
                        return Ok(told.before);
                    }
                }
            }

            /// Puts a key in with a weight, or gives a member this weight.
            pub fn put(&mut self, key: u32, weight: u32) -> Result<Put, Error> {
                let (answer, told) = self.tell(key, |user, key, told| ffi::aug_put(user, key, weight, told))?;
                Ok(match (answer, told.before) {
                    (1, _) => Put::Accepted,
                    (2, Some(before)) => Put::Replaced { before },
                    _ => Put::Refused,
                })
            }

            /// Adds an amount to a key's weight. A key that is not there goes in with it. Refused with `TooGreat` too, if the sum does not fit 32
            /// bits. It is made again if another user changed the key meanwhile, so no amount is lost.
            pub fn add(&mut self, key: u32, amount: u32) -> Result<Told, Error> {
                self.tell(key, |user, key, told| ffi::aug_add(user, key, amount, told)).map(|(_, told)| told)
            }

            /// Takes an amount from a key's weight, as `add`. A key of whose weight nothing is left goes out. Refused with `TooLittle` too, if it is
            /// not there or weighs less.
            pub fn sub(&mut self, key: u32, amount: u32) -> Result<Told, Error> {
                self.tell(key, |user, key, told| ffi::aug_sub(user, key, amount, told)).map(|(_, told)| told)
            }

            /// Takes out the member with the least key, and tells that key and its weight. Each member comes to one user.
            pub fn pop_first(&mut self) -> Result<Option<(u32, u32)>, Error> {
                self.pop(ffi::aug_pop_first)
            }

            /// Takes out the member with the greatest key, as `pop_first`.
            pub fn pop_last(&mut self) -> Result<Option<(u32, u32)>, Error> {
                self.pop(ffi::aug_pop_last)
            }

            fn pop(&mut self, call: unsafe extern "C" fn(&mut ffi::User, &mut Member) -> i64) -> Result<Option<(u32, u32)>, Error> {
                let mut member = Member::default();
                // SAFETY: both calls that it may be are safe ones.
                match unsafe { call(self.handle(), &mut member) } {
                    NONE => Ok(None),
                    answer => number(answer).map(|_| Some((member.key, member.weight))),
                }
            }

            /// Puts keys in, each by an update of its own, in their order. How many were not there. Refused with `BadLength` too, if there are more
            /// than `2^bits`. Except after `Closed`, no update was made then.
            pub fn insert_all(&mut self, keys: &[u32]) -> Result<u32, Error> {
                // SAFETY: the pointer is that of a slice of this length.
                let answer = unsafe { ffi::aug_insert_all(self.handle(), keys.as_ptr(), keys.len()) };
                self.number(answer, keys)
            }

            /// Takes keys out. How many it took out, not those that another user changed meanwhile. Refused as `insert_all`.
            pub fn remove_all(&mut self, keys: &[u32]) -> Result<u32, Error> {
                // SAFETY: the pointer is that of a slice of this length.
                let answer = unsafe { ffi::aug_remove_all(self.handle(), keys.as_ptr(), keys.len()) };
                self.number(answer, keys)
            }

            /// Puts keys in, each with the weight that has its index, or gives members these weights. How many updates changed the set: a key that another
            /// user changed meanwhile stays as that left it. Refused as `insert_all`, and with `BadLength` if there are not as many weights as keys.
            pub fn put_all(&mut self, keys: &[u32], weights: &[u32]) -> Result<u32, Error> {
                // SAFETY: the pointers are those of slices of these lengths.
                let answer = unsafe { ffi::aug_put_all(self.handle(), keys.as_ptr(), keys.len(), weights.as_ptr(), weights.len()) };
                self.number(answer, keys)
            }

            /// How many updates are left to this user in its part of the table: the next one after these takes a part that is spare, or begins a new round of the
            /// table, if none is. It makes none of them, and waits and is refused as an update.
            pub fn room(&mut self) -> Result<u32, Error> {
                number(ffi::aug_room(self.handle()))
            }
        }
    };
}

updates!(User);
updates!(Look<'_>);

impl User {
    fn handle(&mut self) -> &mut ffi::User {
        &mut self.handle
    }

    fn bits(&self) -> u32 {
        self.trie.bits
    }

    /// Takes a snapshot, which queries are asked of: the set after all updates of this user, and after all that it has seen before. Refused
    /// with `Closed`. A look that was forgotten by [`std::mem::forget`] is ended first.
    pub fn look(&mut self) -> Result<Look<'_>, Error> {
        let mut answer = number(ffi::aug_look(&mut self.handle));
        if answer == Err(Error::Looking) {
            ffi::aug_look_done(&mut self.handle);
            answer = number(ffi::aug_look(&mut self.handle));
        }
        answer.map(|_| Look::of(self))
    }
}

impl Drop for User {
    fn drop(&mut self) {
        ffi::aug_user_close(&mut self.handle);
    }
}
