use crate::changes::Changes;
use crate::error::Given;
use crate::ffi::{self, Span};
use crate::user::User;
use crate::{Error, number, number_of};
use std::cell::RefCell;
use std::iter::FusedIterator;
use std::ops::{Bound, RangeBounds};
use std::ptr;

/// A look at the set: a snapshot, which stays as it is until [`again`](Look::again). All its answers agree with one another. Any key may be
/// asked for.
///
/// It borrows its user, whose updates are made through it meanwhile: it has the same methods for that, and shows what it showed. It ends when it is dropped.
/// Nobody waits for it, with one exception, of which [`User`] tells. After the trie was closed it answers as before.
///
/// ```
/// use augtrie::{Again, Error, Trie};
///
/// let trie = Trie::new(12, 1, 1 << 21)?;
/// let mut user = trie.user()?;
/// user.put_all(&[30, 10, 20], &[3, 1, 2])?;
/// let mut look = user.look()?;
/// assert_eq!((look.len(), look.rank(20), look.select(1), look.before(10)), (3, 1, Some(20), None));
/// assert_eq!(look.range(10..=20).sum, 3);
/// assert_eq!(look.iter().rev().next(), Some((30, 3)));
/// // An update, which a newer snapshot shows.
/// assert_eq!((look.insert(40), look.len()), (Ok(true), 3));
/// assert_eq!((look.again(), look.len()), (Ok(Again::Comparable), 4));
/// # Ok::<(), Error>(())
/// ```
#[derive(Debug)]
#[must_use = "queries are asked of the look"]
pub struct Look<'user> {
    // The library's calls want the user to themselves, and queries take `&self`.
    user: RefCell<&'user mut User>,
}

/// What [`Look::again`] answers: whether [`Look::changes`] tells what is new in the snapshot that it took.
#[derive(Debug, Clone, Copy, PartialEq, Eq, Hash)]
#[must_use = "where there is nothing to compare with, `changes` lists nothing, whatever changed"]
pub enum Again {
    /// The snapshot is of the same round of the table as the one before, so [`changes`](Look::changes) tells what is new in it.
    Comparable,
    /// A new round of the table began in between. [`changes`](Look::changes) lists nothing then, as where nothing changed: what did is told by
    /// [`changes_since`](Look::changes_since) alone.
    NothingToCompare,
}

impl<'user> Look<'user> {
    pub(crate) fn of(user: &'user mut User) -> Look<'user> {
        Look { user: RefCell::new(user) }
    }

    // No query is refused while the look is held.
    pub(crate) fn ask(&self, query: impl FnOnce(&mut ffi::User) -> i64) -> Option<u32> {
        u32::try_from(query(&mut self.user.borrow_mut().handle)).ok()
    }

    pub(crate) fn handle(&mut self) -> &mut ffi::User {
        &mut self.user.get_mut().handle
    }

    /// Takes a newer snapshot in the same look, and tells whether [`changes`](Look::changes) has the one before to compare it with. Refused with `Closed`,
    /// and then the look shows what it showed. It waits as an update does.
    pub fn again(&mut self) -> Result<Again, Error> {
        let is_anew = number(ffi::aug_look_again(self.handle()))? == 1;
        Ok(if is_anew { Again::NothingToCompare } else { Again::Comparable })
    }

    /// Whether the key is a member.
    #[must_use]
    pub fn contains(&self, key: u32) -> bool {
        self.ask(|user| ffi::aug_has(user, key)) == Some(1)
    }

    /// The weight of the key, if it is a member.
    #[must_use]
    pub fn get(&self, key: u32) -> Option<u32> {
        self.ask(|user| ffi::aug_weight(user, key))
    }

    /// How many members there are.
    #[must_use]
    pub fn len(&self) -> u32 {
        self.ask(|user| ffi::aug_size(user)).unwrap_or(0)
    }

    /// Whether there is no member.
    #[must_use]
    pub fn is_empty(&self) -> bool {
        self.len() == 0
    }

    /// How many members are below the key.
    #[must_use]
    pub fn rank(&self, key: u32) -> u32 {
        self.ask(|user| ffi::aug_rank(user, key)).unwrap_or(0)
    }

    /// The member with exactly `index` members below it.
    #[must_use]
    pub fn select(&self, index: u32) -> Option<u32> {
        self.ask(|user| ffi::aug_select(user, index))
    }

    /// The member up to which the weights, added up from the least member on, first come to more than `sum`. A member that weighs 0 is never the
    /// answer, and no sum wraps.
    #[must_use]
    pub fn select_by_weight(&self, sum: u64) -> Option<u32> {
        self.ask(|user| ffi::aug_select_by_weight(user, sum))
    }

    /// The least member.
    #[must_use]
    pub fn first(&self) -> Option<u32> {
        self.ask(|user| ffi::aug_first(user))
    }

    /// The greatest member.
    #[must_use]
    pub fn last(&self) -> Option<u32> {
        self.ask(|user| ffi::aug_last(user))
    }

    /// The greatest member below the key.
    #[must_use]
    pub fn before(&self, key: u32) -> Option<u32> {
        self.ask(|user| ffi::aug_before(user, key))
    }

    /// The least member above the key.
    #[must_use]
    pub fn after(&self, key: u32) -> Option<u32> {
        self.ask(|user| ffi::aug_after(user, key))
    }

    /// What the members in an interval come to.
    #[must_use]
    pub fn range(&self, keys: impl RangeBounds<u32>) -> Span {
        let (from, to) = ends(keys);
        let mut span = Span::default();
        self.ask(|user| ffi::aug_range(user, from, to, &mut span));
        span
    }

    /// How many members are below each key. The keys stand in any order. Refused with `NoMemory`, as `contains_all` and `weights`.
    pub fn ranks(&self, keys: &[u32]) -> Result<Vec<u32>, Error> {
        let mut ranks = places(keys.len(), 0)?;
        for (keys, out) in keys.chunks(self.most()).zip(ranks.chunks_mut(self.most())) {
            // SAFETY: the pointers are those of slices of these lengths, and nobody else has the second.
            self.ask(|user| unsafe { ffi::aug_rank_all(user, keys.as_ptr(), keys.len(), out.as_mut_ptr(), out.len()) });
        }
        Ok(ranks)
    }

    /// Whether each key is a member. The keys stand in any order.
    pub fn contains_all(&self, keys: &[u32]) -> Result<Vec<bool>, Error> {
        let mut bits = places(keys.len(), false)?;
        for (keys, out) in keys.chunks(self.most()).zip(bits.chunks_mut(self.most())) {
            // SAFETY: the pointers are those of slices of these lengths, and nobody else has the second, where the library writes 1 or 0.
            self.ask(|user| unsafe { ffi::aug_has_all(user, keys.as_ptr(), keys.len(), out.as_mut_ptr().cast(), out.len()) });
        }
        Ok(bits)
    }

    /// The weight of each key that is a member. The keys stand in any order.
    pub fn weights(&self, keys: &[u32]) -> Result<Vec<Option<u32>>, Error> {
        let mut weights = places(keys.len(), None)?;
        let mut some = [0; 64];
        let most = self.most().min(some.len());
        for (keys, out) in keys.chunks(most).zip(weights.chunks_mut(most)) {
            // SAFETY: the pointers are those of a slice of this length and of an array that has as many places.
            self.ask(|user| unsafe { ffi::aug_weight_all(user, keys.as_ptr(), keys.len(), some.as_mut_ptr(), keys.len()) });
            for (out, weight) in out.iter_mut().zip(some) {
                *out = u32::try_from(weight).ok();
            }
        }
        Ok(weights)
    }

    pub(crate) fn bits(&self) -> u32 {
        self.user.borrow().trie.bits
    }

    // How many keys a call takes at most.
    fn most(&self) -> usize {
        1 << self.bits()
    }

    /// The members with their weights, rising.
    pub fn iter(&self) -> Iter<'_, 'user> {
        self.keys(..)
    }

    /// The members in an interval with their weights, rising.
    pub fn keys(&self, keys: impl RangeBounds<u32>) -> Iter<'_, 'user> {
        let (from, to) = ends(keys);
        let left = self.rank(to).saturating_sub(self.rank(from));
        Iter { look: self, left, front: End::at(from), back: End::at(to) }
    }

    /// The keys whose weights differ between the snapshot that the last [`again`](Look::again) took and the one that the look showed before,
    /// rising. There are none before the first `again`, or after one that answered [`Again::NothingToCompare`], and a key that went out and came back
    /// with the same weight is none. What no update has touched in between is passed over.
    ///
    /// ```
    /// use augtrie::{Again, Change, Error, Trie};
    ///
    /// let trie = Trie::new(12, 2, 1 << 21)?;
    /// let (mut reader, mut writer) = (trie.user()?, trie.user()?);
    /// writer.insert_all(&[7, 8])?;
    /// let mut look = reader.look()?;
    /// writer.add(8, 2)?;
    /// writer.insert(9)?;
    /// assert_eq!(look.again()?, Again::Comparable);
    /// let want = [Change { key: 8, before: Some(8), now: Some(10) }, Change { key: 9, before: None, now: Some(9) }];
    /// assert!(look.changes().eq(want));
    /// # Ok::<(), Error>(())
    /// ```
    pub fn changes(&self) -> Changes<'_, 'user> {
        Changes::of(self, None)
    }

    /// The keys whose weights differ between a set that the caller listed and the snapshot, rising: `keys` are its members, rising, and `weights` what
    /// they weighed. So what changed over a roll-over is told too, or since a look that has ended. Refused with `BadLength` if there are not as many
    /// weights as keys, or more than `2^bits`; and with `BadKey` if the keys do not rise, or one is not below `2^bits`. It goes over all members of both,
    /// however few of them changed.
    ///
    /// ```
    /// use augtrie::{Change, Error, Trie};
    ///
    /// let trie = Trie::new(12, 1, 1 << 21)?;
    /// let mut user = trie.user()?;
    /// user.insert_all(&[7, 8])?;
    /// let (keys, weights): (Vec<u32>, Vec<u32>) = user.look()?.iter().unzip();
    /// user.remove(7)?;
    /// let look = user.look()?;
    /// assert!(look.changes_since(&keys, &weights)?.eq([Change { key: 7, before: Some(7), now: None }]));
    /// # Ok::<(), Error>(())
    /// ```
    pub fn changes_since<'a>(&'a self, keys: &'a [u32], weights: &'a [u32]) -> Result<Changes<'a, 'user>, Error> {
        if keys.len() != weights.len() {
            return Err(Error::BadLength);
        }
        // SAFETY: the pointers are those of slices of this length, and nothing is written to no places.
        let code = unsafe {
            ffi::aug_changes_since(&mut self.user.borrow_mut().handle, keys.as_ptr(), weights.as_ptr(), keys.len(), 0, ptr::null_mut(), 0)
        };
        number_of(code, Given { keys, bits: self.bits(), ..Given::default() })?;
        Ok(Changes::of(self, Some((keys, weights))))
    }
}

// Some values, or `NoMemory`.
fn places<T: Clone>(count: usize, value: T) -> Result<Vec<T>, Error> {
    let mut places = Vec::new();
    places.try_reserve_exact(count).map_err(|_| Error::NoMemory)?;
    places.resize(count, value);
    Ok(places)
}

// The first key of an interval, and the first one above it. The greatest numbers of 32 bits are no keys.
fn ends(keys: impl RangeBounds<u32>) -> (u32, u32) {
    let from = match keys.start_bound() {
        Bound::Included(&key) => key,
        Bound::Excluded(&key) => key.saturating_add(1),
        Bound::Unbounded => 0,
    };
    let to = match keys.end_bound() {
        Bound::Included(&key) => key.saturating_add(1),
        Bound::Excluded(&key) => key,
        Bound::Unbounded => u32::MAX,
    };
    (from, to)
}

impl Drop for Look<'_> {
    fn drop(&mut self) {
        ffi::aug_look_done(self.handle());
    }
}

impl<'a, 'user> IntoIterator for &'a Look<'user> {
    type Item = (u32, u32);
    type IntoIter = Iter<'a, 'user>;

    fn into_iter(self) -> Iter<'a, 'user> {
        self.iter()
    }
}

/// Members of a look with their weights, from both ends. It lists up to 32 at a time at each end, and keeps those.
#[derive(Debug, Clone)]
#[must_use = "an iterator lists nothing by itself"]
pub struct Iter<'a, 'user> {
    look: &'a Look<'user>,
    // How many are still to come, from either end.
    left: u32,
    front: End,
    back: End,
}

// The call that lists members at an end.
type List = unsafe extern "C" fn(&mut ffi::User, u32, *mut u32, *mut u32, usize) -> i64;

// The members that were listed at an end, and the key from which more are.
#[derive(Debug, Clone)]
struct End {
    keys: [u32; 32],
    weights: [u32; 32],
    next: usize,
    count: usize,
    key: u32,
    // How many to list then: few at first, since one may be all that is asked for.
    room: usize,
}

impl End {
    fn at(key: u32) -> End {
        End { keys: [0; 32], weights: [0; 32], next: 0, count: 0, key, room: 4 }
    }

    // The next member. More are listed from the last one's key plus `past`.
    fn member(&mut self, look: &Look<'_>, list: List, past: u32) -> Option<(u32, u32)> {
        if self.next == self.count {
            // SAFETY: both arrays have at least `room` places, and nobody else has them.
            let count = look.ask(|user| unsafe { list(user, self.key, self.keys.as_mut_ptr(), self.weights.as_mut_ptr(), self.room) })?;
            (self.next, self.count) = (0, count as usize);
            self.key = self.keys[self.count.checked_sub(1)?] + past;
            self.room = self.keys.len().min(2 * self.room);
        }
        let member = (self.keys[self.next], self.weights[self.next]);
        self.next += 1;
        Some(member)
    }
}

impl Iterator for Iter<'_, '_> {
    type Item = (u32, u32);

    fn next(&mut self) -> Option<(u32, u32)> {
        self.left = self.left.checked_sub(1)?;
        self.front.member(self.look, ffi::aug_list, 1)
    }

    fn size_hint(&self) -> (usize, Option<usize>) {
        (self.left as usize, Some(self.left as usize))
    }
}

impl DoubleEndedIterator for Iter<'_, '_> {
    fn next_back(&mut self) -> Option<(u32, u32)> {
        self.left = self.left.checked_sub(1)?;
        self.back.member(self.look, ffi::aug_list_back, 0)
    }
}

impl ExactSizeIterator for Iter<'_, '_> {}

impl FusedIterator for Iter<'_, '_> {}
