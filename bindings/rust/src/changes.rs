use crate::ffi;
use crate::look::Look;
use crate::weight;
use std::iter::FusedIterator;

/// A key whose weight differs between two snapshots, or between a list and a snapshot.
#[derive(Debug, Clone, Copy, PartialEq, Eq, Hash)]
pub struct Change {
    /// The key.
    pub key: u32,
    /// Its weight in the earlier snapshot, or in the list, if it was a member.
    pub before: Option<u32>,
    /// Its weight in the later one, if it is a member.
    pub now: Option<u32>,
}

// How many changes are asked for at first, and at most, which are as many as keys.
const FIRST_PAGE: usize = 32;
const LAST_PAGE: usize = 1 << 16;

/// What changed between two snapshots of a look, or between a list and a look, by rising keys. It asks for 32 changes at first, and then for twice as many each
/// time, since a list is tested each time from its first member to its last. It keeps these.
#[derive(Debug, Clone)]
#[must_use = "an iterator lists nothing by itself"]
pub struct Changes<'a, 'user> {
    look: &'a Look<'user>,
    // The keys and the weights of a list, or none if it is the look's snapshot before that it is compared with.
    since: Option<(&'a [u32], &'a [u32])>,
    page: Vec<ffi::Change>,
    next: usize,
    count: usize,
    // The key from which more are asked for, or none after the last page.
    from: Option<u32>,
}

impl<'a, 'user> Changes<'a, 'user> {
    pub(crate) fn of(look: &'a Look<'user>, since: Option<(&'a [u32], &'a [u32])>) -> Changes<'a, 'user> {
        Changes { look, since, page: vec![ffi::Change::default(); FIRST_PAGE], next: 0, count: 0, from: Some(0) }
    }

    // Lists the first changes from a key on: how many.
    fn list(&mut self, from: u32) -> Option<u32> {
        let (page, room) = (self.page.as_mut_ptr(), self.page.len());
        match self.since {
            // SAFETY: the page has so many places, and nobody else has it.
            None => self.look.ask(|user| unsafe { ffi::aug_changes(user, from, page, room) }),
            // SAFETY: the same, and the slices are of one length, as was seen when they were given.
            Some((keys, weights)) => self.look.ask(|user| unsafe {
                ffi::aug_changes_since(user, keys.as_ptr(), weights.as_ptr(), keys.len(), from, page, room)
            }),
        }
    }
}

impl Iterator for Changes<'_, '_> {
    type Item = Change;

    fn next(&mut self) -> Option<Change> {
        if self.next == self.count {
            let from = self.from?;
            if from > 0 && self.page.len() < LAST_PAGE {
                self.page.resize(2 * self.page.len(), ffi::Change::default());
            }
            let count = self.list(from)?;
            (self.next, self.count) = (0, count as usize);
            // A page that is not full is the last.
            self.from = (self.count == self.page.len()).then(|| self.page[self.count - 1].key + 1);
        }
        let change = self.page[..self.count].get(self.next)?;
        self.next += 1;
        Some(Change { key: change.key, before: weight(change.before), now: weight(change.now) })
    }
}

impl FusedIterator for Changes<'_, '_> {}
