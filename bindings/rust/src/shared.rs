//! What the clones and users of a trie share. Its owners are counted here, since an `Arc` ends the process where memory is refused.
use crate::ffi;
use std::alloc::{Layout, alloc, dealloc};
use std::ops::Deref;
use std::ptr::NonNull;
use std::sync::atomic::{AtomicU64, Ordering, fence};
use std::sync::{PoisonError, RwLock};

#[derive(Debug)]
pub(crate) struct Open {
    owners: AtomicU64,
    // It is locked for reading while a user is opened, and for writing while the trie is closed, for that is its last call.
    pub(crate) handle: RwLock<ffi::Trie>,
    pub(crate) bits: u32,
    pub(crate) users: u32,
}

/// One of the owners.
#[derive(Debug)]
pub(crate) struct Shared(NonNull<Open>);

// SAFETY: owners in several threads share what it points at, which is `Sync`, and the last one drops it, which is `Send`.
unsafe impl Send for Shared {}
// SAFETY: the same.
unsafe impl Sync for Shared {}

impl Shared {
    /// The first owner of a trie that is not open yet, or none if memory is refused.
    pub(crate) fn new(bits: u32, users: u32) -> Option<Shared> {
        // SAFETY: the type has a size.
        let place = NonNull::new(unsafe { alloc(Layout::new::<Open>()) })?.cast();
        let open = Open { owners: AtomicU64::new(1), handle: RwLock::new(ffi::Trie::CLOSED), bits, users };
        // SAFETY: the place was allocated for this type, and nobody else has it.
        unsafe { place.write(open) };
        Some(Shared(place))
    }
}

impl Deref for Shared {
    type Target = Open;

    fn deref(&self) -> &Open {
        // SAFETY: it is there until its last owner is dropped, and only borrowed as shared until then.
        unsafe { self.0.as_ref() }
    }
}

impl Clone for Shared {
    fn clone(&self) -> Shared {
        // No process lives long enough to make 2^64 owners.
        self.owners.fetch_add(1, Ordering::Relaxed);
        Shared(self.0)
    }
}

impl Drop for Shared {
    fn drop(&mut self) {
        if self.owners.fetch_sub(1, Ordering::Release) > 1 {
            return;
        }
        fence(Ordering::Acquire);
        // SAFETY: this was the last owner.
        let open = unsafe { self.0.as_mut() };
        // No user is left, so there is no call to wait for.
        ffi::aug_close(open.handle.get_mut().unwrap_or_else(PoisonError::into_inner), None);
        // SAFETY: it was allocated so, and nobody uses it any more.
        unsafe {
            self.0.drop_in_place();
            dealloc(self.0.cast().as_ptr(), Layout::new::<Open>());
        }
    }
}
