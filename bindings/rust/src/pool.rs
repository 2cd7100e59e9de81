//! Handles on one table, so that several threads make calls at once.

use crate::errors::Memory;
use crate::raw::{self, Answer, Handle};
use std::ptr::null_mut;
use std::sync::atomic::{AtomicUsize, Ordering};
use std::sync::{Mutex, MutexGuard};

/// How many handles a pool has at most. More threads take turns.
const HANDLES: usize = 16;

/// The number of the next thread that makes a call.
static NEXT: AtomicUsize = AtomicUsize::new(0);

thread_local! {
    /// Where this thread begins to look for a handle that is free.
    static FIRST: usize = NEXT.fetch_add(1, Ordering::Relaxed) % HANDLES;
}

/// A handle that is opened when it is first wanted. It has cache lines of its own, so that threads don't wait for one
/// another's.
#[repr(align(128))]
struct Slot {
    handle: Mutex<Handle>,
}

/// Handles on one table.
pub(crate) struct Pool {
    slots: [Slot; HANDLES],
    /// What other handles are opened from. No call is made on it, so nobody holds it for long.
    root: Mutex<Handle>,
}

impl Handle {
    pub(crate) const CLOSED: Handle = Handle {
        is_open: 0,
        held: null_mut(),
    };
}

// SAFETY: that what is behind a handle may be used from another thread is proved (`np_c::content::crosses`).
unsafe impl Send for Handle {}

impl Pool {
    /// The pool of a table; one handle is open from the beginning.
    pub(crate) fn new(root: Handle) -> Result<Pool, Memory> {
        const CLOSED: Slot = Slot {
            handle: Mutex::new(Handle::CLOSED),
        };
        let pool = Pool {
            slots: [CLOSED; HANDLES],
            root: Mutex::new(root),
        };
        pool.open(&mut locked(&pool.slots[0].handle))?;
        Ok(pool)
    }

    /// Another pool of the same table.
    pub(crate) fn another(&self) -> Result<Pool, Memory> {
        let mut root = Handle::CLOSED;
        self.open(&mut root)?;
        Pool::new(root)
    }

    /// Makes a call on a handle that no other thread uses meanwhile. Nobody waits here for a handle of another pool's
    /// call, so calls may stand within one another.
    pub(crate) fn call(&self, call: impl FnOnce(&mut Handle) -> Answer) -> Answer {
        let first = FIRST.with(|first| *first);
        loop {
            for step in 0..HANDLES {
                if let Ok(mut handle) = self.slots[(first + step) % HANDLES].handle.try_lock() {
                    if handle.is_open == 1 || self.open(&mut handle).is_ok() {
                        return call(&mut handle);
                    }
                }
            }
            std::thread::yield_now();
        }
    }

    /// Opens a handle that is closed.
    fn open(&self, handle: &mut Handle) -> Result<(), Memory> {
        let mut root = locked(&self.root);
        // SAFETY: both handles are ours, and they are two.
        let a = unsafe { raw::npss_share(&mut *root, handle) };
        if a.status == raw::DONE {
            Ok(())
        } else {
            Err(Memory)
        }
    }
}

/// What a lock guards; no call panics while it holds one.
fn locked(handle: &Mutex<Handle>) -> MutexGuard<'_, Handle> {
    handle
        .lock()
        .unwrap_or_else(|poisoned| poisoned.into_inner())
}

impl Drop for Pool {
    fn drop(&mut self) {
        let slots = self.slots.iter_mut().map(|slot| &mut slot.handle);
        for handle in slots.chain([&mut self.root]) {
            let handle = handle
                .get_mut()
                .unwrap_or_else(|poisoned| poisoned.into_inner());
            // SAFETY: the handle was last touched by the library, or is closed.
            unsafe { raw::npss_close(handle) }
        }
    }
}
