//! Handles of the library, and a pool of them: what a search writes belongs to one search at a time.

use crate::error::{Error, told};
use crate::order;
use std::cell::UnsafeCell;
use std::panic::RefUnwindSafe;
use std::ptr::null_mut;
use std::sync::atomic::{AtomicUsize, Ordering};
use std::sync::{Mutex, PoisonError};
use zorfelith_sys as sys;

/// A handle, which is freed when it is dropped.
pub(crate) struct Handle(pub(crate) sys::zf_handle);

// SAFETY: a handle may go to another thread, and handles that share what is compiled may be used at once.
unsafe impl Send for Handle {}

impl Handle {
    /// An empty handle.
    pub(crate) const fn empty() -> Handle {
        Handle(sys::zf_handle { full: 0, held: null_mut() })
    }

    /// Another handle of the same patterns, which aren't compiled again.
    pub(crate) fn share(&mut self) -> Result<Handle, Error> {
        let mut other = Handle::empty();
        // SAFETY: both handles are borrowed alone, and the other one is empty.
        told(unsafe { sys::zf_share(&mut self.0, &mut other.0) })?;
        Ok(other)
    }
}

impl Drop for Handle {
    fn drop(&mut self) {
        // SAFETY: the handle is borrowed alone.
        unsafe { sys::zf_free(&mut self.0) };
    }
}

/// A handle that keeps something of its own. It isn't `Sync`, and no call calls back, so it is used by one call at a time.
pub(crate) struct Own(UnsafeCell<Handle>);

impl Own {
    pub(crate) fn new(handle: Handle) -> Own {
        Own(UnsafeCell::new(handle))
    }

    /// The handle, for a call.
    pub(crate) fn handle(&self) -> *mut sys::zf_handle {
        // SAFETY: no reference to the handle is kept.
        unsafe { &raw mut (*self.0.get()).0 }
    }
}

/// Calls a function with what a lock guards. If a thread panicked with it, nothing was left half done.
pub(crate) fn locked<T, R>(mutex: &Mutex<T>, call: impl FnOnce(&mut T) -> R) -> R {
    let mut guard = mutex.lock().unwrap_or_else(PoisonError::into_inner);
    order::after(mutex);
    let result = call(&mut guard);
    order::before(mutex);
    result
}

thread_local! {
    /// Its address tells a thread from all others that run.
    static MARK: u8 = const { 0 };
}

/// No thread owns the first handle.
const NONE: usize = 0;
/// The first handle is on loan.
const ON_LOAN: usize = 1;

/// Handles that share what is compiled. The first thread that asks owns one of them, and takes it without a lock; all others lie on a stack.
pub(crate) struct Pool {
    /// `NONE`, `ON_LOAN`, or the address of the owner's mark. Only the owner sets it to `ON_LOAN`, and only the loan's end sets it back. A
    /// thread that begins after the owner's end may have its address; then it is the owner, and comes after all that the first one did.
    owner: AtomicUsize,
    owned: UnsafeCell<Handle>,
    /// In boxes, since a loan points at its handle, and may be moved.
    #[allow(clippy::vec_box)]
    others: Mutex<Vec<Box<Handle>>>,
}

// SAFETY: `owned` is reached by a loan alone, of which there is one at a time.
unsafe impl Sync for Pool {}

// If a thread panics, it does so between two calls of the library.
impl RefUnwindSafe for Pool {}

impl Pool {
    pub(crate) const fn new() -> Pool {
        Pool { owner: AtomicUsize::new(NONE), owned: UnsafeCell::new(Handle::empty()), others: Mutex::new(Vec::new()) }
    }

    /// Lends a handle. If there is none left, `source` makes it.
    #[inline]
    pub(crate) fn lend(&self, source: &Mutex<Handle>) -> Result<Loan<'_>, Error> {
        let thread = MARK.with(|mark| std::ptr::from_ref(mark).addr());
        order::is_atomic(&self.owner);
        if self.owner.load(Ordering::Acquire) == thread {
            order::after(&self.owner);
            self.owner.store(ON_LOAN, Ordering::Relaxed);
            return Ok(Loan { pool: self, owner: thread, handle: self.owned.get() });
        }
        self.lend_other(thread, source)
    }

    #[cold]
    fn lend_other(&self, thread: usize, source: &Mutex<Handle>) -> Result<Loan<'_>, Error> {
        if self.owner.compare_exchange(NONE, ON_LOAN, Ordering::Acquire, Ordering::Relaxed).is_ok() {
            order::after(&self.owner);
            let shared = locked(source, Handle::share);
            // On an error the loan's end gives the empty handle back to nobody.
            let owner = if shared.is_ok() { thread } else { NONE };
            let loan = Loan { pool: self, owner, handle: self.owned.get() };
            // SAFETY: the loan has the handle alone.
            unsafe { *loan.handle = shared? };
            return Ok(loan);
        }
        let left = locked(&self.others, Vec::pop);
        let handle = match left {
            Some(handle) => handle,
            None => Box::new(locked(source, Handle::share)?),
        };
        Ok(Loan { pool: self, owner: ON_LOAN, handle: Box::into_raw(handle) })
    }
}

/// A handle of a pool, which goes back to it when it is dropped.
pub(crate) struct Loan<'p> {
    pool: &'p Pool,
    /// What the pool's `owner` is to become; `ON_LOAN` where the handle is of the stack.
    owner: usize,
    handle: *mut Handle,
}

// SAFETY: it has its handle alone, and each end of a loan is seen by the loan after it, in whatever thread it ends.
unsafe impl Send for Loan<'_> {}

impl Loan<'_> {
    /// The handle, for a call.
    #[inline]
    pub(crate) fn handle(&mut self) -> *mut sys::zf_handle {
        // SAFETY: the loan has the handle alone.
        unsafe { &raw mut (*self.handle).0 }
    }
}

impl Drop for Loan<'_> {
    #[inline]
    fn drop(&mut self) {
        if self.owner == ON_LOAN {
            // SAFETY: it came from a box, and the loan has it alone.
            let handle = unsafe { Box::from_raw(self.handle) };
            locked(&self.pool.others, |others| others.push(handle));
        } else {
            order::before(&self.pool.owner);
            self.pool.owner.store(self.owner, Ordering::Release);
        }
    }
}
