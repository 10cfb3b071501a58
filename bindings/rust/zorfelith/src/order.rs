//! Orders between threads, told to helgrind, which knows neither atomics nor futexes. They are told only if the crate is built with
//! `--cfg zorfelith_helgrind`, over `tests/order.c`; else the functions do nothing.

#[cfg(zorfelith_helgrind)]
mod told {
    use std::ffi::c_void;

    unsafe extern "C" {
        pub(super) fn order_before(place: *const c_void);
        pub(super) fn order_after(place: *const c_void);
        pub(super) fn order_unchecked(place: *const c_void, len: usize);
    }
}

/// What this thread did comes before what follows `after` with the same place, in whatever thread.
#[inline(always)]
pub(crate) fn before<T>(_place: &T) {
    #[cfg(zorfelith_helgrind)]
    // SAFETY: the call reads nothing of the place.
    unsafe {
        told::order_before(std::ptr::from_ref(_place).cast());
    }
}

/// What follows comes after what stands before `before` with the same place, in whatever thread.
#[inline(always)]
pub(crate) fn after<T>(_place: &T) {
    #[cfg(zorfelith_helgrind)]
    // SAFETY: the call reads nothing of the place.
    unsafe {
        told::order_after(std::ptr::from_ref(_place).cast());
    }
}

/// The place is an atomic: two threads may reach it without an order.
#[inline(always)]
pub(crate) fn is_atomic<T>(_place: &T) {
    #[cfg(zorfelith_helgrind)]
    // SAFETY: the call reads nothing of the place.
    unsafe {
        told::order_unchecked(std::ptr::from_ref(_place).cast(), size_of::<T>());
    }
}
