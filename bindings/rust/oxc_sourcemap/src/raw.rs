//! What the calls of the library take and give: handles, texts, lists and errors.

use std::alloc::{Layout, handle_alloc_error};
use std::ptr::{NonNull, null};

use oxc_sourcemap_sys as sys;
pub(crate) use sys::{
    smap_builder, smap_compiled, smap_fault, smap_file, smap_join, smap_map, smap_mends, smap_scopes, smap_string,
    smap_text,
};

use crate::error::{Error, Result};

/// What a handle points to.
///
/// # Safety
///
/// `free` frees what the calls of the library make of this type. As the header states, several threads may read it at once, and
/// it may be changed and freed by another thread than that which made it.
pub(crate) unsafe trait Handled {
    /// # Safety
    ///
    /// A call made this handle, it was not freed before, and nobody uses it or what is borrowed from it any more.
    unsafe fn free(at: *mut Self);
}

macro_rules! handled {
    ($($kind:ident by $free:ident,)*) => {$(
        // SAFETY: the call is the one that the header names for these handles, whose rule on threads is the one above.
        unsafe impl Handled for $kind {
            unsafe fn free(at: *mut $kind) {
                // SAFETY: as the caller states.
                unsafe { sys::$free(at) }
            }
        }
    )*};
}

handled! {
    smap_map by smap_free_map,
    smap_string by smap_free_string,
    smap_builder by smap_free_builder,
    smap_join by smap_free_join,
    smap_mends by smap_free_mends,
    smap_compiled by smap_free_compiled,
    smap_scopes by smap_free_scopes,
    smap_file by smap_free_file,
}

/// A handle, which is freed when this is dropped.
pub(crate) struct Owned<T: Handled>(NonNull<T>);

// SAFETY: a handle may move to another thread, by the rule of `Handled`.
unsafe impl<T: Handled> Send for Owned<T> {}
// SAFETY: by `&Owned` handles are only read, which several threads may do at once.
unsafe impl<T: Handled> Sync for Owned<T> {}

impl<T: Handled> Owned<T> {
    /// A handle that a call made.
    pub(crate) fn of(at: *mut T) -> Result<Owned<T>, Told> {
        NonNull::new(at).map(Owned).ok_or(Told(smap_fault { code: sys::SMAP_NULL_HANDLE, ..smap_fault::default() }))
    }

    /// For calls that read.
    pub(crate) fn get(&self) -> *const T {
        self.0.as_ptr()
    }

    /// For calls that change.
    pub(crate) fn get_mut(&mut self) -> *mut T {
        self.0.as_ptr()
    }
}

impl<T: Handled> Drop for Owned<T> {
    fn drop(&mut self) {
        // SAFETY: this is the only owner of the handle, and its texts are borrowed from this.
        unsafe { T::free(self.0.as_ptr()) }
    }
}

/// An error as the library reported it.
#[derive(Clone, Copy)]
pub(crate) struct Told(pub(crate) smap_fault);

/// Whether a call was refused.
pub(crate) fn done(call: impl FnOnce(*mut smap_fault) -> u32) -> Result<(), Told> {
    let mut fault = smap_fault::default();
    match call(&mut fault) {
        sys::SMAP_OK => Ok(()),
        code => Err(Told(smap_fault { code, ..fault })),
    }
}

/// The handle that a call makes.
pub(crate) fn made<T: Handled>(call: impl FnOnce(*mut *mut T, *mut smap_fault) -> u32) -> Result<Owned<T>, Told> {
    let mut out = std::ptr::null_mut();
    done(|fault| call(&mut out, fault))?;
    Owned::of(out)
}

/// The text that a call makes.
pub(crate) fn made_text(call: impl FnOnce(*mut *mut smap_string, *mut smap_fault) -> u32) -> Result<String, Told> {
    let string = made(call)?;
    let mut text = no_text();
    // SAFETY: the handle is live, and the output is ours.
    done(|_| unsafe { sys::smap_get_text(string.get(), &mut text) })?;
    // SAFETY: this text is borrowed from the handle, which lives until the text is copied.
    Ok(unsafe { lent(text) }.to_owned())
}

/// All entries of a list: those that fit are written to the first pointer, and the number of all to the second.
pub(crate) fn listed<T>(mut call: impl FnMut(*mut T, usize, *mut usize) -> u32) -> Result<Vec<T>, Told> {
    let (mut count, mut entries) = (0, Vec::new());
    done(|_| call(std::ptr::null_mut(), 0, &mut count))?;
    entries.try_reserve_exact(count).map_err(|_| Told(out_of_memory()))?;
    done(|_| call(entries.as_mut_ptr(), entries.capacity(), &mut count))?;
    // SAFETY: the call wrote as many entries as there are, but not more than there is room for.
    unsafe { entries.set_len(count.min(entries.capacity())) };
    Ok(entries)
}

pub(crate) fn out_of_memory() -> smap_fault {
    smap_fault { code: sys::SMAP_OUT_OF_MEMORY, ..smap_fault::default() }
}

pub(crate) fn no_text() -> smap_text {
    smap_text { at: null(), len: 0 }
}

/// A text that is passed.
pub(crate) fn text(text: &str) -> smap_text {
    smap_text { at: text.as_ptr().cast(), len: text.len() }
}

/// Texts that are passed; those that are none have no address.
pub(crate) fn texts<'t>(list: impl Iterator<Item = Option<&'t str>>) -> Vec<smap_text> {
    list.map(|entry| entry.map_or(no_text(), text)).collect()
}

/// A text that the library returned.
///
/// # Safety
///
/// The library returned it, and its handle is not changed or freed for this long.
pub(crate) unsafe fn lent<'t>(text: smap_text) -> &'t str {
    // SAFETY: as the caller states; texts of the library are UTF-8.
    unsafe { std::str::from_utf8_unchecked(lent_bytes(text)) }
}

/// The bytes of a text that the library returned, which need not be UTF-8.
///
/// # Safety
///
/// As for `lent`.
pub(crate) unsafe fn lent_bytes<'t>(text: smap_text) -> &'t [u8] {
    if text.at.is_null() {
        return &[];
    }
    // SAFETY: as the caller states.
    unsafe { std::slice::from_raw_parts(text.at.cast(), text.len) }
}

/// A text that is there or not: a call that has no entry, or whose entry has no address, returns none.
///
/// # Safety
///
/// As for `lent`.
pub(crate) unsafe fn lent_if<'t>(call: impl FnOnce(*mut smap_text) -> u32) -> Option<&'t str> {
    let mut text = no_text();
    // SAFETY: as the caller states.
    (call(&mut text) == sys::SMAP_OK).then(|| unsafe { lent(text) })
}

/// The value of a call whose caller wants no `Result`. Lack of memory ends the process, as it does for Rust's own collections.
#[track_caller]
pub(crate) fn expected<T>(result: Result<T>) -> T {
    match result {
        Ok(value) => value,
        Err(Error::OutOfMemory) => handle_alloc_error(Layout::new::<u8>()),
        Err(error) => panic!("{error}"),
    }
}
