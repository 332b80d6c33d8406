//! The memory of the static library, over the C library's: what leafnurd_heap.c is for C.

use std::ffi::c_void;

/// What a request for memory answers: `leafnurd_block` of leafnurd.h.
#[repr(C)]
pub struct Block {
    granted: bool,
    at: *mut u8,
}

unsafe extern "C" {
    fn malloc(size: usize) -> *mut c_void;
    fn realloc(at: *mut c_void, size: usize) -> *mut c_void;
    fn free(at: *mut c_void);
}

/// A refused request points to an address that isn't null, and that nobody reads.
fn block(at: *mut c_void) -> Block {
    let granted = !at.is_null();
    Block { granted, at: if granted { at.cast() } else { std::ptr::dangling_mut() } }
}

/// Of no bytes malloc may answer null, which is no refusal, so at least one is asked for.
fn size_of(size: usize, alignment: usize) -> usize {
    if size == 0 { alignment } else { size }
}

#[unsafe(no_mangle)]
extern "C" fn rattle_alloc(size: usize, alignment: usize) -> Block {
    // SAFETY: malloc takes any size. It aligns to 16, and the library asks for at most that.
    block(unsafe { malloc(size_of(size, alignment)) })
}

#[unsafe(no_mangle)]
unsafe extern "C" fn rattle_realloc(at: *mut u8, _kept: usize, size: usize, alignment: usize) -> Block {
    // SAFETY: the library passes a block that one of these two answered, and uses it no more if it was granted another.
    block(unsafe { realloc(at.cast(), size_of(size, alignment)) })
}

#[unsafe(no_mangle)]
unsafe extern "C" fn rattle_dealloc(at: *mut u8) {
    // SAFETY: the library passes a block that one of these two answered, and uses it no more.
    unsafe { free(at.cast()) }
}
