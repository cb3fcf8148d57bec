//! The heap of the proved library, over the C library's.

use std::ffi::c_void;

#[repr(C)]
pub struct Tried {
    ok: bool,
    at: *mut c_void,
}

extern "C" {
    fn malloc(size: usize) -> *mut c_void;
    fn realloc(at: *mut c_void, size: usize) -> *mut c_void;
    fn free(at: *mut c_void);
}

static NOTHING: u8 = 0;

/// Where memory was refused, any pointer that is not null.
fn tried(at: *mut c_void) -> Tried {
    if at.is_null() {
        return Tried {
            ok: false,
            at: std::ptr::addr_of!(NOTHING) as *mut c_void,
        };
    }
    Tried { ok: true, at }
}

fn size_or(size: usize, align: usize) -> usize {
    if size == 0 {
        align
    } else {
        size
    }
}

#[no_mangle]
extern "C" fn rattle_alloc(size: usize, align: usize) -> Tried {
    // SAFETY: malloc takes any size.
    tried(unsafe { malloc(size_or(size, align)) })
}

/// # Safety
/// `at` is from here and was not let go.
#[no_mangle]
unsafe extern "C" fn rattle_realloc(
    at: *mut c_void,
    _kept: usize,
    size: usize,
    align: usize,
) -> Tried {
    tried(realloc(at, size_or(size, align)))
}

/// # Safety
/// `at` is from here and was not let go.
#[no_mangle]
unsafe extern "C" fn rattle_dealloc(at: *mut c_void) {
    free(at)
}
