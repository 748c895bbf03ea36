//! Functions by their addresses, and those of shared libraries, which are looked for when the program runs.
use std::ffi::{c_char, c_int, c_void, CStr};
use std::mem::transmute_copy;

extern "C" {
    fn dlopen(name: *const c_char, flags: c_int) -> *mut c_void;
    fn dlsym(library: *mut c_void, name: *const c_char) -> *mut c_void;
}

const RTLD_NOW: c_int = 2;

pub type Address = *const c_void;

/// A shared library, kept as long as the program runs.
pub struct Library {
    raw: *mut c_void,
}

impl Library {
    /// The library of this name or path, if there is one.
    pub fn open(name: &CStr) -> Option<Library> {
        // SAFETY: the name is a C string, and the libraries that are opened run no code when they are loaded.
        let raw = unsafe { dlopen(name.as_ptr(), RTLD_NOW) };
        (!raw.is_null()).then_some(Library { raw })
    }

    /// Where the function of this name is.
    pub fn address(&self, name: &CStr) -> Option<Address> {
        // SAFETY: the library is open and the name is a C string.
        let found = unsafe { dlsym(self.raw, name.as_ptr()) };
        (!found.is_null()).then_some(found.cast_const())
    }
}

/// The function at an address.
///
/// # Safety
/// There is a function of type F, which is kept as long as the program runs.
pub unsafe fn function<F: Copy>(address: Address) -> F {
    const { assert!(size_of::<F>() == size_of::<Address>()) };
    // SAFETY: a pointer to a function has the size of one to its address.
    unsafe { transmute_copy(&address) }
}
