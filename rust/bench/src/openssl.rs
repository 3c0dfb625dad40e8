//! SHA-256 of OpenSSL 3, from the distribution's `libcrypto.so.3`, which is loaded at run time.

use std::ffi::{c_char, c_int, c_void, CStr};
use std::mem::transmute_copy;

extern "C" {
    fn dlopen(name: *const c_char, flags: c_int) -> *mut c_void;
    fn dlsym(library: *mut c_void, name: *const c_char) -> *mut c_void;
}

/// All symbols are resolved at once (64-bit Linux).
const RTLD_NOW: c_int = 2;

/// At least as long as SHA256_CTX, which has 28 words.
type Context = [u32; 32];

type Digest = [u8; 32];

pub struct OpenSsl {
    version: extern "C" fn(c_int) -> *const c_char,
    one_shot: extern "C" fn(*const u8, usize, *mut u8) -> *mut u8,
    init: extern "C" fn(*mut Context) -> c_int,
    update: extern "C" fn(*mut Context, *const u8, usize) -> c_int,
    finish: extern "C" fn(*mut u8, *mut Context) -> c_int,
}

/// A function of a library. F is its type.
unsafe fn function<F: Copy>(library: *mut c_void, name: &CStr) -> Option<F> {
    assert_eq!(size_of::<F>(), size_of::<*mut c_void>());
    let found = dlsym(library, name.as_ptr());
    (!found.is_null()).then(|| transmute_copy(&found))
}

impl OpenSsl {
    /// None where the library, or one of these functions, is not there.
    pub fn load() -> Option<OpenSsl> {
        unsafe {
            let library = dlopen(c"libcrypto.so.3".as_ptr(), RTLD_NOW);
            if library.is_null() {
                return None;
            }
            Some(OpenSsl {
                version: function(library, c"OpenSSL_version")?,
                one_shot: function(library, c"SHA256")?,
                init: function(library, c"SHA256_Init")?,
                update: function(library, c"SHA256_Update")?,
                finish: function(library, c"SHA256_Final")?,
            })
        }
    }

    /// Name and number, such as OpenSSL 3.0.19.
    pub fn version(&self) -> String {
        let text = unsafe { CStr::from_ptr((self.version)(0)) }.to_string_lossy();
        text.split(' ').take(2).collect::<Vec<_>>().join(" ")
    }

    /// By the one call SHA256, which looks the algorithm up each time.
    pub fn one_shot(&self, message: &[u8]) -> Digest {
        let mut digest = [0; 32];
        let answer = (self.one_shot)(message.as_ptr(), message.len(), digest.as_mut_ptr());
        assert!(!answer.is_null());
        digest
    }

    /// By the three calls SHA256_Init, SHA256_Update and SHA256_Final.
    pub fn three_calls(&self, message: &[u8]) -> Digest {
        let (mut context, mut digest): (Context, Digest) = ([0; 32], [0; 32]);
        let answers = [
            (self.init)(&mut context),
            (self.update)(&mut context, message.as_ptr(), message.len()),
            (self.finish)(digest.as_mut_ptr(), &mut context),
        ];
        assert_eq!(answers, [1; 3]);
        digest
    }
}
