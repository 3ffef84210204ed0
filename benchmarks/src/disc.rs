//! Readers of a git directory, loaded where they are to be had: nothing of them is needed to build.
use crate::references::Directory;
use crate::{libgit2, supplied};
use harness::record::Record;
use std::ffi::{c_char, c_void, CStr};

/// Each answers its number; the whole answer only where it is asked for, since writing it is no part of what is measured.
pub trait Reader {
    fn find(&self, name: &CStr, answer: Option<&mut Record>) -> u32;
    fn follow(&self, name: &CStr, answer: Option<&mut Record>) -> u32;
    /// How many references are listed.
    fn list(&self, answers: Option<&mut Vec<Record>>) -> u64;
}

pub struct Readers {
    supplied: Result<supplied::Functions, String>,
    libgit2: Result<libgit2::Functions, String>,
}

impl Readers {
    pub fn load() -> Readers {
        let readers = Readers { supplied: supplied::Functions::load(), libgit2: libgit2::Functions::load() };
        for missing in [readers.supplied.as_ref().err(), readers.libgit2.as_ref().err()].into_iter().flatten() {
            println!("left out: {missing}");
        }
        readers
    }

    pub fn any(&self) -> bool {
        self.supplied.is_ok() || self.libgit2.is_ok()
    }

    pub fn libgit2(&self) -> Option<&libgit2::Functions> {
        self.libgit2.as_ref().ok()
    }

    /// The supplied Rust and libgit2 on one directory.
    pub fn open(&self, at: &Directory) -> [Option<Box<dyn Reader + '_>>; 2] {
        let supplied = self.supplied.as_ref().ok().map(|f| Box::new(f.open(at)) as Box<dyn Reader>);
        let libgit2 = self.libgit2.as_ref().ok().map(|f| Box::new(f.open(at)) as Box<dyn Reader>);
        [supplied, libgit2]
    }
}

extern "C" {
    fn dlopen(file: *const c_char, flags: i32) -> *mut c_void;
    fn dlsym(library: *mut c_void, name: *const c_char) -> *mut c_void;
}

const NOW: i32 = 2;

/// A shared library; it stays loaded.
pub struct Library(*mut c_void);

impl Library {
    pub fn open(file: &CStr) -> Option<Library> {
        // SAFETY: the library's own start is trusted.
        let library = unsafe { dlopen(file.as_ptr(), NOW) };
        (!library.is_null()).then_some(Library(library))
    }

    /// A function of the library. SAFETY: F is a function pointer of the type that the library gives it.
    pub unsafe fn function<F: Copy>(&self, name: &CStr) -> F {
        let at = dlsym(self.0, name.as_ptr());
        assert!(!at.is_null(), "the library has no {name:?}");
        std::mem::transmute_copy(&at)
    }
}
