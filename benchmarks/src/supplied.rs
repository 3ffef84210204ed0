//! The supplied Rust of gix-ref: a shared library of its own (gix/), since it needs files that are no part of this repository.
use crate::disc::{Library, Reader};
use crate::references::Directory;
use harness::record::{Record, ANSWER_SIZE};
use std::ffi::{c_void, CStr};
use std::os::unix::ffi::OsStrExt;
use std::path::Path;
use std::ptr::null_mut;

type Ask = unsafe extern "C" fn(*mut c_void, *const u8, usize, *mut u8) -> u32;
type Each = unsafe extern "C" fn(*mut c_void, *const u8);

pub struct Functions {
    open: unsafe extern "C" fn(*const u8, usize, *const u8, usize) -> *mut c_void,
    close: unsafe extern "C" fn(*mut c_void),
    find: Ask,
    follow: Ask,
    list: unsafe extern "C" fn(*mut c_void, Option<Each>, *mut c_void) -> u64,
}

/// Made by `run`, where the supplied files are there.
const LIBRARY: &CStr = match CStr::from_bytes_with_nul(concat!(env!("CARGO_MANIFEST_DIR"), "/gix/target/release/libsupplied.so\0").as_bytes()) {
    Ok(path) => path,
    Err(_) => panic!("a path with a zero byte"),
};

impl Functions {
    pub fn load() -> Result<Functions, String> {
        let library = Library::open(LIBRARY).ok_or("the supplied Rust, gix-ref 0.69.1: not built (see benchmarks/run)")?;
        // SAFETY: gix/src/lib.rs has them so.
        unsafe {
            Ok(Functions {
                open: library.function(c"supplied_open"),
                close: library.function(c"supplied_close"),
                find: library.function(c"supplied_find"),
                follow: library.function(c"supplied_follow"),
                list: library.function(c"supplied_list"),
            })
        }
    }

    pub fn open(&self, at: &Directory) -> Store<'_> {
        let bytes = |p: &Path| (p.as_os_str().as_bytes().as_ptr(), p.as_os_str().len());
        let ((w, wl), (c, cl)) = (bytes(&at.worktree), bytes(&at.common));
        // SAFETY: both are lent with their lengths.
        Store { functions: self, store: unsafe { (self.open)(w, wl, c, cl) } }
    }
}

pub struct Store<'a> {
    functions: &'a Functions,
    store: *mut c_void,
}

impl Store<'_> {
    fn ask(&self, ask: Ask, name: &CStr, answer: Option<&mut Record>) -> u32 {
        let name = name.to_bytes();
        // SAFETY: the answer has room for a record, or is null.
        unsafe { ask(self.store, name.as_ptr(), name.len(), answer.map_or(null_mut(), |r| r.as_mut_ptr())) }
    }
}

unsafe extern "C" fn push(to: *mut c_void, record: *const u8) {
    (*to.cast::<Vec<Record>>()).push(*record.cast::<[u8; ANSWER_SIZE]>());
}

impl Reader for Store<'_> {
    fn find(&self, name: &CStr, answer: Option<&mut Record>) -> u32 {
        self.ask(self.functions.find, name, answer)
    }

    fn follow(&self, name: &CStr, answer: Option<&mut Record>) -> u32 {
        self.ask(self.functions.follow, name, answer)
    }

    fn list(&self, answers: Option<&mut Vec<Record>>) -> u64 {
        // SAFETY: `push` gets what it casts to.
        match answers {
            Some(to) => unsafe { (self.functions.list)(self.store, Some(push), std::ptr::from_mut(to).cast()) },
            None => unsafe { (self.functions.list)(self.store, None, null_mut()) },
        }
    }
}

impl Drop for Store<'_> {
    fn drop(&mut self) {
        // SAFETY: it was opened, and is closed once.
        unsafe { (self.functions.close)(self.store) }
    }
}
