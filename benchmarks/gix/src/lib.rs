//! The supplied Rust behind a few functions in C's manner. Answers are written as records only where there is room given.
use gix_ref::{
    Reference, Target,
    bstr::ByteSlice,
    file::{self, ReferenceExt},
};
use std::{ffi::OsStr, ffi::c_void, os::unix::ffi::OsStrExt, path::PathBuf, slice};

#[allow(dead_code)]
#[path = "../../../harness/src/record.rs"]
mod record;

use record::{ANSWER_SIZE, NOTHING, Record};

/// A store with its packed buffer read once.
pub struct Store {
    store: file::Store,
    packed: Option<file::packed::SharedBufferSnapshot>,
}

/// Any error: nothing that is measured gives one.
const ERROR: u32 = 1000;

unsafe fn bytes<'a>(at: *const u8, length: usize) -> &'a [u8] {
    unsafe { slice::from_raw_parts(at, length) }
}

#[unsafe(no_mangle)]
pub unsafe extern "C" fn supplied_open(worktree: *const u8, wl: usize, common: *const u8, cl: usize) -> *mut Store {
    let path = |at, length| PathBuf::from(OsStr::from_bytes(unsafe { bytes(at, length) }));
    let store = file::Store::at_dirs(path(worktree, wl), Some(path(common, cl)));
    let packed = store.cached_packed_buffer().expect("packed-refs can be read");
    Box::into_raw(Box::new(Store { store, packed }))
}

#[unsafe(no_mangle)]
pub unsafe extern "C" fn supplied_close(store: *mut Store) {
    drop(unsafe { Box::from_raw(store) });
}

fn of_reference(r: &Reference) -> Record {
    let digits = |id: &dyn ToString| -> [u8; 40] { id.to_string().as_bytes().try_into().expect("40 digits") };
    match &r.target {
        Target::Object(id) => record::object(0, r.name.as_bstr(), &digits(id), r.peeled.map(|id| digits(&id)).as_ref()),
        Target::Symbolic(n) => record::symbolic(0, r.name.as_bstr(), n.as_bstr()),
    }
}

/// The number, and where there is room the record.
unsafe fn give(answer: Result<Option<Reference>, ()>, out: *mut u8) -> u32 {
    let number = match &answer {
        Ok(Some(_)) => 0,
        Ok(None) => NOTHING,
        Err(()) => ERROR,
    };
    if !out.is_null() {
        let record = answer.ok().flatten().map_or_else(|| record::bare(number), |r| of_reference(&r));
        unsafe { *out.cast::<[u8; ANSWER_SIZE]>() = record };
    }
    number
}

impl Store {
    fn find(&self, name: &[u8]) -> Result<Option<Reference>, ()> {
        self.store.try_find_packed(name.as_bstr(), self.packed.as_ref().map(|b| &***b)).map_err(drop)
    }

    fn follow(&self, name: &[u8]) -> Result<Option<Reference>, ()> {
        let Some(mut r) = self.find(name)? else { return Ok(None) };
        r.follow_to_object_packed(&self.store, self.packed.as_ref().map(|b| &***b)).map_err(drop)?;
        Ok(Some(r))
    }
}

#[unsafe(no_mangle)]
pub unsafe extern "C" fn supplied_find(store: *const Store, name: *const u8, length: usize, out: *mut u8) -> u32 {
    unsafe { give((*store).find(bytes(name, length)), out) }
}

#[unsafe(no_mangle)]
pub unsafe extern "C" fn supplied_follow(store: *const Store, name: *const u8, length: usize, out: *mut u8) -> u32 {
    unsafe { give((*store).follow(bytes(name, length)), out) }
}

type Each = unsafe extern "C" fn(*mut c_void, *const u8);

/// How many references are listed; each is told where that is asked for.
#[unsafe(no_mangle)]
pub unsafe extern "C" fn supplied_list(store: *const Store, each: Option<Each>, to: *mut c_void) -> u64 {
    let platform = unsafe { (*store).store.iter() }.expect("packed-refs can be read");
    let mut count = 0;
    for r in platform.all().expect("directories can be read") {
        let r = r.expect("no errors here");
        count += 1;
        if let Some(each) = each {
            unsafe { each(to, of_reference(&r).as_ptr()) };
        }
        std::hint::black_box(r);
    }
    count
}
