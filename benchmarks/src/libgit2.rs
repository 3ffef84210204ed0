//! libgit2, where it is installed.
use crate::disc::{Library, Reader};
use crate::references::Directory;
use harness::record::{self, Record, NOTHING};
use std::ffi::{c_char, c_void, CStr, CString};
use std::os::unix::ffi::OsStrExt;
use std::ptr::null_mut;

type Object = *mut c_void;
type Out = *mut Object;

pub struct Functions {
    open: unsafe extern "C" fn(Out, *const c_char) -> i32,
    dwim: unsafe extern "C" fn(Out, Object, *const c_char) -> i32,
    resolve: unsafe extern "C" fn(Out, Object) -> i32,
    iterate: unsafe extern "C" fn(Out, Object) -> i32,
    next: unsafe extern "C" fn(Out, Object) -> i32,
    name: unsafe extern "C" fn(Object) -> *const c_char,
    id: unsafe extern "C" fn(Object) -> *const [u8; 20],
    target: unsafe extern "C" fn(Object) -> *const c_char,
    is_valid: unsafe extern "C" fn(*mut i32, *const c_char) -> i32,
    free: unsafe extern "C" fn(Object),
    free_iterator: unsafe extern "C" fn(Object),
    free_repository: unsafe extern "C" fn(Object),
}

const NOT_FOUND: i32 = -3;
const OVER: i32 = -31;

/// Its name without a version comes with the files for developers only.
const FILES: [&CStr; 7] =
    [c"libgit2.so", c"libgit2.so.1.9", c"libgit2.so.1.8", c"libgit2.so.1.7", c"libgit2.so.1.6", c"libgit2.so.1.5", c"libgit2.so.1.1"];

impl Functions {
    pub fn load() -> Result<Functions, String> {
        let library = FILES.into_iter().find_map(Library::open).ok_or("libgit2: not installed")?;
        // SAFETY: libgit2's headers have them so; it must be started once.
        unsafe {
            library.function::<unsafe extern "C" fn() -> i32>(c"git_libgit2_init")();
            let (mut a, mut b, mut c) = (0, 0, 0);
            library.function::<unsafe extern "C" fn(*mut i32, *mut i32, *mut i32) -> i32>(c"git_libgit2_version")(&mut a, &mut b, &mut c);
            println!("libgit2 {a}.{b}.{c}");
            Ok(Functions {
                open: library.function(c"git_repository_open"),
                dwim: library.function(c"git_reference_dwim"),
                resolve: library.function(c"git_reference_resolve"),
                iterate: library.function(c"git_reference_iterator_new"),
                next: library.function(c"git_reference_next"),
                name: library.function(c"git_reference_name"),
                id: library.function(c"git_reference_target"),
                target: library.function(c"git_reference_symbolic_target"),
                is_valid: library.function(c"git_reference_name_is_valid"),
                free: library.function(c"git_reference_free"),
                free_iterator: library.function(c"git_reference_iterator_free"),
                free_repository: library.function(c"git_repository_free"),
            })
        }
    }

    pub fn open(&self, at: &Directory) -> Repository<'_> {
        let path = CString::new(at.worktree.as_os_str().as_bytes()).expect("no zero byte");
        let mut repository = null_mut();
        // SAFETY: a path that ends with zero.
        assert_eq!(unsafe { (self.open)(&mut repository, path.as_ptr()) }, 0, "libgit2 does not open {path:?}");
        Repository { functions: self, repository }
    }

    /// Whether a full name is valid.
    pub fn is_valid(&self, name: &CStr) -> bool {
        let mut valid = 0;
        // SAFETY: a name that ends with zero.
        unsafe { (self.is_valid)(&mut valid, name.as_ptr()) };
        valid == 1
    }

    /// A reference as a record.
    unsafe fn record(&self, reference: Object) -> Record {
        let name = CStr::from_ptr((self.name)(reference)).to_bytes();
        let id = (self.id)(reference);
        if id.is_null() {
            return record::symbolic(0, name, CStr::from_ptr((self.target)(reference)).to_bytes());
        }
        let digits: String = (*id).iter().map(|b| format!("{b:02x}")).collect();
        record::object(0, name, digits.as_bytes().try_into().expect("40 digits"), None)
    }
}

pub struct Repository<'a> {
    functions: &'a Functions,
    repository: Object,
}

impl Repository<'_> {
    /// The answer of a search or a following that ended with this status.
    unsafe fn give(&self, status: i32, reference: Object, answer: Option<&mut Record>) -> u32 {
        match status {
            0 => {
                if let Some(answer) = answer {
                    *answer = self.functions.record(reference);
                }
                (self.functions.free)(reference);
                0
            }
            NOT_FOUND => {
                if let Some(answer) = answer {
                    *answer = record::bare(NOTHING);
                }
                NOTHING
            }
            _ => panic!("libgit2 answers {status}"),
        }
    }
}

impl Reader for Repository<'_> {
    fn find(&self, name: &CStr, answer: Option<&mut Record>) -> u32 {
        let mut reference = null_mut();
        // SAFETY: the repository is open, the name ends with zero.
        unsafe {
            let status = (self.functions.dwim)(&mut reference, self.repository, name.as_ptr());
            self.give(status, reference, answer)
        }
    }

    fn follow(&self, name: &CStr, answer: Option<&mut Record>) -> u32 {
        let (mut first, mut last) = (null_mut(), null_mut());
        // SAFETY: the same.
        unsafe {
            let mut status = (self.functions.dwim)(&mut first, self.repository, name.as_ptr());
            if status == 0 {
                status = (self.functions.resolve)(&mut last, first);
                (self.functions.free)(first);
            }
            self.give(status, last, answer)
        }
    }

    fn list(&self, mut answers: Option<&mut Vec<Record>>) -> u64 {
        let (mut iterator, mut count) = (null_mut(), 0);
        // SAFETY: the same; what is handed out is freed once.
        unsafe {
            assert_eq!((self.functions.iterate)(&mut iterator, self.repository), 0);
            let mut reference = null_mut();
            let mut status = (self.functions.next)(&mut reference, iterator);
            while status == 0 {
                count += 1;
                if let Some(answers) = &mut answers {
                    answers.push(self.functions.record(reference));
                }
                (self.functions.free)(reference);
                status = (self.functions.next)(&mut reference, iterator);
            }
            assert_eq!(status, OVER);
            (self.functions.free_iterator)(iterator);
        }
        count
    }
}

impl Drop for Repository<'_> {
    fn drop(&mut self) {
        // SAFETY: it was opened, and is freed once.
        unsafe { (self.functions.free_repository)(self.repository) }
    }
}
