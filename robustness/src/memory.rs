//! Memory that is lent to the library: between two pages that nobody may touch, and read-only where it is an input.
use crate::valgrind;
use harness::dice::Dice;
use std::slice;

extern "C" {
    fn mmap(at: *mut u8, length: usize, protection: i32, flags: i32, file: i32, offset: i64) -> *mut u8;
    fn mprotect(at: *mut u8, length: usize, protection: i32) -> i32;
}

const PAGE: usize = 4096;
const PRIVATE_ANONYMOUS: i32 = 0x22;

/// How many bytes before and behind what is lent are watched.
const MARGIN: usize = 64;
const MARK: u8 = 0xA5;

#[derive(Clone, Copy, PartialEq)]
enum Access {
    None = 0,
    Read = 1,
    Write = 3,
}

/// Pages of which a part is lent; the page before and the page behind them can't be touched.
struct Area {
    at: *mut u8,
    size: usize,
    access: Access,
    start: usize,
    length: usize,
}

impl Area {
    fn new(capacity: usize) -> Area {
        let size = (capacity + MARGIN).next_multiple_of(PAGE);
        // SAFETY: new pages, at no given place.
        let all = unsafe { mmap(std::ptr::null_mut(), size + 2 * PAGE, 0, PRIVATE_ANONYMOUS, -1, 0) };
        assert!(all as isize != -1, "no memory");
        let mut area = Area { at: unsafe { all.add(PAGE) }, size, access: Access::None, start: 0, length: 0 };
        area.allow(Access::Write);
        area
    }

    fn allow(&mut self, access: Access) {
        if self.access != access {
            // SAFETY: these pages are ours, and no part of them is borrowed now.
            assert_eq!(unsafe { mprotect(self.at, self.size, access as i32) }, 0, "mprotect");
            self.access = access;
        }
    }

    /// The watched bytes before and behind what is lent.
    fn margins(&self) -> [(usize, usize); 2] {
        let (start, end) = (self.start, self.start + self.length);
        [(start.saturating_sub(MARGIN), start), (end, (end + MARGIN).min(self.size))]
    }

    fn part(&mut self, (from, to): (usize, usize)) -> &mut [u8] {
        // SAFETY: inside the area, which is writable here.
        unsafe { slice::from_raw_parts_mut(self.at.add(from), to - from) }
    }

    /// Makes room for so many bytes: mostly up to the last byte of the pages, else from their first, or at an odd place.
    fn place(&mut self, dice: &mut Dice, length: usize) {
        self.allow(Access::Write);
        for (from, to) in self.margins() {
            valgrind::defined(self.at.wrapping_add(from), to - from);
        }
        let free = self.size - length;
        self.length = length;
        self.start = match dice.below(10) {
            0 => 0,
            1..=3 => free - dice.below(free.min(MARGIN)),
            _ => free,
        };
        for margin in self.margins() {
            self.part(margin).fill(MARK);
        }
    }

    fn watch(&self) {
        for (from, to) in self.margins() {
            valgrind::no_access(self.at.wrapping_add(from), to - from);
        }
    }

    fn margins_kept(&mut self) -> bool {
        self.margins().into_iter().all(|(from, to)| {
            valgrind::defined(self.at.wrapping_add(from), to - from);
            self.part((from, to)).iter().all(|&b| b == MARK)
        })
    }

    fn lent(&self) -> &[u8] {
        // SAFETY: inside the area. Where it can't be read, only the pointer and the length are used.
        unsafe { slice::from_raw_parts(self.at.add(self.start), self.length) }
    }
}

/// An input: read-only, or not even to be read where it does not count.
pub struct Input {
    small: Area,
    large: Option<Area>,
    in_large: bool,
}

/// What an input holds: bytes, or so many of which it does not matter what they are.
pub enum Content {
    Bytes(Vec<u8>),
    Whatever(usize),
}

const SMALL: usize = 32 * 1024;

impl Input {
    pub fn new(largest: usize) -> Input {
        Input { small: Area::new(SMALL), large: (largest > SMALL).then(|| Area::new(largest)), in_large: false }
    }

    pub fn put(&mut self, dice: &mut Dice, content: &Content, counts: bool) {
        let length = match content {
            Content::Bytes(bytes) => bytes.len(),
            Content::Whatever(length) => *length,
        };
        self.in_large = length > SMALL;
        let area = if self.in_large { self.large.as_mut().expect("a large input") } else { &mut self.small };
        area.place(dice, length);
        if let Content::Bytes(bytes) = content {
            area.part((area.start, area.start + length)).copy_from_slice(bytes);
        }
        area.allow(if counts { Access::Read } else { Access::None });
        area.watch();
    }

    pub fn lent(&self) -> &[u8] {
        match &self.large {
            Some(large) if self.in_large => large.lent(),
            _ => self.small.lent(),
        }
    }
}

/// An output, with what it held before.
pub struct Output {
    area: Area,
    pub before: Vec<u8>,
}

impl Output {
    pub fn new(largest: usize) -> Output {
        Output { area: Area::new(largest), before: Vec::new() }
    }

    /// Lends these bytes to be written; those from `read` on must not be decided by before they are written.
    pub fn put(&mut self, dice: &mut Dice, bytes: Vec<u8>, read: usize) {
        self.area.place(dice, bytes.len());
        self.lent().copy_from_slice(&bytes);
        self.before = bytes;
        valgrind::undefined(&self.area.lent()[read..]);
        self.area.watch();
    }

    pub fn lent(&mut self) -> &mut [u8] {
        self.area.part((self.area.start, self.area.start + self.area.length))
    }

    /// What it holds now, of which the first `written` bytes must have been written; none where bytes around it changed.
    pub fn after(&mut self, written: usize) -> Option<&[u8]> {
        let kept = self.area.margins_kept();
        let lent = self.area.lent();
        valgrind::check_defined(&lent[..written]);
        valgrind::defined(lent.as_ptr(), lent.len());
        kept.then_some(lent)
    }
}
