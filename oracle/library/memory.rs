//! Buffers to lend: each ends where a page begins that nobody may touch, and a pattern stands before it. Answer words stand between patterns.

use std::ffi::c_void;

const PAGE: usize = 4096;
const PATTERN: u8 = 0xC7;
/// How many bytes before a buffer are looked at after each call
const WATCHED: usize = 256;

unsafe extern "C" {
    fn mmap(at: *mut c_void, len: usize, protection: i32, flags: i32, file: i32, offset: i64) -> *mut c_void;
    fn mprotect(at: *mut c_void, len: usize, protection: i32) -> i32;
}

const READ: i32 = 1;
const READ_WRITE: i32 = 3;
const PRIVATE_ANONYMOUS: i32 = 0x22;

/// Memory for one buffer of plain numbers at a time
pub struct Arena<T> {
    base: *mut u8,
    size: usize,
    len: usize,
    what: std::marker::PhantomData<T>,
}

impl<T: Copy + PartialEq> Arena<T> {
    /// With room for so many numbers
    pub fn new(most: usize) -> Self {
        let size = (most * size_of::<T>() + WATCHED).next_multiple_of(PAGE);
        // SAFETY: a fresh mapping; the last page stays without rights.
        let base = unsafe {
            let base = mmap(std::ptr::null_mut(), size + PAGE, 0, PRIVATE_ANONYMOUS, -1, 0);
            assert_eq!(mprotect(base, size, READ_WRITE), 0, "no memory");
            std::slice::from_raw_parts_mut(base.cast::<u8>(), size).fill(PATTERN);
            base.cast()
        };
        Self { base, size, len: 0, what: std::marker::PhantomData }
    }

    /// Puts numbers at the end of the memory, to be lent.
    pub fn fill(&mut self, numbers: &[T]) {
        let used = self.len * size_of::<T>();
        self.len = numbers.len();
        let now = size_of_val(numbers);
        assert!(now + WATCHED <= self.size, "a buffer is larger than its arena");
        // What a longer buffer left is pattern again.
        if now < used {
            let left = self.size - used..self.size - now;
            self.memory()[left].fill(PATTERN);
        }
        self.get_mut().copy_from_slice(numbers);
    }

    fn memory(&mut self) -> &mut [u8] {
        // SAFETY: `new` mapped so many bytes, for this arena alone.
        unsafe { std::slice::from_raw_parts_mut(self.base, self.size) }
    }

    fn start(&self) -> *mut T {
        // SAFETY: within the mapping
        unsafe { self.base.add(self.size - self.len * size_of::<T>()).cast() }
    }

    pub fn get(&self) -> &[T] {
        // SAFETY: `fill` put so many numbers there, and pages are aligned for them.
        unsafe { std::slice::from_raw_parts(self.start(), self.len) }
    }

    pub fn get_mut(&mut self) -> &mut [T] {
        // SAFETY: as in `get`
        unsafe { std::slice::from_raw_parts_mut(self.start(), self.len) }
    }

    /// From here on a write into this buffer ends the program.
    pub fn only_read(&mut self) {
        // SAFETY: nothing here writes to it afterwards.
        assert_eq!(unsafe { mprotect(self.base.cast(), self.size, READ) }, 0);
    }

    /// Is the pattern before the buffer untouched?
    pub fn is_whole(&self) -> bool {
        let before = self.start() as usize - self.base as usize;
        // SAFETY: within the mapping
        let memory = unsafe { std::slice::from_raw_parts(self.base, before) };
        memory[before.saturating_sub(WATCHED)..].iter().all(|&byte| byte == PATTERN)
    }
}

const CANARY: u64 = 0xC7C7_C7C7_C7C7_C7C7;
const WORDS: usize = 4;

/// Four answer words with a pattern around each; a word of 32 bits has some beside it, too
pub struct Answers([u64; 2 * WORDS + 1]);

impl Answers {
    pub fn new() -> Self {
        Self([CANARY; 2 * WORDS + 1])
    }

    pub fn wide(&mut self, i: usize) -> *mut u64 {
        &raw mut self.0[2 * i + 1]
    }

    pub fn size(&mut self, i: usize) -> *mut usize {
        self.wide(i).cast()
    }

    pub fn narrow(&mut self, i: usize) -> *mut u32 {
        self.wide(i).cast()
    }

    pub fn as_size(&self, i: usize) -> usize {
        self.0[2 * i + 1] as usize
    }

    pub fn as_narrow(&self, i: usize) -> u32 {
        self.0[2 * i + 1] as u32
    }

    /// Are the patterns untouched, with these words of 32 bits among the answers?
    pub fn is_whole(&self, narrow: &[usize]) -> bool {
        self.0.iter().step_by(2).all(|&word| word == CANARY)
            && narrow.iter().all(|&i| self.0[2 * i + 1] >> 32 == CANARY >> 32)
    }
}
