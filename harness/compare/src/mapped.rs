//! Slices of gigabytes that cost megabytes: most of a slice is one block of memory, mapped again and again.
use std::ffi::{c_char, c_int, c_uint, c_void};
use std::fs::File;
use std::io::{Error, Result};
use std::ops::Range;
use std::os::fd::{AsRawFd, FromRawFd};
use std::ptr;
use std::slice;

/// Bytes of a block. Periods divide it.
pub const BLOCK: usize = 1 << 20;

/// A slice whose blocks are all one memory, the common block, but for its own blocks: the first, the last
/// two, and those in the windows that its maker asks for. A byte of the common block is in the slice
/// thousands of times, and a write to one of these places changes all; it shows what was written last. A byte
/// of an own block is in the slice once.
pub struct Mapped {
    slice: Addresses,
    len: usize,
    /// Where each block of the slice is in the memory, in blocks; the common one is at 0.
    places: Vec<usize>,
    /// The memory, mapped once, for all that is not a door.
    memory: Addresses,
}

impl Mapped {
    /// So many bytes, and at least one more that belongs to the slice's last block.
    pub fn new(len: usize, windows: &[Range<usize>]) -> Result<Self> {
        let blocks = len / BLOCK + 1;
        let in_window = |b: usize| windows.iter().any(|w| w.start < (b + 1) * BLOCK && b * BLOCK < w.end);
        let mut taken = 0;
        let mut place = |b: usize| {
            let own = b == 0 || b + 2 >= blocks || in_window(b);
            taken += own as usize;
            own as usize * taken
        };
        let places: Vec<usize> = (0..blocks).map(&mut place).collect();
        let file = shared_file((taken + 1) * BLOCK)?;
        let memory = Addresses::of_file(&file, (taken + 1) * BLOCK)?;
        let slice = Addresses::reserve(blocks * BLOCK)?;
        for (b, place) in places.iter().enumerate() {
            slice.put_file(b * BLOCK, &file, place * BLOCK)?;
        }
        Ok(Mapped { slice, len, places, memory })
    }

    /// Puts a period into all blocks, again and again.
    pub fn fill(&mut self, period: &[u8]) {
        assert_eq!(BLOCK % period.len(), 0, "the period divides the block");
        // SAFETY: the memory is mapped for writing, and nothing else refers to it.
        let bytes = unsafe { slice::from_raw_parts_mut(self.memory.start, self.memory.len) };
        bytes.chunks_mut(period.len()).for_each(|chunk| chunk.copy_from_slice(period));
    }

    /// Puts bytes into own blocks, from an index of the slice on.
    pub fn put(&mut self, at: usize, bytes: &[u8]) {
        for (i, &byte) in (at..).zip(bytes) {
            let place = self.places[i / BLOCK];
            assert_ne!(place, 0, "index {i} is in the common block");
            // SAFETY: as above; the place is one of the memory's blocks.
            unsafe { *self.memory.start.add(place * BLOCK + i % BLOCK) = byte }
        }
    }

    pub fn bytes(&self) -> &[u8] {
        // SAFETY: the slice is mapped, and nothing writes to it while it is borrowed.
        unsafe { slice::from_raw_parts(self.slice.start, self.len) }
    }

    /// The slice, to be lent to a door. But for tests, nothing in Rust reads or writes through it.
    pub fn lent(&mut self) -> &mut [u8] {
        // SAFETY: the slice is mapped for writing. That its bytes change one another is unknown to Rust,
        // which leaves them alone: the door alone goes through this slice, and the checks look at the memory.
        unsafe { slice::from_raw_parts_mut(self.slice.start, self.len) }
    }

    /// The common block.
    pub fn common(&self) -> &[u8] {
        self.block(0)
    }

    /// The own blocks, each with its first byte's index in the slice. The last goes on after the slice's end.
    pub fn own(&self) -> impl Iterator<Item = (usize, &[u8])> {
        let blocks = self.places.iter().enumerate().filter(|&(_, &place)| place > 0);
        blocks.map(|(b, &place)| (b * BLOCK, self.block(place)))
    }

    /// Bytes of the slice that are in own blocks.
    pub fn seen(&self, range: Range<usize>) -> Vec<u8> {
        let byte = |i: usize| {
            let place = self.places[i / BLOCK];
            assert_ne!(place, 0, "index {i} is in the common block");
            self.block(place)[i % BLOCK]
        };
        range.map(byte).collect()
    }

    fn block(&self, place: usize) -> &[u8] {
        // SAFETY: the memory is mapped, and nothing writes to it while it is borrowed.
        unsafe { slice::from_raw_parts(self.memory.start.add(place * BLOCK), BLOCK) }
    }
}

/// A range of addresses.
struct Addresses {
    start: *mut u8,
    len: usize,
}

impl Addresses {
    /// Addresses without memory.
    fn reserve(len: usize) -> Result<Self> {
        // SAFETY: a mapping at addresses that the system picks touches nothing else.
        let start = unsafe { mmap(ptr::null_mut(), len, NOTHING, PRIVATE | ANONYMOUS | NO_RESERVE, -1, 0) };
        mapped(start).map(|start| Addresses { start, len })
    }

    /// A whole file.
    fn of_file(file: &File, len: usize) -> Result<Self> {
        // SAFETY: as above.
        let start = unsafe { mmap(ptr::null_mut(), len, READ | WRITE, SHARED, file.as_raw_fd(), 0) };
        mapped(start).map(|start| Addresses { start, len })
    }

    /// Puts a block of a file at some of the addresses.
    fn put_file(&self, at: usize, file: &File, offset: usize) -> Result<()> {
        assert!(at + BLOCK <= self.len);
        // SAFETY: the addresses are reserved here, and no reference to them is there yet.
        let start = unsafe {
            let place = self.start.add(at).cast();
            mmap(place, BLOCK, READ | WRITE, SHARED | FIXED | POPULATE, file.as_raw_fd(), offset as i64)
        };
        mapped(start).map(|_| ())
    }
}

impl Drop for Addresses {
    fn drop(&mut self) {
        // SAFETY: the addresses are this value's, and references to them have ended.
        unsafe { munmap(self.start.cast(), self.len) };
    }
}

fn mapped(start: *mut c_void) -> Result<*mut u8> {
    if start as isize == -1 {
        return Err(Error::last_os_error());
    }
    Ok(start.cast())
}

/// A file in memory, without a name.
fn shared_file(len: usize) -> Result<File> {
    // SAFETY: the name is a C string.
    let number = unsafe { memfd_create(c"bounds".as_ptr(), 0) };
    if number < 0 {
        return Err(Error::last_os_error());
    }
    // SAFETY: the number is that of an open file, which nothing else has.
    let file = unsafe { File::from_raw_fd(number) };
    file.set_len(len as u64)?;
    Ok(file)
}

// Linux's numbers on x86-64
const NOTHING: c_int = 0;
const READ: c_int = 1;
const WRITE: c_int = 2;
const SHARED: c_int = 1;
const PRIVATE: c_int = 2;
const FIXED: c_int = 0x10;
const ANONYMOUS: c_int = 0x20;
const NO_RESERVE: c_int = 0x4000;
/// Pages are there at once, which is faster than one by one at their first use.
const POPULATE: c_int = 0x8000;

extern "C" {
    fn mmap(at: *mut c_void, len: usize, access: c_int, flags: c_int, file: c_int, from: i64) -> *mut c_void;
    fn munmap(at: *mut c_void, len: usize) -> c_int;
    fn memfd_create(name: *const c_char, flags: c_uint) -> c_int;
}
