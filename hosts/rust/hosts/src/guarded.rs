//! Memory between two pages that fault when touched.

use std::ffi::c_void;
use std::mem;
use std::ptr;
use std::slice;

extern "C" {
    fn mmap(at: *mut c_void, bytes: usize, protection: i32, flags: i32, file: i32, offset: i64) -> *mut c_void;
    fn mprotect(at: *mut c_void, bytes: usize, protection: i32) -> i32;
    fn sysconf(name: i32) -> i64;
}

// The values of these names in Linux's headers for x86-64.
const PROT_NONE: i32 = 0;
const PROT_READ_WRITE: i32 = 3;
const MAP_PRIVATE_ANONYMOUS_NORESERVE: i32 = 0x4022;
const SC_PAGESIZE: i32 = 30;

/// A buffer touches the page after it with its end, or the page before it with its start.
#[derive(Clone, Copy, Debug, PartialEq, Eq)]
pub enum Placement {
    EndAtGuard,
    StartAtGuard,
}

pub const PLACEMENTS: [Placement; 2] = [Placement::EndAtGuard, Placement::StartAtGuard];

/// What buffers hold: every pattern of bits is one.
pub trait Number: Copy {}

impl Number for u8 {}
impl Number for u32 {}
impl Number for f64 {}

pub struct Guarded {
    first: *mut u8,
    bytes: usize,
}

impl Guarded {
    /// Room for this many entries between the two pages. It stays until the program ends.
    pub fn new(entries: usize) -> Guarded {
        // SAFETY: the mapping is new, and only its inner pages are opened.
        unsafe {
            let page = sysconf(SC_PAGESIZE) as usize;
            let bytes = (4 * entries).div_ceil(page) * page;
            let all = mmap(ptr::null_mut(), bytes + 2 * page, PROT_NONE, MAP_PRIVATE_ANONYMOUS_NORESERVE, -1, 0);
            assert!(all as isize != -1, "no memory for {entries} entries");
            let first = (all as *mut u8).add(page);
            assert!(mprotect(first as *mut c_void, bytes, PROT_READ_WRITE) == 0, "pages can't be opened");
            Guarded { first, bytes }
        }
    }

    /// The contents, copied to one end of the memory, which is aligned for them.
    pub fn hold<T: Number>(&mut self, contents: &[T], placement: Placement) -> &mut [T] {
        let bytes = mem::size_of_val(contents);
        assert!(bytes <= self.bytes, "no room for {} entries", contents.len());
        let offset = match placement {
            Placement::EndAtGuard => self.bytes - bytes,
            Placement::StartAtGuard => 0,
        };
        // SAFETY: offset and length lie within the opened pages, which this value alone hands out.
        let held = unsafe { slice::from_raw_parts_mut(self.first.add(offset) as *mut T, contents.len()) };
        held.copy_from_slice(contents);
        held
    }
}
