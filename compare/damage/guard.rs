//! Memory between two pages that fault. A call is lent a view of it that may be read-only; the run itself uses a second view, elsewhere.

use std::ffi::{c_char, c_int, c_long, c_uint, c_void};
use std::fs::File;
use std::marker::PhantomData;
use std::mem::size_of_val;
use std::os::fd::{AsRawFd, FromRawFd};
use std::ptr::null_mut;

extern "C" {
    fn mmap(
        address: *mut c_void,
        size: usize,
        protection: c_int,
        flags: c_int,
        file: c_int,
        offset: c_long,
    ) -> *mut c_void;
    fn munmap(address: *mut c_void, size: usize) -> c_int;
    fn memfd_create(name: *const c_char, flags: c_uint) -> c_int;
}

const PAGE: usize = 4096;

const NONE: c_int = 0;
const READ: c_int = 1;
const WRITE: c_int = 2;

const SHARED: c_int = 1;
const PRIVATE: c_int = 2;
const FIXED: c_int = 16;
const ANONYMOUS: c_int = 32;

/// The page that a lent slice touches: the one behind its end or the one before its beginning. An empty slice of the second is NULL.
#[derive(Clone, Copy)]
pub enum Edge {
    End,
    Beginning,
}

pub struct Region {
    lent: *mut u8,
    kept: *mut u8,
    size: usize,
    protection: c_int,
}

/// A slice as it crosses, with the view of it that the run keeps.
pub struct Lent<'a, T> {
    first: *mut T,
    kept: *const T,
    len: usize,
    region: PhantomData<&'a Region>,
}

impl Region {
    pub fn read_only() -> Self {
        Self::new(PAGE, READ)
    }

    pub fn writable() -> Self {
        Self::new(PAGE, READ | WRITE)
    }

    fn new(size: usize, protection: c_int) -> Self {
        let size = size.next_multiple_of(PAGE);
        let file = memory(size);
        let descriptor = file.as_raw_fd();
        let kept = map(null_mut(), size, READ | WRITE, SHARED, descriptor);
        let guards = map(null_mut(), size + 2 * PAGE, NONE, PRIVATE | ANONYMOUS, -1);
        let inner = guards.wrapping_add(PAGE);
        let lent = map(inner, size, protection, SHARED | FIXED, descriptor);
        Self {
            lent,
            kept,
            size,
            protection,
        }
    }

    /// Lends a copy of the values, at an edge.
    pub fn lend<T: Copy>(&mut self, values: &[T], edge: Edge) -> Lent<'_, T> {
        let bytes = size_of_val(values);
        if bytes > self.size {
            *self = Self::new(bytes, self.protection);
        }
        let offset = match edge {
            Edge::End => self.size - bytes,
            Edge::Beginning => 0,
        };
        let kept = self.kept.wrapping_add(offset).cast::<T>();
        // The kept view has room from the offset on, and the sizes of T divide the page's.
        unsafe { kept.copy_from_nonoverlapping(values.as_ptr(), values.len()) };
        let first = match edge {
            Edge::Beginning if values.is_empty() => null_mut(),
            _ => self.lent.wrapping_add(offset).cast(),
        };
        Lent {
            first,
            kept,
            len: values.len(),
            region: PhantomData,
        }
    }
}

impl Drop for Region {
    fn drop(&mut self) {
        // Both were mapped by new with these sizes, and no Lent outlives its region.
        unsafe {
            munmap(self.kept.cast(), self.size);
            munmap(self.lent.wrapping_sub(PAGE).cast(), self.size + 2 * PAGE);
        }
    }
}

impl<T: Copy> Lent<'_, T> {
    pub fn first(&self) -> *mut T {
        self.first
    }

    pub fn len(&self) -> usize {
        self.len
    }

    /// What stands there now.
    pub fn values(&self) -> Vec<T> {
        // The region lives, and no call runs.
        unsafe { std::slice::from_raw_parts(self.kept, self.len) }.to_vec()
    }
}

/// Memory that can be mapped twice.
fn memory(size: usize) -> File {
    // The name ends with 0; the descriptor is new and nobody else's.
    let file = unsafe {
        let descriptor = memfd_create(c"damage".as_ptr(), 0);
        assert!(descriptor >= 0, "no memory file");
        File::from_raw_fd(descriptor)
    };
    file.set_len(size as u64)
        .expect("a size for the memory file");
    file
}

fn map(at: *mut u8, size: usize, protection: c_int, flags: c_int, descriptor: c_int) -> *mut u8 {
    // A fixed place is always inside guards that were mapped just before.
    let address = unsafe { mmap(at.cast(), size, protection, flags, descriptor, 0) };
    assert!(address as isize != -1, "no memory");
    address.cast()
}
