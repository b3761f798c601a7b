//! Lent memory whose last byte stands before a page that no one may touch, so that reading or writing past a slice ends the run.

use std::ffi::c_void;

const PAGE: usize = 4_096;

extern "C" {
    fn mmap(address: *mut c_void, length: usize, protection: i32, flags: i32, file: i32, offset: i64) -> *mut c_void;
    fn mprotect(address: *mut c_void, length: usize, protection: i32) -> i32;
}

const READ_WRITE: i32 = 3;
const NO_ACCESS: i32 = 0;
const PRIVATE_ANONYMOUS: i32 = 0x22;

pub struct Fence {
    base: *mut u8,
    size: usize,
}

impl Fence {
    /// Room for at least `bytes`.
    pub fn new(bytes: usize) -> Fence {
        let size = bytes.div_ceil(PAGE) * PAGE;
        unsafe {
            let base = mmap(std::ptr::null_mut(), size + PAGE, READ_WRITE, PRIVATE_ANONYMOUS, -1, 0);
            assert!(base as isize != -1, "mmap");
            assert!(mprotect(base.add(size), PAGE, NO_ACCESS) == 0, "mprotect");
            Fence { base: base.cast(), size }
        }
    }

    /// A copy of the items that ends at the forbidden page.
    pub fn hold<T: Copy>(&mut self, items: &[T]) -> &mut [T] {
        let bytes = std::mem::size_of_val(items);
        assert!(bytes <= self.size);
        unsafe {
            let start = self.base.add(self.size - bytes).cast::<T>();
            std::ptr::copy_nonoverlapping(items.as_ptr(), start, items.len());
            std::slice::from_raw_parts_mut(start, items.len())
        }
    }
}
