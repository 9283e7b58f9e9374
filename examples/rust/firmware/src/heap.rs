//! The library's memory: a block of this program's own. The archive's functions over `malloc` aren't linked then.
//!
//! Memory is handed out from the front of the block, and the whole block is free again when nothing is allocated any
//! more. So a program that opens its handles once, or closes all of them before it opens others, needs no more than
//! this. The program has one thread, and no interrupt opens or closes a handle.

use core::cell::UnsafeCell;
use core::ffi::c_void;
use core::ptr;
use larboardyuzu::sys::Given;

const SIZE: usize = 16 * 1024;

#[repr(align(16))]
struct Block(UnsafeCell<[u8; SIZE]>);

/// How many bytes at the front of the block are handed out, and in how many allocations.
struct Used {
    bytes: usize,
    allocations: usize,
}

struct Heap {
    block: Block,
    used: UnsafeCell<Used>,
}

// SAFETY: the program has one thread.
unsafe impl Sync for Heap {}

static HEAP: Heap = Heap {
    block: Block(UnsafeCell::new([0; SIZE])),
    used: UnsafeCell::new(Used {
        bytes: 0,
        allocations: 0,
    }),
};

impl Heap {
    /// `size` bytes at an address that `align` divides, or a null pointer if there are none.
    fn allocate(&self, size: usize, align: usize) -> *mut u8 {
        // SAFETY: no other reference to `used` is alive, since its functions return none.
        let used = unsafe { &mut *self.used.get() };
        let start = used.bytes.next_multiple_of(align);
        if start > SIZE || size > SIZE - start {
            return ptr::null_mut();
        }
        used.bytes = start + size;
        used.allocations += 1;
        // SAFETY: `start` is at most SIZE.
        unsafe { self.block.0.get().cast::<u8>().add(start) }
    }

    fn free(&self) {
        // SAFETY: as in `allocate`.
        let used = unsafe { &mut *self.used.get() };
        used.allocations -= 1;
        if used.allocations == 0 {
            used.bytes = 0;
        }
    }
}

/// `at` is never null, also if there is no memory.
fn given(at: *mut u8) -> Given {
    let is_given = !at.is_null();
    let at = if is_given {
        at
    } else {
        HEAP.block.0.get().cast()
    };
    Given {
        is_given,
        at: at.cast(),
    }
}

#[no_mangle]
extern "C" fn larboardyuzu_heap_alloc(size: usize, align: usize) -> Given {
    given(HEAP.allocate(size, align))
}

#[no_mangle]
unsafe extern "C" fn larboardyuzu_heap_realloc(
    at: *mut c_void,
    kept: usize,
    size: usize,
    align: usize,
) -> Given {
    let new = HEAP.allocate(size, align);
    if !new.is_null() {
        // SAFETY: both blocks have that many bytes, and don't overlap.
        unsafe { ptr::copy_nonoverlapping(at.cast::<u8>(), new, kept.min(size)) };
        HEAP.free();
    }
    given(new)
}

#[no_mangle]
extern "C" fn larboardyuzu_heap_dealloc(_at: *mut c_void) {
    HEAP.free();
}
