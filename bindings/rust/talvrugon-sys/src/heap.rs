//! The library's heap: Rust's global allocator, which needs the size of a block to free it. Sixteen bytes before each block store it.

use alloc::alloc::{alloc, dealloc, realloc};
use core::alloc::Layout;
use core::ptr::null_mut;

#[repr(C)]
pub struct Tried {
    is_given: bool,
    block: *mut u8,
}

const HEAD: usize = 16;
const REFUSED: Tried = Tried { is_given: false, block: null_mut() };

fn layout_of(size: usize) -> Option<Layout> {
    Layout::from_size_align(size.checked_add(HEAD)?, HEAD).ok()
}

/// Stores the size at the head of a block, and returns the block after it.
unsafe fn given(head: *mut u8, size: usize) -> Tried {
    if head.is_null() {
        return REFUSED;
    }
    head.cast::<usize>().write(size);
    Tried { is_given: true, block: head.add(HEAD) }
}

/// Returns the head of a block, and the layout with which it was allocated.
unsafe fn head_of(block: *mut u8) -> (*mut u8, Layout) {
    let head = block.sub(HEAD);
    let size = head.cast::<usize>().read();
    // SAFETY: a layout of this size was made when the block was allocated.
    (head, Layout::from_size_align_unchecked(size + HEAD, HEAD))
}

#[no_mangle]
extern "C" fn rattle_alloc(size: usize, _alignment: usize) -> Tried {
    match layout_of(size) {
        Some(layout) => unsafe { given(alloc(layout), size) },
        None => REFUSED,
    }
}

#[no_mangle]
unsafe extern "C" fn rattle_realloc(block: *mut u8, _kept: usize, size: usize, _alignment: usize) -> Tried {
    let (head, old) = head_of(block);
    match layout_of(size) {
        Some(layout) => given(realloc(head, old, layout.size()), size),
        None => REFUSED,
    }
}

#[no_mangle]
unsafe extern "C" fn rattle_dealloc(block: *mut u8) {
    let (head, layout) = head_of(block);
    dealloc(head, layout);
}
