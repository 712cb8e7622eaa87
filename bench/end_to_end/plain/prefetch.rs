//! Asks for memory before it is read.

/// Asks the processor for the memory of the element at an index, which may lie behind the last one.
#[inline(always)]
pub fn fetch<T>(list: &[T], index: usize) {
    // A hint that reads nothing: any address will do.
    #[cfg(target_arch = "x86_64")]
    unsafe {
        use std::arch::x86_64::{_mm_prefetch, _MM_HINT_T0};
        _mm_prefetch::<_MM_HINT_T0>(list.as_ptr().wrapping_add(index).cast());
    }
    #[cfg(not(target_arch = "x86_64"))]
    let _ = (list, index);
}
