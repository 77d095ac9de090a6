//! What the standard library has in later versions than Rust 1.63, for those that have it not.

/// A slice as a slice of arrays, without the rest.
pub fn chunks<T, const N: usize>(slice: &[T]) -> &[[T; N]] {
    // SAFETY: an array of N elements is laid out as they are, and so many whole ones are there.
    unsafe { std::slice::from_raw_parts(slice.as_ptr().cast(), slice.len() / N) }
}

/// The same, to be written.
pub fn chunks_mut<T, const N: usize>(slice: &mut [T]) -> &mut [[T; N]] {
    // SAFETY: as above, and the slice is borrowed as long as the answer.
    unsafe { std::slice::from_raw_parts_mut(slice.as_mut_ptr().cast(), slice.len() / N) }
}

/// The value, of which the compiler no longer knows anything.
pub fn black_box<T>(value: T) -> T {
    // SAFETY: the text is a comment; nothing is read, written or clobbered.
    unsafe { std::arch::asm!("/* {0} */", in(reg) &value, options(nostack, preserves_flags)) };
    value
}
