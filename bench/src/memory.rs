//! How much memory the allocator has given away. It is asked before and after, outside what is timed, so it slows nothing.

/// What glibc's `mallinfo2` tells, in its order.
#[repr(C)]
struct Mallinfo {
    arena: usize,
    free_chunks: usize,
    fast_chunks: usize,
    mapped_chunks: usize,
    mapped: usize,
    unused: usize,
    fast_free: usize,
    in_use: usize,
    free: usize,
    top: usize,
}

extern "C" {
    fn mallinfo2() -> Mallinfo;
}

/// Bytes that are allocated now.
pub fn in_use() -> u64 {
    let told = unsafe { mallinfo2() };
    (told.in_use + told.mapped) as u64
}
