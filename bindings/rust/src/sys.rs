//! The calls of fustrevol.h.
use std::ffi::{c_char, c_void};
use std::mem::{size_of, MaybeUninit};
use std::ptr;

macro_rules! storage {
    ($($name:ident: $bytes:literal, $init:ident;)*) => {$(
        /// Storage of the C library. It may be moved; only the latest copy is used.
        #[repr(C, align(16))]
        pub struct $name([MaybeUninit<u8>; $bytes]);

        impl $name {
            pub fn new() -> $name {
                let mut made = $name([MaybeUninit::uninit(); $bytes]);
                // SAFETY: the storage is ours, and holds nothing. `check_sizes` says that it is
                // large enough.
                unsafe { $init(&mut made) };
                made
            }
        }
    )*};
}

storage! {
    RawPool: 128, fv_pool_init;
    RawAllocator: 8192, fv_allocator_init;
    RawBurst: 64, fv_burst_init;
}

#[repr(C)]
pub struct RawBuf {
    pub at: *mut u8,
    own: [*mut c_void; 3],
}

impl RawBuf {
    pub fn new() -> RawBuf {
        let mut made = RawBuf {
            at: ptr::null_mut(),
            own: [ptr::null_mut(); 3],
        };
        // SAFETY: as above.
        unsafe { fv_buf_init(&mut made) };
        made
    }
}

#[repr(C)]
pub struct Span {
    pub at: *mut u8,
    pub len: usize,
}

extern "C" {
    pub fn fv_strerror(answer: u32) -> *const c_char;
    pub fn fv_version() -> *const c_char;
    fn fv_pool_size() -> usize;
    fn fv_allocator_size() -> usize;
    fn fv_buf_size() -> usize;
    fn fv_burst_size() -> usize;
    fn fv_pool_init(pool: *mut RawPool);
    fn fv_allocator_init(allocator: *mut RawAllocator);
    fn fv_buf_init(buf: *mut RawBuf);
    fn fv_burst_init(burst: *mut RawBurst);
    pub fn fv_pool_open(
        pool: *mut RawPool,
        region: *mut u8,
        len: usize,
        allocators: u32,
        bits: u32,
        limit: u64,
    ) -> u32;
    pub fn fv_pool_attach(pool: *mut RawPool, allocator: *mut RawAllocator) -> u32;
    pub fn fv_pool_detach(pool: *mut RawPool, allocator: *mut RawAllocator) -> u32;
    pub fn fv_pool_close(pool: *mut RawPool) -> u32;
    pub fn fv_pool_stat(pool: *const RawPool, which: u32) -> u64;
    pub fn fv_alloc(allocator: *mut RawAllocator, buf: *mut RawBuf, size: usize) -> u32;
    pub fn fv_free(allocator: *mut RawAllocator, buf: *mut RawBuf) -> u32;
    pub fn fv_flush(allocator: *mut RawAllocator) -> u32;
    pub fn fv_collect(allocator: *mut RawAllocator) -> u32;
    pub fn fv_allocator_stat(allocator: *const RawAllocator, which: u32) -> u64;
    pub fn fv_buf_capacity(buf: *const RawBuf) -> usize;
    pub fn fv_buf_len(buf: *const RawBuf) -> usize;
    pub fn fv_buf_set_len(buf: *mut RawBuf, len: usize) -> u32;
    pub fn fv_burst_open(allocator: *mut RawAllocator, burst: *mut RawBurst, places: usize) -> u32;
    pub fn fv_burst_fill(
        allocator: *mut RawAllocator,
        burst: *mut RawBurst,
        size: usize,
        count: usize,
    ) -> u32;
    pub fn fv_burst_free(allocator: *mut RawAllocator, burst: *mut RawBurst) -> u32;
    pub fn fv_burst_push(burst: *mut RawBurst, buf: *mut RawBuf) -> u32;
    pub fn fv_burst_pop(burst: *mut RawBurst, buf: *mut RawBuf) -> u32;
    pub fn fv_burst_len(burst: *const RawBurst) -> u64;
    pub fn fv_burst_at(burst: *const RawBurst, span: *mut Span, index: usize) -> u32;
}

/// Stops the program where the library that is linked needs more storage than stands above.
pub fn check_sizes() {
    // SAFETY: these calls take nothing, and may be made at any time.
    let fits = unsafe {
        fv_pool_size() <= size_of::<RawPool>()
            && fv_allocator_size() <= size_of::<RawAllocator>()
            && fv_buf_size() <= size_of::<RawBuf>()
            && fv_burst_size() <= size_of::<RawBurst>()
    };
    assert!(fits, "libfustrevol.a is of another version than this crate");
}
