use crate::allocator::Allocator;
use crate::error::{answer, Error};
use crate::sys::{self, RawAllocator, RawBuf, RawBurst, RawPool};
use std::marker::PhantomData;
use std::sync::atomic::{AtomicU64, AtomicUsize, Ordering};
use std::sync::{Mutex, MutexGuard, PoisonError};

/// How a pool is opened.
#[derive(Clone, Copy, Debug)]
pub struct Options {
    /// How many allocators it has, 1 to 64: one for each thread that allocates or frees at a time.
    pub allocators: u32,
    /// How many bytes an allocator caches for others before it posts them, at most 1,048,576.
    pub limit: u64,
    /// How an allocator's number is read on a buffer's way home, in digits of 1 to 6 bits. With 6,
    /// every buffer goes home directly; with fewer, allocators pass larger batches on for others.
    pub bits: u32,
}

impl Default for Options {
    /// One allocator, a limit of 65,536 bytes, and 6 bits.
    fn default() -> Options {
        Options {
            allocators: 1,
            limit: 65536,
            bits: 6,
        }
    }
}

// What was dropped on a thread without an allocator of the pool.
pub(crate) enum Kept {
    Buf(RawBuf),
    Burst(RawBurst),
}

impl Kept {
    // Frees it at an allocator of its pool.
    fn free_at(self, raw: *mut RawAllocator) {
        // SAFETY: whoever calls has an attached allocator of the pool, on its own thread; what is
        // kept is here alone.
        let freed = unsafe {
            match self {
                Kept::Buf(mut buf) => sys::fv_free(raw, &mut buf),
                Kept::Burst(mut burst) => sys::fv_burst_free(raw, &mut burst),
            }
        };
        debug_assert_eq!(freed, 0);
    }
}

// A pool without its region's lifetime: what allocators, buffers and bursts refer to.
pub(crate) struct Shared {
    // No two pools of a program have the same, so that an allocator that was leaked is never taken
    // for another pool's.
    pub(crate) id: u64,
    raw: Mutex<RawPool>,
    kept: Mutex<Vec<Kept>>,
    kept_count: AtomicUsize,
}

// SAFETY: the C library's pool may be used on any thread, one call at a time, which the lock sees
// to. What is kept belongs to nobody else.
unsafe impl Send for Shared {}
unsafe impl Sync for Shared {}

// A panic of another thread leaves a pool as it is.
fn lock<T>(mutex: &Mutex<T>) -> MutexGuard<'_, T> {
    mutex.lock().unwrap_or_else(PoisonError::into_inner)
}

impl Shared {
    pub(crate) fn attach(&self, to: *mut RawAllocator) -> Result<(), Error> {
        // SAFETY: the pool is locked; the allocator is its caller's.
        answer(unsafe { sys::fv_pool_attach(&mut *lock(&self.raw), to) })
    }

    pub(crate) fn detach(&self, from: *mut RawAllocator) {
        // SAFETY: as above, and the allocator is of this pool.
        let detached = unsafe { sys::fv_pool_detach(&mut *lock(&self.raw), from) };
        debug_assert_eq!(detached, 0);
    }

    pub(crate) fn keep(&self, kept: Kept) {
        let mut all = lock(&self.kept);
        all.push(kept);
        self.kept_count.store(all.len(), Ordering::SeqCst);
    }

    // Frees what is kept at an attached allocator of this pool.
    pub(crate) fn free_kept(&self, raw: *mut RawAllocator) {
        if self.kept_count.load(Ordering::SeqCst) == 0 {
            return;
        }
        let mut all = lock(&self.kept);
        self.kept_count.store(0, Ordering::SeqCst);
        all.drain(..).for_each(|kept| kept.free_at(raw));
    }

    // Frees what is kept at an allocator that nobody has. Where there is none, the pool is not
    // closed either.
    fn free_kept_at_an_idle_one(&self) {
        let mut idle = RawAllocator::new();
        if self.kept_count.load(Ordering::SeqCst) > 0 && self.attach(&mut idle).is_ok() {
            self.free_kept(&mut idle);
            self.detach(&mut idle);
        }
    }

    fn close(&self) -> Result<(), Error> {
        self.free_kept_at_an_idle_one();
        // SAFETY: the pool is locked.
        answer(unsafe { sys::fv_pool_close(&mut *lock(&self.raw)) })
    }
}

/// One region of bytes that is lent in buffers, to threads that hand buffers to one another.
///
/// Allocators, buffers and bursts borrow the pool, and the pool borrows the region. Threads of
/// [`std::thread::scope`] share it by reference; for other threads, a program leaks a pool, by
/// [`Box::leak`].
///
/// A pool that is dropped is closed, and what its audit says is lost; [`Pool::close`] tells it.
///
/// ```
/// let mut region = vec![0; 1 << 20];
/// let pool = fustrevol::Pool::open(&mut region, Default::default())?;
/// let allocator = pool.attach()?;
/// let mut line = allocator.alloc(14)?;
/// line.copy_from_slice(b"a line of text");
/// drop(line);
/// drop(allocator);
/// pool.close()?;
/// # Ok::<(), fustrevol::Error>(())
/// ```
///
/// A pool isn't closed while it lends something:
///
/// ```compile_fail,E0505
/// let mut region = vec![0; 1 << 20];
/// let pool = fustrevol::Pool::open(&mut region, Default::default()).unwrap();
/// let line = pool.attach().unwrap().alloc(14).unwrap();
/// pool.close().unwrap();
/// drop(line);
/// ```
pub struct Pool<'r> {
    pub(crate) shared: Shared,
    region: PhantomData<&'r mut [u8]>,
}

impl<'r> Pool<'r> {
    /// Opens a pool over a region of 1 to 1,024 chunks of 4,096 bytes. No byte of it is written.
    ///
    /// [`Error::BadArgument`] where a number of the options or the region's length is out of its
    /// range, [`Error::NoMemory`] where memory was refused.
    pub fn open(region: &'r mut [u8], options: Options) -> Result<Pool<'r>, Error> {
        static NEXT_ID: AtomicU64 = AtomicU64::new(0);
        sys::check_sizes();
        let mut raw = RawPool::new();
        // SAFETY: the region is borrowed as long as the pool, and what borrows the pool, can be
        // used.
        answer(unsafe {
            let Options {
                allocators,
                limit,
                bits,
            } = options;
            sys::fv_pool_open(
                &mut raw,
                region.as_mut_ptr(),
                region.len(),
                allocators,
                bits,
                limit,
            )
        })?;
        Ok(Pool {
            shared: Shared {
                id: NEXT_ID.fetch_add(1, Ordering::SeqCst),
                raw: Mutex::new(raw),
                kept: Mutex::new(Vec::new()),
                kept_count: AtomicUsize::new(0),
            },
            region: PhantomData,
        })
    }

    /// An allocator for this thread. It goes on where the thread stopped that had it before.
    ///
    /// [`Error::Empty`] where all of the pool's allocators are attached.
    pub fn attach(&self) -> Result<Allocator<'_>, Error> {
        Allocator::attach(&self.shared)
    }

    /// Closes the pool, and looks for each slot of each chunk that was drawn.
    ///
    /// [`Error::AuditMissing`] where a buffer was leaked, by [`std::mem::forget`] or its like;
    /// [`Error::Full`] where an allocator was.
    pub fn close(self) -> Result<(), Error> {
        self.shared.close()
    }

    /// How many of the pool's allocators are not attached.
    pub fn idle(&self) -> u64 {
        // SAFETY: the pool is locked.
        unsafe { sys::fv_pool_stat(&*lock(&self.shared.raw), 1) }
    }

    /// How many buffers and bursts were dropped on threads without an allocator of this pool, and
    /// wait for one that is attached, flushed or asked to collect, or for the close.
    pub fn kept(&self) -> usize {
        self.shared.kept_count.load(Ordering::SeqCst)
    }
}

impl Drop for Pool<'_> {
    // A pool that was closed says that it is, and nothing happens.
    fn drop(&mut self) {
        let _ = self.shared.close();
    }
}
