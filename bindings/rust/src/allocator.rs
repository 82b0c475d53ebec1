use crate::buf::Buf;
use crate::burst::Burst;
use crate::error::{answer, Error};
use crate::pool::Shared;
use crate::sys::{self, RawAllocator, RawBuf};
use std::cell::{Cell, UnsafeCell};
use std::ptr;

// An allocator in a place of its own, where its thread finds it.
struct Seat {
    pool_id: u64,
    raw: UnsafeCell<RawAllocator>,
    next: Cell<*const Seat>,
}

thread_local! {
    // The allocators of this thread, the last attached first. One that is leaked stays in the list,
    // and in its place.
    static FIRST: Cell<*const Seat> = const { Cell::new(ptr::null()) };
}

// The allocator of a pool that this thread has.
pub(crate) fn here(pool: &Shared) -> Option<*mut RawAllocator> {
    let mut at = FIRST.get();
    // SAFETY: what is in the list is alive: an allocator takes its seat out before it gives it
    // back.
    while let Some(seat) = unsafe { at.as_ref() } {
        if seat.pool_id == pool.id {
            return Some(seat.raw.get());
        }
        at = seat.next.get();
    }
    None
}

/// What a thread allocates and frees at. It stays on the thread that attached it, and is given back
/// when it is dropped.
///
/// ```compile_fail,E0277
/// let mut region = vec![0; 1 << 20];
/// let pool = fustrevol::Pool::open(&mut region, Default::default()).unwrap();
/// let allocator = pool.attach().unwrap();
/// std::thread::scope(|scope| {
///     scope.spawn(|| drop(allocator));
/// });
/// ```
pub struct Allocator<'p> {
    pool: &'p Shared,
    // Neither Send nor Sync, by the pointer.
    seat: *mut Seat,
}

impl<'p> Allocator<'p> {
    pub(crate) fn attach(pool: &'p Shared) -> Result<Allocator<'p>, Error> {
        let seat = Box::new(Seat {
            pool_id: pool.id,
            raw: UnsafeCell::new(RawAllocator::new()),
            next: Cell::new(FIRST.get()),
        });
        pool.attach(seat.raw.get())?;
        let seat = Box::into_raw(seat);
        FIRST.set(seat);
        let made = Allocator { pool, seat };
        pool.free_kept(made.raw());
        Ok(made)
    }

    fn raw(&self) -> *mut RawAllocator {
        // SAFETY: the seat is ours until we are dropped.
        unsafe { (*self.seat).raw.get() }
    }

    /// Lends a buffer of `size` bytes, which are as they were left. Its class may have more:
    /// [`Buf::capacity`].
    ///
    /// [`Error::TooLarge`] above [`LARGEST`](crate::LARGEST) bytes, [`Error::UsedUp`] where no slot
    /// is at home, none came and the region has no chunk left, [`Error::NoChunk`] where none will
    /// ever come, [`Error::NoMemory`] where a slot is used for the first time, and memory was refused.
    pub fn alloc(&self, size: usize) -> Result<Buf<'p>, Error> {
        let mut raw = RawBuf::new();
        // SAFETY: the allocator is attached, and used on this thread alone, one call at a time.
        answer(unsafe { sys::fv_alloc(self.raw(), &mut raw, size) })?;
        Ok(Buf::of(self.pool, raw, size))
    }

    /// Opens a burst for `places` buffers of this allocator. [`Error::NoMemory`] where memory was
    /// refused.
    pub fn open_burst(&self, places: usize) -> Result<Burst<'p>, Error> {
        let mut burst = Burst::of(self.pool);
        // SAFETY: as above; the burst is ours.
        answer(unsafe { sys::fv_burst_open(self.raw(), &mut burst.raw, places) })?;
        Ok(burst)
    }

    /// Lends `count` buffers more into a burst, each with all bytes of its class. Where it stops
    /// early, those that were lent until then are in the burst.
    ///
    /// [`Error::Full`] where the burst has no place left, [`Error::Stranger`] where another
    /// allocator opened it, and as [`Allocator::alloc`].
    pub fn fill(&self, burst: &mut Burst<'p>, size: usize, count: usize) -> Result<(), Error> {
        if burst.pool.id != self.pool.id {
            return Err(Error::Stranger);
        }
        // SAFETY: as above; the burst is of this pool.
        answer(unsafe { sys::fv_burst_fill(self.raw(), &mut burst.raw, size, count) })
    }

    /// Posts all that is cached for others: before this thread waits for another one, which may
    /// need it.
    pub fn flush(&self) {
        self.pool.free_kept(self.raw());
        // SAFETY: as above. It is refused only where no allocator is attached.
        let flushed = unsafe { sys::fv_flush(self.raw()) };
        debug_assert_eq!(flushed, 0);
    }

    /// Takes what came home, and says whether anything did. [`Allocator::alloc`] does so by itself
    /// where it finds no slot.
    pub fn collect(&self) -> bool {
        self.pool.free_kept(self.raw());
        // SAFETY: as above.
        unsafe { sys::fv_collect(self.raw()) == 0 }
    }

    /// What was counted since the pool was opened.
    pub fn counts(&self) -> Counts {
        // SAFETY: as above.
        let stat = |which| unsafe { sys::fv_allocator_stat(self.raw(), which) };
        Counts {
            number: stat(0),
            lent: stat(1),
            freed: stat(2),
            posted: stat(3),
            taken: stat(4),
            chunks: stat(5),
            home: stat(6),
            cached: stat(7),
            cached_bytes: stat(8),
            stock: stat(9),
        }
    }
}

impl Drop for Allocator<'_> {
    fn drop(&mut self) {
        // SAFETY: the seat is in this thread's list, since an allocator doesn't leave its thread;
        // all seats in it are alive. Once it is out of the list, nobody else has it.
        unsafe {
            let mut at = FIRST.with(ptr::from_ref::<Cell<*const Seat>>);
            while !ptr::eq((*at).get(), self.seat) {
                at = &(*(*at).get()).next;
            }
            (*at).set((*self.seat).next.get());
            self.pool.detach(self.raw());
            drop(Box::from_raw(self.seat));
        }
    }
}

/// What an allocator counts.
#[derive(Clone, Copy, Debug, PartialEq, Eq)]
#[non_exhaustive]
pub struct Counts {
    /// Its own number.
    pub number: u64,
    /// Buffers lent here, those of bursts among them.
    pub lent: u64,
    /// Buffers freed here, its own and others'.
    pub freed: u64,
    /// Batches posted to others.
    pub posted: u64,
    /// Batches that came.
    pub taken: u64,
    /// Chunks that it drew.
    pub chunks: u64,
    /// Slots at home now.
    pub home: u64,
    /// Others' buffers in its cache now.
    pub cached: u64,
    /// Their bytes.
    pub cached_bytes: u64,
    /// Chunks of the region, drawn or not.
    pub stock: u64,
}
