use crate::allocator::here;
use crate::error::{answer, Error};
use crate::pool::{Kept, Shared};
use crate::sys::{self, RawBuf};
use std::fmt;
use std::mem;
use std::ops::{Deref, DerefMut};
use std::slice;

/// Bytes that a pool lent. They go to other threads as the buffer does, without a copy.
///
/// A buffer that is dropped is freed at the allocator of its pool that the thread attached last,
/// else by the next one that is attached anywhere ([`Pool::kept`](crate::Pool::kept)).
///
/// It is `Send`, and not `Sync`: threads that look at the same bytes share its slice.
///
/// ```
/// # let mut region = vec![0; 1 << 20];
/// let pool = fustrevol::Pool::open(&mut region, Default::default())?;
/// let allocator = pool.attach()?;
/// let mut buf = allocator.alloc(100)?;
/// buf.fill(7);
/// assert_eq!((buf.len(), buf.capacity()), (100, 112));
/// buf.set_len(3)?;
/// assert_eq!(*buf, [7, 7, 7]);
/// # Ok::<(), fustrevol::Error>(())
/// ```
pub struct Buf<'p> {
    pool: &'p Shared,
    raw: RawBuf,
    len: usize,
}

// SAFETY: the C library's buffers go to other threads, which may free them; nothing of a buffer is
// shared.
unsafe impl Send for Buf<'_> {}

impl<'p> Buf<'p> {
    // The raw one holds a buffer of the pool, of at least `len` bytes.
    pub(crate) fn of(pool: &'p Shared, raw: RawBuf, len: usize) -> Buf<'p> {
        Buf { pool, raw, len }
    }

    pub(crate) fn pool(&self) -> &'p Shared {
        self.pool
    }

    // Lends the raw one, with its filled length, to be pushed: where that goes well, the buffer is
    // no longer ours.
    pub(crate) fn hand_over(
        mut self,
        take: impl FnOnce(&mut RawBuf) -> Result<(), Error>,
    ) -> Result<(), (Error, Buf<'p>)> {
        // SAFETY: the raw one is ours and holds a buffer.
        unsafe { sys::fv_buf_set_len(&mut self.raw, self.len) };
        match take(&mut self.raw) {
            Ok(()) => {
                mem::forget(self);
                Ok(())
            }
            Err(error) => Err((error, self)),
        }
    }

    /// How many bytes its class has.
    pub fn capacity(&self) -> usize {
        // SAFETY: the raw one is ours, and isn't used by another thread, since a buffer isn't
        // `Sync`.
        unsafe { sys::fv_buf_capacity(&self.raw) }
    }

    /// Makes the slice `len` bytes long. [`Error::Full`] where that is more than [`Buf::capacity`].
    pub fn set_len(&mut self, len: usize) -> Result<(), Error> {
        // SAFETY: the raw one is ours.
        answer(unsafe { sys::fv_buf_set_len(&mut self.raw, len) })?;
        self.len = len;
        Ok(())
    }
}

impl Deref for Buf<'_> {
    type Target = [u8];

    fn deref(&self) -> &[u8] {
        // SAFETY: these bytes of the region are lent to this buffer alone. The program gave them
        // with a value.
        unsafe { slice::from_raw_parts(self.raw.at, self.len) }
    }
}

impl DerefMut for Buf<'_> {
    fn deref_mut(&mut self) -> &mut [u8] {
        // SAFETY: as above.
        unsafe { slice::from_raw_parts_mut(self.raw.at, self.len) }
    }
}

impl Drop for Buf<'_> {
    fn drop(&mut self) {
        match here(self.pool) {
            // SAFETY: the allocator is this thread's, of this pool, and no call on it runs.
            Some(allocator) => {
                let freed = unsafe { sys::fv_free(allocator, &mut self.raw) };
                debug_assert_eq!(freed, 0);
            }
            None => self
                .pool
                .keep(Kept::Buf(mem::replace(&mut self.raw, RawBuf::new()))),
        }
    }
}

impl fmt::Debug for Buf<'_> {
    fn fmt(&self, f: &mut fmt::Formatter<'_>) -> fmt::Result {
        f.debug_struct("Buf")
            .field("len", &self.len)
            .finish_non_exhaustive()
    }
}
