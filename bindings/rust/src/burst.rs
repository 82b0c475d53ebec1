use crate::allocator::here;
use crate::buf::Buf;
use crate::error::{answer, Error};
use crate::pool::{Kept, Shared};
use crate::sys::{self, RawBuf, RawBurst, Span};
use std::fmt;
use std::mem;
use std::ptr;
use std::slice;

/// Buffers of one allocator that go from thread to thread and are freed as a whole, at the cost of
/// one.
///
/// ```
/// # let mut region = vec![0; 1 << 20];
/// let pool = fustrevol::Pool::open(&mut region, Default::default())?;
/// let allocator = pool.attach()?;
/// let mut packets = allocator.open_burst(64)?;
/// allocator.fill(&mut packets, 100, 64)?;
/// for (index, packet) in packets.iter_mut().enumerate() {
///     packet.fill(index as u8);
/// }
/// assert_eq!(packets.get(63), Some(&[63; 112][..]));
/// # Ok::<(), fustrevol::Error>(())
/// ```
pub struct Burst<'p> {
    pub(crate) pool: &'p Shared,
    pub(crate) raw: RawBurst,
}

// SAFETY: as of `Buf`.
unsafe impl Send for Burst<'_> {}

impl<'p> Burst<'p> {
    // Not open yet.
    pub(crate) fn of(pool: &'p Shared) -> Burst<'p> {
        Burst {
            pool,
            raw: RawBurst::new(),
        }
    }

    /// How many buffers it has.
    pub fn len(&self) -> usize {
        // SAFETY: the raw one is ours, and isn't used by another thread.
        unsafe { sys::fv_burst_len(&self.raw) as usize }
    }

    /// Whether it has none.
    pub fn is_empty(&self) -> bool {
        self.len() == 0
    }

    fn span(&self, index: usize) -> Option<Span> {
        let mut span = Span {
            at: ptr::null_mut(),
            len: 0,
        };
        // SAFETY: as above.
        let told = unsafe { sys::fv_burst_at(&self.raw, &mut span, index) };
        (told == 0).then_some(span)
    }

    /// The bytes of a buffer, all of its class.
    pub fn get(&self, index: usize) -> Option<&[u8]> {
        // SAFETY: these bytes of the region are lent to this burst alone.
        self.span(index)
            .map(|span| unsafe { slice::from_raw_parts(span.at, span.len) })
    }

    /// The bytes of a buffer, to be written.
    pub fn get_mut(&mut self, index: usize) -> Option<&mut [u8]> {
        // SAFETY: as above.
        self.span(index)
            .map(|span| unsafe { slice::from_raw_parts_mut(span.at, span.len) })
    }

    /// The bytes of all buffers, in the order in which they came.
    pub fn iter(&self) -> impl Iterator<Item = &[u8]> {
        (0..self.len()).filter_map(|index| self.get(index))
    }

    /// The bytes of all buffers, to be written.
    pub fn iter_mut(&mut self) -> impl Iterator<Item = &mut [u8]> {
        let burst = &*self;
        (0..burst.len())
            .filter_map(|index| burst.span(index))
            // SAFETY: as above. No two buffers share a byte, and each is given out once.
            .map(|span| unsafe { slice::from_raw_parts_mut(span.at, span.len) })
    }

    /// Puts a buffer to the end, its length with it. It comes back with [`Error::Full`] where there
    /// is no place left, and with [`Error::Stranger`] where it isn't of the allocator that opened
    /// the burst.
    pub fn push(&mut self, buf: Buf<'p>) -> Result<(), (Error, Buf<'p>)> {
        if buf.pool().id != self.pool.id {
            return Err((Error::Stranger, buf));
        }
        // SAFETY: both raw ones are ours, and of one pool.
        buf.hand_over(|raw| answer(unsafe { sys::fv_burst_push(&mut self.raw, raw) }))
    }

    /// Takes the last buffer out.
    pub fn pop(&mut self) -> Option<Buf<'p>> {
        let mut raw = RawBuf::new();
        // SAFETY: as above. What is popped is a buffer of this pool, which knows how much of it is
        // filled.
        unsafe {
            if sys::fv_burst_pop(&mut self.raw, &mut raw) != 0 {
                return None;
            }
            let len = sys::fv_buf_len(&raw);
            Some(Buf::of(self.pool, raw, len))
        }
    }
}

impl Drop for Burst<'_> {
    fn drop(&mut self) {
        match here(self.pool) {
            // SAFETY: the allocator is this thread's, of this pool, and no call on it runs. A burst
            // that isn't open is refused.
            Some(allocator) => {
                unsafe { sys::fv_burst_free(allocator, &mut self.raw) };
            }
            None => self
                .pool
                .keep(Kept::Burst(mem::replace(&mut self.raw, RawBurst::new()))),
        }
    }
}

impl fmt::Debug for Burst<'_> {
    fn fmt(&self, f: &mut fmt::Formatter<'_>) -> fmt::Result {
        f.debug_struct("Burst")
            .field("len", &self.len())
            .finish_non_exhaustive()
    }
}
