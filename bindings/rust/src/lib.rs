//! A pool of buffers for threads that hand buffers to one another.
//!
//! For who writes a Rust program. The pool borrows one region of bytes and lends it in buffers of
//! 16 to 512 bytes, no two of which share a byte. Each thread attaches an [`Allocator`]. A [`Buf`]
//! may be dropped on any thread: it goes home to the allocator that lent it, in batches, without a
//! copy and without a lock.
//!
//! ```
//! use fustrevol::{Options, Pool};
//! use std::sync::mpsc;
//! use std::thread;
//!
//! let mut region = vec![0; 1 << 20];
//! let pool = Pool::open(&mut region, Options { allocators: 2, ..Default::default() })?;
//! let (to_writer, lines) = mpsc::sync_channel(64);
//! thread::scope(|scope| {
//!     scope.spawn(|| {
//!         let allocator = pool.attach().unwrap();
//!         for number in 0..1000u32 {
//!             let mut line = allocator.alloc(4).unwrap();
//!             line.copy_from_slice(&number.to_be_bytes());
//!             to_writer.send(line).unwrap();
//!         }
//!         drop(to_writer);
//!     });
//!     scope.spawn(|| {
//!         let _allocator = pool.attach().unwrap();
//!         for (number, line) in (0..1000u32).zip(lines) {
//!             assert_eq!(*line, number.to_be_bytes());
//!         }
//!     });
//! });
//! pool.close()?; // counts each slot of the region
//! # Ok::<(), fustrevol::Error>(())
//! ```
//!
//! The library below is proved; this crate, a few hundred lines with `unsafe` calls of it, is
//! tested. What the C calls promise and ask for is in `c/fustrevol.h`. Its rules are kept by this
//! crate's types: storage, one call at a time on one object, one live copy, and that a buffer is
//! freed at its own pool.
#![warn(missing_docs)]

mod allocator;
mod buf;
mod burst;
mod error;
mod pool;
mod sys;

pub use allocator::{Allocator, Counts};
pub use buf::Buf;
pub use burst::Burst;
pub use error::Error;
pub use pool::{Options, Pool};

/// The bytes of the largest buffer.
pub const LARGEST: usize = 512;

/// The bytes of a chunk, of which a region has 1 to 1,024.
pub const CHUNK: usize = 4096;

/// The version of the C library that is linked.
pub fn version() -> &'static str {
    // SAFETY: the call takes nothing, and answers a string of ASCII that is always there.
    let words = unsafe { std::ffi::CStr::from_ptr(sys::fv_version()) };
    words.to_str().unwrap_or_default()
}
