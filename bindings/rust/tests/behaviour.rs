//! What the crate adds to the C calls: who owns, where what is dropped goes, and what is refused.
use fustrevol::{Buf, Burst, Error, Options, Pool, CHUNK, LARGEST};
use std::collections::HashSet;
use std::sync::mpsc::{channel, sync_channel};
use std::sync::Mutex;
use std::{mem, thread};

fn of(allocators: u32) -> Options {
    Options {
        allocators,
        ..Options::default()
    }
}

fn is_send<T: Send>() {}
fn is_sync<T: Sync>() {}

#[test]
fn what_goes_to_other_threads() {
    is_send::<Pool<'_>>();
    is_sync::<Pool<'_>>();
    is_send::<Buf<'_>>();
    is_send::<Burst<'_>>();
    is_send::<Error>();
    is_sync::<Error>();
}

#[test]
fn options_out_of_range_are_refused() {
    let mut region = vec![0; 4 * CHUNK];
    let mut refused = |options, len| Pool::open(&mut region[..len], options).err();
    assert_eq!(refused(of(0), 4 * CHUNK), Some(Error::BadArgument));
    assert_eq!(refused(of(65), 4 * CHUNK), Some(Error::BadArgument));
    assert_eq!(
        refused(Options { bits: 7, ..of(1) }, 4 * CHUNK),
        Some(Error::BadArgument)
    );
    assert_eq!(
        refused(
            Options {
                limit: 1048577,
                ..of(1)
            },
            4 * CHUNK
        ),
        Some(Error::BadArgument)
    );
    assert_eq!(refused(of(1), CHUNK - 1), Some(Error::BadArgument));
    assert_eq!(refused(of(64), CHUNK), None);
}

#[test]
fn answers_have_numbers_and_words() {
    let words: HashSet<String> = [
        Error::TooLarge,
        Error::UsedUp,
        Error::Empty,
        Error::AuditMissing,
        Error::NoChunk,
        Error::Other(10),
    ]
    .map(|error| error.to_string())
    .into();
    assert_eq!(words.len(), 6);
    assert_eq!(Error::NoChunk.number(), 9);
    assert_eq!(Error::AuditMissing.number(), 103);
    assert_eq!(fustrevol::version(), env!("CARGO_PKG_VERSION"));
}

#[test]
fn a_buffer_has_the_bytes_that_were_asked_for() {
    let mut region = vec![0; 64 * CHUNK];
    let bounds = region.as_ptr_range();
    let pool = Pool::open(&mut region, of(1)).unwrap();
    let allocator = pool.attach().unwrap();
    for size in 0..=LARGEST {
        let mut buf = allocator.alloc(size).unwrap();
        assert!(buf.len() == size && buf.capacity() >= size.max(16) && buf.capacity() % 16 == 0);
        assert!(bounds.start <= buf.as_ptr() && buf.as_ptr_range().end <= bounds.end);
        buf.fill(size as u8);
        assert!(buf.iter().all(|byte| *byte == size as u8));
    }
    assert_eq!(allocator.alloc(LARGEST + 1).err(), Some(Error::TooLarge));
    let mut buf = allocator.alloc(100).unwrap();
    assert_eq!(buf.set_len(113), Err(Error::Full));
    assert_eq!(buf.len(), 100);
    buf.set_len(112).unwrap();
    assert_eq!(buf.len(), 112);
    let counts = allocator.counts();
    assert_eq!(
        (counts.lent, counts.freed),
        (LARGEST as u64 + 2, LARGEST as u64 + 1)
    );
    drop((buf, allocator));
    pool.close().unwrap();
}

#[test]
fn a_pool_that_is_used_up_says_so_and_goes_on() {
    let mut region = vec![0; CHUNK];
    let pool = Pool::open(&mut region, of(2)).unwrap();
    let (mine, other) = (pool.attach().unwrap(), pool.attach().unwrap());
    assert_eq!(pool.attach().err(), Some(Error::Empty));
    let mut all: Vec<_> = (0..8).map(|_| mine.alloc(512).unwrap()).collect();
    assert_eq!(mine.alloc(512).err(), Some(Error::UsedUp));
    assert_eq!(other.alloc(512).err(), Some(Error::NoChunk)); // the only chunk is that of `mine`
    all.pop(); // at the allocator that this thread attached last
    assert_eq!(mine.alloc(512).err(), Some(Error::UsedUp));
    other.flush();
    assert!(mine.collect());
    assert!(!mine.collect());
    let last = mine.alloc(512);
    assert!(last.is_ok());
    drop((last, all, mine, other));
    pool.close().unwrap();
}

#[test]
fn what_is_dropped_without_an_allocator_waits_for_one() {
    let mut region = vec![0; 64 * CHUNK];
    let pool = Pool::open(&mut region, of(2)).unwrap();
    let (mut burst, mut bufs) = thread::scope(|scope| {
        let lend = || {
            let allocator = pool.attach().unwrap();
            let mut burst = allocator.open_burst(4).unwrap();
            allocator.fill(&mut burst, 50, 4).unwrap();
            let bufs: Vec<_> = (0..3).map(|_| allocator.alloc(200).unwrap()).collect();
            (Some(burst), bufs)
        };
        scope.spawn(lend).join().unwrap()
    });
    drop(burst.take());
    bufs.pop();
    assert_eq!((pool.kept(), pool.idle()), (2, 2));
    let allocator = pool.attach().unwrap();
    assert_eq!((pool.kept(), pool.idle()), (0, 1));
    let buf = bufs.pop();
    thread::scope(|scope| scope.spawn(|| drop(buf)).join().unwrap());
    assert_eq!(pool.kept(), 1);
    allocator.flush();
    assert_eq!(pool.kept(), 0);
    drop(allocator);
    drop((burst, bufs));
    assert_eq!(pool.kept(), 1);
    pool.close().unwrap();
}

#[test]
fn each_buffer_goes_to_its_own_pool() {
    let (mut first_region, mut second_region) = (vec![0; 8 * CHUNK], vec![0; 8 * CHUNK]);
    let first = Pool::open(&mut first_region, of(1)).unwrap();
    let second = Pool::open(&mut second_region, of(1)).unwrap();
    let (one, two) = (first.attach().unwrap(), second.attach().unwrap());
    let (a, b) = (one.alloc(64).unwrap(), two.alloc(64).unwrap());
    let mut burst = two.open_burst(1).unwrap();
    assert_eq!(one.fill(&mut burst, 64, 1), Err(Error::Stranger));
    let (error, a) = burst.push(a).unwrap_err();
    assert_eq!(error, Error::Stranger);
    drop((a, b, burst));
    assert_eq!((one.counts().freed, two.counts().freed), (1, 1));
    drop((one, two));
    first.close().unwrap();
    second.close().unwrap();
}

#[test]
fn bursts() {
    let mut region = vec![0; 64 * CHUNK];
    let pool = Pool::open(&mut region, of(2)).unwrap();
    let (mine, other) = (pool.attach().unwrap(), pool.attach().unwrap());
    let mut burst = mine.open_burst(8).unwrap();
    assert!(burst.is_empty() && burst.pop().is_none() && burst.get(0).is_none());
    mine.fill(&mut burst, 64, 7).unwrap();
    assert_eq!(other.fill(&mut burst, 64, 1), Err(Error::Stranger));
    for (index, bytes) in burst.iter_mut().enumerate() {
        bytes.fill(index as u8);
    }
    let mut last = mine.alloc(64).unwrap();
    last.copy_from_slice(&[7; 64]);
    last.set_len(3).unwrap();
    burst.push(last).unwrap();
    assert!(burst
        .iter()
        .enumerate()
        .all(|(index, bytes)| *bytes == [index as u8; 64]));
    let (error, one_more) = burst.push(mine.alloc(64).unwrap()).unwrap_err();
    assert_eq!((error, one_more.len()), (Error::Full, 64));
    let (error, strange) = burst.push(other.alloc(64).unwrap()).unwrap_err();
    assert_eq!((error, strange.len()), (Error::Stranger, 64));
    assert_eq!(*burst.pop().unwrap(), [7, 7, 7]);
    burst.get_mut(0).unwrap()[0] = 9;
    assert_eq!(burst.get(0).unwrap()[..2], [9, 0]);
    assert_eq!(burst.len(), 7);
    drop((burst, one_more, strange, mine, other));
    pool.close().unwrap();
}

#[test]
fn what_is_leaked_is_told() {
    let mut region = vec![0; 8 * CHUNK];
    let pool = Pool::open(&mut region, of(1)).unwrap();
    mem::forget(pool.attach().unwrap().alloc(64).unwrap());
    assert_eq!(pool.close(), Err(Error::AuditMissing));

    let pool = Pool::open(&mut region, of(1)).unwrap();
    mem::forget(pool.attach().unwrap());
    assert_eq!(pool.close(), Err(Error::Full));

    // The allocator that was leaked is nobody's: not that of a pool that is opened where the other
    // one lay.
    let pool = Pool::open(&mut region, of(1)).unwrap();
    let buf = pool.attach().unwrap().alloc(64).unwrap();
    drop(buf);
    assert_eq!(pool.kept(), 1);
    pool.close().unwrap();
}

#[test]
fn a_region_is_the_programs_again() {
    let mut region = vec![0; 8 * CHUNK];
    for round in 0..4u8 {
        let pool = Pool::open(&mut region, of(1)).unwrap();
        let allocator = pool.attach().unwrap();
        allocator.alloc(512).unwrap().fill(round);
        drop(allocator);
        pool.close().unwrap();
        assert!(region[..512].iter().all(|byte| *byte == round));
        region.fill(0xFF);
    }
}

#[test]
fn allocators_and_buffers_come_and_go_on_many_threads() {
    const PAIRS: usize = 8;
    const COUNT: usize = 5000;
    let mut region = vec![0; 512 * CHUNK];
    let pool = Pool::open(&mut region, of(2 * PAIRS as u32)).unwrap();
    let received = Mutex::new(0);
    thread::scope(|scope| {
        for pair in 0..PAIRS {
            let (pool, received) = (&pool, &received);
            let (out, lines) = sync_channel(64);
            scope.spawn(move || {
                let allocator = pool.attach().unwrap();
                for number in 0..COUNT {
                    let mut buf = allocator.alloc(16 + number % 64).unwrap();
                    buf.fill((pair * 31 + number) as u8);
                    out.send(buf).unwrap();
                }
            });
            scope.spawn(move || {
                let allocator = (pair % 2 == 0).then(|| pool.attach().unwrap());
                let mut count = 0;
                for (number, buf) in lines.into_iter().enumerate() {
                    assert_eq!(buf.len(), 16 + number % 64);
                    assert!(buf.iter().all(|byte| *byte == (pair * 31 + number) as u8));
                    count += 1;
                    // Every other consumer has no allocator, and leaves the freeing to others.
                    if let (Some(allocator), 0) = (&allocator, number % 100) {
                        allocator.flush();
                    }
                }
                *received.lock().unwrap() += count;
            });
        }
    });
    assert_eq!(*received.lock().unwrap(), PAIRS * COUNT);
    pool.close().unwrap();
}

#[test]
fn a_leaked_pool_serves_threads_of_any_lifetime() {
    let region = Box::leak(vec![0; 8 * CHUNK].into_boxed_slice());
    let pool: &'static Pool<'static> = Box::leak(Box::new(Pool::open(region, of(2)).unwrap()));
    let (out, bufs) = channel();
    let producer = thread::spawn(move || {
        let allocator = pool.attach().unwrap();
        out.send(allocator.alloc(100).unwrap()).unwrap();
    });
    let consumer = thread::spawn(move || {
        let allocator = pool.attach().unwrap();
        drop(bufs.recv().unwrap());
        assert_eq!(allocator.counts().freed, 1);
    });
    producer.join().unwrap();
    consumer.join().unwrap();
    assert_eq!(pool.idle(), 2);
}
