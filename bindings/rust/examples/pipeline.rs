//! Two readers write lines into buffers and send them over a bounded channel; one writer checks
//! them and lets them go.
//!
//! A buffer owns what it was lent: where the writer's loop drops one, it goes home to the reader
//! that lent it.
use fustrevol::{Buf, Error, Options, Pool, CHUNK};
use std::error;
use std::io::Write;
use std::sync::mpsc::{sync_channel, Receiver, SyncSender};
use std::thread;

const READERS: usize = 2;
const LINES: usize = 200_000;
const DEPTH: usize = 256;

type Line<'p> = (usize, Buf<'p>);

// What stands in a line.
fn text(line: &mut [u8], reader: usize, number: usize) -> std::io::Result<usize> {
    let room = line.len();
    let mut rest = line;
    write!(rest, "reader {reader} line {number}")?;
    Ok(room - rest.len())
}

fn read<'p>(pool: &'p Pool, reader: usize, out: SyncSender<Line<'p>>) -> Result<(), Error> {
    let allocator = pool.attach()?;
    for number in 0..LINES {
        let mut line = allocator.alloc(48)?;
        let len = text(&mut line, reader, number).map_err(|_| Error::TooLarge)?;
        line.set_len(len)?;
        if out.send((reader, line)).is_err() {
            break; // the writer stopped
        }
    }
    Ok(())
}

// Counts the lines that are as they should be.
fn write<'p>(pool: &'p Pool, lines: Receiver<Line<'p>>) -> Result<usize, Error> {
    let _allocator = pool.attach()?;
    let mut next = [0; READERS];
    let mut right = 0;
    for (reader, line) in lines {
        let mut expected = [0; 48];
        let len = text(&mut expected, reader, next[reader]).map_err(|_| Error::TooLarge)?;
        next[reader] += 1;
        right += usize::from(*line == expected[..len]);
    }
    Ok(right)
}

fn main() -> Result<(), Box<dyn error::Error>> {
    let mut region = vec![0; 256 * CHUNK];
    let options = Options {
        allocators: READERS as u32 + 1,
        ..Options::default()
    };
    let pool = Pool::open(&mut region, options)?;
    let (out, lines) = sync_channel(DEPTH);
    let right = thread::scope(|scope| {
        let pool = &pool;
        let writer = scope.spawn(move || write(pool, lines));
        let readers: Vec<_> = (0..READERS)
            .map(|reader| {
                let out = out.clone();
                scope.spawn(move || read(pool, reader, out))
            })
            .collect();
        drop(out);
        for reader in readers {
            reader.join().expect("a reader panicked")?;
        }
        writer.join().expect("the writer panicked")
    })?;
    let audit = pool.close();
    let said = audit.map_or_else(|error| error.to_string(), |()| "success".to_owned());
    println!("lines {right} of {} right, audit: {said}", READERS * LINES);
    audit?;
    assert_eq!(right, READERS * LINES);
    Ok(())
}
