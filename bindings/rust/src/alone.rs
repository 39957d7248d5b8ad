//! How a connection waits: by its own calls, over any stream whose reads end in time.

use alloc::string::String;
use alloc::vec::Vec;
use core::time::Duration;
use std::io::{self, Read, Write};
use std::net::TcpStream;
use std::os::unix::net::UnixStream;
use std::time::Instant;

use crate::Failure;
use crate::exchange::Exchange;

/// A stream of bytes whose reads end after a time, with `WouldBlock` or `TimedOut`.
///
/// A stream of TLS is one by [`Timed`], without an implementation of this.
pub trait Stream: Read + Write {
    /// So long may a read wait from now on.
    fn limit_reads(&mut self, time: Duration) -> io::Result<()>;
}

impl Stream for TcpStream {
    fn limit_reads(&mut self, time: Duration) -> io::Result<()> {
        TcpStream::set_read_timeout(self, Some(time))
    }
}

impl Stream for UnixStream {
    fn limit_reads(&mut self, time: Duration) -> io::Result<()> {
        UnixStream::set_read_timeout(self, Some(time))
    }
}

/// Any stream over a socket, as one of TLS, with how the socket's reads get their time.
///
/// Over `rustls` it is `Timed::new(rustls::StreamOwned::new(client, socket), |it, time|
/// it.sock.set_read_timeout(Some(time)))`; over `native_tls`, `Timed::new(connector.connect(host, socket)?, |it, time|
/// it.get_ref().set_read_timeout(Some(time)))`.
///
/// ```
/// use amqp_engine::{Stream, Timed};
/// use std::io::{Read, Write};
/// use std::os::unix::net::UnixStream;
///
/// let (near, mut far) = UnixStream::pair()?;
/// let mut stream = Timed::new(near, |it, time| it.set_read_timeout(Some(time)));
/// stream.limit_reads(std::time::Duration::from_millis(1))?;
/// assert!(stream.read(&mut [0]).is_err());
/// far.write_all(b"x")?;
/// assert_eq!(stream.read(&mut [0])?, 1);
/// # Ok::<(), std::io::Error>(())
/// ```
#[derive(Debug)]
pub struct Timed<S, F> {
    stream: S,
    set: F,
}

impl<S: Read + Write, F: FnMut(&mut S, Duration) -> io::Result<()>> Timed<S, F> {
    /// The stream, and what sets the time of its socket's reads.
    pub fn new(stream: S, set: F) -> Timed<S, F> {
        Timed { stream, set }
    }
}

impl<S: Read, F> Read for Timed<S, F> {
    fn read(&mut self, to: &mut [u8]) -> io::Result<usize> {
        self.stream.read(to)
    }
}

impl<S: Write, F> Write for Timed<S, F> {
    fn write(&mut self, bytes: &[u8]) -> io::Result<usize> {
        self.stream.write(bytes)
    }

    fn flush(&mut self) -> io::Result<()> {
        self.stream.flush()
    }
}

impl<S: Read + Write, F: FnMut(&mut S, Duration) -> io::Result<()>> Stream for Timed<S, F> {
    fn limit_reads(&mut self, time: Duration) -> io::Result<()> {
        (self.set)(&mut self.stream, time)
    }
}

/// How the calls of a [`Connection`](crate::Connection) reach what it holds, and wait: [`Alone`], or
/// [`Shared`](crate::Shared).
pub trait Way {
    /// Has something done at once.
    fn with<T>(&mut self, ask: impl FnOnce(&mut Exchange) -> T) -> T;

    /// Writes what waits.
    fn flush(&mut self) -> Result<(), Failure>;

    /// Waits for something to come, no longer than the options say from `began` on; what waits is written before.
    fn step(&mut self, began: Instant) -> Result<(), Failure>;

    /// Waits until there is what is looked for.
    fn until<T>(&mut self, mut look: impl FnMut(&mut Exchange) -> Result<Option<T>, Failure>) -> Result<T, Failure> {
        let began = Instant::now();
        loop {
            match self.with(|it| look(it).map(|found| found.ok_or_else(|| it.over.clone())))? {
                Ok(found) => return Ok(found),
                Err(None) => self.step(began)?,
                Err(Some(what)) => {
                    // what answers the peer goes out, if it still can
                    let _ = self.flush();
                    return Err(Failure::Peer(what));
                }
            }
        }
    }
}

/// One thread has the connection: its calls read and write.
pub struct Alone<S> {
    pub(crate) exchange: Exchange,
    pub(crate) stream: S,
    pub(crate) patience: Duration,
}

impl<S: Stream> Alone<S> {
    pub(crate) fn new(exchange: Exchange, stream: S, patience: Duration) -> Alone<S> {
        Alone { exchange, stream, patience }
    }

    /// Takes what comes for so long.
    pub(crate) fn wait(&mut self, time: Duration) -> Result<Option<String>, Failure> {
        let began = Instant::now();
        while began.elapsed() < time && self.exchange.over.is_none() {
            self.flush()?;
            self.read(time.saturating_sub(began.elapsed()))?;
        }
        self.flush()?;
        Ok(self.exchange.over.clone())
    }

    /// Takes some bytes, where they come before this time, and before the engine wants to be told the time.
    pub(crate) fn read(&mut self, left: Duration) -> Result<(), Failure> {
        let (now, mut room) = (self.exchange.now(), [0; 1 << 16]);
        let next = self.exchange.engine.tick(now)?.next;
        let next = next.map_or(left, |it| Duration::from_millis(it.saturating_sub(now)));
        self.stream.limit_reads(next.min(left).max(Duration::from_millis(1)))?;
        let count = read_some(&mut self.stream, &mut room)?;
        self.exchange.take_all(&room[..count])
    }
}

/// Some bytes; none where the time is over, and an error where the peer hung up.
pub(crate) fn read_some(stream: &mut impl Read, room: &mut [u8]) -> io::Result<usize> {
    use io::ErrorKind::{Interrupted, TimedOut, UnexpectedEof, WouldBlock};
    match stream.read(room) {
        Ok(0) => Err(UnexpectedEof.into()),
        Err(error) if matches!(error.kind(), WouldBlock | TimedOut | Interrupted) => Ok(0),
        done => done,
    }
}

impl<S: Stream> Way for Alone<S> {
    fn with<T>(&mut self, ask: impl FnOnce(&mut Exchange) -> T) -> T {
        ask(&mut self.exchange)
    }

    /// Tells the time, and writes what waits.
    fn flush(&mut self) -> Result<(), Failure> {
        let mut out = Vec::new();
        let now = self.exchange.now();
        self.exchange.engine.tick(now)?;
        let done = self.exchange.engine.send(&mut out);
        if !out.is_empty() {
            self.stream.write_all(&out)?;
            self.stream.flush()?;
        }
        Ok(done?)
    }

    fn step(&mut self, began: Instant) -> Result<(), Failure> {
        let left = self.patience.checked_sub(began.elapsed()).ok_or(Failure::Silent)?;
        self.flush()?;
        self.read(left)
    }
}
