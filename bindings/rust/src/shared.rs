//! A connection that several threads have: one more thread reads, and the others take turns at the engine.

use alloc::string::{String, ToString};
use alloc::sync::{Arc, Weak};
use alloc::vec::Vec;
use core::time::Duration;
use std::io;
use std::net::{Shutdown, TcpStream};
use std::os::unix::net::UnixStream;
use std::sync::{Condvar, Mutex, MutexGuard, PoisonError};
use std::thread;
use std::time::Instant;

use crate::alone::{Alone, Stream, Way, read_some};
use crate::exchange::Exchange;
use crate::{Connection, Error, Failure};

/// A stream of which one thread reads while others write: a socket. TLS is none.
pub trait Split: Stream + Send + Sync + Sized + 'static {
    /// The same stream once more.
    fn split(&self) -> io::Result<Self>;

    /// Ends the reads and the writes that wait.
    fn end(&self);
}

impl Split for TcpStream {
    fn split(&self) -> io::Result<TcpStream> {
        self.try_clone()
    }

    fn end(&self) {
        let _ = self.shutdown(Shutdown::Both);
    }
}

impl Split for UnixStream {
    fn split(&self) -> io::Result<UnixStream> {
        self.try_clone()
    }

    fn end(&self) {
        let _ = self.shutdown(Shutdown::Both);
    }
}

/// Several threads have the connection: a clone of it is one's own. A thread that this starts reads, takes what comes,
/// and tells the engine the time, so empty frames go out whatever the others do.
///
/// A call that sends waits until its bytes are written, and for credit: so what a thread has ready waits where the peer
/// does not read. The thread that reads waits for no writer. It ends with the connection, or with the last clone.
pub struct Shared<S: Split> {
    both: Arc<Both<S>>,
    /// How much had come when this clone looked last.
    seen: u64,
}

struct Both<S: Split> {
    held: Mutex<Held>,
    came: Condvar,
    writer: Mutex<S>,
    ends: S,
    patience: Duration,
}

struct Held {
    exchange: Exchange,
    came: u64,
    /// Nothing is read any more.
    is_done: bool,
}

impl<S: Split> Clone for Shared<S> {
    fn clone(&self) -> Shared<S> {
        Shared { both: self.both.clone(), seen: self.seen }
    }
}

impl<S: Split> Drop for Both<S> {
    fn drop(&mut self) {
        self.ends.end();
    }
}

impl<S: Split> Connection<Alone<S>> {
    /// Starts a thread that reads, so that several threads can have the connection.
    ///
    /// ```no_run
    /// # use amqp_engine::{Connection, Message, Options};
    /// # use std::sync::mpsc::sync_channel;
    /// # fn main() -> Result<(), Box<dyn std::error::Error>> {
    /// let mut connection = Connection::connect("localhost:5672", &Options::new("me"))?.share()?;
    /// let session = connection.begin()?;
    /// let from = connection.receiver(session, "in", "queue", 100)?;
    /// let to = connection.sender(session, "out", "other")?;
    /// let (tell, told) = sync_channel(100);              // what comes waits here, and what follows for credit
    /// let mut receives = connection.clone();
    /// std::thread::spawn(move || {
    ///     while let Ok(delivery) = receives.receive(&from) {
    ///         if tell.send(delivery).is_err() {
    ///             break;
    ///         }
    ///     }
    /// });
    /// for delivery in told {
    ///     let number = connection.send(&to, &Message::data(&delivery.payload))?;
    ///     assert!(connection.settled_of(&to, number)?.is_accepted());
    ///     connection.accept(&delivery)?;
    /// }
    /// # Ok(())
    /// # }
    /// ```
    pub fn share(self) -> Result<Connection<Shared<S>>, Failure> {
        let Alone { exchange, stream, patience } = self.way;
        let (mut reads, ends) = (stream.split()?, stream.split()?);
        let held = Mutex::new(Held { exchange, came: 0, is_done: false });
        let both = Arc::new(Both { held, came: Condvar::new(), writer: Mutex::new(stream), ends, patience });
        let of = Arc::downgrade(&both);
        thread::Builder::new().name("amqp".to_string()).spawn(move || while reads_on(&of, &mut reads) {})?;
        Ok(Connection { way: Shared { both, seen: 0 } })
    }
}

/// A thread that panics while it has the lock leaves what the engine is: its calls are done, or not begun.
fn locked<T>(of: &Mutex<T>) -> MutexGuard<'_, T> {
    of.lock().unwrap_or_else(PoisonError::into_inner)
}

/// Reads once, and takes what came; whether there is more to come. Between two reads nobody may be left.
fn reads_on<S: Split>(of: &Weak<Both<S>>, stream: &mut S) -> bool {
    let Some(wait) = of.upgrade().map(|it| it.until_tick()) else { return false };
    let mut room = [0; 1 << 16];
    let read = stream.limit_reads(wait).and_then(|()| read_some(stream, &mut room));
    let Some(both) = of.upgrade() else { return false };
    let goes_on = match read {
        Ok(count) => both.take(&room[..count]),
        Err(error) => both.end(error.to_string()),
    };
    both.came.notify_all();
    goes_on
}

impl<S: Split> Both<S> {
    /// How long the engine does not want to be told the time; a second at most, since calls may move that.
    fn until_tick(&self) -> Duration {
        let mut held = locked(&self.held);
        let now = held.exchange.now();
        let next = held.exchange.engine.tick(now).ok().and_then(|it| it.next).map_or(1000, |it| it.saturating_sub(now));
        Duration::from_millis(next.clamp(1, 1000))
    }

    fn take(&self, bytes: &[u8]) -> bool {
        let mut held = locked(&self.held);
        held.came += u64::from(!bytes.is_empty());
        let done = held.exchange.take_all(bytes);
        let is_over = held.exchange.engine.is_over().unwrap_or(true);
        drop(held);
        let done = done.and_then(|()| self.write_if_free());
        match done {
            Ok(()) if is_over => self.end("the connection is over".to_string()),
            Ok(()) => true,
            Err(error) => self.end(error.to_string()),
        }
    }

    /// The connection is over: who waits is told, of the first reason that there is.
    fn end(&self, why: String) -> bool {
        let mut held = locked(&self.held);
        held.exchange.over.get_or_insert(why);
        held.came += 1;
        held.is_done = true;
        self.came.notify_all();
        false
    }

    /// Tells the time, and takes what waits to be sent.
    fn output(&self) -> Result<Vec<u8>, Error> {
        let (mut out, mut held) = (Vec::new(), locked(&self.held));
        let now = held.exchange.now();
        held.exchange.engine.tick(now)?;
        held.exchange.engine.send(&mut out)?;
        Ok(out)
    }

    /// Writes what waits, with the writer's lock: bytes go out in the order in which they are taken.
    fn write(&self, to: &mut S) -> Result<(), Failure> {
        loop {
            let out = self.output()?;
            if out.is_empty() {
                return Ok(());
            }
            to.write_all(&out)?;
        }
    }

    /// The same where no other thread writes. One that does looks again once it has let the lock go, so nothing stays.
    fn write_if_free(&self) -> Result<(), Failure> {
        self.writer.try_lock().map_or(Ok(()), |mut it| self.write(&mut it))
    }
}

impl<S: Split> Way for Shared<S> {
    fn with<T>(&mut self, ask: impl FnOnce(&mut Exchange) -> T) -> T {
        let mut held = locked(&self.both.held);
        self.seen = held.came;
        ask(&mut held.exchange)
    }

    /// Bytes that were written in part end the connection.
    fn flush(&mut self) -> Result<(), Failure> {
        let done = self.both.write(&mut locked(&self.both.writer)).and_then(|()| self.both.write_if_free());
        if let Err(Failure::Io(error)) = &done {
            self.both.end(error.to_string());
            self.both.ends.end();
        }
        done
    }

    fn step(&mut self, began: Instant) -> Result<(), Failure> {
        self.flush()?;
        let mut held = locked(&self.both.held);
        while held.came == self.seen {
            if held.is_done {
                return Err(io::Error::from(io::ErrorKind::NotConnected).into());
            }
            let left = self.both.patience.checked_sub(began.elapsed()).ok_or(Failure::Silent)?;
            let wait = self.both.came.wait_timeout(held, left);
            held = wait.unwrap_or_else(PoisonError::into_inner).0;
        }
        Ok(())
    }
}
