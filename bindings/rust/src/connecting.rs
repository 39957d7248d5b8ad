//! How a client connects over a socket, and what the calls of its connection answer.

use alloc::string::String;
use alloc::vec::Vec;
use core::fmt;
use core::ops::Deref;
use core::time::Duration;
use std::fs::File;
use std::io::{self, Read};
use std::net::{TcpStream, ToSocketAddrs};

use crate::{Error, NotSent, Open, Outcome};

/// How a client connects.
#[derive(Clone, Copy, Debug)]
pub struct Options<'a> {
    /// What its Open says.
    pub open: Open<'a>,
    /// The user and the password by which it logs in (PLAIN); without them by ANONYMOUS.
    pub login: Option<(&'a str, &'a str)>,
    /// Without a login it logs in by EXTERNAL, as who is known by a certificate of TLS, and not by ANONYMOUS.
    pub is_external: bool,
    /// So long may headers, SASL and both Opens take, and so long a call waits for what the server is to do.
    pub patience: Duration,
}

impl<'a> Options<'a> {
    /// Of a container of this name, which logs in by ANONYMOUS and waits for 20 seconds.
    pub fn new(container_id: &'a str) -> Options<'a> {
        Options { open: Open::new(container_id), login: None, is_external: false, patience: Duration::from_secs(20) }
    }

    /// The same that logs in by EXTERNAL (RFC 4422, appendix A).
    pub fn external(self) -> Options<'a> {
        Options { is_external: true, login: None, ..self }
    }

    /// The same that logs in by PLAIN (RFC 4616).
    pub fn plain(self, user: &'a str, password: &'a str) -> Options<'a> {
        Options { login: Some((user, password)), ..self }
    }
}

/// Why a call of a [`Connection`](crate::Connection) did not do what was asked.
#[derive(Debug)]
pub enum Failure {
    /// The socket fails, or the peer hung up.
    Io(io::Error),
    /// The engine did not do it: a refusal has its name.
    Engine(Error),
    /// A message does not go out, for another reason than credit, for which `send` waits.
    NotSent(NotSent),
    /// The peer refuses, detaches, ends or closes, or does what it may not do: what, and its condition.
    Peer(String),
    /// The peer did not do within the time that the options say what was awaited.
    Silent,
}

impl fmt::Display for Failure {
    fn fmt(&self, to: &mut fmt::Formatter<'_>) -> fmt::Result {
        match self {
            Failure::Io(error) => error.fmt(to),
            Failure::Engine(error) => error.fmt(to),
            Failure::NotSent(why) => why.fmt(to),
            Failure::Peer(what) => write!(to, "the peer: {what}"),
            Failure::Silent => to.write_str("the peer is silent"),
        }
    }
}

impl core::error::Error for Failure {}

impl From<io::Error> for Failure {
    fn from(error: io::Error) -> Failure {
        Failure::Io(error)
    }
}

impl From<Error> for Failure {
    fn from(error: Error) -> Failure {
        Failure::Engine(error)
    }
}

/// A link that is attached: its session, and this side's handle. Calls of another connection refuse it: `NoLink`.
#[derive(Clone, Copy, Debug, PartialEq, Eq, Hash)]
pub struct Link {
    /// The session.
    pub session: u32,
    /// This side's handle.
    pub handle: u32,
    /// Its connection, by a number of this process.
    pub(crate) of: u32,
}

/// A link by which this side sends.
#[derive(Clone, Copy, Debug, PartialEq, Eq, Hash)]
pub struct Sender(pub(crate) Link);

/// A link by which this side receives.
///
/// ```compile_fail,E0308
/// fn send(mut connection: amqp_engine::Connection, receiver: amqp_engine::Receiver) {
///     let _ = connection.send_bytes(&receiver, b"it");
/// }
/// ```
#[derive(Clone, Copy, Debug, PartialEq, Eq, Hash)]
pub struct Receiver(pub(crate) Link);

impl Deref for Sender {
    type Target = Link;

    fn deref(&self) -> &Link {
        &self.0
    }
}

impl Deref for Receiver {
    type Target = Link;

    fn deref(&self) -> &Link {
        &self.0
    }
}

/// A delivery that has come, whole.
#[derive(Clone, Debug, PartialEq, Eq)]
pub struct Delivery {
    /// The link on which it came.
    pub link: Link,
    /// Its number.
    pub number: u32,
    /// Its bytes: [`Message::read`](crate::Message::read) reads them.
    pub payload: Vec<u8>,
    /// The sender has settled it: [`Connection::settle`](crate::Connection::settle) sends nothing for it.
    pub is_settled: bool,
}

/// A message that this side sent, and the server has settled.
#[derive(Clone, Copy, Debug, PartialEq, Eq)]
pub struct Settled {
    /// The link on which it went out.
    pub link: Link,
    /// Its number, as [`Connection::send`](crate::Connection::send) answered it.
    pub number: u32,
    /// What became of it; [`Outcome::NoState`] where its link went before the server settled it.
    pub outcome: Outcome,
}

impl Settled {
    /// Whether it was accepted.
    pub fn is_accepted(&self) -> bool {
        self.outcome == Outcome::Accepted
    }
}

/// 16 bytes that the peer cannot guess.
pub(crate) fn key() -> io::Result<[u8; 16]> {
    let mut key = [0; 16];
    File::open("/dev/urandom")?.read_exact(&mut key)?;
    Ok(key)
}

/// A socket to the first of these addresses that answers in this time.
pub(crate) fn socket(address: impl ToSocketAddrs, patience: Duration) -> io::Result<TcpStream> {
    let mut failed = io::Error::from(io::ErrorKind::AddrNotAvailable);
    for it in address.to_socket_addrs()? {
        match TcpStream::connect_timeout(&it, patience) {
            Ok(stream) => {
                stream.set_nodelay(true)?;
                stream.set_write_timeout(Some(patience))?;
                return Ok(stream);
            }
            Err(error) => failed = error,
        }
    }
    Err(failed)
}
