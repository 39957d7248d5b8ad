//! How a stream begins, before its first frame, and the time: protocol headers and SASL of either side (AMQP 1.0 part
//! 2, sections 2.2 and 2.4.5; part 5, section 5.3).

use alloc::vec::Vec;

use crate::engine::{Operation, perf};
use crate::ffi::{How, LoginHead, Place, Took, amqp1_heard, amqp1_new, amqp1_take, amqp1_tick, one};
use crate::records::stop;
use crate::{Engine, Error, NONE, Performative, Record, Stop};

/// How a stream begins, and on which side.
#[derive(Clone, Copy, Debug)]
pub enum Opening<'a> {
    /// Without SASL, on either side.
    Plain,
    /// As a client that logs in: the login that it likes best comes first. `host` is the one that it asks for.
    Client { logins: &'a [Login<'a>], host: Option<&'a str> },
    /// As a server that offers these mechanisms.
    Server { mechanisms: &'a [&'a str] },
}

/// A client's login: a mechanism, and what is said first, if anything.
#[derive(Clone, Copy, Debug)]
pub struct Login<'a> {
    /// The name of the mechanism.
    pub mechanism: &'a str,
    /// The initial response.
    pub response: Option<&'a [u8]>,
}

impl<'a> Login<'a> {
    /// By ANONYMOUS (RFC 4505).
    pub fn anonymous() -> Login<'a> {
        Login { mechanism: "ANONYMOUS", response: Some(b"") }
    }

    /// By EXTERNAL (RFC 4422, appendix A), as who is known by other means.
    pub fn external() -> Login<'a> {
        Login { mechanism: "EXTERNAL", response: Some(b"") }
    }
}

/// The outcome of a login (part 5, section 5.3.3.6).
#[derive(Clone, Copy, Debug, PartialEq, Eq)]
pub enum LoginCode {
    /// The client is let in.
    Ok = 0,
    /// What it says does not let it in.
    Auth = 1,
    /// The server fails.
    Sys = 2,
    /// It fails, and will go on to fail.
    SysPerm = 3,
    /// It fails, and may be asked again.
    SysTemp = 4,
}

/// What was due at a tick, and is done.
#[derive(Clone, Copy, Debug, PartialEq, Eq)]
pub enum Due {
    /// Nothing.
    Nothing,
    /// An empty frame waits to be sent, unless something else does.
    Beat,
    /// The opening took longer than its limit: the connection is over.
    OpeningLate,
    /// Nothing came for as long as this side's idle-time-out: a Close waits to be sent, and the connection is over.
    PeerSilent,
}

/// What a tick answers.
#[derive(Clone, Copy, Debug, PartialEq, Eq)]
pub struct Tick {
    /// What was due, and is done.
    pub due: Due,
    /// When the next tick is wanted, in milliseconds of the caller's clock, if one is.
    pub next: Option<u64>,
}

#[repr(C)]
#[derive(Default)]
pub(crate) struct Ticked {
    next: u64,
    due: u32,
    reserved: u32,
}

/// What `amqp1_new` takes of an opening: its side, how long the host's name is, a head for each login, and the bytes
/// that go with them.
fn parts_of(opening: &Opening) -> (u32, u32, Vec<LoginHead>, Vec<u8>) {
    match *opening {
        Opening::Plain => (0, NONE, Vec::new(), Vec::new()),
        Opening::Client { logins, host } => {
            let said: Vec<u8> =
                logins.iter().flat_map(|it| [it.mechanism.as_bytes(), it.response.unwrap_or(&[])].concat()).collect();
            let heads = logins.iter().map(|it| head_of(it.mechanism, it.response)).collect();
            (1, host.map_or(NONE, |it| it.len() as u32), heads, [host.unwrap_or("").as_bytes(), &said].concat())
        }
        Opening::Server { mechanisms } => {
            (2, NONE, mechanisms.iter().map(|it| head_of(it, None)).collect(), mechanisms.concat().into_bytes())
        }
    }
}

fn head_of(mechanism: &str, response: Option<&[u8]>) -> LoginHead {
    LoginHead { mechanism: mechanism.len() as u32, response: response.map_or(NONE, |it| it.len() as u32) }
}

impl Engine {
    /// An engine whose stream begins with its first byte: the header is the first that waits to be sent, and the peer's
    /// the first that is taken. `now` is the time, in milliseconds of any clock, and `limit` how many of them
    /// headers, SASL and both Opens may take. The key and the Open are those of [`Engine::new`].
    pub fn with_opening<P: Performative + ?Sized>(
        key: [u8; 16],
        open: &P,
        opening: &Opening,
        now: u64,
        limit: Option<u32>,
    ) -> Result<Engine, Error> {
        let open = perf(open)?;
        let (side, host, heads, bytes) = parts_of(opening);
        let how = How { key, time: now, limit: limit.unwrap_or(NONE), side, host, reserved: 0 };
        let mut engine = Engine { place: Place { full: 0, at: core::ptr::null_mut() } };
        let (open_at, logins) = (open.as_ptr(), heads.as_ptr());
        let status = unsafe {
            amqp1_new(&mut engine.place, &how, open_at, open.len(), logins, heads.len(), bytes.as_ptr(), bytes.len())
        };
        if status == 0 { Ok(engine) } else { Err(Error::of(status)) }
    }

    /// A server's answer to a client that asks to be let in: `Ok` lets it in, and nothing else does; after another code
    /// the connection is over. `Refused` (`WrongTime`) where no login is asked.
    pub fn login(&mut self, code: LoginCode, additional: Option<&[u8]>) -> Result<(), Error> {
        let head = [code as u8, additional.is_some() as u8];
        self.ask(Operation::Login, &[&head, additional.unwrap_or(&[])])
    }

    /// A server's challenge to a client that asks to be let in: one response is awaited then. `Refused` as
    /// [`Engine::login`] is.
    pub fn challenge(&mut self, challenge: &[u8]) -> Result<(), Error> {
        self.ask(Operation::Challenge, &[challenge])
    }

    /// A client's response to a challenge. `Refused` (`WrongTime`) where there was none.
    pub fn respond(&mut self, response: &[u8]) -> Result<(), Error> {
        self.ask(Operation::Respond, &[response])
    }

    /// Takes what came at this time: a header, a SASL frame, or whole frames. The answers are those of
    /// [`Engine::take`], which tells no time.
    pub fn take_at(&mut self, now: u64, bytes: &[u8], records: &mut [Record]) -> Result<(usize, usize, Stop), Error> {
        let mut took = Took::default();
        let (given, places) = (bytes.as_ptr(), records.as_mut_ptr());
        let status = unsafe { amqp1_take(&mut self.place, now, given, bytes.len(), places, records.len(), &mut took) };
        Ok((took.taken, took.written, stop(status, took.wanted)?))
    }

    /// Tells that bytes came at this time, though none of them were given to [`Engine::take_at`] yet: the peer is not
    /// silent. [`Engine::take_at`] says it of what it takes.
    pub fn heard(&mut self, now: u64) -> Result<(), Error> {
        let status = unsafe { amqp1_heard(&mut self.place, now) };
        self.outcome(status)
    }

    /// Tells the time, and does what is due: an empty frame, where nothing was sent for half of the peer's
    /// idle-time-out; a Close, where nothing was taken for as long as this side's own; the end of an opening that
    /// took too long. To be called by `next`, and after other calls, which may move that.
    pub fn tick(&mut self, now: u64) -> Result<Tick, Error> {
        let mut ticked = Ticked::default();
        let status = unsafe { amqp1_tick(&mut self.place, now, &mut ticked) };
        self.outcome(status)?;
        let all = [Due::Nothing, Due::Beat, Due::OpeningLate, Due::PeerSilent];
        let due = one(&all, 0, ticked.due).unwrap_or(Due::Nothing);
        Ok(Tick { due, next: (ticked.next != u64::MAX).then_some(ticked.next) })
    }

    /// Whether the connection is over: nothing is taken, and nothing may be asked for any more. What waits is still to
    /// be sent.
    pub fn is_over(&mut self) -> Result<bool, Error> {
        Ok(self.number(Operation::IsOver, &[])? == Some(1))
    }
}
