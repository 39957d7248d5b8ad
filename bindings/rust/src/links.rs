//! Links with credit: senders and receivers, settlement, and what a record is to them (AMQP 1.0 part 2, sections 2.6
//! and 2.7).
//!
//! Each session has links of its own. A program attaches them ([`Engine::link_attach`]), tells every record that `take`
//! wrote to them ([`Engine::link_event`]), once and in order, and has answered what they owe for it
//! ([`Engine::link_respond`]). What it sends goes by [`Engine::link_send`], which is refused where there is no credit.
//! Each unsettled delivery is given back once, with the number that was given with it. Of such a link the program asks
//! for no flow, transfer, disposition or detach by the calls that know nothing of links.

use core::fmt;

use crate::engine::{error_of, perf};
use crate::ffi::*;
use crate::{Engine, Error, Event, NONE, Outcome, Performative, Record, Role, TransferHead};

/// For what a flow of a link is sent (sections 2.6.7 and 2.7.4).
#[derive(Clone, Copy, Debug, PartialEq, Eq)]
pub enum Wish {
    /// A receiver grants so much credit.
    Grant(u32),
    /// A receiver has its sender use the credit up.
    Drain,
    /// A receiver renews its credit, where its rule says so.
    Renew,
    /// Either side answers what the peer asked for; a sender has so many messages ready.
    Answer(u32),
}

impl Wish {
    fn numbers(self) -> (u32, u32) {
        match self {
            Wish::Grant(credit) => (0, credit),
            Wish::Drain => (1, 0),
            Wish::Renew => (2, 0),
            Wish::Answer(available) => (3, available),
        }
    }
}

/// A transfer that was accepted on a link.
#[derive(Clone, Copy, Debug, PartialEq, Eq)]
pub struct Told {
    /// The number of its delivery.
    pub number: u32,
    /// What was given with its delivery, where the transfer settles or aborts it, and it was unsettled before.
    pub given: Option<u64>,
}

/// Why a transfer is not sent on a link. Nothing changed.
#[derive(Clone, Copy, Debug, PartialEq, Eq)]
pub enum NotSent {
    /// No sending end of the session has the handle.
    NoSender,
    /// The link is not attached on both sides.
    NotAttached,
    /// The delivery would have more bytes than the receiver's max-message-size.
    TooLarge,
    /// No delivery is under way that could be aborted.
    NoneUnderWay,
    /// The credit is 0: no delivery may be begun (section 2.6.7).
    NoCredit,
    /// The delivery's number does not lie after each one that is unsettled, by less than 2^31 (section 2.8.10).
    NotNext,
    /// The session refuses it, by this number ([`Engine::refusal_text`]).
    Refused(u32),
    /// Memory was refused.
    NoMemory,
    /// The bytes end before those of the transfer do.
    Short,
    /// The connection is over.
    Over,
    /// What this version of the library does not answer.
    Unknown(i32),
}

impl fmt::Display for NotSent {
    fn fmt(&self, to: &mut fmt::Formatter<'_>) -> fmt::Result {
        match self {
            NotSent::NoSender => to.write_str("no sending link has the handle"),
            NotSent::NotAttached => to.write_str("the link is not attached on both sides"),
            NotSent::TooLarge => to.write_str("the receiver takes no delivery of that size"),
            NotSent::NoneUnderWay => to.write_str("no delivery is under way"),
            NotSent::NoCredit => to.write_str("the link has no credit"),
            NotSent::NotNext => to.write_str("the delivery's number is not the next one"),
            NotSent::Refused(number) => write!(to, "refused: {number}"),
            NotSent::NoMemory => to.write_str("memory was refused"),
            NotSent::Short => to.write_str("the bytes end before those of the transfer do"),
            NotSent::Over => to.write_str("the connection is over"),
            NotSent::Unknown(status) => write!(to, "unknown status {status}"),
        }
    }
}

impl core::error::Error for NotSent {}

/// A delivery that was unsettled, and is settled or left: the layout is that of the library.
#[derive(Clone, Copy, Debug, Default, PartialEq, Eq)]
#[repr(C)]
pub struct Unsettled {
    /// What was given with it.
    pub given: u64,
    /// Its number.
    pub number: u32,
    /// Its link, by this side's handle.
    pub link: u32,
}

/// Why a transfer was not sent, by the status, and by the number of the refusal.
fn not_sent(status: i32, refusal: u32) -> NotSent {
    use NotSent::*;
    match status {
        1 => one(&[NoSender, NotAttached, TooLarge, NoneUnderWay, NoCredit, NotNext], 111, refusal)
            .unwrap_or(Refused(refusal)),
        2 => NoMemory,
        9 => Short,
        12 => Over,
        status => Unknown(status),
    }
}

impl Engine {
    /// Whether something was done: false where the library answers that there is nothing to do.
    fn is_done(&mut self, status: i32) -> Result<bool, Error> {
        if status == 14 { Ok(false) } else { self.outcome(status).map(|()| true) }
    }

    /// Attaches a link (section 2.6.3): an Attach is to be sent, and the link has its end from then on. `attach` is
    /// that: its role says which end that is, and its handle is of no matter, since it gets the one that
    /// [`Engine::link`], or [`Engine::link_on`], has allotted to its name. A sender's initial-delivery-count is 0
    /// where it says none. A receiver renews its credit up to `high`, where fewer than `low` are left; with a `high` of
    /// 0 never by itself. Its max-message-size is held against what comes. Answers the handle.
    ///
    /// `BadArgument`: it is no Attach. `NoLink`: no handle is allotted to the name. `InUse`: its handle has an end,
    /// which [`Engine::link_remove`] takes away. `NoMemory`: nothing changed, ask again. `Refused`: the Attach was.
    pub fn link_attach<P: Performative + ?Sized>(
        &mut self,
        session: u32,
        attach: &P,
        low: u32,
        high: u32,
    ) -> Result<u32, Error> {
        self.link_attach_under(session, "", attach, low, high)
    }

    /// The same of a link whose handle was allotted to this name, and not to the Attach's own. A server needs it whose
    /// clients give one name to a sender and a receiver: it marks the names.
    pub fn link_attach_under<P: Performative + ?Sized>(
        &mut self,
        session: u32,
        name: &str,
        attach: &P,
        low: u32,
        high: u32,
    ) -> Result<u32, Error> {
        let (attach, mut link) = (perf(attach)?, NONE);
        let (at, length, place) = (attach.as_ptr(), attach.len(), &mut self.place);
        let status =
            unsafe { amqp1_link_attach(place, session, at, length, name.as_ptr(), name.len(), low, high, &mut link) };
        self.outcome(status).map(|()| link)
    }

    /// Tells the peer's Attach that came first, as the record of `ATTACH_WANTED`, to the link that answers it, which
    /// [`Engine::link_attach`] has attached under this handle. An event of `Nothing` where no end has the handle.
    /// `NoMemory`: tell it again.
    pub fn link_wanted(&mut self, record: &Record, link: u32) -> Result<Event, Error> {
        let mut event = Event::default();
        let status = unsafe { amqp1_link_wanted(&mut self.place, record, link, &mut event) };
        self.outcome(status).map(|()| event)
    }

    /// Tells a record of `take` to the links of its session. Every record is told once, in order. `given` is kept with
    /// a delivery that begins by it and is unsettled, and given back with it. `NoMemory`: nothing changed, tell it
    /// again. `NotNext`: the delivery's number does not lie after each one that is unsettled, by less than 2^31
    /// (section 2.8.10), and nothing changed.
    pub fn link_event(&mut self, record: &Record, given: u64) -> Result<Event, Error> {
        let mut event = Event::default();
        let status = unsafe { amqp1_link_event(&mut self.place, record, given, &mut event) };
        self.outcome(status).map(|()| event)
    }

    /// Sends what a link owes for an event: a flow, where credit is to be renewed or the peer asked for one; a Detach,
    /// in answer to the peer's, or for a fault. `available` is how many messages are ready to be sent on the link.
    /// False where it owes nothing. `HeldBack`: it owes it still, and [`Engine::link_due`] tells when it is to be
    /// called again. `NoMemory`: ask again. `Refused`: it was.
    pub fn link_respond(&mut self, event: &Event, available: u32) -> Result<bool, Error> {
        let status = unsafe { amqp1_link_respond(&mut self.place, event, available) };
        self.is_done(status)
    }

    /// A link of the session of which a call was answered `HeldBack`, once all that had been sent in the session by
    /// then has gone out: an event of `Due`, for [`Engine::link_respond`]. Called after each record until it answers
    /// `None`, it tells each such link once, in the order of the calls.
    pub fn link_due(&mut self, session: u32) -> Result<Option<Event>, Error> {
        let mut event = Event::default();
        let status = unsafe { amqp1_link_due(&mut self.place, session, &mut event) };
        self.is_done(status).map(|is_one| is_one.then_some(event))
    }

    /// Sends a flow of a link for this wish (sections 2.6.7 and 2.7.4). False where none is wanted: no end has the
    /// handle, it is not attached, it is a sender's and the wish a receiver's, no credit is to be renewed, or
    /// nothing is to be answered. `HeldBack`: transfers of a sender wait for the peer's window.
    /// `NoMemory`, `Refused`: the link stands as before.
    pub fn link_flow(&mut self, session: u32, link: u32, wish: Wish) -> Result<bool, Error> {
        let (wish, number) = wish.numbers();
        let status = unsafe { amqp1_link_flow(&mut self.place, session, link, wish, number) };
        self.is_done(status)
    }

    /// Sends a Detach of a link (section 2.6.5), which ends it for good where `closed` (section 2.6.6), with an error
    /// or with none. False where no end has the handle, or this side's was sent before. `BadArgument`: it is no
    /// error. `HeldBack`: transfers of the link wait for the peer's window, or the peer's Attach is still to come.
    /// `NoMemory`, `Refused`: the link stands as before.
    pub fn link_detach(
        &mut self,
        session: u32,
        link: u32,
        closed: bool,
        error: Option<&dyn Performative>,
    ) -> Result<bool, Error> {
        let error = error_of(error)?.unwrap_or_default();
        let status =
            unsafe { amqp1_link_detach(&mut self.place, session, link, closed as u32, error.as_ptr(), error.len()) };
        self.is_done(status)
    }

    /// Sends a transfer on the link of `head` (sections 2.6.7 and 2.6.14): it begins a delivery where none is under way
    /// on the link, and takes one of its credit, or goes on with that one. `NUMBERED` is the link's to say. Its tag
    /// and payload stand in `bytes`; [`Engine::cut`] cuts a longer payload. `given` is kept with an unsettled
    /// delivery from its first transfer on, and given back with it. Each [`NotSent`] says when; nothing changed then.
    pub fn link_send(&mut self, head: &TransferHead, bytes: &[u8], given: u64) -> Result<Told, NotSent> {
        let mut told = crate::ffi::Told::default();
        match unsafe { amqp1_link_send(&mut self.place, head, bytes.as_ptr(), bytes.len(), given, &mut told) } {
            0 => Ok(Told { number: told.number, given: (told.has_given == 1).then_some(told.given) }),
            status => Err(not_sent(status, told.refusal)),
        }
    }

    /// Sends a disposition of a session's deliveries from the first number to the last (sections 2.6.12 and 2.7.6). The
    /// role is this side's: `Receiver` means those that have come. The outcome is none, accepted, released or
    /// modified. Where it settles them, [`Engine::link_settled`] gives each one back. False where the session has
    /// no links. `BadArgument`: no such outcome. `NoMemory`: ask again. `Refused`: it was.
    pub fn link_settle(
        &mut self,
        session: u32,
        role: Role,
        first: u32,
        last: u32,
        settled: bool,
        outcome: Outcome,
    ) -> Result<bool, Error> {
        let status = unsafe {
            amqp1_link_settle(&mut self.place, session, role as u32, first, last, settled as u32, outcome as u8)
        };
        self.is_done(status)
    }

    /// The same by a Disposition, of any state: rejected with an error, modified with its fields (part 3, sections
    /// 3.4.2 and 3.4.5). `BadArgument`: it is none.
    pub fn link_dispose<P: Performative + ?Sized>(&mut self, session: u32, disposition: &P) -> Result<bool, Error> {
        let disposition = perf(disposition)?;
        let status = unsafe { amqp1_link_dispose(&mut self.place, session, disposition.as_ptr(), disposition.len()) };
        self.is_done(status)
    }

    /// Takes out the oldest unsettled delivery of a range, which is settled; called until it answers `None` it gives
    /// each one back once, in the order of their numbers. The role is this side's.
    pub fn link_settled(
        &mut self,
        session: u32,
        role: Role,
        first: u32,
        last: u32,
    ) -> Result<Option<Unsettled>, Error> {
        let mut delivery = Unsettled::default();
        let status = unsafe { amqp1_link_settled(&mut self.place, session, role as u32, first, last, &mut delivery) };
        self.is_done(status).map(|is_one| is_one.then_some(delivery))
    }

    /// Takes out the oldest delivery that is left unsettled on a link, once the peer has detached it; called until it
    /// answers `None` it tells each one once, so that a program can send it again (section 2.6.13).
    pub fn link_left(&mut self, session: u32, link: u32) -> Result<Option<Unsettled>, Error> {
        let mut delivery = Unsettled::default();
        let status = unsafe { amqp1_link_left(&mut self.place, session, link, &mut delivery) };
        self.is_done(status).map(|is_one| is_one.then_some(delivery))
    }

    /// The same of all links of a session that is over: of the deliveries that this side sent, or, as `Receiver`, of
    /// those that have come.
    pub fn link_left_of(&mut self, session: u32, role: Role) -> Result<Option<Unsettled>, Error> {
        let mut delivery = Unsettled::default();
        let status = unsafe { amqp1_link_left_of(&mut self.place, session, role as u32, &mut delivery) };
        self.is_done(status).map(|is_one| is_one.then_some(delivery))
    }

    /// A link's handle has no end any more: both sides have detached, and nothing is unsettled on it. `NoLink`: no end
    /// has the handle. `NotDetached`: the peer's Detach has not come, or this side's is still to be sent.
    /// `Unsettled`: [`Engine::link_left`] tells what is.
    pub fn link_remove(&mut self, session: u32, link: u32) -> Result<(), Error> {
        let status = unsafe { amqp1_link_remove(&mut self.place, session, link) };
        self.outcome(status)
    }

    /// Lets all links of a session go, with what is unsettled on them: for one that is over, behind
    /// [`Engine::link_left_of`]. False where it has none. The links of a session that is not let go so stay until
    /// the engine is dropped.
    pub fn link_forget(&mut self, session: u32) -> Result<bool, Error> {
        let status = unsafe { amqp1_link_forget(&mut self.place, session) };
        self.is_done(status)
    }

    /// The credit of a link: how many deliveries may be begun on it, by this side or by the peer. 0 where there is no
    /// such link.
    pub fn link_credit(&mut self, session: u32, link: u32) -> Result<u32, Error> {
        let mut credit = 0;
        let status = unsafe { amqp1_link_credit(&mut self.place, session, link, &mut credit) };
        self.outcome(status).map(|()| credit)
    }
}
