//! What records are to the links of their sessions (AMQP 1.0 part 2, sections 2.6 and 2.7).

use crate::Role;
use crate::ffi::one;

/// What a record is to the links of its session: the layout is that of the library. A field of which nothing is said is
/// 0.
#[derive(Clone, Copy, Debug, Default, PartialEq, Eq)]
#[repr(C)]
pub struct Event {
    given: u64,
    size: u64,
    /// The session.
    pub session: u32,
    pub(crate) kind: u32,
    /// The link, by this side's handle. [`NONE`](crate::NONE) where it is of none, as where deliveries are settled.
    pub link: u32,
    first: u32,
    last: u32,
    detail: u32,
    /// How many deliveries may be begun on the link, by this side or by the peer, after the event.
    pub credit: u32,
    pub(crate) flags: u32,
}

/// What an event is.
#[derive(Clone, Copy, Debug, PartialEq, Eq)]
pub enum EventKind {
    /// The record says nothing of links.
    Nothing,
    /// The peer's Attach has come: where the link stands.
    Attached(Life),
    /// A flow has come. Of what a receiver has granted, so many were used up without a delivery.
    Flow { used: u32 },
    /// A part of a delivery has come. Its payload stands where the record says.
    Part(Part),
    /// A transfer on a link that is not attached has come: it is passed over (section 2.6.6).
    PassedOver,
    /// The peer did what it may not do: this side ends the link for it, by
    /// [`Engine::link_respond`](crate::Engine::link_respond).
    Fault(Fault),
    /// The deliveries from `first` to `last` are settled: [`Engine::link_settled`](crate::Engine::link_settled) gives
    /// each of them back. `role` is this side's.
    /// `by_peer`: the peer has settled them; else this side has, in answer to a terminal outcome.
    Settled { role: Role, first: u32, last: u32, by_peer: bool },
    /// The peer's Detach has come. `for_good`: it closes the link (section 2.6.6).
    Ended { end: LinkEnd, for_good: bool },
    /// A call of the link was answered `HeldBack`, and may be made again:
    /// [`Engine::link_due`](crate::Engine::link_due) tells it.
    Due,
    /// An event of a later version: pass over it.
    Other(u32),
}

/// A part of a delivery that has come (section 2.6.14).
#[derive(Clone, Copy, Debug, Default, PartialEq, Eq)]
pub struct Part {
    /// The number of the delivery.
    pub number: u32,
    /// How many bytes the delivery has so far, this part's too.
    pub size: u64,
    /// It is the first one of its delivery.
    pub is_first: bool,
    /// It is the last one: the delivery is whole.
    pub is_last: bool,
    /// The delivery is aborted: its payload is discarded, also this part's (section 2.7.5).
    pub is_aborted: bool,
    /// The delivery is settled so far: a part of it says so, or it is aborted.
    pub is_presettled: bool,
    /// What was given with the delivery, which this part settles or aborts, where it was unsettled before.
    pub given: Option<u64>,
}

/// Where a link stands.
#[derive(Clone, Copy, Debug, PartialEq, Eq)]
pub enum Life {
    /// This side's Attach is sent, or is to be, and the peer's has not come.
    Attaching = 0,
    /// The peer's has come without the terminus of its own: it refuses the link, and its Detach follows (section
    /// 2.6.3).
    Refused = 1,
    /// Both have attached.
    Attached = 2,
    /// This side's Detach is sent, or is to be, and the peer's has not come.
    Detaching = 3,
    /// The peer's Detach has come.
    Detached = 4,
}

/// What a Detach of the peer's was.
#[derive(Clone, Copy, Debug, PartialEq, Eq)]
pub enum LinkEnd {
    /// The peer refuses the link, and says why.
    Refused = 0,
    /// The peer detaches.
    ByPeer = 1,
    /// It answers this side's Detach.
    Answered = 2,
    /// The link was detached before.
    Stray = 3,
}

/// What a peer did that it may not do. The condition of the Detach for it is in brackets (sections 2.8.15 and 2.8.18).
#[derive(Clone, Copy, Debug, PartialEq, Eq)]
pub enum Fault {
    /// It began a delivery where the credit was 0 (`amqp:link:transfer-limit-exceeded`).
    OverCredit = 1,
    /// Its flow says a count past all that was granted (`amqp:invalid-field`).
    CountPastLimit = 2,
    /// A part goes on with a delivery, and none is under way (`amqp:invalid-field`).
    NoneUnderWay = 3,
    /// A first part has no number (`amqp:invalid-field`).
    NoNumber = 4,
    /// A first part has no tag (`amqp:invalid-field`).
    NoTag = 5,
    /// A part of another delivery than the one under way (`amqp:invalid-field`).
    OtherDelivery = 6,
    /// A part with another format than the first one of its delivery (`amqp:invalid-field`).
    OtherFormat = 7,
    /// The delivery has more bytes than this side's max-message-size (`amqp:link:message-size-exceeded`).
    TooLarge = 8,
}

impl Event {
    /// What it is.
    pub fn kind(&self) -> EventKind {
        self.known().unwrap_or(EventKind::Other(self.kind))
    }

    fn known(&self) -> Option<EventKind> {
        use {Fault::*, Life as L, LinkEnd as E};
        Some(match self.kind {
            0 => EventKind::Nothing,
            1 => EventKind::Attached(one(
                &[L::Attaching, L::Refused, L::Attached, L::Detaching, L::Detached],
                0,
                self.detail,
            )?),
            2 => EventKind::Flow { used: self.detail },
            3 => EventKind::Part(self.part()),
            4 => EventKind::PassedOver,
            5 => {
                let all =
                    [OverCredit, CountPastLimit, NoneUnderWay, NoNumber, NoTag, OtherDelivery, OtherFormat, TooLarge];
                EventKind::Fault(one(&all, 1, self.detail)?)
            }
            6 => {
                let role = if self.says(64) { Role::Receiver } else { Role::Sender };
                EventKind::Settled { role, first: self.first, last: self.last, by_peer: self.says(128) }
            }
            7 => {
                let end = one(&[E::Refused, E::ByPeer, E::Answered, E::Stray], 0, self.detail)?;
                EventKind::Ended { end, for_good: self.says(32) }
            }
            8 => EventKind::Due,
            _ => return None,
        })
    }

    fn part(&self) -> Part {
        Part {
            number: self.first,
            size: self.size,
            is_first: self.says(1),
            is_last: self.says(2),
            is_aborted: self.says(4),
            is_presettled: self.says(8),
            given: self.says(16).then_some(self.given),
        }
    }

    fn says(&self, flag: u32) -> bool {
        self.flags & flag != 0
    }
}
