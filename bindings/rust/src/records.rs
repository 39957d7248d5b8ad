//! Records of received frames, and heads of transfers, as the library lays them out; and why a call took no more of
//! them.

use crate::Error;
use crate::ffi::one;

/// What one received frame says: the layout is that of the library. A field of which the frame says nothing is 0;
/// `session`, `output` and `input` are [`NONE`] then. `include/amqp1/records.h` says what each is.
#[derive(Clone, Copy, Debug, Default, PartialEq, Eq)]
#[repr(C)]
pub struct Record {
    /// One of [`kind`].
    pub kind: u8,
    /// The state of deliveries: 0 none, 1 accepted, 2 rejected, 3 released, 4 modified, 5 received, 6 another. Of an
    /// attach its termini: 0 none, 1 a source, 2 a target, 3 both.
    pub outcome: u8,
    /// Those of [`flag`].
    pub flags: u16,
    /// The session that the frame reached.
    pub session: u32,
    /// This side's handle of the link.
    pub output: u32,
    /// The peer's handle of the link: of all calls `link_on` alone takes it.
    pub input: u32,
    /// The number of the delivery; of a disposition the first one. Of an attach the low 32 bits of its
    /// max-message-size.
    pub first: u32,
    /// The number of the delivery; of a disposition the last one. Of an attach the high 32 bits of its
    /// max-message-size.
    pub last: u32,
    /// The format of the message.
    pub format: u32,
    /// The delivery count of a flow, the initial one of an attach.
    pub count: u32,
    /// The credit of a flow. Of an attach its snd-settle-mode: 0 unsettled, 1 settled, 2 mixed.
    pub credit: u32,
    /// How many messages the sender of a flow has ready. Of an attach its rcv-settle-mode: 0 first, 1 second.
    pub available: u32,
    /// Why the frame was refused, by its number ([`Engine::refusal_text`](crate::Engine::refusal_text)). 0 where it
    /// was not.
    pub refusal: u32,
    at: u32,
    size: u32,
    payload_at: u32,
    payload: u32,
    /// The channel of the frame.
    pub channel: u16,
    tag_size: u16,
    tag: [u8; 32],
}

impl Record {
    /// The bytes of the performative, in the input of the call that wrote this record.
    pub fn performative<'a>(&self, input: &'a [u8]) -> &'a [u8] {
        part(input, self.at, self.size)
    }

    /// The payload of a transfer, there too; before the stream is open, what is said in a frame of SASL.
    pub fn payload<'a>(&self, input: &'a [u8]) -> &'a [u8] {
        part(input, self.payload_at, self.payload)
    }

    /// The frame behind its size, there too; none of a record of the opening.
    pub(crate) fn frame<'a>(&self, input: &'a [u8]) -> Option<&'a [u8]> {
        let from = (self.at as usize).checked_sub(4)?;
        input.get(from..(self.at as usize).checked_add(self.size as usize)?)
    }

    /// Whether there is one: a response that is empty is told from none.
    pub fn has_payload(&self) -> bool {
        self.payload_at != NONE
    }

    /// The mechanism of a client that asks to be let in, or that chose one that was not offered; there too.
    pub fn mechanism<'a>(&self, input: &'a [u8]) -> &'a [u8] {
        part(input, self.first, self.last)
    }

    /// The host that a client asks for, which asks to be let in; there too.
    pub fn host<'a>(&self, input: &'a [u8]) -> Option<&'a [u8]> {
        (self.count != NONE).then(|| part(input, self.count, self.credit))
    }

    /// The tag of a transfer, where it has at most 32 bytes; a longer one stands in the performative.
    pub fn tag(&self) -> Option<&[u8]> {
        self.tag.get(..usize::from(self.tag_size))
    }

    /// Whether a flag is set.
    pub fn has(&self, flag: u16) -> bool {
        self.flags & flag != 0
    }
}

fn part(input: &[u8], at: u32, size: u32) -> &[u8] {
    let at = at as usize;
    at.checked_add(size as usize).and_then(|end| input.get(at..end)).unwrap_or_default()
}

/// No session, or no link.
pub const NONE: u32 = u32::MAX;

/// What a record is of.
pub mod kind {
    /// An Open.
    pub const OPENED: u8 = 1;
    /// The Begin that answers one of this side's.
    pub const BEGUN: u8 = 2;
    /// An Attach.
    pub const ATTACHED: u8 = 3;
    /// No link of this side waits for an attach of this name.
    pub const ATTACH_WANTED: u8 = 4;
    /// A Flow.
    pub const FLOW: u8 = 5;
    /// A Transfer.
    pub const TRANSFER: u8 = 6;
    /// A Disposition.
    pub const DISPOSITION: u8 = 7;
    /// A Detach.
    pub const DETACHED: u8 = 8;
    /// An End.
    pub const ENDED: u8 = 9;
    /// A Close.
    pub const CLOSED: u8 = 10;
    /// A frame that was refused, or bytes that are none: `refusal` says why.
    pub const REFUSED: u8 = 11;
    /// A Begin that answers none: it was refused, and `refusal` says why.
    pub const BEGIN_WANTED: u8 = 12;
    /// The peer's header of SASL.
    pub const SASL_HEADER: u8 = 13;
    /// The peer's header of AMQP: the stream is open, and frames follow.
    pub const AMQP_HEADER: u8 = 14;
    /// A server's mechanisms are the payload, and the login of the number `first` was chosen.
    pub const MECHANISM_CHOSEN: u8 = 15;
    /// A client asks to be let in: by `mechanism`, with its response as the payload, if it has one.
    pub const LOGIN_ASKED: u8 = 16;
    /// A server's challenge is the payload.
    pub const CHALLENGED: u8 = 17;
    /// A client's response is the payload.
    pub const RESPONDED: u8 = 18;
    /// A server lets this side in.
    pub const LOGGED_IN: u8 = 19;
    /// The stream is not opened, and is over: `refusal` says why.
    pub const NOT_OPENED: u8 = 20;
}

/// What a frame says besides, and what a transfer is to say.
pub mod flag {
    /// A transfer is the first of its delivery.
    pub const NUMBERED: u16 = 1;
    /// A transfer or a disposition is settled.
    pub const SETTLED: u16 = 2;
    /// More transfers of the delivery follow.
    pub const MORE: u16 = 4;
    /// The delivery is aborted.
    pub const ABORTED: u16 = 8;
    /// The role of the peer is that of the receiver.
    pub const RECEIVER: u16 = 16;
    /// A transfer or a disposition has a state: `outcome` says which.
    pub const STATED: u16 = 32;
    /// A flow asks that the credit be used up.
    pub const DRAIN: u16 = 64;
    /// A flow asks for a flow in answer.
    pub const ECHO: u16 = 128;
    /// A detach, an End or a Close names an error.
    pub const WITH_ERROR: u16 = 256;
    /// A detach closes the link for good.
    pub const FOR_GOOD: u16 = 512;
    /// A flow gives a credit, in `credit`.
    pub const CREDITED: u16 = 1024;
    /// A flow gives the delivery count, and an attach its initial one, in `count`.
    pub const COUNTED: u16 = 2048;
    /// The frame names a link: by the handle in `input`.
    pub const LINKED: u16 = 4096;
    /// A transfer gives the format of its message, in `format`.
    pub const FORMATTED: u16 = 8192;
    /// A transfer gives the tag of its delivery.
    pub const TAGGED: u16 = 16384;
    /// A flow says how many messages are ready, in `available`.
    pub const AVAILABLE: u16 = 32768;
}

/// The end of a link on which a side stands.
#[derive(Clone, Copy, Debug, PartialEq, Eq)]
pub enum Role {
    /// The end from which transfers go out.
    Sender = 0,
    /// The end to which they come.
    Receiver = 1,
}

impl Role {
    /// The other end.
    pub fn other(self) -> Role {
        if self == Role::Sender { Role::Receiver } else { Role::Sender }
    }
}

/// The state of deliveries (AMQP 1.0 part 3, section 3.4).
#[derive(Clone, Copy, Debug, Default, PartialEq, Eq)]
pub enum Outcome {
    /// None is said.
    #[default]
    NoState = 0,
    /// They are accepted.
    Accepted = 1,
    /// They are rejected.
    Rejected = 2,
    /// They are given back as they came.
    Released = 3,
    /// They are given back changed.
    Modified = 4,
    /// They have come in part.
    Received = 5,
    /// Any other one, or one that is described by a name.
    Other = 6,
}

impl Outcome {
    /// The one that a record tells.
    pub fn of(number: u8) -> Outcome {
        use Outcome::*;
        one(&[NoState, Accepted, Rejected, Released, Modified, Received], 0, number.into()).unwrap_or(Other)
    }
}

/// How the sending end of a link settles (section 2.8.2).
#[derive(Clone, Copy, Debug, PartialEq, Eq)]
pub enum SenderSettleMode {
    /// It sends all deliveries unsettled.
    Unsettled = 0,
    /// It sends all of them settled.
    Settled = 1,
    /// Each delivery says it.
    Mixed = 2,
}

/// How the receiving end of a link settles.
#[derive(Clone, Copy, Debug, PartialEq, Eq)]
pub enum ReceiverSettleMode {
    /// As deliveries come.
    First = 0,
    /// Once the sender has settled: such deliveries are recorded until they are.
    Second = 1,
}

/// The head of a transfer. Its tag and its payload stand in the bytes that go with it, one after the other.
#[derive(Clone, Copy, Debug, Default, PartialEq, Eq)]
#[repr(C)]
pub struct TransferHead {
    /// The session.
    pub session: u32,
    /// This side's handle of the link, as `link` or `link_on` gave it: `output` in records.
    pub link: u32,
    /// The format of the message, where `FORMATTED` is set.
    pub format: u32,
    /// How many bytes the payload has. Where they do not fit one frame, [`Engine::cut`](crate::Engine::cut) makes the
    /// heads of parts.
    pub payload: u32,
    /// `NUMBERED` for the first transfer of a delivery, `SETTLED`, `MORE`, `ABORTED`, `FORMATTED`, `TAGGED`.
    pub flags: u16,
    /// How many bytes the tag has.
    pub tag_size: u16,
}

/// What became of a transfer: the number of its delivery, of an accepted first one; or why it was refused.
#[derive(Clone, Copy, Debug, Default, PartialEq, Eq)]
#[repr(C)]
pub struct Sent {
    /// The number of the delivery, also while the session holds it back; 0 of a later transfer, and of a refused one.
    pub number: u32,
    /// Why it was refused, by its number ([`Engine::refusal_text`](crate::Engine::refusal_text)); 0 where it was
    /// accepted.
    pub refusal: u32,
}

/// A head that was cut. Where it was not cut, `part` and `rest` are both the whole head.
#[derive(Clone, Copy, Debug, Default, PartialEq, Eq)]
#[repr(C)]
pub struct Cut {
    /// The head of the first frame: its tag and its payload stand first in the bytes of the whole.
    pub part: TransferHead,
    /// The head of what is left: its payload stands behind. It may be longer than a frame again.
    pub rest: TransferHead,
    /// 1 where something is left; else 0.
    pub more: u32,
    /// Why it cannot be sent: 91 where no frame has room for the transfer, or for a byte of payload beside it, and 92
    /// where the tag has more than 32 bytes. Else 0.
    pub refusal: u32,
}

/// Why a call took no more.
#[derive(Clone, Copy, Debug, PartialEq, Eq)]
pub enum Stop {
    /// What is left is no whole frame, which has so many bytes, as far as that is known; or no transfer is left.
    Done { wanted: usize },
    /// There is no room for what is to be said of the next one.
    Full,
    /// A size stands there that no frame may have: a Close waits to be sent, for `amqp:connection:framing-error`, and
    /// the connection is over.
    BadSize,
    /// The bytes end before those of the next transfer do.
    Short,
    /// Memory was refused: what is left may be given again.
    NoMemory,
    /// What was told last is to be answered: then what is left is given again.
    Again,
    /// `login`, `challenge` or `respond` comes first.
    Waits,
    /// The connection is over: nothing is taken any more.
    Over,
    /// The SASL frame that is to be sent would have more than 512 bytes.
    TooLarge,
}

/// The reason of this status.
pub(crate) fn stop(status: i32, wanted: usize) -> Result<Stop, Error> {
    match status {
        0 => Ok(Stop::Done { wanted }),
        2 => Ok(Stop::NoMemory),
        7 => Ok(Stop::Full),
        8 => Ok(Stop::BadSize),
        9 => Ok(Stop::Short),
        10 => Ok(Stop::Again),
        11 => Ok(Stop::Waits),
        13 => Ok(Stop::TooLarge),
        12 => Ok(Stop::Over),
        status => Err(Error::Unknown(status)),
    }
}
