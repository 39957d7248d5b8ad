//! What came, as an enum: a record with its places in the bytes that were given.

use crate::ffi::one;
use crate::records::{flag, kind};
use crate::{Condition, Fields, NONE, Outcome, ReceiverSettleMode, Record, Role, SenderSettleMode};

/// What one header, SASL frame or frame says.
///
/// ```
/// use amqp_engine::{Came, Engine, Open, Record};
///
/// let mut engine = Engine::new([7; 16], &Open::new("me"))?;                // behind the headers
/// let came = b"\0\0\0\x12\x02\0\0\0\0\x53\x10\xc0\x05\x01\xa1\x02it";
/// let mut records = [Record::default()];
/// engine.take(came, &mut records)?;
/// let Came::Opened(open) = records[0].read(came) else { panic!() };
/// assert_eq!(open.text(0), Some("it"));
/// # Ok::<(), amqp_engine::Error>(())
/// ```
///
/// It borrows the bytes that [`Engine::take`](crate::Engine::take) was given for its record.
#[derive(Clone, Copy, Debug, PartialEq, Eq)]
#[non_exhaustive]
pub enum Came<'a> {
    /// The peer's header of SASL.
    SaslHeader,
    /// The peer's header of AMQP: the stream is open, and frames follow.
    AmqpHeader,
    /// A server's mechanisms have come, and this side's login of this number was chosen.
    MechanismChosen { login: u32 },
    /// A client asks to be let in: [`Engine::login`](crate::Engine::login) or
    /// [`Engine::challenge`](crate::Engine::challenge) answers.
    LoginAsked { mechanism: &'a [u8], response: Option<&'a [u8]>, host: Option<&'a [u8]> },
    /// A server's challenge: [`Engine::respond`](crate::Engine::respond) answers.
    Challenged(&'a [u8]),
    /// A client's response to a challenge.
    Responded(&'a [u8]),
    /// A server lets this side in, with additional data or without.
    LoggedIn(Option<&'a [u8]>),
    /// The stream is not opened, and is over, for this reason ([`Engine::refusal_text`](crate::Engine::refusal_text)).
    NotOpened { refusal: u32, said: &'a [u8] },
    /// The peer's Open.
    Opened(Fields<'a>),
    /// The Begin that answers this side's.
    Begun { session: u32, begin: Fields<'a> },
    /// The peer begins a session: [`Engine::answer`](crate::Engine::answer) answers.
    BeginWanted { channel: u16, begin: Fields<'a> },
    /// The peer's Attach of a link that this side has, by this side's handle.
    Attached { session: u32, link: u32, terms: Terms<'a> },
    /// An Attach whose name no link of this side waits for: [`Engine::link_on`](crate::Engine::link_on) takes the
    /// handle.
    AttachWanted { session: u32, input_handle: u32, terms: Terms<'a> },
    /// A Flow.
    Flow(FlowOf),
    /// A Transfer.
    Transfer(Delivered<'a>),
    /// A Disposition of the deliveries from `first` to `last`; `role` is the peer's end.
    Disposition { session: u32, role: Role, first: u32, last: u32, settled: bool, outcome: Outcome },
    /// A Detach of the link that has this handle of this side's; none where it answers this side's Detach.
    Detached { session: u32, link: Option<u32>, closed: bool, error: Option<Condition<'a>> },
    /// An End.
    Ended { session: u32, error: Option<Condition<'a>> },
    /// A Close.
    Closed { error: Option<Condition<'a>> },
    /// A frame that was refused, or bytes that are none, for this reason
    /// ([`Engine::refusal_text`](crate::Engine::refusal_text)).
    Refused { session: Option<u32>, refusal: u32, bytes: &'a [u8] },
    /// What a later version of the library tells: pass over it.
    Other(u8),
}

/// What an Attach says (section 2.7.3).
#[derive(Clone, Copy, Debug, PartialEq, Eq)]
pub struct Terms<'a> {
    /// The link's name.
    pub name: &'a str,
    /// The peer's end.
    pub role: Role,
    /// Whether there is a source, and its address.
    pub source: Option<Option<&'a str>>,
    /// Whether there is a target, and its address.
    pub target: Option<Option<&'a str>>,
    /// How the sender settles.
    pub snd_settle_mode: SenderSettleMode,
    /// How the receiver settles.
    pub rcv_settle_mode: ReceiverSettleMode,
    /// The largest message that the peer takes, if there is a limit.
    pub max_message_size: Option<u64>,
    /// A sender's first delivery count.
    pub initial_delivery_count: Option<u32>,
    /// All of its fields.
    pub fields: Fields<'a>,
}

/// What a Flow says (section 2.7.4).
#[derive(Clone, Copy, Debug, PartialEq, Eq)]
pub struct FlowOf {
    /// The session.
    pub session: u32,
    /// This side's handle of the link, if it is of one.
    pub link: Option<u32>,
    /// The credit.
    pub credit: Option<u32>,
    /// The delivery count.
    pub delivery_count: Option<u32>,
    /// How many messages the sender has ready.
    pub available: Option<u32>,
    /// The credit is to be used up.
    pub drain: bool,
    /// A flow is wanted in answer.
    pub echo: bool,
}

/// What a Transfer says (section 2.7.5).
#[derive(Clone, Copy, Debug, PartialEq, Eq)]
pub struct Delivered<'a> {
    /// The session.
    pub session: u32,
    /// This side's handle of the link.
    pub link: u32,
    /// The number of the delivery.
    pub number: u32,
    /// The tag, of a first transfer, where it has at most 32 bytes.
    pub tag: Option<&'a [u8]>,
    /// The format of the message, where it is said.
    pub format: Option<u32>,
    /// It is the first transfer of its delivery.
    pub first: bool,
    /// More transfers of the delivery follow.
    pub more: bool,
    /// It is settled.
    pub settled: bool,
    /// The delivery is aborted.
    pub aborted: bool,
    /// The payload.
    pub payload: &'a [u8],
}

impl Record {
    /// What it says, with its places in the bytes that `take` was given for it.
    pub fn read<'a>(&'a self, input: &'a [u8]) -> Came<'a> {
        let perf = Fields(self.performative(input));
        match self.kind {
            kind::SASL_HEADER..=kind::NOT_OPENED => self.read_opening(input),
            kind::OPENED => Came::Opened(perf),
            kind::BEGUN => Came::Begun { session: self.session, begin: perf },
            kind::BEGIN_WANTED => Came::BeginWanted { channel: self.channel, begin: perf },
            kind::ATTACHED => Came::Attached { session: self.session, link: self.output, terms: self.terms(perf) },
            kind::ATTACH_WANTED => {
                Came::AttachWanted { session: self.session, input_handle: self.input, terms: self.terms(perf) }
            }
            kind::FLOW => Came::Flow(self.flow()),
            kind::TRANSFER => Came::Transfer(self.transfer(input)),
            kind::DISPOSITION => {
                let (first, last, settled) = (self.first, self.last, self.has(flag::SETTLED));
                Came::Disposition {
                    session: self.session,
                    role: self.role(),
                    first,
                    last,
                    settled,
                    outcome: Outcome::of(self.outcome),
                }
            }
            kind::DETACHED => {
                let (link, closed) = (number(self.output), self.has(flag::FOR_GOOD));
                Came::Detached { session: self.session, link, closed, error: perf.condition(2) }
            }
            kind::ENDED => Came::Ended { session: self.session, error: perf.condition(0) },
            kind::CLOSED => Came::Closed { error: perf.condition(0) },
            kind::REFUSED => Came::Refused { session: number(self.session), refusal: self.refusal, bytes: perf.0 },
            other => Came::Other(other),
        }
    }

    /// The same of what comes before frames.
    fn read_opening<'a>(&'a self, input: &'a [u8]) -> Came<'a> {
        let said = self.payload(input);
        let there = self.has_payload().then_some(said);
        match self.kind {
            kind::SASL_HEADER => Came::SaslHeader,
            kind::AMQP_HEADER => Came::AmqpHeader,
            kind::MECHANISM_CHOSEN => Came::MechanismChosen { login: self.first },
            kind::LOGIN_ASKED => {
                Came::LoginAsked { mechanism: self.mechanism(input), response: there, host: self.host(input) }
            }
            kind::CHALLENGED => Came::Challenged(said),
            kind::RESPONDED => Came::Responded(said),
            kind::LOGGED_IN => Came::LoggedIn(there),
            _ => Came::NotOpened { refusal: self.refusal, said },
        }
    }

    fn role(&self) -> Role {
        if self.has(flag::RECEIVER) { Role::Receiver } else { Role::Sender }
    }

    fn terms<'a>(&self, fields: Fields<'a>) -> Terms<'a> {
        let limit = u64::from(self.last) << 32 | u64::from(self.first);
        Terms {
            name: fields.text(0).unwrap_or_default(),
            role: self.role(),
            source: (self.outcome & 1 != 0).then(|| fields.field(5).and_then(|it| it.text(0))),
            target: (self.outcome & 2 != 0).then(|| fields.field(6).and_then(|it| it.text(0))),
            snd_settle_mode: one(&[SenderSettleMode::Unsettled, SenderSettleMode::Settled], 0, self.credit)
                .unwrap_or(SenderSettleMode::Mixed),
            rcv_settle_mode: if self.available == 1 { ReceiverSettleMode::Second } else { ReceiverSettleMode::First },
            max_message_size: (limit != 0).then_some(limit),
            initial_delivery_count: self.has(flag::COUNTED).then_some(self.count),
            fields,
        }
    }

    fn flow(&self) -> FlowOf {
        FlowOf {
            session: self.session,
            link: number(self.output),
            credit: self.has(flag::CREDITED).then_some(self.credit),
            delivery_count: self.has(flag::COUNTED).then_some(self.count),
            available: self.has(flag::AVAILABLE).then_some(self.available),
            drain: self.has(flag::DRAIN),
            echo: self.has(flag::ECHO),
        }
    }

    fn transfer<'a>(&'a self, input: &'a [u8]) -> Delivered<'a> {
        Delivered {
            session: self.session,
            link: self.output,
            number: self.first,
            tag: self.tag().filter(|_| self.has(flag::TAGGED)),
            format: self.has(flag::FORMATTED).then_some(self.format),
            first: self.has(flag::NUMBERED),
            more: self.has(flag::MORE),
            settled: self.has(flag::SETTLED),
            aborted: self.has(flag::ABORTED),
            payload: self.payload(input),
        }
    }
}

/// A number, where it is one.
fn number(it: u32) -> Option<u32> {
    (it != NONE).then_some(it)
}
