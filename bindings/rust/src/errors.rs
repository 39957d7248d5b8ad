//! Why a call did not do what was asked.

use alloc::string::String;
use core::fmt;

/// Why a call did not do what was asked.
#[derive(Clone, Debug, PartialEq, Eq)]
pub enum Error {
    /// It was refused by name. The engine goes on.
    Refused(Refusal),
    /// Memory was refused. The request was not taken: ask again.
    NoMemory,
    /// The input is none of this operation's, as a performative that is another one.
    BadArgument,
    /// Memory was refused once the engine had begun a session in answer to the peer's: its number is used, and the peer
    /// has no answer.
    Lost,
    /// Memory was refused for the peer's Begin, once this side's was sent: the connection is to be closed.
    Broken,
    /// A link is not taken away: the peer's Detach has not come, or this side's is still to be sent.
    NotDetached,
    /// A link is not taken away: deliveries of it are unsettled.
    Unsettled,
    /// The number of a delivery that begins does not lie after each one that is unsettled, by less than 2^31 (AMQP 1.0
    /// part 2, section 2.8.10).
    NotNext,
    /// No handle is allotted to the name, or no link has the handle.
    NoLink,
    /// The handle has a link already.
    InUse,
    /// Transfers of the link wait for the peer's window, or a Detach for the peer's Attach.
    HeldBack,
    /// What this version of the library does not answer.
    Unknown(i32),
}

/// A refusal.
#[derive(Clone, Debug, Default, PartialEq, Eq)]
pub struct Refusal {
    /// Which it is.
    pub name: String,
    /// The error condition that the peer is told of it, or that it told; it may be empty.
    pub condition: String,
    /// What the peer said to people; it may be empty.
    pub description: String,
}

impl Error {
    /// The error of a status that has no refusal beside it.
    pub(crate) fn of(status: i32) -> Error {
        match status {
            2 => Error::NoMemory,
            4 => Error::BadArgument,
            15 => Error::Lost,
            16 => Error::Broken,
            19 => Error::NotDetached,
            20 => Error::Unsettled,
            21 => Error::NotNext,
            22 => Error::NoLink,
            23 => Error::InUse,
            24 => Error::HeldBack,
            status => Error::Unknown(status),
        }
    }
}

impl fmt::Display for Error {
    fn fmt(&self, to: &mut fmt::Formatter<'_>) -> fmt::Result {
        match self {
            Error::Refused(refusal) => write!(to, "refused: {}", refusal.name),
            Error::NoMemory => to.write_str("memory was refused"),
            Error::BadArgument => to.write_str("the input is none of this operation's"),
            Error::Lost => to.write_str("memory was refused, and a session's number is used"),
            Error::Broken => to.write_str("memory was refused, and the connection is to be closed"),
            Error::NotDetached => to.write_str("the link is not detached on both sides"),
            Error::Unsettled => to.write_str("deliveries of the link are unsettled"),
            Error::NotNext => to.write_str("the delivery's number is not the next one"),
            Error::NoLink => to.write_str("no link has the handle, or no handle the name"),
            Error::InUse => to.write_str("the handle has a link already"),
            Error::HeldBack => to.write_str("it waits for the peer's window, or its Attach"),
            Error::Unknown(status) => write!(to, "unknown status {status}"),
        }
    }
}

impl core::error::Error for Error {}
