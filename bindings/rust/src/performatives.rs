//! Performatives with their usual fields, and errors (AMQP 1.0 part 2, sections 2.7 and 2.8.14), as the library writes
//! them.

use alloc::ffi::CString;
use alloc::vec::Vec;
use core::ffi::c_char;
use core::ptr::null;

use crate::ffi::*;
use crate::{Error, Outcome, Role};

/// What is a performative or an error in bytes.
///
/// ```
/// use amqp_engine::{Begin, Fields, Performative};
///
/// let mut bytes = Vec::new();
/// Begin { incoming_window: 100, ..Begin::default() }.write(&mut bytes)?;
/// assert_eq!(Fields(&bytes).number(2), Some(100));
/// # Ok::<(), amqp_engine::Error>(())
/// ```
///
/// It is one of this module, or bytes that a program has: the descriptor and the list.
pub trait Performative {
    /// Puts its bytes behind what `out` holds. `BadArgument` where it has no form, as of a text with a 0 in it.
    fn write(&self, out: &mut Vec<u8>) -> Result<(), Error>;
}

impl Performative for [u8] {
    fn write(&self, out: &mut Vec<u8>) -> Result<(), Error> {
        out.extend_from_slice(self);
        Ok(())
    }
}

impl<const N: usize> Performative for [u8; N] {
    fn write(&self, out: &mut Vec<u8>) -> Result<(), Error> {
        self[..].write(out)
    }
}

impl Performative for Vec<u8> {
    fn write(&self, out: &mut Vec<u8>) -> Result<(), Error> {
        self[..].write(out)
    }
}

impl<P: Performative + ?Sized> Performative for &P {
    fn write(&self, out: &mut Vec<u8>) -> Result<(), Error> {
        (**self).write(out)
    }
}

/// Has a writer of the library write, in as much room as it needs.
pub(crate) fn written(out: &mut Vec<u8>, writer: impl Fn(*mut u8, usize, *mut usize) -> i32) -> Result<(), Error> {
    let (at, mut room) = (out.len(), 128);
    loop {
        let mut length = 0;
        out.resize(at + room, 0);
        let status = writer(out[at..].as_mut_ptr(), room, &mut length);
        match status {
            3 => room = length,
            0 => {
                out.truncate(at + length);
                return Ok(());
            }
            status => {
                out.truncate(at);
                return Err(Error::of(status));
            }
        }
    }
}

/// A text as C has it, or none.
pub(crate) struct Text(Option<CString>);

impl Text {
    pub(crate) fn of<'a>(text: impl Into<Option<&'a str>>) -> Result<Text, Error> {
        text.into().map(CString::new).transpose().map(Text).map_err(|_| Error::BadArgument)
    }

    pub(crate) fn at(&self) -> *const c_char {
        self.0.as_ref().map_or(null(), |it| it.as_ptr())
    }
}

/// An Open (section 2.7.1).
#[derive(Clone, Copy, Debug)]
pub struct Open<'a> {
    /// The name of this side's container.
    pub container_id: &'a str,
    /// The name of the peer's host, if it is said.
    pub hostname: Option<&'a str>,
    /// Frames of up to so many bytes are taken, sizes included; at least 512.
    pub max_frame_size: u32,
    /// Channels up to this one are taken.
    pub channel_max: u16,
    /// How many milliseconds may pass without a frame; 0 where any number may.
    pub idle_time_out: u32,
}

impl<'a> Open<'a> {
    /// Of this container: frames of up to 65536 bytes, 256 channels, and no time-out.
    pub fn new(container_id: &'a str) -> Open<'a> {
        Open { container_id, hostname: None, max_frame_size: 65536, channel_max: 255, idle_time_out: 0 }
    }
}

impl Performative for Open<'_> {
    fn write(&self, out: &mut Vec<u8>) -> Result<(), Error> {
        let (name, host) = (Text::of(self.container_id)?, Text::of(self.hostname)?);
        written(out, |at, room, length| unsafe {
            amqp1_write_open(
                at,
                room,
                length,
                name.at(),
                host.at(),
                self.max_frame_size,
                self.channel_max,
                self.idle_time_out,
            )
        })
    }
}

/// A Begin (section 2.7.2), without remote-channel.
#[derive(Clone, Copy, Debug)]
pub struct Begin {
    /// The number of the first transfer that goes out.
    pub next_outgoing_id: u32,
    /// How many transfers may come before the engine grants more.
    pub incoming_window: u32,
    /// How many this side sends before it waits.
    pub outgoing_window: u32,
    /// The highest handle that the peer may use.
    pub handle_max: u32,
}

impl Default for Begin {
    fn default() -> Begin {
        Begin { next_outgoing_id: 0, incoming_window: 5000, outgoing_window: 5000, handle_max: 255 }
    }
}

impl Performative for Begin {
    fn write(&self, out: &mut Vec<u8>) -> Result<(), Error> {
        written(out, |at, room, length| unsafe {
            amqp1_write_begin(
                at,
                room,
                length,
                self.next_outgoing_id,
                self.incoming_window,
                self.outgoing_window,
                self.handle_max,
            )
        })
    }
}

/// A Flow of a link (section 2.7.4). What it says of the session is the engine's.
#[derive(Clone, Copy, Debug, Default)]
pub struct Flow {
    /// This side's handle of the link.
    pub handle: u32,
    /// The delivery count; none where a receiver does not know it yet.
    pub delivery_count: Option<u32>,
    /// The credit.
    pub link_credit: u32,
    /// The sender is to use the credit up.
    pub drain: bool,
    /// A flow is wanted in answer.
    pub echo: bool,
}

impl Performative for Flow {
    fn write(&self, out: &mut Vec<u8>) -> Result<(), Error> {
        let count = self.delivery_count.as_ref().map_or(null(), |it| it as *const u32);
        written(out, |at, room, length| unsafe {
            amqp1_write_flow(
                at,
                room,
                length,
                self.handle,
                count,
                self.link_credit,
                self.drain.into(),
                self.echo.into(),
            )
        })
    }
}

/// A Transfer (section 2.7.5).
#[derive(Clone, Copy, Debug, Default)]
pub struct Transfer<'a> {
    /// This side's handle of the link.
    pub handle: u32,
    /// The tag of the delivery, of up to 32 bytes; none in a later transfer of it.
    pub tag: Option<&'a [u8]>,
    /// The format of the message.
    pub message_format: u32,
    /// The delivery is settled.
    pub settled: bool,
    /// More transfers of the delivery follow.
    pub more: bool,
}

impl Performative for Transfer<'_> {
    fn write(&self, out: &mut Vec<u8>) -> Result<(), Error> {
        let (tag, size) = self.tag.map_or((null(), 0), |it| (it.as_ptr().cast(), it.len()));
        let (settled, more) = (self.settled.into(), self.more.into());
        written(out, |at, room, length| unsafe {
            amqp1_write_transfer(at, room, length, self.handle, tag, size, self.message_format, settled, more)
        })
    }
}

/// A Disposition (section 2.7.6).
#[derive(Clone, Copy, Debug)]
pub struct Disposition {
    /// This side's end of the links.
    pub role: Role,
    /// The number of the first delivery.
    pub first: u32,
    /// The number of the last one.
    pub last: u32,
    /// They are settled.
    pub settled: bool,
    /// Their state, without fields: none, accepted, rejected, released or modified.
    pub outcome: Outcome,
}

impl Performative for Disposition {
    fn write(&self, out: &mut Vec<u8>) -> Result<(), Error> {
        let (role, settled, outcome) = (self.role as u32, self.settled.into(), self.outcome as u32);
        written(out, |at, room, length| unsafe {
            amqp1_write_disposition(at, room, length, role, self.first, self.last, settled, outcome)
        })
    }
}

/// A Detach (section 2.7.7).
#[derive(Clone, Copy, Debug, Default)]
pub struct Detach<'a> {
    /// This side's handle of the link.
    pub handle: u32,
    /// The link is closed for good.
    pub closed: bool,
    /// Why, if it is said.
    pub error: Option<Condition<'a>>,
}

impl Performative for Detach<'_> {
    fn write(&self, out: &mut Vec<u8>) -> Result<(), Error> {
        let condition = Text::of(self.error.map(|it| it.condition))?;
        let description = Text::of(self.error.and_then(|it| it.description))?;
        written(out, |at, room, length| unsafe {
            amqp1_write_detach(at, room, length, self.handle, self.closed.into(), condition.at(), description.at())
        })
    }
}

/// An error (section 2.8.14), of this side or the peer.
#[derive(Clone, Copy, Debug, Default, PartialEq, Eq)]
pub struct Condition<'a> {
    /// Its condition, as `amqp:internal-error`.
    pub condition: &'a str,
    /// What it says to people.
    pub description: Option<&'a str>,
}

impl<'a> Condition<'a> {
    /// Of this condition, without a description.
    pub fn new(condition: &'a str) -> Condition<'a> {
        Condition { condition, description: None }
    }
}

impl Performative for Condition<'_> {
    fn write(&self, out: &mut Vec<u8>) -> Result<(), Error> {
        let (condition, description) = (Text::of(self.condition)?, Text::of(self.description)?);
        written(out, |at, room, length| unsafe {
            amqp1_write_error(at, room, length, condition.at(), description.at())
        })
    }
}
