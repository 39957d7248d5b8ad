//! The content of messages: a body of bytes, and the properties by which a request finds its reply (AMQP 1.0 part 3,
//! sections 3.2.4 and 3.2.6).

use alloc::vec;
use alloc::vec::Vec;

use crate::Error;
use crate::ffi::*;
use crate::reading::{data_of, section_of};

/// A message: its properties, and its body, which is one data section.
///
/// ```
/// use amqp_engine::{Message, Properties};
///
/// let properties = Properties { message_id: Some("1"), reply_to: Some("replies"), ..Properties::default() };
/// let bytes = Message { properties, body: b"hello" }.bytes()?;
/// let message = Message::read(&bytes).unwrap();
/// assert_eq!((message.body, message.properties.reply_to), (&b"hello"[..], Some("replies")));
/// # Ok::<(), amqp_engine::Error>(())
/// ```
#[derive(Clone, Copy, Debug, Default, PartialEq, Eq)]
pub struct Message<'a> {
    /// Its properties.
    pub properties: Properties<'a>,
    /// Its body.
    pub body: &'a [u8],
}

/// Of a message's properties those by which a request finds its reply. Of what is read an id that is no text is left
/// out.
#[derive(Clone, Copy, Debug, Default, PartialEq, Eq)]
pub struct Properties<'a> {
    /// Which message it is.
    pub message_id: Option<&'a str>,
    /// The address to which it goes.
    pub to: Option<&'a str>,
    /// What it is of.
    pub subject: Option<&'a str>,
    /// The address at which a reply is awaited.
    pub reply_to: Option<&'a str>,
    /// The message-id of the request to which this is the reply.
    pub correlation_id: Option<&'a str>,
}

impl<'a> Message<'a> {
    /// A message with this body.
    pub fn data(body: &'a [u8]) -> Message<'a> {
        Message { body, ..Message::default() }
    }

    /// Its bytes. `BadArgument` of more than four bytes of size can say.
    pub fn bytes(&self) -> Result<Vec<u8>, Error> {
        let texts =
            [self.properties.to, self.properties.subject, self.properties.reply_to, self.properties.correlation_id];
        let room = 64
            + self.body.len()
            + texts.iter().chain([&self.properties.message_id]).map(|it| it.map_or(0, str::len) + 8).sum::<usize>();
        let mut out = vec![0; room];
        let mut text = Text { at: out.as_mut_ptr(), room, length: 0, is_bad: 0 };
        // SAFETY: the text writes to the room that it has, which is that of `out`
        let (status, length) = unsafe {
            if self.properties != Properties::default() {
                put_properties(&mut text, self.properties.message_id, &texts);
            }
            amqp1_put(&mut text, b"\0\x53\x75".as_ptr().cast(), 3);
            put(&mut text, 0xa0, Some(self.body));
            let mut length = 0;
            (amqp1_written(&text, &mut length), length)
        };
        out.truncate(length);
        if status == 0 { Ok(out) } else { Err(Error::of(status)) }
    }

    /// Reads a message of one data section, and its properties. None of any other one.
    pub fn read(bytes: &'a [u8]) -> Option<Message<'a>> {
        let body = data_of(bytes)?;
        let says = section_of(bytes, 0x73).unwrap_or_default();
        let (message_id, correlation_id) = (says.text(0), says.text(5));
        let properties =
            Properties { message_id, to: says.text(2), subject: says.text(3), reply_to: says.text(4), correlation_id };
        Some(Message { properties, body })
    }
}

/// Puts a string (a1) or a binary (a0), or null.
unsafe fn put(text: &mut Text, code: u32, bytes: Option<&[u8]>) {
    unsafe {
        match bytes {
            Some(it) => amqp1_put_bytes(text, code, it.as_ptr().cast(), it.len()),
            None => amqp1_put_null(text),
        }
    }
}

unsafe fn put_properties(text: &mut Text, message_id: Option<&str>, texts: &[Option<&str>; 4]) {
    unsafe {
        let list = amqp1_begin_list(text, 0x73, 6);
        put(text, 0xa1, message_id.map(str::as_bytes));
        amqp1_put_null(text);
        for it in texts {
            put(text, 0xa1, it.map(str::as_bytes));
        }
        amqp1_end_list(text, list);
    }
}
