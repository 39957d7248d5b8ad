//! What stands in bytes: the fields of performatives and the sections of messages, by the library's readers. They copy
//! nothing.

use crate::Condition;
use crate::ffi::*;

/// These bytes, as the readers take them.
fn in_c(bytes: &[u8]) -> Bytes {
    Bytes { at: bytes.as_ptr(), length: bytes.len() }
}

/// What a reader found in these bytes: its places are within them.
///
/// # Safety
/// `found` points into `bytes`, or has no bytes.
unsafe fn within(bytes: &[u8], found: Bytes) -> &[u8] {
    if found.length == 0 { &bytes[..0] } else { unsafe { core::slice::from_raw_parts(found.at, found.length) } }
}

/// A place for what a reader finds.
fn none() -> Bytes {
    Bytes { at: core::ptr::null(), length: 0 }
}

/// Has a reader look at these bytes: what it found, if it did.
fn read(bytes: &[u8], reader: impl Fn(Bytes, *mut Bytes) -> i32) -> Option<&[u8]> {
    let mut found = none();
    // SAFETY: each reader points into the bytes that it is given
    (reader(in_c(bytes), &mut found) != 0).then(|| unsafe { within(bytes, found) })
}

/// The first data section of a message.
pub(crate) fn data_of(message: &[u8]) -> Option<&[u8]> {
    read(message, |it, found| unsafe { amqp1_read_data(it, found) })
}

/// The section of a message that has this descriptor.
pub(crate) fn section_of(mut message: &[u8], descriptor: u64) -> Option<Fields<'_>> {
    loop {
        let length = unsafe { amqp1_value_length(in_c(message)) };
        let (section, rest) = message.split_at_checked(length).filter(|it| !it.0.is_empty())?;
        if Fields(section).descriptor() == Some(descriptor) {
            return Some(Fields(section));
        }
        message = rest;
    }
}

/// A performative or another described list, which is borrowed, and its fields, by their places from 0 on (AMQP 1.0
/// part 2, section 2.7).
#[derive(Clone, Copy, Debug, Default, PartialEq, Eq)]
pub struct Fields<'a>(pub &'a [u8]);

impl<'a> Fields<'a> {
    /// Its bytes.
    pub fn bytes(&self) -> &'a [u8] {
        self.0
    }

    /// The number by which it is described.
    pub fn descriptor(&self) -> Option<u64> {
        let (mut number, mut value) = (0, none());
        (unsafe { amqp1_read_described(in_c(self.0), &mut number, &mut value) } != 0).then_some(number)
    }

    /// The field at a place, if it is there and not null.
    pub fn field(&self, place: u32) -> Option<Fields<'a>> {
        read(self.0, |it, found| unsafe { amqp1_field(it, place, found) }).map(Fields)
    }

    /// The same as a number.
    pub fn number(&self, place: u32) -> Option<u64> {
        let (field, mut number) = (self.field(place)?, 0);
        (unsafe { amqp1_read_number(in_c(field.0), &mut number) } != 0).then_some(number)
    }

    /// The same as a boolean; false where there is none.
    pub fn flag(&self, place: u32) -> bool {
        let mut is_true = 0;
        self.field(place).is_some_and(|it| unsafe { amqp1_read_boolean(in_c(it.0), &mut is_true) } != 0) && is_true != 0
    }

    /// What a string, a symbol or a binary holds.
    pub fn binary(&self, place: u32) -> Option<&'a [u8]> {
        read(self.field(place)?.0, |it, found| unsafe { amqp1_read_bytes(it, found) })
    }

    /// The same, where it is text in UTF-8.
    pub fn text(&self, place: u32) -> Option<&'a str> {
        core::str::from_utf8(self.binary(place)?).ok()
    }

    /// The same as an error.
    pub fn condition(&self, place: u32) -> Option<Condition<'a>> {
        let error = self.field(place)?;
        Some(Condition { condition: error.text(0)?, description: error.text(1) })
    }
}
