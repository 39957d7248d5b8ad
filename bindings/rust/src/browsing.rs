//! The Attach of a receiver that browses (AMQP 1.0 part 3, sections 3.5.3 and 3.5.7).

use alloc::vec::Vec;

use crate::{Between, Error, Performative, Terminus};

/// An Attach of a receiver that browses: it gets copies, and what is at the address stays there, if the server knows
/// the distribution-mode `copy`.
///
/// ```
/// use amqp_engine::{Browser, Performative};
///
/// let mut bytes = Vec::new();
/// Browser { name: "l", address: "q" }.write(&mut bytes)?;
/// assert!(bytes.ends_with(b"\xa3\x04copy\0\x53\x29\xd0\0\0\0\x07\0\0\0\x01\xa1\x01l"));
/// # Ok::<(), amqp_engine::Error>(())
/// ```
#[derive(Clone, Copy, Debug)]
pub struct Browser<'a> {
    /// The link's name.
    pub name: &'a str,
    /// The address of its source.
    pub address: &'a str,
}

impl Performative for Browser<'_> {
    fn write(&self, out: &mut Vec<u8>) -> Result<(), Error> {
        let source = Terminus { distribution_mode: Some("copy"), ..Terminus::at(self.address) };
        Between::receiver(self.name, source).write(out)
    }
}
