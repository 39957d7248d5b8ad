//! Attaches, and the termini of their links: sources and targets (AMQP 1.0 part 3, section 3.5).

use alloc::vec::Vec;

use crate::ffi::*;
use crate::performatives::{Text, written};
use crate::{Error, Performative, ReceiverSettleMode, Role, SenderSettleMode};

/// An Attach (section 2.7.3).
#[derive(Clone, Copy, Debug)]
pub struct Attach<'a> {
    /// The link's name.
    pub name: &'a str,
    /// This side's handle. [`Engine::link_attach`](crate::Engine::link_attach) takes no notice of it.
    pub handle: u32,
    /// This side's end of the link.
    pub role: Role,
    /// How the sender settles.
    pub snd_settle_mode: SenderSettleMode,
    /// How the receiver settles.
    pub rcv_settle_mode: ReceiverSettleMode,
    /// The address of the source, if it has one.
    pub source: Option<&'a str>,
    /// The address of the target, if it has one.
    pub target: Option<&'a str>,
    /// A sender's first delivery count.
    pub initial_delivery_count: u32,
}

impl<'a> Attach<'a> {
    /// Of a sender to this address.
    pub fn sender(name: &'a str, address: &'a str) -> Attach<'a> {
        Attach::of(name, Role::Sender, Some(name), Some(address))
    }

    /// Of a receiver from this address.
    pub fn receiver(name: &'a str, address: &'a str) -> Attach<'a> {
        Attach::of(name, Role::Receiver, Some(address), Some(name))
    }

    fn of(name: &'a str, role: Role, source: Option<&'a str>, target: Option<&'a str>) -> Attach<'a> {
        let (snd_settle_mode, rcv_settle_mode) = (SenderSettleMode::Mixed, ReceiverSettleMode::First);
        Attach { name, handle: 0, role, snd_settle_mode, rcv_settle_mode, source, target, initial_delivery_count: 0 }
    }
}

impl Performative for Attach<'_> {
    fn write(&self, out: &mut Vec<u8>) -> Result<(), Error> {
        let of = |address| Terminus { address, ..Terminus::default() };
        Between { attach: *self, source: of(self.source), target: of(self.target) }.write(out)
    }
}

/// What of a terminus outlasts the peer that keeps it, as one that is ended and started again (part 3, section 3.5.5).
#[derive(Clone, Copy, Debug, Default, PartialEq, Eq)]
pub enum Durability {
    /// Nothing.
    #[default]
    Nothing = 0,
    /// That it is there, and how it is set up.
    Configuration = 1,
    /// And what is unsettled on it.
    Unsettled = 2,
}

/// A source or a target (part 3, sections 3.5.3 and 3.5.4). Of what is none, false or 0 nothing is said.
#[derive(Clone, Copy, Debug, Default)]
pub struct Terminus<'a> {
    /// The address of its node.
    pub address: Option<&'a str>,
    /// What of it outlasts the peer. A broker may make a queue of the node that is as durable.
    pub durable: Durability,
    /// When it is to go: `link-detach`, `session-end`, which holds where nothing is said, `connection-close` or `never`
    /// (section 3.5.6).
    pub expiry_policy: Option<&'a str>,
    /// For how many seconds it is kept once it is to go.
    pub timeout: u32,
    /// The peer makes a node, and its Attach has the address; none is given here.
    pub is_dynamic: bool,
    /// Of a source: `move`; or `copy`, for which the node keeps its messages (section 3.5.7). A target has none.
    pub distribution_mode: Option<&'a str>,
    /// A capability of the node, as `queue` or `topic`.
    pub capability: Option<&'a str>,
}

impl<'a> Terminus<'a> {
    /// Of this address.
    pub fn at(address: &'a str) -> Terminus<'a> {
        Terminus { address: Some(address), ..Terminus::default() }
    }
}

/// The texts of a terminus as C has them.
struct Texts([Text; 4]);

impl Texts {
    fn of(it: &Terminus<'_>) -> Result<Texts, Error> {
        let texts = [it.address, it.expiry_policy, it.distribution_mode, it.capability].map(Text::of);
        let [address, expiry_policy, distribution_mode, capability] = texts;
        Ok(Texts([address?, expiry_policy?, distribution_mode?, capability?]))
    }

    /// The terminus as C has it. It points at these texts.
    fn ends(&self, it: &Terminus<'_>) -> Ends {
        let [address, expiry_policy, distribution_mode, capability] = self.0.each_ref().map(Text::at);
        let (durable, is_dynamic) = (it.durable as u32, it.is_dynamic.into());
        Ends { address, durable, timeout: it.timeout, expiry_policy, distribution_mode, capability, is_dynamic }
    }
}

/// An Attach between a source and a target that say more than an address. Those of the Attach itself are not written.
///
/// ```
/// use amqp_engine::{Attach, Between, Durability, Fields, Performative, Terminus};
///
/// let target = Terminus { durable: Durability::Unsettled, ..Terminus::at("queue") };
/// let mut bytes = Vec::new();
/// Between { attach: Attach::sender("out", "queue"), source: Terminus::at("out"), target }.write(&mut bytes)?;
/// assert_eq!(Fields(&bytes).field(6).unwrap().number(1), Some(2));
/// # Ok::<(), amqp_engine::Error>(())
/// ```
#[derive(Clone, Copy, Debug)]
pub struct Between<'a> {
    /// What the Attach says beside its termini.
    pub attach: Attach<'a>,
    /// Where messages come from.
    pub source: Terminus<'a>,
    /// Where they go.
    pub target: Terminus<'a>,
}

impl<'a> Between<'a> {
    /// Of a sender to this target.
    pub fn sender(name: &'a str, target: Terminus<'a>) -> Between<'a> {
        Between { attach: Attach::of(name, Role::Sender, None, None), source: Terminus::at(name), target }
    }

    /// Of a receiver from this source.
    pub fn receiver(name: &'a str, source: Terminus<'a>) -> Between<'a> {
        Between { attach: Attach::of(name, Role::Receiver, None, None), source, target: Terminus::at(name) }
    }
}

impl Performative for Between<'_> {
    fn write(&self, out: &mut Vec<u8>) -> Result<(), Error> {
        let (of, name) = (&self.attach, Text::of(self.attach.name)?);
        let (source, target) = (Texts::of(&self.source)?, Texts::of(&self.target)?);
        let (source, target) = (source.ends(&self.source), target.ends(&self.target));
        let (role, snd, rcv) = (of.role as u32, of.snd_settle_mode as u32, of.rcv_settle_mode as u32);
        let (handle, count) = (of.handle, of.initial_delivery_count);
        written(out, |at, room, length| unsafe {
            amqp1_write_attach_of(at, room, length, name.at(), handle, role, snd, rcv, &source, &target, count)
        })
    }
}
