//! What a connection holds beside its socket: an engine, what came and was not yet asked for, and what is done with
//! each record. It waits for nothing: a call answers `None` where what it wants has not come.

use alloc::collections::VecDeque;
use alloc::format;
use alloc::string::{String, ToString};
use alloc::vec::Vec;
use core::mem::take;
use core::sync::atomic::{AtomicU32, Ordering};
use std::time::Instant;

use crate::serving::{Next, Serving};
use crate::{
    Came, Condition, Delivery, Engine, Error, Event, EventKind, Failure, Life, Link, NotSent, Outcome, Part, Record,
    Role, Settled, Stop, TransferHead, answers, flag,
};

/// How many connections there were, so that each has a number.
static CONNECTIONS: AtomicU32 = AtomicU32::new(0);

/// An engine, and what came and was not yet asked for.
pub struct Exchange {
    pub(crate) engine: Engine,
    number: u32,
    pub(crate) sessions: u32,
    pub(crate) whole: VecDeque<Delivery>,
    pub(crate) settled: VecDeque<Settled>,
    pub(crate) attached: Vec<(Link, Role)>,
    pub(crate) ended: Vec<(Link, String)>,
    pub(crate) over: Option<String>,
    pub(crate) serving: Option<Serving>,
    began: Instant,
    came: Vec<u8>,
    tags: u32,
    parts: Vec<Delivery>,
}

impl Exchange {
    pub(crate) fn new(engine: Engine, serving: Option<Serving>) -> Exchange {
        Exchange {
            engine,
            number: CONNECTIONS.fetch_add(1, Ordering::Relaxed),
            sessions: 0,
            whole: VecDeque::new(),
            settled: VecDeque::new(),
            attached: Vec::new(),
            ended: Vec::new(),
            over: None,
            serving,
            began: Instant::now(),
            came: Vec::new(),
            tags: 0,
            parts: Vec::new(),
        }
    }

    pub(crate) fn now(&self) -> u64 {
        self.began.elapsed().as_millis() as u64
    }

    /// The link that has this handle.
    pub(crate) fn link(&self, session: u32, handle: u32) -> Link {
        Link { session, handle, of: self.number }
    }

    /// Whether it is a link of this connection.
    pub(crate) fn has(&self, link: Link) -> Result<(), Error> {
        if link.of == self.number { Ok(()) } else { Err(Error::NoLink) }
    }

    /// What is so of a link; an error where the peer has ended it.
    pub(crate) fn on<T>(
        &mut self,
        link: Link,
        look: impl FnOnce(&mut Self) -> Result<Option<T>, Failure>,
    ) -> Result<Option<T>, Failure> {
        self.has(link)?;
        match self.ended.iter().find(|it| it.0 == link) {
            Some((_, why)) => Err(Failure::Peer(why.clone())),
            None => look(self),
        }
    }

    /// Sends a message in as many parts as it needs; the first one takes credit, without which none is sent.
    pub(crate) fn send(&mut self, link: Link, payload: &[u8]) -> Result<Option<u32>, Failure> {
        let bytes = [&self.tags.to_be_bytes(), payload].concat();
        let size = u32::try_from(payload.len()).map_err(|_| Error::BadArgument)?;
        let flags = flag::NUMBERED | flag::TAGGED | flag::FORMATTED;
        let mut head =
            TransferHead { session: link.session, link: link.handle, format: 0, payload: size, flags, tag_size: 4 };
        let mut at = 0;
        loop {
            let cut = self.engine.cut(&head, &bytes[at..])?;
            let number = match self.engine.link_send(&cut.part, &bytes[at..], 0) {
                Ok(told) => told.number,
                Err(NotSent::NoCredit) => return Ok(None),
                Err(why) => return Err(Failure::NotSent(why)),
            };
            at += usize::from(cut.part.tag_size) + cut.part.payload as usize;
            if cut.more == 0 {
                self.tags = self.tags.wrapping_add(1);
                return Ok(Some(number));
            }
            head = cut.rest;
        }
    }

    /// Takes what came with these bytes, a few records at a time.
    pub(crate) fn take_all(&mut self, bytes: &[u8]) -> Result<(), Failure> {
        self.came.extend_from_slice(bytes);
        let (mut came, mut at) = (take(&mut self.came), 0);
        loop {
            let mut records = [Record::default(); 16];
            let (taken, written, stop) = self.engine.take_at(self.now(), &came[at..], &mut records)?;
            for record in &records[..written] {
                self.on_record(record, &came[at..])?;
            }
            at += taken;
            if !matches!(stop, Stop::Again | Stop::Full | Stop::NoMemory) {
                break;
            }
        }
        came.drain(..at);
        self.came = came;
        Ok(())
    }

    fn on_record(&mut self, record: &Record, came: &[u8]) -> Result<(), Failure> {
        let event = self.engine.link_event(record, 0)?;
        self.on_event(record, &event, came)?;
        self.respond(&event)?;
        while let Some(due) = self.engine.link_due(record.session)? {
            self.respond(&due)?;
        }
        if let EventKind::Ended { .. } = event.kind() {
            self.let_go(self.link(event.session, event.link))?;
        }
        self.on_end(record, came)?;
        if self.serving.is_some() {
            return self.serve(record, came);
        }
        if !self.engine.is_over()? {
            self.engine.answer(record, came, answers::ENDS | answers::CLOSES | answers::REFUSALS, 0)?;
        }
        Ok(())
    }

    fn on_end(&mut self, record: &Record, came: &[u8]) -> Result<(), Failure> {
        match record.read(came) {
            Came::NotOpened { refusal, .. } | Came::Refused { refusal, .. } => {
                self.over = Some(format!("refused: {}", self.engine.refusal_text(refusal)?.0));
            }
            // what answers this side's End finds no session that the peer has ended; a server goes on without it
            Came::Ended { session, error }
                if self.serving.is_none() && self.engine.session_state(session)? == Some(5) =>
            {
                self.over = Some(why("ends a session", error))
            }
            Came::Closed { error } => self.over = Some(why("closes", error)),
            _ => {}
        }
        Ok(())
    }

    /// Sends what a link owes; what is held back is told again by `link_due`.
    pub(crate) fn respond(&mut self, event: &Event) -> Result<(), Failure> {
        match self.engine.link_respond(event, 0) {
            Ok(_) | Err(Error::HeldBack) => Ok(()),
            Err(error) => Err(error.into()),
        }
    }

    fn on_event(&mut self, record: &Record, event: &Event, came: &[u8]) -> Result<(), Failure> {
        let link = self.link(event.session, event.link);
        match event.kind() {
            EventKind::Attached(Life::Attached) => {
                let role = if record.has(flag::RECEIVER) { Role::Sender } else { Role::Receiver };
                self.attached.push((link, role));
            }
            EventKind::Flow { .. } => self.tell(Next::Credit { link, credit: event.credit }),
            EventKind::Part(part) => self.on_part(link, &part, record.payload(came)),
            EventKind::Fault(fault) => self.ended.push((link, format!("{fault:?}"))),
            EventKind::Ended { .. } => match record.read(came) {
                Came::Detached { error, .. } => self.ended.push((link, why("detaches", error))),
                _ => self.ended.push((link, why("detaches", None))),
            },
            EventKind::Settled { role, first, last, .. } => {
                while let Some(it) = self.engine.link_settled(event.session, role, first, last)? {
                    let link = self.link(event.session, it.link);
                    if role == Role::Sender {
                        self.on_settled(Settled { link, number: it.number, outcome: Outcome::of(record.outcome) });
                    }
                }
            }
            _ => {}
        }
        Ok(())
    }

    /// A server is told of what came in its order; a client asks for each by its own call.
    pub(crate) fn tell(&mut self, next: Next) {
        if let Some(serving) = &mut self.serving {
            serving.next.push_back(next);
        }
    }

    fn on_settled(&mut self, settled: Settled) {
        match self.serving {
            Some(_) => self.tell(Next::Settled(settled)),
            None => self.settled.push_back(settled),
        }
    }

    /// A link is over: what it sent and is unsettled is told, and its handle is free.
    fn let_go(&mut self, link: Link) -> Result<(), Failure> {
        let sends = self.attached.contains(&(link, Role::Sender));
        self.attached.retain(|it| it.0 != link);
        self.parts.retain(|it| it.link != link);
        while let Some(it) = self.engine.link_left(link.session, link.handle)? {
            if sends {
                self.on_settled(Settled { link, number: it.number, outcome: Outcome::NoState });
            }
        }
        self.tell(Next::Ended(link));
        Ok(self.engine.link_remove(link.session, link.handle)?)
    }

    /// A part goes to its delivery, which is handed on once it is whole.
    fn on_part(&mut self, link: Link, part: &Part, payload: &[u8]) {
        if part.is_first {
            self.parts.push(Delivery { link, number: part.number, payload: Vec::new(), is_settled: false });
        }
        let Some(at) = self.parts.iter().position(|it| (it.link, it.number) == (link, part.number)) else { return };
        self.parts[at].payload.extend_from_slice(payload);
        self.parts[at].is_settled = part.is_presettled;
        if !part.is_last {
            return;
        }
        let delivery = self.parts.swap_remove(at);
        match (part.is_aborted, &self.serving) {
            (true, _) => {}
            (false, Some(_)) => self.tell(Next::Delivery(delivery)),
            (false, None) => self.whole.push_back(delivery),
        }
    }
}

/// What the peer did, with its condition.
pub(crate) fn why(what: &str, error: Option<Condition>) -> String {
    error.map_or(what.to_string(), |it| {
        format!("{what}: {} {}", it.condition, it.description.unwrap_or_default()).trim_end().to_string()
    })
}
