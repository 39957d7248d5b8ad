//! A server's side of a connection: who is let in, and the links that a client attaches.

use alloc::collections::VecDeque;
use alloc::format;
use alloc::string::{String, ToString};
use alloc::vec::Vec;
use core::time::Duration;
use std::time::Instant;

use crate::alone::{Alone, Stream, Way};
use crate::connecting::key;
use crate::exchange::Exchange;
use crate::{
    Attach, Came, Connection, Delivery, Engine, Failure, Link, LoginCode, Opening, Options, Receiver, Record, Role,
    Sender, Settled, Terms, answers, kind,
};

/// What came for a server next ([`Connection::next`]).
#[derive(Clone, Debug, PartialEq, Eq)]
pub enum Next {
    /// The client has attached a link by which it receives from this address, and it is answered.
    Sender { link: Sender, address: String },
    /// The client has attached a link by which it sends to this address, and it is answered.
    Receiver { link: Receiver, address: String },
    /// There is credit for so many messages on a link by which this side sends; on another one, what the client may
    /// still send.
    Credit { link: Link, credit: u32 },
    /// A delivery has come, whole.
    Delivery(Delivery),
    /// A message that this side sent is settled, or left unsettled by a link that goes.
    Settled(Settled),
    /// A link is over.
    Ended(Link),
    /// The client has closed, and is answered.
    Closed,
}

/// What a server has to say: who is let in, the credit of each link on which a client sends, and what came.
#[derive(Debug)]
pub(crate) struct Serving {
    pub(crate) next: VecDeque<Next>,
    plain: Option<Vec<u8>>,
    credit: u32,
}

impl Exchange {
    /// Answers what a client asks for by a record.
    pub(crate) fn serve(&mut self, record: &Record, came: &[u8]) -> Result<(), Failure> {
        match record.read(came) {
            Came::LoginAsked { mechanism, response, .. } => {
                let plain = self.serving.as_ref().and_then(|it| it.plain.as_deref());
                let is_in = if plain.is_some() { response == plain } else { mechanism == b"ANONYMOUS" };
                return Ok(self.engine.login(if is_in { LoginCode::Ok } else { LoginCode::Auth }, None)?);
            }
            Came::AttachWanted { session, input_handle, terms } => {
                self.answer_link(record, session, input_handle, &terms)?
            }
            Came::Ended { session, .. } => self.attached.retain(|it| it.0.session != session),
            Came::Closed { .. } => self.tell(Next::Closed),
            _ => {}
        }
        if !self.engine.is_over()? {
            let answered = self.engine.answer(record, came, answers::ALL, self.sessions)?;
            self.sessions += u32::from(answered && record.kind == kind::BEGIN_WANTED);
        }
        if record.kind == kind::ENDED {
            self.engine.link_forget(record.session)?;
        }
        Ok(())
    }

    /// Takes the other end of a link, by its name, its termini and its settle modes. The engine keeps it under the name
    /// with its role in front, since a client may give one name to a sender and a receiver.
    fn answer_link(&mut self, record: &Record, session: u32, input: u32, terms: &Terms) -> Result<(), Failure> {
        let role = terms.role.other();
        let name = format!("{} {}", role as u32, terms.name);
        let handle = self.engine.link_on(session, input, role, terms.rcv_settle_mode, &name)?;
        let attach = Attach {
            role,
            source: terms.source.flatten(),
            target: terms.target.flatten(),
            snd_settle_mode: terms.snd_settle_mode,
            rcv_settle_mode: terms.rcv_settle_mode,
            ..Attach::sender(terms.name, "")
        };
        let high = if role == Role::Receiver { self.serving.as_ref().map_or(0, |it| it.credit) } else { 0 };
        self.engine.link_attach_under(session, &name, &attach, high - high / 2, high)?;
        let event = self.engine.link_wanted(record, handle)?;
        let link = self.link(session, handle);
        let address = if role == Role::Receiver { attach.target } else { attach.source };
        let address = address.unwrap_or_default().to_string();
        self.attached.push((link, role));
        self.tell(match role {
            Role::Sender => Next::Sender { link: Sender(link), address },
            Role::Receiver => Next::Receiver { link: Receiver(link), address },
        });
        self.respond(&event)
    }
}

impl<S: Stream> Connection<Alone<S>> {
    /// Serves a client, which has connected by this stream: lets it in by the login of the options (PLAIN), or, without
    /// one, by ANONYMOUS, and waits for its Open. Its sessions and links are answered as they come; on each link by
    /// which it sends it has `credit`, which is renewed.
    pub fn serve(stream: S, options: &Options, credit: u32) -> Result<Connection<Alone<S>>, Failure> {
        let plain = options.login.map(|(user, password)| format!("\0{user}\0{password}").into_bytes());
        let opening = Opening::Server { mechanisms: &[if plain.is_some() { "PLAIN" } else { "ANONYMOUS" }] };
        let limit = u32::try_from(options.patience.as_millis()).ok();
        let engine = Engine::with_opening(key()?, &options.open, &opening, 0, limit)?;
        let serving = Serving { next: VecDeque::new(), plain, credit };
        Connection::opened(Alone::new(Exchange::new(engine, Some(serving)), stream, options.patience))
    }

    /// As [`Connection::next`], for so long: none where nothing came.
    pub fn next_in(&mut self, time: Duration) -> Result<Option<Next>, Failure> {
        let began = Instant::now();
        loop {
            let next = self.way.exchange.serving.as_mut().and_then(|it| it.next.pop_front());
            match (self.way.flush(), &next) {
                // behind its Close a client may be gone
                (_, Some(Next::Closed)) | (Ok(()), Some(_)) => return Ok(next),
                (done, _) => done?,
            }
            if let Some(what) = &self.way.exchange.over {
                return Err(Failure::Peer(what.clone()));
            }
            let Some(left) = time.checked_sub(began.elapsed()) else { return Ok(None) };
            self.way.read(left)?;
        }
    }
}

impl<W: Way> Connection<W> {
    /// Waits for what comes next for a server, no longer than the options say: [`Failure::Silent`]. An error after
    /// [`Next::Closed`]. Of several threads that have the connection, one is told of each.
    #[allow(clippy::should_implement_trait)]
    pub fn next(&mut self) -> Result<Next, Failure> {
        let next = self.until(|it| Ok(it.serving.as_mut().and_then(|it| it.next.pop_front())))?;
        match (self.way.flush(), &next) {
            // behind its Close a client may be gone
            (_, Next::Closed) | (Ok(()), _) => Ok(next),
            (Err(why), _) => Err(why),
        }
    }
}
