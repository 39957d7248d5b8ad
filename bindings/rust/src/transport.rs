//! A connection over a stream, by calls that wait. It has no AMQP of its own: the engine says what goes out, and when.

use alloc::format;
use core::time::Duration;
use std::net::{TcpStream, ToSocketAddrs};
use std::time::Instant;

use crate::alone::{Alone, Stream, Way};
use crate::connecting::{key, socket};
use crate::exchange::Exchange;
use crate::{
    Attach, Begin, Between, Browser, Delivery, Disposition, Engine, Error, Failure, Link, Login, Message, Opening,
    Options, Outcome, Performative, Receiver, Role, Sender, Settled, Terminus, Wish,
};

/// A connection: a stream, an engine, and what came and was not yet asked for. Each call writes what waits, and waits
/// no longer than the options say.
///
/// One thread has it, over any [`Stream`]; or several do, by [`Connection::share`]. With one thread, empty frames go
/// out while a call waits, and in no other time: a program that lets much time pass calls [`Connection::wait`].
#[derive(Clone)]
pub struct Connection<W = Alone<TcpStream>> {
    pub(crate) way: W,
}

impl Connection<Alone<TcpStream>> {
    /// Connects to a server, logs in, and waits for its Open.
    pub fn connect(address: impl ToSocketAddrs, options: &Options) -> Result<Self, Failure> {
        Connection::over(socket(address, options.patience)?, options)
    }
}

impl<S: Stream> Connection<Alone<S>> {
    /// The same over a stream that is connected to the server, as one of TLS.
    pub fn over(stream: S, options: &Options) -> Result<Connection<Alone<S>>, Failure> {
        let plain = options.login.map(|(user, password)| format!("\0{user}\0{password}"));
        let login = match &plain {
            Some(it) => Login { mechanism: "PLAIN", response: Some(it.as_bytes()) },
            None if options.is_external => Login::external(),
            None => Login::anonymous(),
        };
        let opening = Opening::Client { logins: &[login], host: options.open.hostname };
        let limit = u32::try_from(options.patience.as_millis()).ok();
        let engine = Engine::with_opening(key()?, &options.open, &opening, 0, limit)?;
        Connection::opened(Alone::new(Exchange::new(engine, None), stream, options.patience))
    }

    /// Opens, and waits for the peer's Open.
    pub(crate) fn opened(way: Alone<S>) -> Result<Connection<Alone<S>>, Failure> {
        let mut it = Connection { way };
        it.way.exchange.engine.open()?;
        it.until(|it| Ok((!it.engine.remote_open()?.is_empty()).then_some(())))?;
        it.way.flush()?;
        Ok(it)
    }

    /// The engine, for calls that this has not. What they ask for goes out with the next call that waits.
    pub fn engine(&mut self) -> &mut Engine {
        &mut self.way.exchange.engine
    }

    /// Takes what comes, and sends empty frames where they are due, for so long.
    pub fn wait(&mut self, time: Duration) -> Result<(), Failure> {
        self.way.wait(time)?.map_or(Ok(()), |what| Err(Failure::Peer(what)))
    }
}

impl<W: Way> Connection<W> {
    pub(crate) fn until<T>(
        &mut self,
        look: impl FnMut(&mut Exchange) -> Result<Option<T>, Failure>,
    ) -> Result<T, Failure> {
        self.way.until(look)
    }

    /// Begins a session, and waits for the peer's Begin: its number.
    pub fn begin(&mut self) -> Result<u32, Failure> {
        let session = self.way.with(|it| {
            it.engine.begin(it.sessions, &Begin::default())?;
            it.sessions += 1;
            Ok::<u32, Error>(it.sessions - 1)
        })?;
        self.until(|it| Ok((it.engine.session_state(session)? == Some(3)).then_some(session)))
    }

    /// Attaches a sender to an address, and waits for the peer's Attach.
    pub fn sender(&mut self, session: u32, name: &str, address: &str) -> Result<Sender, Failure> {
        self.sender_by(session, &Attach::sender(name, address))
    }

    /// The same by an Attach: `BadArgument` of a receiver's.
    pub fn sender_by(&mut self, session: u32, attach: &Attach) -> Result<Sender, Failure> {
        if attach.role != Role::Sender {
            return Err(Error::BadArgument.into());
        }
        self.attach_by(session, attach, attach, 0).map(Sender)
    }

    /// The same to a target, as to a durable one.
    pub fn sender_to(&mut self, session: u32, name: &str, target: &Terminus) -> Result<Sender, Failure> {
        let by = Between::sender(name, *target);
        self.attach_by(session, &by.attach, &by, 0).map(Sender)
    }

    /// Attaches a receiver from an address, which has credit for so many messages and renews it; with 0
    /// [`Connection::grant`] gives it.
    pub fn receiver(&mut self, session: u32, name: &str, address: &str, credit: u32) -> Result<Receiver, Failure> {
        self.receiver_by(session, &Attach::receiver(name, address), credit)
    }

    /// The same by an Attach: `BadArgument` of a sender's.
    pub fn receiver_by(&mut self, session: u32, attach: &Attach, credit: u32) -> Result<Receiver, Failure> {
        if attach.role != Role::Receiver {
            return Err(Error::BadArgument.into());
        }
        self.attach_by(session, attach, attach, credit).map(Receiver)
    }

    /// The same from a source, as from one whose node keeps its messages.
    pub fn receiver_from(
        &mut self,
        session: u32,
        name: &str,
        source: &Terminus,
        credit: u32,
    ) -> Result<Receiver, Failure> {
        let by = Between::receiver(name, *source);
        self.attach_by(session, &by.attach, &by, credit).map(Receiver)
    }

    /// Attaches a receiver that browses, with credit for so many messages, and waits for the peer's Attach.
    pub fn browser(&mut self, session: u32, name: &str, address: &str, credit: u32) -> Result<Receiver, Failure> {
        self.attach_by(session, &Attach::receiver(name, address), &Browser { name, address }, credit).map(Receiver)
    }

    /// Attaches a link, and waits for the peer's Attach: by one of which this knows name, role and modes.
    fn attach_by(
        &mut self,
        session: u32,
        of: &Attach,
        attach: &impl Performative,
        credit: u32,
    ) -> Result<Link, Failure> {
        let link = self.way.with(|it| {
            it.engine.link(session, of.role, of.rcv_settle_mode, of.name)?;
            let handle = it.engine.link_attach(session, attach, credit - credit / 2, credit)?;
            let link = it.link(session, handle);
            it.ended.retain(|it| it.0 != link);
            Ok::<Link, Error>(link)
        })?;
        self.until(|it| it.on(link, |it| Ok(it.attached.iter().any(|it| it.0 == link).then_some(link))))
    }

    /// Gives a receiver credit for so many messages, whatever it had.
    pub fn grant(&mut self, link: &Receiver, credit: u32) -> Result<(), Failure> {
        self.wish(link, Wish::Grant(credit))
    }

    /// Has a receiver's sender use its credit up.
    pub fn drain(&mut self, link: &Receiver) -> Result<(), Failure> {
        self.wish(link, Wish::Drain)
    }

    fn wish(&mut self, link: &Link, wish: Wish) -> Result<(), Failure> {
        self.way.with(|it| it.has(*link).and_then(|()| it.engine.link_flow(link.session, link.handle, wish)))?;
        self.way.flush()
    }

    /// Sends a message, once there is credit for it: its number.
    pub fn send(&mut self, link: &Sender, message: &Message) -> Result<u32, Failure> {
        self.send_bytes(link, &message.bytes()?)
    }

    /// The same of a message's bytes.
    pub fn send_bytes(&mut self, link: &Sender, payload: &[u8]) -> Result<u32, Failure> {
        let link = link.0;
        let number = self.until(|it| it.on(link, |it| it.send(link, payload)))?;
        self.way.flush().map(|()| number)
    }

    /// Sends a message's bytes where there is credit for it now: its number.
    pub fn try_send(&mut self, link: &Sender, payload: &[u8]) -> Result<Option<u32>, Failure> {
        let link = link.0;
        let number = self.way.with(|it| it.on(link, |it| it.send(link, payload)))?;
        self.way.flush().map(|()| number)
    }

    /// Waits for the next message that the peer settles, or that is left unsettled by a link that goes.
    pub fn settled(&mut self) -> Result<Settled, Failure> {
        self.until(|it| Ok(it.settled.pop_front()))
    }

    /// The same of one message, which was sent on this link under this number.
    pub fn settled_of(&mut self, link: &Sender, number: u32) -> Result<Settled, Failure> {
        let of = (link.0, number);
        self.until(|it| {
            it.has(of.0)?;
            let at = it.settled.iter().position(|it| (it.link, it.number) == of);
            Ok(at.and_then(|at| it.settled.remove(at)))
        })
    }

    /// Waits for the next whole delivery on a link.
    pub fn receive(&mut self, link: &Receiver) -> Result<Delivery, Failure> {
        let link = link.0;
        self.until(|it| match it.whole.iter().position(|it| it.link == link) {
            Some(at) => Ok(it.whole.remove(at)),
            None => it.on(link, |_| Ok(None)),
        })
    }

    /// Accepts a delivery, and settles it.
    pub fn accept(&mut self, delivery: &Delivery) -> Result<(), Failure> {
        self.settle(delivery, Outcome::Accepted)
    }

    /// Settles a delivery by another outcome: accepted, rejected, released or modified.
    pub fn settle(&mut self, delivery: &Delivery, outcome: Outcome) -> Result<(), Failure> {
        let (session, first) = (delivery.link.session, delivery.number);
        if delivery.is_settled {
            return self.way.flush();
        }
        let disposition = Disposition { role: Role::Receiver, first, last: first, settled: true, outcome };
        self.way.with(|it| {
            it.has(delivery.link)?;
            it.engine.link_dispose(session, &disposition)?;
            while it.engine.link_settled(session, Role::Receiver, first, first)?.is_some() {}
            Ok::<(), Error>(())
        })?;
        self.way.flush()
    }

    /// Detaches a link for good, and waits for the peer's Detach.
    pub fn detach(&mut self, link: &Link) -> Result<(), Failure> {
        let link = *link;
        self.way.with(|it| it.has(link))?;
        self.until(|it| match it.engine.link_detach(link.session, link.handle, true, None) {
            Err(Error::HeldBack) => Ok(None),
            done => Ok(Some(done?)),
        })?;
        self.until(|it| Ok(it.ended.iter().any(|it| it.0 == link).then_some(())))
    }

    /// Closes, and waits for the peer's Close.
    pub fn close(mut self) -> Result<(), Failure> {
        self.way.with(|it| it.engine.close(None))?;
        let began = Instant::now();
        while !self.way.with(|it| it.engine.is_over())? {
            self.way.step(began)?;
        }
        self.way.flush()
    }
}
