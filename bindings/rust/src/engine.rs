//! One side of a connection.

use alloc::borrow::ToOwned;
use alloc::string::String;
use alloc::vec;
use alloc::vec::Vec;

use crate::ffi::{Place, Went, amqp1_call, amqp1_cut, amqp1_free, amqp1_send, amqp1_version};
use crate::records::stop;
use crate::{
    Cut, Error, Opening, Outcome, Performative, ReceiverSettleMode, Record, Refusal, Role, Sent, Stop, TransferHead,
};

/// What an engine is asked to do, by its number.
#[rustfmt::skip]
#[derive(Clone, Copy)]
#[repr(u32)]
pub(crate) enum Operation {
    Open = 2, Close, Begin, End, Release, Forget, Link, LinkOn, Attach, Detach, Flow, Transfer, Disposition, Settle,
    Output = 16, Refusal = 18, RemoteOpen, MaxPieceLen, PayloadRoom,
    SessionOf = 23, State, SessionState,
    Unfit = 27, RefusalText, Dispose, Login, Challenge, Respond, IsOver,
    BeginAnswer, EndAnswer, LetGo,
}

/// One side of a connection. It owns its place, and frees it where it is dropped. It may go to another thread, and two
/// threads may not share it.
///
/// ```compile_fail
/// fn shared<T: Sync>() {}
/// shared::<amqp_engine::Engine>();
/// ```
pub struct Engine {
    pub(crate) place: Place,
}

// All that an engine holds lies after its place, and calls take it by `&mut`. The pointer in it keeps it from being
// `Sync`.
unsafe impl Send for Engine {}

/// The version of the library, as `major << 16 | minor << 8 | patch`.
pub fn version() -> u32 {
    unsafe { amqp1_version() }
}

/// The bytes of a performative or an error.
pub(crate) fn perf<P: Performative + ?Sized>(it: &P) -> Result<Vec<u8>, Error> {
    let mut bytes = Vec::new();
    it.write(&mut bytes)?;
    Ok(bytes)
}

/// The same of one that may be absent; one of no bytes is none.
pub(crate) fn error_of(error: Option<&dyn Performative>) -> Result<Option<Vec<u8>>, Error> {
    let Some(bytes) = error.map(perf).transpose()? else { return Ok(None) };
    if bytes.is_empty() { Err(Error::BadArgument) } else { Ok(Some(bytes)) }
}

impl Drop for Engine {
    fn drop(&mut self) {
        unsafe { amqp1_free(&mut self.place) }
    }
}

impl Engine {
    /// An engine with this side's Open. The key is of the engine's maps: the peer should not be able to guess it. One
    /// of zeros is `BadArgument`. It begins behind the protocol headers, which its caller exchanges; one that
    /// [`Engine::with_opening`] makes begins with the stream's first byte.
    pub fn new<P: Performative + ?Sized>(key: [u8; 16], open: &P) -> Result<Engine, Error> {
        Engine::with_opening(key, open, &Opening::Plain, 0, None)?.behind_headers()
    }

    /// The library's stream is given the peer's header, and its own is taken off.
    fn behind_headers(mut self) -> Result<Engine, Error> {
        let mut header = [0; 8];
        let (status, _) = self.call(Operation::Output, &[], &mut header);
        self.outcome(status)?;
        self.take(&header, &mut [Record::default()])?;
        Ok(self)
    }

    pub(crate) fn call(&mut self, operation: Operation, input: &[u8], output: &mut [u8]) -> (i32, usize) {
        let mut written = 0;
        let status = unsafe {
            amqp1_call(
                &mut self.place,
                operation as u32,
                input.as_ptr(),
                input.len(),
                output.as_mut_ptr(),
                output.len(),
                &mut written,
            )
        };
        (status, written)
    }

    /// What an operation writes, in as much room as it needs.
    fn output(&mut self, operation: Operation, input: &[u8]) -> Result<Vec<u8>, Error> {
        let mut output = vec![0; 256];
        loop {
            let (status, written) = self.call(operation, input, &mut output);
            if status != 3 {
                self.outcome(status)?;
                output.truncate(written);
                return Ok(output);
            }
            output.resize(written, 0);
        }
    }

    pub(crate) fn outcome(&mut self, status: i32) -> Result<(), Error> {
        match status {
            0 => Ok(()),
            1 | 17 | 18 => Err(Error::Refused(self.refusal())),
            status => Err(Error::of(status)),
        }
    }

    /// The last refusal; empty where nothing was refused.
    pub fn refusal(&mut self) -> Refusal {
        let said = self.output(Operation::Refusal, &[]).unwrap_or_default();
        let said = String::from_utf8_lossy(&said).into_owned();
        let mut lines = said.splitn(3, '\n').map(str::to_owned);
        let mut line = || lines.next().unwrap_or_default();
        Refusal { name: line(), condition: line(), description: line() }
    }

    pub(crate) fn ask(&mut self, operation: Operation, parts: &[&[u8]]) -> Result<(), Error> {
        let (status, _) = self.call(operation, &parts.concat(), &mut []);
        self.outcome(status)
    }

    /// A number in network order, where one is written.
    pub(crate) fn number(&mut self, operation: Operation, input: &[u8]) -> Result<Option<u64>, Error> {
        let said = self.output(operation, input)?;
        let number = said.iter().fold(0, |number, byte| number << 8 | u64::from(*byte));
        Ok((!said.is_empty()).then_some(number))
    }

    /// Takes whole frames out of these bytes, up to one that is to be answered first, runs each once, and writes a
    /// record of each. How many bytes were taken, how many records written, and why it stopped. Give what was not
    /// taken again, with what came since.
    pub fn take(&mut self, bytes: &[u8], records: &mut [Record]) -> Result<(usize, usize, Stop), Error> {
        self.take_at(0, bytes, records)
    }

    /// Sends transfers: of each the head, and its tag and payload in `bytes`. How many were taken, how many of the
    /// bytes they have, and why it stopped.
    pub fn transfers(
        &mut self,
        heads: &[TransferHead],
        bytes: &[u8],
        sent: &mut [Sent],
    ) -> Result<(usize, usize, Stop), Error> {
        let mut went = Went::default();
        let (given, places) = (heads.as_ptr(), sent.as_mut_ptr());
        let status = unsafe {
            amqp1_send(&mut self.place, given, heads.len(), bytes.as_ptr(), bytes.len(), places, sent.len(), &mut went)
        };
        Ok((went.taken, went.used, stop(status, 0)?))
    }

    /// Cuts the head of a transfer that is longer than a frame into that of the first frame and that of what is left.
    /// While `more` is 1 `rest` is cut again: so there is a head for each frame. `bytes` begin with the tag, and no
    /// others are read. Send a part only where the one before was accepted.
    pub fn cut(&mut self, head: &TransferHead, bytes: &[u8]) -> Result<Cut, Error> {
        let mut cut = Cut::default();
        let status = unsafe { amqp1_cut(&mut self.place, head, bytes.as_ptr(), bytes.len(), &mut cut) };
        self.outcome(status)?;
        Ok(cut)
    }

    /// The name of a refusal by its number, and the condition that answers a frame that was refused so; it may be
    /// empty.
    pub fn refusal_text(&mut self, number: u32) -> Result<(String, String), Error> {
        let said = self.output(Operation::RefusalText, &number.to_be_bytes())?;
        let said = String::from_utf8_lossy(&said).into_owned();
        let mut lines = said.split('\n').map(str::to_owned);
        let mut line = || lines.next().unwrap_or_default();
        Ok((line(), line()))
    }

    /// A disposition of deliveries by their numbers. The outcome is none, accepted, released or modified: any other one
    /// is `BadArgument`. The role is this side's.
    pub fn dispose(
        &mut self,
        session: u32,
        role: Role,
        first: u32,
        last: u32,
        settled: bool,
        outcome: Outcome,
    ) -> Result<(), Error> {
        let (first, last) = (first.to_be_bytes(), last.to_be_bytes());
        self.ask(
            Operation::Dispose,
            &[&session.to_be_bytes(), &[role as u8], &first, &last, &[settled as u8, outcome as u8]],
        )
    }

    /// Puts the bytes that wait to be sent after what `out` holds. They are to be sent whatever the outcome.
    pub fn send(&mut self, out: &mut Vec<u8>) -> Result<(), Error> {
        let mut room = [0; 4096];
        loop {
            let (status, written) = self.call(Operation::Output, &[], &mut room);
            out.extend_from_slice(&room[..written]);
            self.outcome(status)?;
            if written == 0 {
                return Ok(());
            }
        }
    }

    /// This side's Open is to be sent.
    pub fn open(&mut self) -> Result<(), Error> {
        self.ask(Operation::Open, &[])
    }

    /// This side's Close is to be sent, with an error ([`Condition`](crate::Condition)), or with none, as in `end` too.
    /// One of no bytes is `BadArgument`.
    pub fn close(&mut self, error: Option<&dyn Performative>) -> Result<(), Error> {
        let error = error_of(error)?;
        self.ask(Operation::Close, &[&[error.is_some() as u8], error.as_deref().unwrap_or_default()])
    }

    /// A session begins, under a number that none had, with what a Begin says (without remote-channel).
    pub fn begin<P: Performative + ?Sized>(&mut self, session: u32, begin: &P) -> Result<(), Error> {
        self.ask(Operation::Begin, &[&session.to_be_bytes(), &perf(begin)?])
    }

    /// The session ends, or the peer's End is answered. Of the error the same holds as in [`Engine::close`].
    pub fn end(&mut self, session: u32, error: Option<&dyn Performative>) -> Result<(), Error> {
        let error = error_of(error)?;
        self.ask(
            Operation::End,
            &[&session.to_be_bytes(), &[error.is_some() as u8], error.as_deref().unwrap_or_default()],
        )
    }

    /// The session's channel is given back, after the exchange of End.
    pub fn release(&mut self, session: u32) -> Result<(), Error> {
        self.ask(Operation::Release, &[&session.to_be_bytes()])
    }

    /// A session that is over is let go. Its number stays used.
    pub fn forget(&mut self, session: u32) -> Result<(), Error> {
        self.ask(Operation::Forget, &[&session.to_be_bytes()])
    }

    /// An output handle for a link of this name, whose attach by the peer is awaited. All later calls name the link by
    /// it.
    pub fn link(&mut self, session: u32, role: Role, mode: ReceiverSettleMode, name: &str) -> Result<u32, Error> {
        let input = [&session.to_be_bytes()[..], &[role as u8, mode as u8], name.as_bytes()].concat();
        Ok(self.number(Operation::Link, &input)?.unwrap_or_default() as u32)
    }

    /// The same for a link whose attach came on this input handle.
    pub fn link_on(
        &mut self,
        session: u32,
        input_handle: u32,
        role: Role,
        mode: ReceiverSettleMode,
        name: &str,
    ) -> Result<u32, Error> {
        let head = [session.to_be_bytes(), input_handle.to_be_bytes()].concat();
        let input = [&head[..], &[role as u8, mode as u8], name.as_bytes()].concat();
        Ok(self.number(Operation::LinkOn, &input)?.unwrap_or_default() as u32)
    }

    /// An Attach is to be sent, whose handle is the output handle of the link.
    pub fn attach<P: Performative + ?Sized>(&mut self, session: u32, attach: &P) -> Result<(), Error> {
        self.ask(Operation::Attach, &[&session.to_be_bytes(), &perf(attach)?])
    }

    /// A Detach is to be sent. `awaited` where the peer is to answer it.
    pub fn detach<P: Performative + ?Sized>(&mut self, session: u32, awaited: bool, detach: &P) -> Result<(), Error> {
        self.ask(Operation::Detach, &[&session.to_be_bytes(), &[awaited as u8], &perf(detach)?])
    }

    /// A Flow with a handle is to be sent. What it says of the session is replaced by what is so.
    pub fn flow<P: Performative + ?Sized>(&mut self, session: u32, flow: &P) -> Result<(), Error> {
        self.ask(Operation::Flow, &[&session.to_be_bytes(), &perf(flow)?])
    }

    /// A transfer of the link that has the handle in PERF: the first of its delivery, or a later one. It is refused
    /// (`UnattachedHandle`) where the peer has not attached the link, or either side has detached it.
    pub fn transfer<P: Performative + ?Sized>(
        &mut self,
        session: u32,
        first: bool,
        transfer: &P,
        payload: &[u8],
    ) -> Result<(), Error> {
        let transfer = perf(transfer)?;
        let length = u32::try_from(transfer.len()).map_err(|_| Error::BadArgument)?.to_be_bytes();
        self.ask(Operation::Transfer, &[&session.to_be_bytes(), &[first as u8], &length, &transfer, payload])
    }

    /// A Disposition of the session's deliveries is to be sent.
    pub fn disposition<P: Performative + ?Sized>(&mut self, session: u32, disposition: &P) -> Result<(), Error> {
        self.ask(Operation::Disposition, &[&session.to_be_bytes(), &perf(disposition)?])
    }

    /// Open deliveries that this side settles by itself are let go; the role is this side's.
    pub fn settle(&mut self, session: u32, role: Role, first: u32, last: u32) -> Result<(), Error> {
        let (first, last) = (first.to_be_bytes(), last.to_be_bytes());
        self.ask(Operation::Settle, &[&session.to_be_bytes(), &[role as u8], &first, &last])
    }

    /// PERF of the peer's Open; empty where none came.
    pub fn remote_open(&mut self) -> Result<Vec<u8>, Error> {
        self.output(Operation::RemoteOpen, &[])
    }

    /// How long a frame goes out at most, without its size.
    pub fn max_piece_len(&mut self) -> Result<u32, Error> {
        Ok(self.number(Operation::MaxPieceLen, &[])?.unwrap_or_default() as u32)
    }

    /// How long a payload goes out in one frame beside this Transfer, where it fits itself.
    pub fn payload_room<P: Performative + ?Sized>(&mut self, transfer: &P) -> Result<Option<u32>, Error> {
        Ok(self.number(Operation::PayloadRoom, &perf(transfer)?)?.map(|room| room as u32))
    }

    /// How many frames were longer than the peer takes, and were not sent.
    pub fn unfit(&mut self) -> Result<u32, Error> {
        Ok(self.number(Operation::Unfit, &[])?.unwrap_or_default() as u32)
    }

    /// The session to which a channel of the peer's leads.
    pub fn session_of(&mut self, channel: u16) -> Result<Option<u32>, Error> {
        Ok(self.number(Operation::SessionOf, &channel.to_be_bytes())?.map(|session| session as u32))
    }

    /// The state of the connection (AMQP 1.0 part 2, section 2.4.6), by its place: 9 is Opened, 13 End.
    pub fn state(&mut self) -> Result<u8, Error> {
        Ok(self.number(Operation::State, &[])?.unwrap_or_default() as u8)
    }

    /// The state of a session (section 2.5.5), by its place: 3 is Mapped.
    pub fn session_state(&mut self, session: u32) -> Result<Option<u8>, Error> {
        Ok(self.number(Operation::SessionState, &session.to_be_bytes())?.map(|state| state as u8))
    }
}
