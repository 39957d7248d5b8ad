//! The answers to what a peer begins and ends (AMQP 1.0 part 2, sections 2.4.3, 2.5.1 and 2.5.3).

use crate::engine::{Operation, error_of, perf};
use crate::ffi::amqp1_answer;
use crate::{Engine, Error, Performative, Record};

/// The answers that [`Engine::answer`] may give.
pub mod answers {
    /// To a Begin by which the peer begins a session.
    pub const BEGINS: u16 = 1;
    /// To an End of the peer's; its session is let go.
    pub const ENDS: u16 = 2;
    /// To a Close of the peer's.
    pub const CLOSES: u16 = 4;
    /// To a frame that was refused: the End of its session, or a Close.
    pub const REFUSALS: u16 = 8;
    /// All of them.
    pub const ALL: u16 = 15;
}

impl Engine {
    /// Gives what a record asks for, of the answers that are named; `bytes` are those that `take` was given for it.
    /// False where it asks for none of them, or none is due. A session that begins has this `number`, which none
    /// had before. The errors are those of [`Engine::answer_begin`] and [`Engine::answer_end`], and `Refused` where
    /// what was asked is.
    pub fn answer(&mut self, record: &Record, bytes: &[u8], answers: u16, number: u32) -> Result<bool, Error> {
        match unsafe { amqp1_answer(&mut self.place, record, bytes.as_ptr(), bytes.len(), answers, number) } {
            14 => Ok(false),
            status => self.outcome(status).map(|()| true),
        }
    }

    /// Answers the Begin by which the peer begins a session, which a record of `BEGIN_WANTED` tells, by a session under
    /// a number that none had, with what a Begin says. `Refused` (`NotOpened`, `ChannelInUse`, `TooLarge`, or by
    /// the engine's name), `Lost` and `Broken` where memory was refused on the way.
    pub fn answer_begin<P: Performative + ?Sized>(
        &mut self,
        record: &Record,
        bytes: &[u8],
        session: u32,
        begin: &P,
    ) -> Result<(), Error> {
        let begin = perf(begin)?;
        let frame = record.frame(bytes).ok_or(Error::BadArgument)?;
        self.ask(Operation::BeginAnswer, &[&session.to_be_bytes(), &(begin.len() as u32).to_be_bytes(), &begin, frame])
    }

    /// Answers the End by which the peer ends a session, with an error or without, and lets the session go. `Refused`
    /// where the peer has not ended it, or this side has too (`NotEnded`), and as [`Engine::let_go`] does.
    pub fn answer_end(&mut self, session: u32, error: Option<&dyn Performative>) -> Result<(), Error> {
        let error = error_of(error)?;
        self.ask(
            Operation::EndAnswer,
            &[&session.to_be_bytes(), &[error.is_some() as u8], error.as_deref().unwrap_or_default()],
        )
    }

    /// Lets a session go that both sides have ended: `release` and `forget`. `Refused` of any other (`NotEnded`), which
    /// keeps its channel.
    pub fn let_go(&mut self, session: u32) -> Result<(), Error> {
        self.ask(Operation::LetGo, &[&session.to_be_bytes()])
    }
}
