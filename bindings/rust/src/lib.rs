//! AMQP 1.0 for Rust, over `libamqp1`, a library for C whose exports are proved: frames, the connection, SASL,
//! sessions, links with credit, and the time. This crate is the library's calls as safe ones, and has no AMQP of its
//! own but the content of messages. It is tested, and not proved.
//!
//! An [`Engine`] takes bytes and requests, and gives bytes and records of what came. It opens no socket and reads no
//! clock. [`Connection`], with the feature `std`, is one over a `TcpStream`, or any stream; for one thread, or several:
//!
//! ```no_run
//! use amqp_engine::{Connection, Message, Options};
//!
//! # fn main() -> Result<(), Box<dyn std::error::Error>> {
//! let mut connection = Connection::connect("localhost:5672", &Options::new("me").plain("guest", "guest"))?;
//! let session = connection.begin()?;
//! let sender = connection.sender(session, "out", "queue")?;
//! connection.send(&sender, &Message::data(b"hello"))?;
//! assert!(connection.settled()?.is_accepted());
//! connection.close()?;
//! # Ok(())
//! # }
//! ```
//!
//! By an engine alone, the same bytes are the program's:
//!
//! ```
//! use amqp_engine::{Engine, Open, Opening, Record};
//!
//! # fn main() -> Result<(), amqp_engine::Error> {
//! let key = [7; 16];                                         // of randomness
//! let mut engine = Engine::with_opening(key, &Open::new("me"), &Opening::Plain, 0, None)?;
//! engine.open()?;
//! let mut out = Vec::new();
//! engine.send(&mut out)?;                                    // the bytes that are to be sent
//! assert_eq!(out, b"AMQP\0\x01\0\0");
//! let mut records = [Record::default(); 16];
//! let (taken, written, _) = engine.take_at(5, b"AMQP\0\x01\0\0", &mut records)?;   // and those that came
//! assert_eq!((taken, written), (8, 1));
//! let refused = engine.end(0, None).unwrap_err();
//! assert_eq!(refused.to_string(), "refused: NoSession");
//! # Ok(())
//! # }
//! ```
//!
//! Without `std` it needs `alloc` alone. Editions 2021 and 2024, from rustc 1.82 on; for Linux on x86-64, as the
//! library.
#![no_std]

extern crate alloc;
#[cfg(feature = "std")]
extern crate std;

#[cfg(feature = "std")]
mod alone;
mod answering;
mod attaching;
mod browsing;
mod came;
#[cfg(feature = "std")]
mod connecting;
mod engine;
mod errors;
mod events;
#[cfg(feature = "std")]
mod exchange;
mod ffi;
mod links;
mod message;
mod opening;
mod performatives;
mod reading;
mod records;
#[cfg(feature = "std")]
mod serving;
#[cfg(feature = "std")]
mod shared;
#[cfg(feature = "std")]
mod transport;

#[cfg(feature = "std")]
pub use alone::{Alone, Stream, Timed};
pub use answering::answers;
pub use attaching::{Attach, Between, Durability, Terminus};
pub use browsing::Browser;
pub use came::{Came, Delivered, FlowOf, Terms};
#[cfg(feature = "std")]
pub use connecting::{Delivery, Failure, Link, Options, Receiver, Sender, Settled};
pub use engine::{Engine, version};
pub use errors::{Error, Refusal};
pub use events::{Event, EventKind, Fault, Life, LinkEnd, Part};
pub use links::{NotSent, Told, Unsettled, Wish};
pub use message::{Message, Properties};
pub use opening::{Due, Login, LoginCode, Opening, Tick};
pub use performatives::{Begin, Condition, Detach, Disposition, Flow, Open, Performative, Transfer};
pub use reading::Fields;
pub use records::{
    Cut, NONE, Outcome, ReceiverSettleMode, Record, Role, SenderSettleMode, Sent, Stop, TransferHead, flag, kind,
};
#[cfg(feature = "std")]
pub use serving::Next;
#[cfg(feature = "std")]
pub use shared::{Shared, Split};
#[cfg(feature = "std")]
pub use transport::Connection;
