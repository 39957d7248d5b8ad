//! Shows messages that wait at a queue of a server, and leaves them there: `browse HOST:PORT QUEUE [COUNT [USER
//! PASSWORD]]`.

use amqp_engine::{Failure, Message, Outcome};

#[path = "common.rs"]
mod common;

fn main() -> Result<(), Failure> {
    let (mut connection, session, queue, count) = common::connected("browse")?;
    let browser = connection.browser(session, "browser", &queue, count)?;
    for _ in 0..count {
        let delivery = connection.receive(&browser)?;
        let message = Message::read(&delivery.payload).expect("a message of bytes");
        println!("{}", String::from_utf8_lossy(message.body));
        connection.settle(&delivery, Outcome::Released)?;
    }
    connection.detach(&browser)?;
    connection.close()
}
