//! Receives messages from a queue of a server, accepts each, and closes: `receive HOST:PORT QUEUE [COUNT [USER
//! PASSWORD]]`. It gives credit for a hundred, which the library renews, so more may come than are awaited: those are
//! not accepted.

use amqp_engine::{Failure, Message};

#[path = "common.rs"]
mod common;

fn main() -> Result<(), Failure> {
    let (mut connection, session, queue, count) = common::connected("receive")?;
    let receiver = connection.receiver(session, "from", &queue, 100)?;
    for _ in 0..count {
        let delivery = connection.receive(&receiver)?;
        let message = Message::read(&delivery.payload).expect("a message of bytes");
        println!("received {}", String::from_utf8_lossy(message.body));
        connection.accept(&delivery)?;
    }
    connection.detach(&receiver)?;
    connection.close()?;
    println!("received {count} messages, all accepted");
    Ok(())
}
