//! Sends messages to a queue of a server as it gives credit, has each accepted, and closes: `send HOST:PORT QUEUE
//! [COUNT [USER PASSWORD]]`.

use amqp_engine::{Failure, Message};

#[path = "common.rs"]
mod common;

fn main() -> Result<(), Failure> {
    let (mut connection, session, queue, count) = common::connected("send")?;
    let sender = connection.sender(session, "to", &queue)?;
    for number in 0..count {
        connection.send(&sender, &Message::data(format!("message {number}").as_bytes()))?;
    }
    for _ in 0..count {
        assert!(connection.settled()?.is_accepted());
    }
    connection.detach(&sender)?;
    connection.close()?;
    println!("sent {count} messages, all accepted");
    Ok(())
}
