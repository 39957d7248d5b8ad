//! Replies to requests at a queue of a server, and closes: `reply HOST:PORT QUEUE [COUNT [USER PASSWORD]]`. A reply
//! goes to the request's reply-to, with its message-id as the correlation-id. `request` asks.

use amqp_engine::{Failure, Message, Properties};

#[path = "common.rs"]
mod common;

fn main() -> Result<(), Failure> {
    let (mut connection, session, queue, count) = common::connected("reply")?;
    let receiver = connection.receiver(session, "requests", &queue, 10)?;
    let mut sender = None;
    for _ in 0..count {
        let delivery = connection.receive(&receiver)?;
        let request = Message::read(&delivery.payload).expect("a message of bytes");
        let to = request.properties.reply_to.expect("a reply-to");
        let link = match sender {
            Some(link) => link,
            None => *sender.insert(connection.sender(session, "replies", to)?),
        };
        let properties =
            Properties { to: Some(to), correlation_id: request.properties.message_id, ..Properties::default() };
        let body = [b"reply to ", request.body].concat();
        connection.send(&link, &Message { properties, body: &body })?;
        connection.accept(&delivery)?;
        assert!(connection.settled()?.is_accepted());
    }
    connection.close()?;
    println!("{count} replies, all accepted");
    Ok(())
}
