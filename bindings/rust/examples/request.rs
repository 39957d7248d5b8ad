//! Sends requests to a queue of a server, has each replied to at QUEUE.replies, and closes: `request HOST:PORT QUEUE
//! [COUNT [USER PASSWORD]]`. `reply` replies: a request's message-id comes back as the reply's correlation-id.

use amqp_engine::{Failure, Message, Properties};

#[path = "common.rs"]
mod common;

fn main() -> Result<(), Failure> {
    let (mut connection, session, queue, count) = common::connected("request")?;
    let replies = format!("{queue}.replies");
    let receiver = connection.receiver(session, "replies", &replies, 10)?;
    let sender = connection.sender(session, "requests", &queue)?;
    for number in 0..count {
        let (id, body) = (number.to_string(), format!("request {number}"));
        let properties = Properties { message_id: Some(&id), reply_to: Some(&replies), ..Properties::default() };
        connection.send(&sender, &Message { properties, body: body.as_bytes() })?;
        let delivery = connection.receive(&receiver)?;
        let reply = Message::read(&delivery.payload).expect("a message of bytes");
        assert_eq!(reply.properties.correlation_id, Some(&id[..]));
        assert_eq!(reply.body, format!("reply to {body}").as_bytes());
        connection.accept(&delivery)?;
    }
    connection.close()?;
    println!("{count} requests, each replied to");
    Ok(())
}
