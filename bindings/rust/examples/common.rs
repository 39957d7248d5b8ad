//! What the examples share: a connection by the words of a program, `ADDRESS QUEUE [COUNT [USER PASSWORD]]`.

use amqp_engine::{Connection, Failure, Options};

/// The connection with a session, the queue, and how many messages.
pub fn connected(name: &str) -> Result<(Connection, u32, String, u32), Failure> {
    let words: Vec<String> = std::env::args().skip(1).collect();
    let [address, queue, ..] = &words[..] else {
        panic!("usage: {name} HOST:PORT QUEUE [COUNT [USER PASSWORD]]");
    };
    let count = words.get(2).map_or(5, |it| it.parse().expect("a number of messages"));
    let mut options = Options::new(name);
    options.open.hostname = address.split(':').next();
    if let [user, password] = &words[words.len().min(3)..] {
        options = options.plain(user, password);
    }
    let mut connection = Connection::connect(address, &options)?;
    let session = connection.begin()?;
    Ok((connection, session, queue.clone(), count))
}
