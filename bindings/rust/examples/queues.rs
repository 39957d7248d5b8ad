//! What waits at each address of the server in `server.rs`. A thread for each link hands it out, and waits for a
//! message and for credit.

use std::collections::{HashMap, HashSet, VecDeque};
use std::net::TcpStream;
use std::sync::{Condvar, Mutex};

use amqp_engine::{Connection, Failure, Link, Sender, Shared};

#[derive(Default)]
pub struct Queues(Mutex<Held>, Condvar);

#[derive(Default)]
struct Held {
    messages: HashMap<String, VecDeque<Vec<u8>>>,
    /// The links that may have credit, and those that are over.
    may_send: HashSet<Link>,
    over: HashSet<Link>,
}

impl Queues {
    fn change(&self, change: impl FnOnce(&mut Held)) {
        change(&mut self.0.lock().unwrap());
        self.1.notify_all();
    }

    /// A message waits at an address.
    pub fn put(&self, address: &str, message: Vec<u8>) {
        self.change(|it| it.messages.entry(address.to_string()).or_default().push_back(message));
    }

    /// The client gave a link credit.
    pub fn credit(&self, link: Link) {
        self.change(|it| it.may_send.extend([link]));
    }

    /// A link is over.
    pub fn end(&self, link: Link) {
        self.change(|it| it.over.extend([link]));
    }

    /// Sends what waits at an address on a link, until that is over. What is released then is gone.
    pub fn hand_out(&self, mut to: Connection<Shared<TcpStream>>, link: Sender, from: &str) -> Result<(), Failure> {
        while let Some(message) = self.next(*link, from) {
            let sent = to.try_send(&link, &message);
            self.change(|it| match sent {
                Ok(Some(_)) => it.may_send.extend([*link]),
                _ => it.messages.get_mut(from).unwrap().push_front(message),
            });
            sent?;
        }
        Ok(())
    }

    /// The next message for a link that may have credit; none once the link is over.
    fn next(&self, link: Link, from: &str) -> Option<Vec<u8>> {
        let has_some =
            |it: &Held| it.may_send.contains(&link) && it.messages.get(from).is_some_and(|it| !it.is_empty());
        let waits = |it: &mut Held| !it.over.contains(&link) && !has_some(it);
        let mut held = self.1.wait_while(self.0.lock().unwrap(), waits).unwrap();
        held.may_send.remove(&link);
        if held.over.remove(&link) { None } else { held.messages.get_mut(from)?.pop_front() }
    }
}
