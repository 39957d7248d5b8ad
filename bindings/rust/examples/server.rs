//! A broker in memory: `server PORT CLIENTS [USER PASSWORD]` serves so many clients, each in a thread of its own, and
//! each link on which it sends in one more (`queues.rs`); they wait for what comes, and poll nothing. What is sent to
//! an address waits there until it is sent on; what cannot be accepted is not kept. The status is 0 where each client
//! has closed.

use std::collections::{HashMap, HashSet};
use std::net::{TcpListener, TcpStream};
use std::sync::Arc;
use std::thread::spawn;

use amqp_engine::{Connection, Failure, Next, Options};

#[path = "queues.rs"]
mod queues;

fn serve(stream: TcpStream, options: &Options, all: &Arc<queues::Queues>) -> Result<(), Failure> {
    stream.set_nodelay(true).and_then(|()| stream.set_write_timeout(Some(options.patience)))?;
    let mut connection = Connection::serve(stream, options, 100)?.share()?;
    let (mut senders, mut addresses) = (HashSet::new(), HashMap::new());
    let done = loop {
        match connection.next() {
            Ok(Next::Sender { link, address }) => {
                let (to, all, _) = (connection.clone(), all.clone(), senders.insert(*link));
                spawn(move || all.hand_out(to, link, &address));
            }
            Ok(Next::Receiver { link, address }) => drop(addresses.insert(*link, address)),
            Ok(Next::Credit { link, .. }) if senders.contains(&link) => all.credit(link),
            Ok(Next::Ended(link)) if senders.remove(&link) => all.end(link),
            Ok(Next::Delivery(it)) => drop(connection.accept(&it).map(|()| all.put(&addresses[&it.link], it.payload))),
            Ok(Next::Closed) => break Ok(()),
            Ok(_) | Err(Failure::Silent) => {}
            Err(why) => break Err(why),
        }
    };
    senders.into_iter().for_each(|link| all.end(link));
    done
}

fn main() -> Result<(), Failure> {
    let words: Vec<&str> = std::env::args().skip(1).map(|it| &*it.leak()).collect();
    let (mut options, all) = (Options::new("server"), Arc::new(queues::Queues::default()));
    options.login = words.get(2).zip(words.get(3)).map(|(user, password)| (*user, *password));
    let (port, clients) = (words[0].parse::<u16>().expect("a port"), words[1].parse().expect("a number of clients"));
    let listener = TcpListener::bind(("127.0.0.1", port))?;
    let clients = listener.incoming().take(clients).map(|it| (it, all.clone()));
    let threads = clients.map(|(it, all)| spawn(move || serve(it?, &options, &all)));
    threads.collect::<Vec<_>>().into_iter().try_for_each(|it| it.join().expect("a thread that ends"))
}
