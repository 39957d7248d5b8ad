//! Tests of a connection that several threads have, and of a server by this crate: messages are compared, each once.

use std::collections::{BTreeMap, HashMap, VecDeque};
use std::io::Write;
use std::net::{TcpListener, TcpStream};
use std::os::unix::net::UnixStream;
use std::sync::mpsc::sync_channel;
use std::thread::{JoinHandle, spawn};
use std::time::{Duration, Instant};

use amqp_engine::*;

/// A queue for each address, and the links that receive from it.
#[derive(Default)]
struct Queue {
    messages: VecDeque<Vec<u8>>,
    receivers: Vec<Sender>,
}

/// Hands out what waits, as far as there is credit.
fn hand_out<S: Stream>(connection: &mut Connection<Alone<S>>, queue: &mut Queue) -> Result<(), Failure> {
    for link in &queue.receivers {
        while let Some(message) = queue.messages.front() {
            if connection.try_send(link, message)?.is_none() {
                break;
            }
            queue.messages.pop_front();
        }
    }
    Ok(())
}

/// A broker for one client, up to its Close: what became of what it sent.
fn broker<S: Stream>(stream: S, options: &Options) -> Result<Vec<Outcome>, Failure> {
    let mut connection = Connection::serve(stream, options, 50)?;
    let (mut queues, mut of) = (BTreeMap::<String, Queue>::new(), HashMap::new());
    let mut outcomes = Vec::new();
    loop {
        match connection.next()? {
            Next::Sender { link, address } => queues.entry(address).or_default().receivers.push(link),
            Next::Receiver { link, address } => {
                queues.entry(address.clone()).or_default();
                of.insert(*link, address);
            }
            Next::Delivery(delivery) => {
                let address = &of[&delivery.link];
                queues.get_mut(address).unwrap().messages.push_back(delivery.payload.clone());
                connection.accept(&delivery)?;
            }
            Next::Settled(settled) => outcomes.push(settled.outcome),
            Next::Ended(link) => queues.values_mut().for_each(|it| it.receivers.retain(|it| **it != link)),
            Next::Credit { .. } => {}
            Next::Closed => return Ok(outcomes),
        }
        for queue in queues.values_mut() {
            hand_out(&mut connection, queue)?;
        }
    }
}

fn listening(options: Options<'static>) -> (String, JoinHandle<Result<Vec<Outcome>, Failure>>) {
    let listener = TcpListener::bind("127.0.0.1:0").unwrap();
    let address = listener.local_addr().unwrap().to_string();
    (address, spawn(move || broker(listener.accept().unwrap().0, &options)))
}

/// Sends so many messages, each once the one before is settled.
fn send_all(mut connection: Connection<Shared<TcpStream>>, link: Sender, thread: u32, count: u32) {
    for number in 0..count {
        let body = format!("{thread} {number} {}", "x".repeat((number % 7 * 700) as usize));
        let sent = connection.send(&link, &Message::data(body.as_bytes())).unwrap();
        assert!(connection.settled_of(&link, sent).unwrap().is_accepted());
    }
}

#[test]
fn several_threads_send_and_receive() {
    let (address, served) =
        listening(Options { open: Open { max_frame_size: 1024, ..Open::new("it") }, ..Options::new("it") });
    let mut connection = Connection::connect(&address, &Options::new("me")).unwrap().share().unwrap();
    let session = connection.begin().unwrap();
    let (tell, told) = sync_channel(1);
    let mut threads = Vec::new();
    for thread in 0..4 {
        let to = connection.sender(session, &format!("to {thread}"), "q").unwrap();
        let it = connection.clone();
        threads.push(spawn(move || send_all(it, to, thread, 250)));
    }
    for thread in 0..2 {
        let from = connection.receiver(session, &format!("from {thread}"), "q", 10).unwrap();
        let (mut it, tell) = (connection.clone(), tell.clone());
        // it waits for the channel, which has room for one
        spawn(move || while it.receive(&from).is_ok_and(|it| tell.send(it).is_ok()) {});
    }
    let mut came = BTreeMap::<u32, Vec<u32>>::new();
    for _ in 0..1000 {
        let delivery = told.recv_timeout(Duration::from_secs(60)).unwrap();
        let message = Message::read(&delivery.payload).unwrap();
        let words: Vec<&str> = std::str::from_utf8(message.body).unwrap().split(' ').collect();
        let (thread, number): (u32, u32) = (words[0].parse().unwrap(), words[1].parse().unwrap());
        assert_eq!(words[2].len() as u32, number % 7 * 700);
        came.entry(thread).or_default().push(number);
        connection.accept(&delivery).unwrap();
    }
    threads.into_iter().for_each(|it| it.join().unwrap());
    for numbers in came.values_mut() {
        numbers.sort_unstable();
        assert!(numbers.iter().copied().eq(0..250));
    }
    connection.close().unwrap();
    let outcomes = served.join().unwrap().unwrap();
    assert_eq!((came.len(), outcomes), (4, vec![Outcome::Accepted; 1000]));
}

#[test]
fn a_server_lets_in_whom_it_knows() {
    for (login, is_in) in [(Some(("me", "secret")), true), (Some(("me", "another")), false), (None, false)] {
        let (address, served) = listening(Options::new("it").plain("me", "secret"));
        let options = Options { login, ..Options::new("me") };
        let connected = Connection::connect(&address, &options);
        assert_eq!(connected.is_ok(), is_in, "{login:?}");
        assert_eq!(connected.ok().map(|it| it.close().is_ok()), is_in.then_some(true));
        assert_eq!(served.join().unwrap().is_ok(), is_in);
    }
    let (address, served) = listening(Options::new("it"));
    let refused = Connection::connect(&address, &Options::new("me").external()).err().unwrap();
    assert_eq!(refused.to_string(), "the peer: refused: NoMechanism");
    assert!(served.join().unwrap().is_err());
}

/// One thread of a server waits for what comes next, and another one sends what it is handed: where a call waited for
/// its time alone, this would take seconds.
#[test]
fn a_server_has_several_threads() {
    let (near, far) = UnixStream::pair().unwrap();
    let served = spawn(move || {
        let mut it = Connection::serve(far, &Options::new("it"), 50).unwrap().share().unwrap();
        let ((tell, told), mut sends) = (sync_channel::<(Sender, Vec<u8>)>(9), it.clone());
        let sending = spawn(move || told.iter().all(|(link, message)| sends.send_bytes(&link, &message).is_ok()));
        let (mut link, mut kinds) = (None, BTreeMap::new());
        loop {
            let next = it.next().unwrap();
            *kinds.entry(format!("{next:?}").split([' ', '(']).next().unwrap().to_string()).or_insert(0) += 1;
            match next {
                Next::Sender { link: to, .. } => link = Some(to),
                Next::Delivery(delivery) => {
                    it.accept(&delivery).unwrap();
                    tell.send((link.unwrap(), delivery.payload)).unwrap();
                }
                Next::Closed => break,
                _ => {}
            }
        }
        drop(tell);
        (sending.join().unwrap(), kinds)
    });
    let mut connection = Connection::over(near, &Options::new("me")).unwrap();
    let session = connection.begin().unwrap();
    let from = connection.receiver(session, "from", "q", 1).unwrap();
    let to = connection.sender(session, "to", "q").unwrap();
    let began = Instant::now();
    for number in 0..200_u32 {
        connection.send_bytes(&to, &number.to_be_bytes()).unwrap();
        let delivery = connection.receive(&from).unwrap();
        assert_eq!(delivery.payload, number.to_be_bytes());
        connection.accept(&delivery).unwrap();
    }
    assert!(began.elapsed() < Duration::from_secs(4), "{:?}", began.elapsed());
    connection.close().unwrap();
    let (has_sent, kinds) = served.join().unwrap();
    assert_eq!((has_sent, kinds["Delivery"], kinds["Settled"], kinds["Closed"]), (true, 200, 200, 1));
}

/// Over a stream that is no socket of TCP; the client settles by each outcome.
#[test]
fn any_stream_will_do() {
    let (near, far) = UnixStream::pair().unwrap();
    let served = spawn(|| broker(far, &Options::new("it")));
    let stream = Timed::new(near, |it: &mut UnixStream, time| it.set_read_timeout(Some(time)));
    let mut connection = Connection::over(stream, &Options::new("me")).unwrap();
    let session = connection.begin().unwrap();
    let (to, from) =
        (connection.sender(session, "to", "q").unwrap(), connection.receiver(session, "from", "q", 2).unwrap());
    assert_ne!(*to, *from);
    let outcomes = [Outcome::Accepted, Outcome::Rejected, Outcome::Released, Outcome::Modified];
    for outcome in outcomes {
        let number = connection.send_bytes(&to, &vec![outcome as u8; 100_000]).unwrap();
        assert_eq!(connection.settled().unwrap(), Settled { link: *to, number, outcome: Outcome::Accepted });
        let delivery = connection.receive(&from).unwrap();
        assert_eq!(delivery.payload, vec![outcome as u8; 100_000]);
        connection.settle(&delivery, outcome).unwrap();
    }
    connection.detach(&from).unwrap();
    connection.close().unwrap();
    assert_eq!(served.join().unwrap().unwrap(), outcomes);
}

/// Who waits is told that the connection is over, whether the peer hangs up or another thread closes.
#[test]
fn who_waits_is_told_of_the_end() {
    for closes in [true, false] {
        let listener = TcpListener::bind("127.0.0.1:0").unwrap();
        let address = listener.local_addr().unwrap();
        let (hang, hung) = sync_channel::<()>(0);
        spawn(move || {
            let mut stream = listener.accept().unwrap().0;
            let end = stream.try_clone().unwrap();
            spawn(move || hung.recv().map(|()| end.shutdown(std::net::Shutdown::Both)));
            let _ = broker(stream.try_clone().unwrap(), &Options::new("it"));
            let _ = stream.flush();
        });
        let mut connection = Connection::connect(address, &Options::new("me")).unwrap().share().unwrap();
        let session = connection.begin().unwrap();
        let from = connection.receiver(session, "from", "q", 5).unwrap();
        let waiting: Vec<_> = (0..3)
            .map(|_| connection.clone())
            .map(|mut it| spawn(move || it.receive(&from).unwrap_err().to_string()))
            .collect();
        let began = Instant::now();
        if closes {
            connection.close().unwrap();
        } else {
            hang.send(()).unwrap();
        }
        for it in waiting {
            let why = it.join().unwrap();
            assert!(why.starts_with("the peer: "), "{why}");
        }
        assert!(began.elapsed() < Duration::from_secs(15));
    }
}

/// The thread that reads sends empty frames while nobody calls, and answers to the end of the last clone.
#[test]
fn empty_frames_go_out_by_themselves() {
    let (address, served) =
        listening(Options { open: Open { idle_time_out: 400, ..Open::new("it") }, ..Options::new("it") });
    let mut connection = Connection::connect(&address, &Options::new("me")).unwrap().share().unwrap();
    std::thread::sleep(Duration::from_millis(1500));
    let session = connection.begin().unwrap();
    assert_eq!(connection.sender(session, "to", "q").unwrap().handle, 0);
    drop(connection);
    assert!(matches!(served.join().unwrap(), Err(Failure::Io(_))));
}

/// A peer that does not read ends the call that writes, in time, and the others.
#[test]
fn a_peer_that_does_not_read_holds_nobody_for_ever() {
    let (near, far) = UnixStream::pair().unwrap();
    near.set_write_timeout(Some(Duration::from_millis(300))).unwrap();
    let (stop, stopped) = sync_channel::<()>(0);
    let served = spawn(move || {
        let mut it = Connection::serve(far, &Options::new("it"), 1000).unwrap();
        while !matches!(it.next().unwrap(), Next::Receiver { .. }) {}
        it.wait(Duration::from_millis(50)).unwrap();
        let _ = stopped.recv();
    });
    let mut connection = Connection::over(near, &Options::new("me")).unwrap().share().unwrap();
    let session = connection.begin().unwrap();
    let to = connection.sender(session, "to", "q").unwrap();
    let began = Instant::now();
    let threads: Vec<_> = (0..3)
        .map(|_| connection.clone())
        .map(|mut it| spawn(move || (0..).find_map(|_| it.send_bytes(&to, &[7; 10_000]).err()).unwrap()))
        .collect();
    for it in threads {
        assert!(matches!(it.join().unwrap(), Failure::Io(_) | Failure::Peer(_) | Failure::Engine(_)));
    }
    assert!(began.elapsed() < Duration::from_secs(20), "{:?}", began.elapsed());
    stop.send(()).unwrap();
    served.join().unwrap();
}

/// A link of another connection, a session that ended, and an Attach of the other role are refused.
#[test]
fn what_is_of_another_is_refused() {
    let (mut both, mut links) = (Vec::new(), Vec::new());
    for _ in 0..2 {
        let (address, _) = listening(Options::new("it"));
        let mut connection = Connection::connect(&address, &Options::new("me")).unwrap();
        let session = connection.begin().unwrap();
        let to = connection.sender(session, "to", "q").unwrap();
        links.push((to, connection.receiver(session, "from", "q", 0).unwrap()));
        both.push(connection);
    }
    let (mine, (to, from)) = (&mut both[0], links[1]);
    let no_link = |done: Result<(), Failure>| assert!(matches!(done, Err(Failure::Engine(Error::NoLink))), "{done:?}");
    no_link(mine.send_bytes(&to, b"it").map(drop));
    no_link(mine.try_send(&to, b"it").map(drop));
    no_link(mine.settled_of(&to, 0).map(drop));
    no_link(mine.receive(&from).map(drop));
    no_link(mine.grant(&from, 1));
    no_link(mine.drain(&from));
    no_link(mine.detach(&to));
    no_link(mine.accept(&Delivery { link: *from, number: 0, payload: Vec::new(), is_settled: false }));
    let done = mine.sender_by(0, &Attach::receiver("l", "q")).map(drop);
    assert!(matches!(done, Err(Failure::Engine(Error::BadArgument))), "{done:?}");
    let done = mine.receiver_by(0, &Attach::sender("l", "q"), 1).map(drop);
    assert!(matches!(done, Err(Failure::Engine(Error::BadArgument))), "{done:?}");
    let ended = mine.begin().unwrap();
    mine.engine().end(ended, None).unwrap();
    let done = mine.sender(ended, "late", "q").map(drop).unwrap_err();
    assert_eq!(done.to_string(), "refused: SessionStopped");
}
