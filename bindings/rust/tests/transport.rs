//! Tests of the transport: a client over a socket, and a server that is an engine of this crate in another thread.

use std::collections::VecDeque;
use std::io::{Read, Write};
use std::net::{TcpListener, TcpStream};
use std::thread::{JoinHandle, spawn};
use std::time::Duration;

use amqp_engine::*;

/// A server of one client: what it gets on any link it sends on the link that receives. It lets in by ANONYMOUS, or as
/// me with the password secret; a link to `nowhere` it detaches, on one to `silence` it answers nothing, and for one to
/// `closes` it closes. A byte of
/// what it sends may be another.
struct Server {
    engine: Engine,
    sender: Option<(u32, u32)>,
    part: Vec<u8>,
    queue: VecDeque<Vec<u8>>,
    outcomes: Vec<Outcome>,
    sessions: u32,
    flip: Option<(usize, u8)>,
}

impl Server {
    fn on(&mut self, record: &Record, came: &[u8]) {
        let event = self.engine.link_event(record, 0).unwrap();
        match record.read(came) {
            Came::LoginAsked { mechanism, response, .. } => {
                let is_in = mechanism == b"ANONYMOUS" || response == Some(b"\0me\0secret");
                self.engine.login(if is_in { LoginCode::Ok } else { LoginCode::Auth }, None).unwrap();
            }
            Came::AttachWanted { session, input_handle, terms } => self.attach(record, session, input_handle, terms),
            _ => {}
        }
        match event.kind() {
            EventKind::Part(part) => {
                self.part.extend_from_slice(record.payload(came));
                if part.is_last {
                    self.queue.push_back(std::mem::take(&mut self.part));
                    self.engine
                        .link_settle(event.session, Role::Receiver, part.number, part.number, true, Outcome::Accepted)
                        .unwrap();
                    self.engine.link_settled(event.session, Role::Receiver, part.number, part.number).unwrap();
                }
            }
            EventKind::Settled { role, first, last, .. } => {
                while self.engine.link_settled(event.session, role, first, last).unwrap().is_some() {
                    self.outcomes.push(Outcome::of(record.outcome));
                }
            }
            EventKind::Ended { .. } if self.sender == Some((event.session, event.link)) => self.sender = None,
            _ => {}
        }
        self.engine.link_respond(&event, 0).unwrap();
        if !self.engine.is_over().unwrap() {
            let answered = self.engine.answer(record, came, answers::ALL, self.sessions).unwrap();
            self.sessions += u32::from(answered && record.kind == kind::BEGIN_WANTED);
        }
        self.send();
    }

    fn attach(&mut self, record: &Record, session: u32, input_handle: u32, terms: Terms) {
        match terms.target {
            Some(Some("silence")) => return,
            Some(Some("closes")) => return self.engine.close(Some(&Condition::new("amqp:internal-error"))).unwrap(),
            _ => {}
        }
        let (role, first) = (terms.role.other(), ReceiverSettleMode::First);
        let link = self.engine.link_on(session, input_handle, role, first, terms.name).unwrap();
        let attach =
            if role == Role::Sender { Attach::sender(terms.name, "q") } else { Attach::receiver(terms.name, "q") };
        self.engine.link_attach(session, &attach, 1, 2).unwrap();
        let event = self.engine.link_wanted(record, link).unwrap();
        if terms.target == Some(Some("nowhere")) {
            let error = Condition { condition: "amqp:not-found", description: Some("nowhere") };
            self.engine.link_detach(session, link, true, Some(&error)).unwrap();
        } else if role == Role::Sender {
            self.sender = Some((session, link));
        }
        self.engine.link_respond(&event, 0).unwrap();
    }

    fn send(&mut self) {
        while let (Some((session, link)), Some(message)) = (self.sender, self.queue.front()) {
            let bytes = [b"t", &message[..]].concat();
            let flags = flag::NUMBERED | flag::TAGGED;
            let mut head = TransferHead { session, link, format: 0, payload: message.len() as u32, flags, tag_size: 1 };
            let mut at = 0;
            loop {
                let cut = self.engine.cut(&head, &bytes[at..]).unwrap();
                if self.engine.link_send(&cut.part, &bytes[at..], 0).is_err() {
                    return;
                }
                at += cut.part.payload as usize + usize::from(cut.part.tag_size);
                head = cut.rest;
                if cut.more == 0 {
                    break;
                }
            }
            self.queue.pop_front();
        }
    }

    /// Serves until the connection is over, or the client hangs up: whether both sides have closed, and what became of
    /// what it sent.
    fn serve(mut self, mut stream: TcpStream) -> (bool, Vec<Outcome>) {
        let (mut came, mut room) = (Vec::new(), [0; 4096]);
        loop {
            let mut out = Vec::new();
            self.engine.send(&mut out).unwrap();
            if let Some((at, by)) = self.flip {
                let _ = out.get_mut(at).map(|it| *it ^= by);
                self.flip = at.checked_sub(out.len()).map(|at| (at, by));
            }
            if stream.write_all(&out).is_err() || self.engine.is_over().unwrap() {
                return (self.engine.state().unwrap() == 13, self.outcomes);
            }
            let Ok(count @ 1..) = stream.read(&mut room) else { return (false, self.outcomes) };
            came.extend_from_slice(&room[..count]);
            loop {
                let mut records = [Record::default()];
                let (taken, written, stop) = self.engine.take(&came, &mut records).unwrap();
                if written == 1 {
                    self.on(&records[0], &came);
                }
                came.drain(..taken);
                if !matches!(stop, Stop::Again | Stop::Full) {
                    break;
                }
            }
        }
    }
}

/// A server that waits for one client: its address, and what comes of it.
fn server() -> (String, JoinHandle<(bool, Vec<Outcome>)>) {
    server_with(None)
}

/// The same of one that turns bits of a byte that it sends.
fn server_with(flip: Option<(usize, u8)>) -> (String, JoinHandle<(bool, Vec<Outcome>)>) {
    let listener = TcpListener::bind("127.0.0.1:0").unwrap();
    let address = listener.local_addr().unwrap().to_string();
    let served = spawn(move || {
        let opening = Opening::Server { mechanisms: &["PLAIN", "ANONYMOUS"] };
        let open = Open { max_frame_size: 1024, ..Open::new("server") };
        let mut engine = Engine::with_opening([9; 16], &open, &opening, 0, None).unwrap();
        engine.open().unwrap();
        let server = Server {
            engine,
            sender: None,
            part: Vec::new(),
            queue: VecDeque::new(),
            outcomes: Vec::new(),
            sessions: 5,
            flip,
        };
        server.serve(listener.accept().unwrap().0)
    });
    (address, served)
}

fn connected(options: &Options) -> (Connection, u32, JoinHandle<(bool, Vec<Outcome>)>) {
    let (address, served) = server();
    let mut connection = Connection::connect(&address, options).unwrap();
    let session = connection.begin().unwrap();
    (connection, session, served)
}

#[test]
fn messages_go_there_and_back() {
    let (mut connection, session, served) = connected(&Options::new("me").plain("me", "secret"));
    let sender = connection.sender(session, "to", "q").unwrap();
    assert_eq!((sender.session, sender.handle), (0, 0));
    for number in 0..20 {
        let id = number.to_string();
        let properties = Properties { message_id: Some(&id), ..Properties::default() };
        assert_eq!(connection.send(&sender, &Message { properties, body: b"hello" }).unwrap(), number);
    }
    for number in 0..20 {
        let settled = connection.settled().unwrap();
        assert_eq!(
            (settled, settled.is_accepted()),
            (Settled { link: *sender, number, outcome: Outcome::Accepted }, true)
        );
    }
    let receiver = connection.receiver(session, "from", "q", 4).unwrap();
    for number in 0..20 {
        let delivery = connection.receive(&receiver).unwrap();
        let message = Message::read(&delivery.payload).unwrap();
        assert_eq!((message.properties.message_id, message.body), (Some(&number.to_string()[..]), &b"hello"[..]));
        assert_eq!((delivery.link, delivery.is_settled), (*receiver, false));
        match number {
            0 => connection.settle(&delivery, Outcome::Rejected).unwrap(),
            1 => connection.settle(&delivery, Outcome::Released).unwrap(),
            _ => connection.accept(&delivery).unwrap(),
        }
    }
    connection.detach(&receiver).unwrap();
    connection.wait(Duration::from_millis(20)).unwrap();
    connection.close().unwrap();
    let (has_closed, outcomes) = served.join().unwrap();
    assert!(has_closed);
    assert_eq!((outcomes.len(), &outcomes[..3]), (20, &[Outcome::Rejected, Outcome::Released, Outcome::Accepted][..]));
}

#[test]
fn a_durable_target_and_a_source_that_keeps() {
    let (mut connection, session, served) = connected(&Options::new("me"));
    let target = Terminus { durable: Durability::Unsettled, ..Terminus::at("q") };
    let sender = connection.sender_to(session, "to", &target).unwrap();
    connection.send(&sender, &Message::data(b"hello")).unwrap();
    let source = Terminus { distribution_mode: Some("copy"), ..Terminus::at("q") };
    let receiver = connection.receiver_from(session, "from", &source, 1).unwrap();
    assert_eq!(Message::read(&connection.receive(&receiver).unwrap().payload).unwrap().body, b"hello");
    let wrong = Terminus { distribution_mode: Some("copy"), ..target };
    assert!(matches!(connection.sender_to(session, "no", &wrong), Err(Failure::Engine(Error::BadArgument))));
    connection.close().unwrap();
    assert!(served.join().unwrap().0);
}

#[test]
fn a_long_message_goes_in_parts() {
    let (mut connection, session, served) = connected(&Options::new("me"));
    let sender = connection.sender(session, "to", "q").unwrap();
    let receiver = connection.receiver(session, "from", "q", 0).unwrap();
    let long: Vec<u8> = (0..50_000_u32).map(|at| at as u8).collect();
    connection.send_bytes(&sender, &long).unwrap();
    connection.grant(&receiver, 1).unwrap();
    // another session begins and ends, and what goes on in this one goes on
    let other = connection.begin().unwrap();
    connection.engine().end(other, None).unwrap();
    connection.wait(Duration::from_millis(20)).unwrap();
    assert_eq!((other, connection.engine().session_state(other).unwrap()), (1, None));
    assert_eq!(connection.receive(&receiver).unwrap().payload, long);
    assert_eq!(connection.engine().state().unwrap(), 9);
    connection.close().unwrap();
    assert!(served.join().unwrap().0);
}

#[test]
fn what_a_server_refuses_is_told() {
    let (address, served) = server();
    let refused = Connection::connect(&address, &Options::new("me").plain("me", "another")).err().unwrap();
    assert_eq!(refused.to_string(), "the peer: refused: LoginRefused");
    assert!(!served.join().unwrap().0);
    assert!(matches!(Connection::connect(&address, &Options::new("me")), Err(Failure::Io(_))));

    let options = Options { patience: Duration::from_millis(200), ..Options::new("me") };
    let (mut connection, session, served) = connected(&options);
    let refused = connection.sender(session, "l", "nowhere").unwrap_err();
    assert_eq!(refused.to_string(), "the peer: detaches: amqp:not-found nowhere");
    assert!(matches!(connection.sender(session, "s", "silence"), Err(Failure::Silent)));
    let again = connection.sender(session, "s", "silence").unwrap_err();
    assert!(matches!(&again, Failure::Engine(Error::Refused(it)) if it.name == "DuplicatedLinkName"), "{again}");
    // a Close is answered
    let closed = connection.sender(session, "c", "closes").unwrap_err();
    assert_eq!(closed.to_string(), "the peer: closes: amqp:internal-error");
    assert!(served.join().unwrap().0);
    assert!(connection.begin().is_err());

    let (connection, _, served) = connected(&options);
    drop(connection);
    assert!(!served.join().unwrap().0);
}

#[test]
fn a_connection_goes_to_another_thread() {
    let (mut connection, session, served) = connected(&Options::new("me"));
    let sent = spawn(move || {
        let sender = connection.sender(session, "to", "q").unwrap();
        connection.send(&sender, &Message::data(b"hello")).unwrap();
        let settled = connection.settled().unwrap();
        connection.close().unwrap();
        settled.is_accepted()
    });
    assert!(sent.join().unwrap() && served.join().unwrap().0);
}

/// Servers that say nothing, or any bytes by a seed, headers and frames in front of some: each ends in an error, and in
/// time.
#[test]
fn a_server_of_any_bytes_is_an_error() {
    let listener = TcpListener::bind("127.0.0.1:0").unwrap();
    let address = listener.local_addr().unwrap();
    let fronts: [&[u8]; 4] = [b"", b"AMQP\x03\x01\0\0", b"AMQP\0\x01\0\0", b"AMQP\x03\x01\0\0\0\0\0\x12\x02\x01\0\0"];
    let served = spawn(move || {
        let mut seed = 1_u64;
        for round in 0..200 {
            let mut stream = listener.accept().unwrap().0;
            let mut bytes = fronts[round % 4].to_vec();
            for _ in 0..round {
                seed = seed.wrapping_mul(6_364_136_223_846_793_005).wrapping_add(1_442_695_040_888_963_407);
                bytes.push((seed >> 56) as u8);
            }
            let _ = stream.write_all(&bytes);
            // the client goes first, or is kept waiting
            let _ = stream.read(&mut [0; 1000]);
            let _ = (round % 3 == 0).then(|| stream.read_to_end(&mut Vec::new()));
        }
    });
    let options = Options { patience: Duration::from_millis(50), ..Options::new("me") };
    let began = std::time::Instant::now();
    for round in 0..200 {
        assert!(Connection::connect(address, &options).is_err(), "{round}");
    }
    served.join().unwrap();
    assert!(began.elapsed() < Duration::from_secs(30), "{:?}", began.elapsed());
}

/// Sends, settles, receives and closes.
fn exchanged(address: &str) -> Result<(), Failure> {
    let options = Options { patience: Duration::from_millis(40), ..Options::new("me") };
    let mut connection = Connection::connect(address, &options)?;
    let session = connection.begin()?;
    let sender = connection.sender(session, "to", "q")?;
    for _ in 0..3 {
        connection.send(&sender, &Message::data(&[7; 20]))?;
        connection.settled()?;
    }
    let receiver = connection.receiver(session, "from", "q", 4)?;
    for _ in 0..3 {
        let delivery = connection.receive(&receiver)?;
        connection.accept(&delivery)?;
    }
    connection.detach(&receiver)?;
    connection.close()
}

/// A server of which one byte is another, at each place by a seed: what is asked is done, or an error, and in time.
#[test]
fn a_server_with_a_changed_byte_is_no_more_than_an_error() {
    let (mut seed, mut done) = (1_u64, 0);
    let began = std::time::Instant::now();
    for _ in 0..400 {
        seed = seed.wrapping_mul(6_364_136_223_846_793_005).wrapping_add(1_442_695_040_888_963_407);
        let flip = ((seed >> 33) as usize % 800, (seed >> 56) as u8 | 1);
        let (address, served) = server_with(Some(flip));
        done += u32::from(exchanged(&address).is_ok());
        let _ = served.join();
    }
    assert!((1..400).contains(&done), "{done}");
    assert!(began.elapsed() < Duration::from_secs(60), "{:?}", began.elapsed());
    println!("{done} of 400 exchanges went to their end");
}
