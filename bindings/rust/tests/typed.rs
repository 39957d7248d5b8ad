//! Tests of typed performatives, of what came as an enum, and of messages: two engines face to face.

use amqp_engine::*;

const PLAIN: Opening = Opening::Plain;

/// The bytes of a performative.
fn bytes<P: Performative + ?Sized>(it: &P) -> Vec<u8> {
    let mut out = b"front".to_vec();
    it.write(&mut out).unwrap();
    assert!(out.starts_with(b"front"));
    out.split_off(5)
}

/// Hands on what waits: what is done with each thing that comes.
fn carry(from: &mut Engine, to: &mut Engine, mut see: impl FnMut(&mut Engine, Came, &Record, &[u8])) {
    let (mut out, mut at) = (Vec::new(), 0);
    from.send(&mut out).unwrap();
    loop {
        let mut records = [Record::default()];
        let (taken, written, stop) = to.take_at(0, &out[at..], &mut records).unwrap();
        if written == 1 {
            see(to, records[0].read(&out[at..]), &records[0], &out[at..]);
        }
        at += taken;
        if !matches!(stop, Stop::Again | Stop::Full) {
            return;
        }
    }
}

/// The things that come, each as it is told.
fn told(from: &mut Engine, to: &mut Engine) -> Vec<String> {
    let mut all = Vec::new();
    carry(from, to, |_, came, _, _| all.push(format!("{came:?}")));
    all
}

/// A client whose session 7 and a server whose session 3 have begun.
fn pair() -> (Engine, Engine) {
    let mut client = Engine::with_opening([7; 16], &Open::new("client"), &PLAIN, 0, None).unwrap();
    let mut server = Engine::with_opening([8; 16], &Open::new("server"), &PLAIN, 0, None).unwrap();
    client.open().unwrap();
    server.open().unwrap();
    for _ in 0..2 {
        told(&mut client, &mut server);
        told(&mut server, &mut client);
    }
    client.begin(7, &Begin { incoming_window: 9, ..Begin::default() }).unwrap();
    carry(&mut client, &mut server, |server, came, record, input| {
        let Came::BeginWanted { channel: 0, begin } = came else { panic!("{came:?}") };
        assert_eq!((begin.number(2), begin.number(4), begin.descriptor()), (Some(9), Some(255), Some(0x11)));
        server.answer_begin(record, input, 3, &Begin::default()).unwrap();
    });
    carry(&mut server, &mut client, |_, came, _, _| assert!(matches!(came, Came::Begun { session: 7, .. })));
    (client, server)
}

#[test]
fn performatives_have_their_fields() {
    let open = bytes(&Open { hostname: Some("host"), idle_time_out: 500, ..Open::new("me") });
    let fields = Fields(&open);
    assert_eq!(
        (fields.descriptor(), fields.text(0), fields.text(1), fields.number(4)),
        (Some(0x10), Some("me"), Some("host"), Some(500))
    );
    assert_eq!((fields.bytes(), fields.field(9), fields.number(0), fields.text(2)), (&open[..], None, None, None));
    let flow = bytes(&Flow { handle: 3, delivery_count: Some(5), link_credit: 10, drain: true, echo: false });
    assert_eq!(
        (Fields(&flow).number(4), Fields(&flow).number(5), Fields(&flow).number(6)),
        (Some(3), Some(5), Some(10))
    );
    assert_eq!((Fields(&flow).flag(8), Fields(&flow).flag(9)), (true, false));
    let flow = bytes(&Flow::default());
    assert_eq!(Fields(&flow).field(5), None);
    let transfer = bytes(&Transfer { handle: 2, tag: Some(b"tag"), message_format: 6, settled: true, more: false });
    assert_eq!(
        (Fields(&transfer).binary(2), Fields(&transfer).number(3), Fields(&transfer).flag(4)),
        (Some(&b"tag"[..]), Some(6), true)
    );
    assert_eq!(Fields(&bytes(&Transfer::default())).binary(2), None);
    let settled =
        bytes(&Disposition { role: Role::Receiver, first: 1, last: 2, settled: true, outcome: Outcome::Accepted });
    assert_eq!((Fields(&settled).flag(0), Fields(&settled).number(2)), (true, Some(2)));
    assert_eq!(Fields(&settled).field(4).unwrap().descriptor(), Some(0x24));
    let error = Condition { condition: "amqp:not-found", description: Some("gone") };
    let detach = bytes(&Detach { handle: 4, closed: true, error: Some(error) });
    assert_eq!((Fields(&detach).flag(1), Fields(&detach).condition(2)), (true, Some(error)));
    assert_eq!(Fields(&bytes(&error)).text(0), Some("amqp:not-found"));
    // longer than the first room; and what has no form
    let name = "n".repeat(1000);
    assert_eq!(Fields(&bytes(&Open::new(&name))).text(0), Some(&name[..]));
    assert_eq!(Open::new("a\0b").write(&mut Vec::new()), Err(Error::BadArgument));
    let bad = Disposition { role: Role::Sender, first: 0, last: 0, settled: true, outcome: Outcome::Other };
    assert_eq!(bad.write(&mut Vec::new()), Err(Error::BadArgument));
    assert_eq!((bytes(&open), bytes(&&b"ab"[..]), bytes(b"ab")), (open.clone(), b"ab".to_vec(), b"ab".to_vec()));
    assert_eq!(version() >> 16, 0);
    assert_eq!([0, 1, 2, 3, 4, 5, 6, 9].map(|it| Outcome::of(it) as u8), [0, 1, 2, 3, 4, 5, 6, 6]);
}

#[test]
fn termini_have_their_fields() {
    let durable = Durability::Unsettled;
    let target = Terminus { durable, ..Terminus::at("queue") };
    let attach = bytes(&Between::sender("out", target));
    let (fields, to) = (Fields(&attach), Fields(&attach).field(6).unwrap());
    assert_eq!((fields.text(0), fields.flag(2)), (Some("out"), false));
    assert_eq!((to.descriptor(), to.text(0), to.number(1), to.field(2)), (Some(0x29), Some("queue"), Some(2), None));
    let source = Terminus {
        address: None,
        durable: Durability::Configuration,
        expiry_policy: Some("never"),
        timeout: 5,
        is_dynamic: true,
        distribution_mode: Some("move"),
        capability: Some("topic"),
    };
    let attach = bytes(&Between::receiver("in", source));
    let source = Fields(&attach).field(5).unwrap();
    assert_eq!((source.descriptor(), source.text(0), source.number(1)), (Some(0x28), None, Some(1)));
    assert_eq!((source.text(2), source.number(3), source.flag(4)), (Some("never"), Some(5), true));
    assert_eq!((source.text(6), source.field(7), source.text(10)), (Some("move"), None, Some("topic")));
    assert_eq!(Fields(&attach).field(6).unwrap().text(0), Some("in"));
    // a target has no distribution-mode, and a text no 0
    let wrong = Terminus { distribution_mode: Some("copy"), ..target };
    assert_eq!(Between::sender("out", wrong).write(&mut Vec::new()), Err(Error::BadArgument));
    assert_eq!(Between::sender("out", Terminus::at("a\0b")).write(&mut Vec::new()), Err(Error::BadArgument));
}

#[test]
fn a_login_is_told_in_parts() {
    let logins = [Login { mechanism: "ASKS", response: None }, Login::anonymous()];
    let opening = Opening::Client { logins: &logins, host: Some("host") };
    let mut client = Engine::with_opening([7; 16], &Open::new("client"), &opening, 0, None).unwrap();
    let mut server =
        Engine::with_opening([8; 16], &Open::new("server"), &Opening::Server { mechanisms: &["ASKS"] }, 0, None)
            .unwrap();
    let mut all = Vec::new();
    for _ in 0..5 {
        carry(&mut client, &mut server, |server, came, _, _| {
            all.push(format!("{came:?}"));
            match came {
                Came::LoginAsked { mechanism: b"ASKS", response: None, host: Some(b"host") } => {
                    server.challenge(b"who?").unwrap()
                }
                Came::Responded(b"me") => server.login(LoginCode::Ok, Some(b"in")).unwrap(),
                _ => {}
            }
        });
        carry(&mut server, &mut client, |client, came, _, _| {
            all.push(format!("{came:?}"));
            if came == Came::Challenged(b"who?") {
                client.respond(b"me").unwrap();
            }
        });
    }
    let kinds: Vec<_> = all.iter().map(|it| it.split([' ', '(']).next().unwrap()).collect();
    let wanted = [
        "SaslHeader",
        "SaslHeader",
        "MechanismChosen",
        "LoginAsked",
        "Challenged",
        "Responded",
        "LoggedIn",
        "AmqpHeader",
        "AmqpHeader",
    ];
    assert_eq!(kinds, wanted);
    assert!(all[6].contains("[105, 110]"), "{}", all[6]);
    assert_eq!(all[2], "MechanismChosen { login: 0 }");
    let mut client = Engine::with_opening([7; 16], &Open::new("client"), &PLAIN, 0, None).unwrap();
    let mut records = [Record::default()];
    client.take_at(0, b"HTTP/1.1", &mut records).unwrap();
    assert_eq!(records[0].read(b"HTTP/1.1"), Came::NotOpened { refusal: 105, said: b"" });
    assert_eq!(Login::external().mechanism, "EXTERNAL");
}

#[test]
fn what_came_borrows_its_places() {
    let (mut client, mut server) = pair();
    client.link(7, Role::Sender, ReceiverSettleMode::First, "l").unwrap();
    let attach =
        Attach { initial_delivery_count: 4, snd_settle_mode: SenderSettleMode::Unsettled, ..Attach::sender("l", "q") };
    client.attach(7, &attach).unwrap();
    carry(&mut client, &mut server, |server, came, _, _| {
        let Came::AttachWanted { session: 3, input_handle, terms } = came else { panic!("{came:?}") };
        assert_eq!(
            (terms.name, terms.role, terms.source, terms.target),
            ("l", Role::Sender, Some(Some("l")), Some(Some("q")))
        );
        assert_eq!(
            (terms.snd_settle_mode, terms.rcv_settle_mode),
            (SenderSettleMode::Unsettled, ReceiverSettleMode::First)
        );
        assert_eq!(
            (terms.max_message_size, terms.initial_delivery_count, terms.fields.text(0)),
            (None, Some(4), Some("l"))
        );
        server.link_on(3, input_handle, terms.role.other(), ReceiverSettleMode::First, terms.name).unwrap();
        server.attach(3, &Attach::receiver("l", "q")).unwrap();
        server.flow(3, &Flow { delivery_count: Some(4), link_credit: 10, echo: true, ..Flow::default() }).unwrap();
    });
    let mut seen = 0;
    carry(&mut server, &mut client, |_, came, _, _| match came {
        Came::Attached { session: 7, link: 0, terms } => seen += u32::from(terms.role == Role::Receiver),
        Came::Flow(flow) => {
            let wanted = FlowOf {
                session: 7,
                link: Some(0),
                credit: Some(10),
                delivery_count: Some(4),
                available: None,
                drain: false,
                echo: true,
            };
            assert_eq!(flow, wanted);
            seen += 1;
        }
        other => panic!("{other:?}"),
    });
    assert_eq!(seen, 2);
    client
        .transfer(7, true, &Transfer { tag: Some(b"t"), message_format: 5, ..Transfer::default() }, b"hello")
        .unwrap();
    carry(&mut client, &mut server, |_, came, record, _| {
        assert_eq!(record.tag(), Some(&b"t"[..]));
        let Came::Transfer(it) = came else { panic!("{came:?}") };
        assert_eq!((it.session, it.link, it.number, it.tag, it.format), (3, 0, 0, Some(&b"t"[..]), Some(5)));
        assert_eq!((it.first, it.more, it.settled, it.aborted, it.payload), (true, false, false, false, &b"hello"[..]));
    });
    server
        .disposition(
            3,
            &Disposition { role: Role::Receiver, first: 0, last: 0, settled: true, outcome: Outcome::Released },
        )
        .unwrap();
    let disposed = Came::Disposition {
        session: 7,
        role: Role::Receiver,
        first: 0,
        last: 0,
        settled: true,
        outcome: Outcome::Released,
    };
    carry(&mut server, &mut client, |_, came, _, _| assert_eq!(came, disposed));
}

#[test]
fn ends_tell_their_errors() {
    let (mut client, mut server) = pair();
    client.link(7, Role::Sender, ReceiverSettleMode::First, "l").unwrap();
    client.attach(7, &Attach::sender("l", "q")).unwrap();
    carry(&mut client, &mut server, |server, came, _, _| {
        let Came::AttachWanted { input_handle, .. } = came else { panic!("{came:?}") };
        server.link_on(3, input_handle, Role::Receiver, ReceiverSettleMode::First, "l").unwrap();
        server.attach(3, &Attach::receiver("l", "q")).unwrap();
    });
    told(&mut server, &mut client);
    let error = Condition { condition: "amqp:not-found", description: Some("gone") };
    client.detach(7, true, &Detach { handle: 0, closed: true, error: Some(error) }).unwrap();
    carry(&mut client, &mut server, |_, came, _, _| {
        assert_eq!(came, Came::Detached { session: 3, link: Some(0), closed: true, error: Some(error) });
    });
    server.end(3, Some(&Condition::new("amqp:internal-error"))).unwrap();
    let ended = Came::Ended { session: 7, error: Some(Condition::new("amqp:internal-error")) };
    carry(&mut server, &mut client, |_, came, _, _| assert_eq!(came, ended));
    client.close(Some(&error)).unwrap();
    carry(&mut client, &mut server, |_, came, _, _| assert_eq!(came, Came::Closed { error: Some(error) }));
    // a Begin on channel 9 that answers none of this side's
    let (mut other, _) = pair();
    let mut records = [Record::default()];
    let frame =
        [&[0, 0, 0, 26, 2, 0, 0, 1][..], b"\0\x53\x11\xc0\x0d\x05\x60\0\x09\x43\x52\x40\x52\x40\x52\xff\x40\x40"]
            .concat();
    let frame = &frame[..];
    other.take(frame, &mut records).unwrap();
    assert!(matches!(records[0].read(frame), Came::Refused { .. }), "{:?}", records[0].read(frame));
}

#[test]
fn a_session_is_let_go_by_hand() {
    let (mut client, mut server) = pair();
    assert_eq!(client.refusal(), Refusal::default());
    assert!(matches!(client.forget(7), Err(Error::Refused(_))));
    assert!(!client.refusal().name.is_empty());
    client.end(7, None).unwrap();
    told(&mut client, &mut server);
    server.answer_end(3, Some(&Condition::new("amqp:not-found"))).unwrap();
    let ended = Came::Ended { session: 7, error: Some(Condition::new("amqp:not-found")) };
    carry(&mut server, &mut client, |_, came, _, _| assert_eq!(came, ended));
    client.release(7).unwrap();
    client.forget(7).unwrap();
    assert_eq!((client.session_state(7), server.session_state(3)), (Ok(None), Ok(None)));
}

#[test]
fn messages_are_written_and_read() {
    let properties = Properties { message_id: Some("id"), reply_to: Some("back"), ..Properties::default() };
    let message = Message { properties, body: b"body" };
    let bytes = message.bytes().unwrap();
    assert_eq!(Message::read(&bytes), Some(message));
    let long = vec![b'x'; 70_000];
    let plain = Message::data(&long).bytes().unwrap();
    assert_eq!((plain.len(), Message::read(&plain)), (70_008, Some(Message::data(&long))));
    let all = Properties {
        message_id: Some(""),
        to: Some("q"),
        subject: Some("s"),
        reply_to: Some("r"),
        correlation_id: Some("c"),
    };
    let bytes = Message { properties: all, body: b"" }.bytes().unwrap();
    assert_eq!(Message::read(&bytes).unwrap().properties, all);
    assert_eq!((Message::read(b""), Message::read(b"\0\x53\x77\xa1\x01x")), (None, None));
}

/// Any bytes are read: by a generator with a seed, of a message and an Attach in which some bytes are others, or which
/// are cut.
#[test]
fn readers_take_any_bytes() {
    let properties = Properties { message_id: Some("id"), to: Some("to"), ..Properties::default() };
    let whole = [Message { properties, body: b"body" }.bytes().unwrap(), bytes(&Attach::sender("name", "address"))];
    let (mut seed, mut read) = (1_u64, 0);
    let mut next = |below: usize| {
        seed = seed.wrapping_mul(6_364_136_223_846_793_005).wrapping_add(1_442_695_040_888_963_407);
        (seed >> 33) as usize % below
    };
    for round in 0..40_000 {
        let mut it = whole[round % 2].clone();
        for _ in 0..next(4) {
            let at = next(it.len());
            it[at] = next(256) as u8;
        }
        if next(4) == 0 {
            it.truncate(it.len() - next(it.len() / 2));
        }
        let fields = Fields(&it);
        for place in 0..12 {
            read += usize::from(fields.field(place).is_some_and(|it| it.bytes().len() <= fields.bytes().len()));
            let _ = (fields.number(place), fields.flag(place), fields.text(place), fields.condition(place));
        }
        read += usize::from(Message::read(&it).is_some());
    }
    assert!(read > 40_000, "{read}");
}
