//! Tests of the wrapper: a client's connection, with a script in the peer's place.

use amqp_engine::*;

const OPEN: &[u8] = b"\0\x53\x10\xc0\x0e\x04\xa1\x02me\x40\x70\0\x01\0\0\x60\0\xff";
const BEGIN: &[u8] = b"\0\x53\x11\xc0\x09\x05\x40\x43\x52\x40\x52\x40\x52\xff";
const ATTACH: &[u8] = b"\0\x53\x12\xc0\x09\x03\xa1\x03out\x52\x05\x41";

fn framed(channel: u8, performative: &[u8]) -> Vec<u8> {
    let size = (performative.len() as u32 + 8).to_be_bytes();
    [&size[..], &[2, 0, 0, channel], performative].concat()
}

fn made() -> Engine {
    Engine::new([7; 16], OPEN).unwrap()
}

fn sent(engine: &mut Engine) -> Vec<u8> {
    let mut out = Vec::new();
    engine.send(&mut out).unwrap();
    out
}

/// The record of a frame, and the frame.
fn hear(engine: &mut Engine, channel: u8, performative: &[u8]) -> (Record, Vec<u8>) {
    let (frame, mut records) = (framed(channel, performative), [Record::default(); 2]);
    let told = engine.take(&frame, &mut records).unwrap();
    assert_eq!((told.0, told.1), (frame.len(), 1));
    assert!(matches!(told.2, Stop::Done { wanted: 4 } | Stop::Again | Stop::Over));
    (records[0], frame)
}

/// An engine whose session 7 is mapped, with a link on which this side sends.
fn sending() -> Engine {
    let mut engine = made();
    engine.open().unwrap();
    assert_eq!(sent(&mut engine), framed(0, OPEN));
    assert_eq!(hear(&mut engine, 0, b"\0\x53\x10\xc0\x0d\x03\xa1\x04peer\x40\x70\0\0\x04\0").0.kind, kind::OPENED);
    engine.begin(7, BEGIN).unwrap();
    assert_eq!(hear(&mut engine, 3, b"\0\x53\x11\xc0\x09\x04\x60\0\0\x43\x52\x0a\x52\x0a").0.session, 7);
    assert_eq!(engine.link(7, Role::Sender, ReceiverSettleMode::First, "out").unwrap(), 0);
    let (record, input) = hear(&mut engine, 3, ATTACH);
    assert_eq!(
        (record.kind, record.session, record.input, record.output, record.performative(&input)),
        (kind::ATTACHED, 7, 5, 0, ATTACH)
    );
    // no termini, no limit, and the modes that it does not say: mixed and first
    assert_eq!((record.outcome, record.first, record.last, record.credit, record.available), (0, 0, 0, 2, 0));
    sent(&mut engine);
    engine
}

#[test]
fn a_connection_opens_and_closes() {
    let mut engine = sending();
    assert_eq!(engine.state().unwrap(), 9);
    assert_eq!(engine.remote_open().unwrap(), b"\0\x53\x10\xc0\x0d\x03\xa1\x04peer\x40\x70\0\0\x04\0");
    assert_eq!((engine.max_piece_len().unwrap(), engine.unfit().unwrap()), (1020, 0));
    assert_eq!((engine.session_of(3).unwrap(), engine.session_of(4).unwrap()), (Some(7), None));
    assert_eq!(engine.close(Some(&[])), Err(Error::BadArgument));
    engine.close(None).unwrap();
    assert_eq!(sent(&mut engine), framed(0, b"\0\x53\x18\x45"));
    assert_eq!(hear(&mut engine, 0, b"\0\x53\x18\x45").0.kind, kind::CLOSED);
    assert_eq!(engine.state().unwrap(), 13);
}

#[test]
fn a_message_is_sent_and_accepted() {
    let mut engine = sending();
    let transfer = b"\0\x53\x14\xc0\x08\x05\x43\x40\xa0\x01t\x43\x42";
    engine.transfer(7, true, transfer, b"hello").unwrap();
    let text = [&b"\0\x53\x14\xc0\x08\x05\x43\x43\xa0\x01t\x43\x42"[..], b"hello"].concat();
    assert_eq!(sent(&mut engine), framed(0, &text));
    let (record, _) = hear(&mut engine, 3, b"\0\x53\x15\xc0\x09\x05\x41\x43\x43\x41\0\x53\x24\x45");
    assert_eq!((record.kind, record.first, record.last, record.outcome), (kind::DISPOSITION, 0, 0, 1));
    assert!(record.has(flag::SETTLED) && record.has(flag::RECEIVER) && record.has(flag::STATED));
}

#[test]
fn a_payload_is_never_the_performative() {
    let mut engine = sending();
    let transfer = b"\0\x53\x14\xc0\x08\x05\x43\x40\xa0\x01t\x43\x42";
    assert_eq!(engine.transfer(7, true, b"", transfer), Err(Error::BadArgument));
    assert_eq!(engine.transfer(7, true, &transfer[..3], &transfer[3..]), Err(Error::BadArgument));
    assert_eq!(sent(&mut engine), b"");
}

/// Whether a transfer on this handle is taken; else it is refused, since no attached link has the handle, and nothing
/// goes out.
fn is_taken(engine: &mut Engine, handle: u8) -> bool {
    let transfer = [&b"\0\x53\x14\xc0\x09\x05\x52"[..], &[handle], b"\x40\xa0\x01t\x43\x42"].concat();
    match engine.transfer(7, true, &transfer, b"hello") {
        Ok(()) => true,
        Err(Error::Refused(refusal)) if refusal.name == "UnattachedHandle" => !sent(engine).is_empty(),
        Err(error) => panic!("{error}"),
    }
}

#[test]
fn an_attach_tells_its_terms() {
    let mut engine = sending();
    assert_eq!(engine.link(7, Role::Sender, ReceiverSettleMode::First, "b").unwrap(), 1);
    let attach = b"\0\x53\x12\xc0\x1e\x0b\xa1\x01b\x43\x41\x50\x01\x50\x01\0\x53\x28\x45\0\x53\x29\x45\x40\x40\x40";
    let limit = b"\x80\0\0\0\x05\0\0\0\x07";
    let (record, _) = hear(&mut engine, 3, &[&attach[..], limit].concat());
    assert_eq!((record.kind, record.output, record.outcome), (kind::ATTACHED, 1, 3));
    assert_eq!((record.first, record.last, record.credit, record.available), (7, 5, 1, 1));
}

#[test]
fn a_transfer_is_of_an_attached_link() {
    let mut engine = sending();
    assert!(is_taken(&mut engine, 0) && sent(&mut engine).ends_with(b"hello"));
    // no link has it: it is the peer's handle of the first one
    assert!(!is_taken(&mut engine, 5));
    assert_eq!(engine.link(7, Role::Sender, ReceiverSettleMode::First, "next").unwrap(), 1);
    assert!(!is_taken(&mut engine, 1));
    assert_eq!(hear(&mut engine, 3, b"\0\x53\x12\xc0\x0a\x03\xa1\x04next\x52\x06\x41").0.kind, kind::ATTACHED);
    assert!(is_taken(&mut engine, 1) && sent(&mut engine).ends_with(b"hello"));
    // this side detaches the one, and the peer the other
    engine.detach(7, true, b"\0\x53\x16\xc0\x02\x01\x43").unwrap();
    sent(&mut engine);
    assert_eq!(hear(&mut engine, 3, b"\0\x53\x16\xc0\x03\x01\x52\x06").0.output, 1);
    assert!(!is_taken(&mut engine, 0) && !is_taken(&mut engine, 1));
}

#[test]
fn transfers_go_by_their_heads() {
    let mut engine = sending();
    let head =
        TransferHead { session: 7, link: 0, format: 0, payload: 5, flags: flag::NUMBERED | flag::TAGGED, tag_size: 1 };
    let (other, mut sent_as) = (TransferHead { link: 5, ..head }, [Sent::default(); 3]);
    let told = engine.transfers(&[head, other, head, head], b"thelloxhellouhello", &mut sent_as).unwrap();
    assert_eq!(told, (3, 18, Stop::Full));
    assert_eq!(sent_as.map(|it| (it.number, it.refusal)), [(0, 0), (0, 61), (1, 0)]);
    assert_eq!(engine.refusal_text(61).unwrap(), ("UnattachedHandle".into(), "amqp:session:unattached-handle".into()));
    assert_eq!(engine.transfers(&[head], b"th", &mut sent_as).unwrap(), (0, 0, Stop::Short));
    assert!(sent(&mut engine).ends_with(b"hello"));
    engine.dispose(7, Role::Sender, 0, 1, true, Outcome::NoState).unwrap();
    assert_eq!(engine.dispose(7, Role::Sender, 0, 1, true, Outcome::Other), Err(Error::BadArgument));
    assert_eq!(sent(&mut engine), framed(0, b"\0\x53\x15\xc0\x06\x04\x42\x43\x52\x01\x41"));
}

/// The heads of the parts of a transfer, whose tag these bytes begin with.
fn parts_of(engine: &mut Engine, head: TransferHead, bytes: &[u8]) -> Vec<TransferHead> {
    let mut cut = engine.cut(&head, bytes).unwrap();
    let mut parts = vec![cut.part];
    while cut.more == 1 {
        assert_eq!((cut.refusal, cut.rest.tag_size), (0, 0));
        cut = engine.cut(&cut.rest, &[]).unwrap();
        parts.push(cut.part);
    }
    parts
}

#[test]
fn a_long_transfer_goes_in_parts() {
    assert_eq!((size_of::<Cut>(), core::mem::offset_of!(Cut, rest), core::mem::offset_of!(Cut, more)), (48, 20, 40));
    let mut engine = sending();
    let bytes: Vec<u8> = (0..2501_u32).map(|at| at as u8 ^ (at >> 8) as u8).collect();
    let first = flag::NUMBERED | flag::TAGGED | flag::SETTLED | flag::ABORTED;
    let head = TransferHead { session: 7, link: 0, format: 0, payload: 2500, flags: first, tag_size: 1 };
    let parts = parts_of(&mut engine, head, &bytes[..1]);
    let wanted = [first - flag::ABORTED + flag::MORE, flag::MORE, flag::ABORTED];
    assert_eq!(parts.iter().map(|it| it.flags).collect::<Vec<_>>(), wanted);
    assert_eq!(
        parts.iter().map(|it| (it.session, it.link, it.tag_size)).collect::<Vec<_>>(),
        [(7, 0, 1), (7, 0, 0), (7, 0, 0)]
    );
    assert_eq!(parts.iter().map(|it| it.payload).sum::<u32>(), 2500);
    let mut at = 0;
    for (count, part) in parts.iter().enumerate() {
        let mut told = [Sent::default()];
        let (taken, used, stop) = engine.transfers(&[*part], &bytes[at..], &mut told).unwrap();
        assert_eq!((taken, stop, told[0]), (1, Stop::Done { wanted: 0 }, Sent { number: 0, refusal: 0 }));
        let (frame, end) = (sent(&mut engine), at + used);
        assert!(frame.ends_with(&bytes[end - part.payload as usize..end]) && frame.len() <= 1024);
        assert!(frame.len() + 4 >= 1024 || count == 2);
        at = end;
    }
    assert_eq!(at, bytes.len());
}

#[test]
fn what_fits_is_not_cut_and_what_never_fits_is_refused() {
    let mut engine = sending();
    let room = engine.payload_room(b"\0\x53\x14\xc0\x08\x05\x43\x40\xa0\x01t\x43\x42").unwrap().unwrap();
    let head = TransferHead {
        session: 7,
        link: 0,
        format: 0,
        payload: room,
        flags: flag::NUMBERED | flag::TAGGED,
        tag_size: 1,
    };
    assert_eq!(engine.cut(&head, b"t").unwrap(), Cut { part: head, rest: head, more: 0, refusal: 0 });
    let longer = TransferHead { payload: room + 1, ..head };
    assert_eq!(parts_of(&mut engine, longer, b"t").iter().map(|it| it.payload).collect::<Vec<_>>(), [room - 1, 2]);
    let tagged = TransferHead { tag_size: 33, ..head };
    assert_eq!(engine.cut(&tagged, &[0; 33]).unwrap(), Cut { part: tagged, rest: tagged, more: 0, refusal: 92 });
    // until the peer's Open has come the limit is that of this side's, here of 8 bytes
    let mut narrow = Engine::new([7; 16], b"\0\x53\x10\xc0\x08\x03\xa1\x02me\x40\x52\x08").unwrap();
    assert_eq!(narrow.cut(&head, b"t").unwrap(), Cut { part: head, rest: head, more: 0, refusal: 91 });
    assert_eq!(sent(&mut engine), b"");
}

#[test]
fn what_came_is_told_in_order_and_in_place() {
    let mut engine = sending();
    let (flow, end) = (
        framed(3, b"\0\x53\x13\xc0\x0c\x07\x43\x52\x40\x43\x52\x0a\x52\x05\x43\x52\x0a"),
        framed(3, b"\0\x53\x17\x45"),
    );
    let (input, mut records) = ([&flow[..], &end[..], &[0, 0]].concat(), [Record::default(); 1]);
    assert_eq!(engine.take(&input, &mut records).unwrap(), (flow.len(), 1, Stop::Full));
    assert_eq!((records[0].kind, records[0].output, records[0].credit), (kind::FLOW, 0, 10));
    assert_eq!(engine.take(&input[flow.len()..], &mut records).unwrap(), (end.len(), 1, Stop::Done { wanted: 4 }));
    assert_eq!((records[0].kind, records[0].refusal), (kind::ENDED, 0));
    assert_eq!(engine.take(&[0, 0, 0, 7], &mut records).unwrap(), (0, 0, Stop::BadSize));
}

#[test]
fn what_is_none_is_refused() {
    assert!(matches!(Engine::new([0; 16], OPEN), Err(Error::BadArgument)));
    assert!(matches!(Engine::new([7; 16], b"\0\x53\x11\x45"), Err(Error::BadArgument)));
    let mut engine = made();
    assert_eq!(engine.begin(7, OPEN), Err(Error::BadArgument));
    assert!(matches!(engine.end(7, None), Err(Error::Refused(refusal)) if refusal.name == "NoSession"));
    assert_eq!(engine.end(7, Some(&[])), Err(Error::BadArgument));
    let moved = std::thread::spawn(move || engine.state().unwrap());
    assert_eq!(moved.join().unwrap(), 3);
}

/// What a server takes of a client's bytes, a record at a time.
fn taken(engine: &mut Engine, bytes: &[u8]) -> Vec<Record> {
    let (mut at, mut told) = (0, Vec::new());
    loop {
        let mut records = [Record::default()];
        let (taken, written, why) = engine.take_at(10, &bytes[at..], &mut records).unwrap();
        told.extend_from_slice(&records[..written]);
        at += taken;
        if !matches!(why, Stop::Again | Stop::Full) {
            return told;
        }
    }
}

#[test]
fn a_client_is_let_in_by_a_login_alone() {
    let logins = [Login { mechanism: "PLAIN", response: Some(b"\0me\0secret") }];
    for code in [LoginCode::Ok, LoginCode::Auth] {
        let opening = Opening::Client { logins: &logins, host: Some("here") };
        let mut client = Engine::with_opening([7; 16], OPEN, &opening, 0, Some(1000)).unwrap();
        let mut server =
            Engine::with_opening([8; 16], OPEN, &Opening::Server { mechanisms: &["PLAIN"] }, 0, None).unwrap();
        assert!(matches!(server.login(code, None), Err(Error::Refused(_))));
        client.open().unwrap();
        let first = sent(&mut client);
        let mut told = taken(&mut server, &first);
        let offered = sent(&mut server);
        taken(&mut client, &offered);
        let said = sent(&mut client);
        told.extend(taken(&mut server, &said));
        // (the header of SASL came before, in bytes of its own)
        let asked = told.last().unwrap();
        assert_eq!(
            (asked.kind, asked.mechanism(&said), asked.payload(&said)),
            (kind::LOGIN_ASKED, &b"PLAIN"[..], &b"\0me\0secret"[..])
        );
        assert_eq!((asked.has_payload(), asked.host(&said)), (true, Some(&b"here"[..])));
        assert_eq!(server.take_at(10, b"AMQP", &mut [Record::default()]).unwrap().2, Stop::Waits);
        server.login(code, None).unwrap();
        let outcome = sent(&mut server);
        let told = taken(&mut client, &outcome);
        let is_in = code == LoginCode::Ok;
        assert_eq!(told[0].kind, if is_in { kind::LOGGED_IN } else { kind::NOT_OPENED });
        assert_eq!((server.is_over().unwrap(), client.is_over().unwrap()), (!is_in, !is_in));
    }
}

#[test]
fn a_challenge_is_answered() {
    let mut client = made();
    assert!(matches!(client.respond(b"me"), Err(Error::Refused(_))));
    assert!(matches!(client.challenge(b"who?"), Err(Error::Refused(_))));
}

#[test]
fn an_opening_is_late() {
    let mut engine = Engine::with_opening([7; 16], OPEN, &Opening::Plain, 1000, Some(50)).unwrap();
    assert_eq!(sent(&mut engine), b"AMQP\0\x01\0\0");
    assert_eq!(engine.tick(1049).unwrap(), Tick { due: Due::Nothing, next: Some(1050) });
    assert_eq!(engine.tick(1050).unwrap(), Tick { due: Due::OpeningLate, next: None });
    assert!(engine.is_over().unwrap());
}

#[test]
fn bytes_that_wait_are_heard() {
    // an Open with an idle-time-out of 100, and the peer's without one
    let open = b"\0\x53\x10\xc0\x09\x05\xa1\x01m\x40\x40\x40\x52\x64";
    let mut engine = Engine::with_opening([7; 16], open, &Opening::Plain, 0, None).unwrap();
    let mut records = [Record::default(); 2];
    engine.open().unwrap();
    engine.take_at(10, b"AMQP\0\x01\0\0", &mut records).unwrap();
    engine.take_at(10, &framed(0, b"\0\x53\x10\xc0\x04\x01\xa1\x01p"), &mut records).unwrap();
    assert!(sent(&mut engine).ends_with(open));
    assert_eq!(engine.tick(10).unwrap(), Tick { due: Due::Nothing, next: Some(110) });
    // a part of a frame waits
    assert_eq!(engine.take_at(109, b"\0\0\0\x08", &mut records).unwrap().0, 0);
    engine.heard(109).unwrap();
    assert_eq!(engine.tick(110).unwrap(), Tick { due: Due::Nothing, next: Some(209) });
    assert_eq!(engine.tick(209).unwrap(), Tick { due: Due::PeerSilent, next: None });
}

#[test]
fn what_a_peer_begins_and_ends_is_answered() {
    let mut engine = sending();
    let (begin, frame) = hear(&mut engine, 5, b"\0\x53\x11\xc0\x07\x04\x40\x43\x52\x64\x52\x64");
    assert_eq!(begin.kind, kind::BEGIN_WANTED);
    assert_eq!(engine.answer(&begin, &frame, answers::ALL & !answers::BEGINS, 70), Ok(false));
    engine.answer_begin(&begin, &frame, 70, BEGIN).unwrap();
    assert_eq!((engine.session_of(5).unwrap(), engine.session_state(70).unwrap()), (Some(70), Some(3)));
    assert!(matches!(engine.answer_end(70, None), Err(Error::Refused(_))));
    assert!(!sent(&mut engine).is_empty());
    let (end, _) = hear(&mut engine, 5, b"\0\x53\x17\x45");
    assert_eq!((end.kind, end.session), (kind::ENDED, 70));
    engine.answer_end(70, None).unwrap();
    assert_eq!(engine.session_state(70).unwrap(), None);
    assert!(matches!(engine.let_go(7), Err(Error::Refused(refusal)) if refusal.name == "NotEnded"));
    engine.release(7).unwrap();
    sent(&mut engine);
    let (close, frame) = hear(&mut engine, 0, b"\0\x53\x18\x45");
    assert_eq!(engine.answer(&close, &frame, answers::ALL, 0), Ok(true));
    assert_eq!(sent(&mut engine), framed(0, b"\0\x53\x18\x45"));
}
