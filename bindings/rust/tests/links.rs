//! Tests of links with credit: two engines, face to face.

use amqp_engine::*;

const OPEN: &[u8] = b"\0\x53\x10\xc0\x05\x01\xa1\x02me";
const BEGIN: &[u8] = b"\0\x53\x11\xc0\x09\x05\x40\x43\x52\x40\x52\x40\x52\xff";
const CLIENT: u32 = 7;
const SERVER: u32 = 3;

/// A client's engine and a server's, with a session on each side.
struct Pair {
    client: Engine,
    server: Engine,
}

/// What came of one record.
#[derive(Clone, Copy, Debug)]
struct Came {
    record: Record,
    event: Event,
    responded: bool,
}

/// PERF of an Attach of a link that both have termini for, with a max-message-size, if it is not 0.
fn attach(name: &str, role: Role, limit: u8) -> Vec<u8> {
    let role = if role == Role::Receiver { 0x41 } else { 0x42 };
    let ends = b"\x40\x40\0\x53\x28\x45\0\x53\x29\x45\x40\x40\x43\x53";
    let fields = [&[11, 0xa1, name.len() as u8], name.as_bytes(), &[0x43, role], ends, &[limit]].concat();
    [b"\0\x53\x12\xc0", &[fields.len() as u8][..], &fields].concat()
}

/// Hands on what one side has to send, tells the other one's links of each record, and has answered what they owe.
fn carry(from: &mut Engine, to: &mut Engine) -> Vec<Came> {
    let (mut bytes, mut at, mut came) = (Vec::new(), 0, Vec::new());
    from.send(&mut bytes).unwrap();
    while at < bytes.len() {
        let mut records = [Record::default()];
        let (taken, written, _) = to.take(&bytes[at..], &mut records).unwrap();
        assert!(written == 1);
        let record = records[0];
        let event = to.link_event(&record, 90 + u64::from(record.first)).unwrap();
        let responded = to.link_respond(&event, 0).unwrap();
        if !to.is_over().unwrap() {
            to.answer(&record, &bytes[at..], answers::ALL, SERVER).unwrap();
        }
        came.push(Came { record, event, responded });
        at += taken;
    }
    came
}

impl Pair {
    fn new() -> Pair {
        let mut pair =
            Pair { client: Engine::new([7; 16], OPEN).unwrap(), server: Engine::new([8; 16], OPEN).unwrap() };
        pair.client.open().unwrap();
        pair.server.open().unwrap();
        pair.client.begin(CLIENT, BEGIN).unwrap();
        pair.there();
        pair.back();
        assert_eq!(
            (pair.client.session_state(CLIENT).unwrap(), pair.server.session_state(SERVER).unwrap()),
            (Some(3), Some(3))
        );
        pair
    }

    fn there(&mut self) -> Vec<Came> {
        carry(&mut self.client, &mut self.server)
    }

    fn back(&mut self) -> Vec<Came> {
        carry(&mut self.server, &mut self.client)
    }

    /// A client's sender and a server's receiver, which renews its credit so: the handle of each.
    fn attached(&mut self, low: u32, high: u32, limit: u8) -> (u32, u32) {
        let own = self.client.link(CLIENT, Role::Sender, ReceiverSettleMode::First, "l").unwrap();
        assert_eq!(self.client.link_attach(CLIENT, &attach("l", Role::Sender, 0), 0, 0), Ok(own));
        let wanted = self.there()[0];
        assert_eq!((wanted.record.kind, wanted.event.kind()), (kind::ATTACH_WANTED, EventKind::Nothing));
        let mode = ReceiverSettleMode::First;
        let theirs = self.server.link_on(SERVER, wanted.record.input, Role::Receiver, mode, "l").unwrap();
        assert_eq!(self.server.link_attach(SERVER, &attach("l", Role::Receiver, limit), low, high), Ok(theirs));
        let event = self.server.link_wanted(&wanted.record, theirs).unwrap();
        assert_eq!((event.session, event.link, event.kind()), (SERVER, theirs, EventKind::Attached(Life::Attached)));
        assert_eq!(self.server.link_respond(&event, 0), Ok(high > 0));
        (own, theirs)
    }

    fn send(&mut self, link: u32, payload: &str, flags: u16) -> Result<Told, NotSent> {
        let head = TransferHead {
            session: CLIENT,
            link,
            format: 0,
            payload: payload.len() as u32,
            flags: flags | flag::TAGGED,
            tag_size: 1,
        };
        self.client.link_send(&head, &[b"t", payload.as_bytes()].concat(), 70)
    }
}

fn kinds(came: &[Came]) -> Vec<EventKind> {
    came.iter().map(|it| it.event.kind()).collect()
}

/// The whole delivery of a number, in one part of five bytes.
fn whole(number: u32) -> Part {
    Part { number, size: 5, is_first: true, is_last: true, ..Part::default() }
}

#[test]
fn messages_go_by_credit_and_are_settled() {
    let mut pair = Pair::new();
    let (own, theirs) = pair.attached(1, 2, 0);
    let came = pair.back();
    assert_eq!(kinds(&came), [EventKind::Attached(Life::Attached), EventKind::Flow { used: 0 }]);
    assert_eq!((came[0].event.credit, came[1].event.credit, pair.client.link_credit(CLIENT, own)), (0, 2, Ok(2)));
    assert_eq!(pair.send(own, "hello", 0), Ok(Told { number: 0, given: None }));
    assert_eq!(pair.send(own, "again", flag::SETTLED), Ok(Told { number: 1, given: None }));
    assert_eq!(pair.send(own, "third", 0), Err(NotSent::NoCredit));
    let came = pair.there();
    assert_eq!(kinds(&came), [EventKind::Part(whole(0)), EventKind::Part(Part { is_presettled: true, ..whole(1) })]);
    // the second one leaves fewer than 1
    assert_eq!(
        came.iter().map(|it| (it.event.link, it.event.credit, it.responded)).collect::<Vec<_>>(),
        [(theirs, 1, false), (theirs, 0, true)]
    );
    assert_eq!(pair.server.link_credit(SERVER, theirs), Ok(2));
    assert_eq!(pair.server.link_settle(SERVER, Role::Receiver, 0, 1, true, Outcome::Accepted), Ok(true));
    let given = Unsettled { given: 90, number: 0, link: theirs };
    assert_eq!(pair.server.link_settled(SERVER, Role::Receiver, 0, 1), Ok(Some(given)));
    assert_eq!(pair.server.link_settled(SERVER, Role::Receiver, 0, 1), Ok(None));
    let came = pair.back();
    let settled = EventKind::Settled { role: Role::Sender, first: 0, last: 1, by_peer: true };
    assert_eq!((kinds(&came), came[0].event.credit), (vec![EventKind::Flow { used: 0 }, settled], 2));
    assert_eq!((came[1].event.link, came[1].record.outcome), (NONE, 1));
    assert_eq!(
        pair.client.link_settled(CLIENT, Role::Sender, 0, 1),
        Ok(Some(Unsettled { given: 70, number: 0, link: own }))
    );
    assert_eq!(pair.client.link_settled(CLIENT, Role::Sender, 0, 1), Ok(None));
}

#[test]
fn a_delivery_in_parts_takes_one_credit() {
    let mut pair = Pair::new();
    let (own, _) = pair.attached(0, 0, 0);
    assert_eq!(pair.server.link_flow(SERVER, 0, Wish::Renew), Ok(false));
    assert_eq!(pair.server.link_flow(SERVER, 0, Wish::Grant(1)), Ok(true));
    pair.back();
    assert_eq!(pair.send(own, "hello", flag::ABORTED), Err(NotSent::NoneUnderWay));
    assert_eq!(pair.send(own, "hello", flag::MORE), Ok(Told { number: 0, given: None }));
    assert_eq!(pair.send(own, "hello", 0), Ok(Told { number: 0, given: None }));
    let part = Part { number: 0, size: 5, is_first: true, ..Part::default() };
    let last = Part { size: 10, is_first: false, is_last: true, ..part };
    assert_eq!(kinds(&pair.there()), [EventKind::Part(part), EventKind::Part(last)]);
    assert_eq!((pair.client.link_credit(CLIENT, own), pair.server.link_credit(SERVER, 0)), (Ok(0), Ok(0)));
    pair.server.link_flow(SERVER, 0, Wish::Grant(1)).unwrap();
    pair.back();
    pair.send(own, "hello", flag::MORE).unwrap();
    assert_eq!(pair.send(own, "", flag::ABORTED), Ok(Told { number: 1, given: Some(70) }));
    let EventKind::Part(aborted) = pair.there()[1].event.kind() else { panic!() };
    assert_eq!(
        (aborted.number, aborted.is_last, aborted.is_aborted, aborted.is_presettled, aborted.given),
        (1, false, true, true, Some(91))
    );
}

#[test]
fn credit_is_drained_and_flows_are_answered() {
    let mut pair = Pair::new();
    let (own, theirs) = pair.attached(0, 0, 0);
    pair.server.link_flow(SERVER, theirs, Wish::Grant(5)).unwrap();
    pair.back();
    assert_eq!(pair.server.link_flow(SERVER, theirs, Wish::Drain), Ok(true));
    let came = pair.back();
    assert_eq!((kinds(&came), came[0].event.credit, came[0].responded), (vec![EventKind::Flow { used: 0 }], 5, true));
    assert_eq!(pair.client.link_credit(CLIENT, own), Ok(0));
    assert_eq!(kinds(&pair.there()), [EventKind::Flow { used: 5 }]);
    assert_eq!(pair.server.link_credit(SERVER, theirs), Ok(0));
    // a sender grants nothing, and has nothing to answer
    for wish in [Wish::Grant(1), Wish::Drain, Wish::Renew, Wish::Answer(3)] {
        assert_eq!(pair.client.link_flow(CLIENT, own, wish), Ok(false));
        assert_eq!(pair.client.link_flow(CLIENT, 9, wish), Ok(false));
    }
}

#[test]
fn a_sender_past_its_credit_is_ended() {
    let mut pair = Pair::new();
    let (own, theirs) = pair.attached(0, 0, 0);
    pair.back();
    // by the call that knows nothing of links
    pair.client.transfer(CLIENT, true, b"\0\x53\x14\xc0\x08\x05\x43\x40\xa0\x01t\x43\x42", b"hello").unwrap();
    let came = pair.there();
    assert_eq!((kinds(&came), came[0].responded), (vec![EventKind::Fault(Fault::OverCredit)], true));
    let mut bytes = Vec::new();
    pair.server.send(&mut bytes).unwrap();
    assert!(bytes.windows(33).any(|it| it == b"amqp:link:transfer-limit-exceeded"));
    let (mut records, size) = ([Record::default()], bytes.len());
    assert_eq!(pair.client.take(&bytes, &mut records).unwrap().0, size);
    let event = pair.client.link_event(&records[0], 0).unwrap();
    assert_eq!(event.kind(), EventKind::Ended { end: LinkEnd::ByPeer, for_good: true });
    // until this side's Detach is sent, the handle is kept
    assert_eq!(pair.client.link_remove(CLIENT, own), Err(Error::NotDetached));
    assert_eq!(pair.client.link_respond(&event, 0), Ok(true));
    assert_eq!(pair.client.link_respond(&event, 0), Ok(false));
    let came = pair.there();
    assert_eq!(kinds(&came), [EventKind::Ended { end: LinkEnd::Answered, for_good: true }]);
    assert_eq!((pair.client.link_remove(CLIENT, own), pair.server.link_remove(SERVER, theirs)), (Ok(()), Ok(())));
    assert_eq!(pair.client.link_remove(CLIENT, own), Err(Error::NoLink));
}

#[test]
fn what_is_unsettled_is_left_once_its_link_goes() {
    let mut pair = Pair::new();
    let (own, theirs) = pair.attached(1, 10, 0);
    pair.back();
    for number in 0..2 {
        assert_eq!(pair.send(own, "hello", 0).unwrap().number, number);
    }
    pair.there();
    assert_eq!(pair.server.link_left(SERVER, theirs), Ok(None));
    assert_eq!(pair.client.link_detach(CLIENT, own, false, None), Ok(true));
    assert_eq!(pair.client.link_detach(CLIENT, own, false, None), Ok(false));
    assert_eq!(pair.client.link_detach(CLIENT, own, false, Some(&[])), Err(Error::BadArgument));
    assert_eq!(pair.client.link_detach(CLIENT, own, false, Some(b"x")), Err(Error::BadArgument));
    assert_eq!(pair.send(own, "hello", 0), Err(NotSent::NotAttached));
    assert_eq!(kinds(&pair.there()), [EventKind::Ended { end: LinkEnd::ByPeer, for_good: false }]);
    assert_eq!(pair.server.link_remove(SERVER, theirs), Err(Error::Unsettled));
    let left: Vec<_> = std::iter::from_fn(|| pair.server.link_left(SERVER, theirs).unwrap()).collect();
    assert_eq!(
        left.iter().map(|it| (it.given, it.number, it.link)).collect::<Vec<_>>(),
        [(90, 0, theirs), (91, 1, theirs)]
    );
    pair.server.link_remove(SERVER, theirs).unwrap();
    assert_eq!(kinds(&pair.back()), [EventKind::Ended { end: LinkEnd::Answered, for_good: false }]);
    let left: Vec<_> = std::iter::from_fn(|| pair.client.link_left_of(CLIENT, Role::Sender).unwrap()).collect();
    assert_eq!(left.iter().map(|it| (it.given, it.number)).collect::<Vec<_>>(), [(70, 0), (70, 1)]);
    assert_eq!(pair.client.link_left_of(CLIENT, Role::Receiver), Ok(None));
    assert_eq!((pair.client.link_forget(CLIENT), pair.client.link_forget(CLIENT)), (Ok(true), Ok(false)));
}

#[test]
fn a_link_that_is_refused_tells_so() {
    let mut pair = Pair::new();
    let own = pair.client.link(CLIENT, Role::Sender, ReceiverSettleMode::First, "l").unwrap();
    pair.client.link_attach(CLIENT, &attach("l", Role::Sender, 0), 0, 0).unwrap();
    let wanted = pair.there()[0].record;
    let theirs = pair.server.link_on(SERVER, wanted.input, Role::Receiver, ReceiverSettleMode::First, "l").unwrap();
    // without a target of its own
    pair.server.link_attach(SERVER, b"\0\x53\x12\xc0\x06\x03\xa1\x01l\x43\x41", 0, 9).unwrap();
    pair.server.link_wanted(&wanted, theirs).unwrap();
    let error = b"\0\x53\x1d\xc0\x11\x01\xa3\x0eamqp:not-found";
    assert_eq!(pair.server.link_detach(SERVER, theirs, true, Some(error)), Ok(true));
    let told = [EventKind::Attached(Life::Refused), EventKind::Ended { end: LinkEnd::Refused, for_good: true }];
    assert_eq!(kinds(&pair.back()), told);
    assert_eq!(pair.send(own, "hello", 0), Err(NotSent::NotAttached));
}

#[test]
fn what_is_too_large_is_not_sent_and_not_taken() {
    let mut pair = Pair::new();
    let (own, _) = pair.attached(1, 2, 4);
    pair.back();
    assert_eq!(pair.send(own, "hello", 0), Err(NotSent::TooLarge));
    pair.client.transfer(CLIENT, true, b"\0\x53\x14\xc0\x08\x05\x43\x40\xa0\x01t\x43\x42", b"hello").unwrap();
    assert_eq!(kinds(&pair.there()), [EventKind::Fault(Fault::TooLarge)]);
    let after = pair.back();
    assert_eq!(kinds(&after), [EventKind::Ended { end: LinkEnd::ByPeer, for_good: true }]);
    // what the client sends on is passed over by the server, whose link is detached
    assert_eq!(pair.server.link_credit(SERVER, 9), Ok(0));
}

#[test]
fn what_is_none_is_refused_of_links() {
    let mut pair = Pair::new();
    assert_eq!(pair.client.link_attach(CLIENT, BEGIN, 0, 0), Err(Error::BadArgument));
    assert_eq!(pair.client.link_attach(CLIENT, &attach("l", Role::Sender, 0), 0, 0), Err(Error::NoLink));
    assert_eq!(pair.client.link_remove(CLIENT, 0), Err(Error::NoLink));
    assert_eq!(pair.client.link_settle(9, Role::Sender, 0, 0, true, Outcome::Accepted), Ok(false));
    assert_eq!(pair.client.link_detach(CLIENT, 0, true, None), Ok(false));
    assert_eq!(pair.send(0, "hello", 0), Err(NotSent::NoSender));
    let (own, _) = pair.attached(1, 2, 0);
    pair.back();
    assert_eq!(pair.client.link_attach(CLIENT, &attach("l", Role::Sender, 0), 0, 0), Err(Error::InUse));
    assert_eq!(pair.client.link_settle(CLIENT, Role::Sender, 0, 0, true, Outcome::Rejected), Err(Error::BadArgument));
    let head = TransferHead { session: CLIENT, link: own, payload: 5, ..TransferHead::default() };
    assert_eq!(pair.client.link_send(&head, b"hell", 0), Err(NotSent::Short));
    let tagged = TransferHead { payload: 0, flags: flag::TAGGED, tag_size: 33, ..head };
    assert_eq!(pair.client.link_send(&tagged, &[0; 33], 0), Err(NotSent::Refused(92)));
    pair.client.close(None).unwrap();
    pair.there();
    pair.back();
    assert_eq!(pair.send(own, "hello", 0), Err(NotSent::Over));
}

#[test]
fn a_detach_waits_for_what_is_held_back() {
    let mut pair = Pair::new();
    // a session in which the server takes two transfers at a time, and a link whose name it marks
    let (mine, its, mode) = (CLIENT + 1, SERVER + 1, ReceiverSettleMode::First);
    pair.client.begin(mine, &Begin::default()).unwrap();
    let mut bytes = Vec::new();
    pair.client.send(&mut bytes).unwrap();
    let mut records = [Record::default()];
    pair.server.take(&bytes, &mut records).unwrap();
    let window = Begin { incoming_window: 2, ..Begin::default() };
    pair.server.answer_begin(&records[0], &bytes, its, &window).unwrap();
    pair.back();
    let own = pair.client.link(mine, Role::Sender, mode, "l").unwrap();
    pair.client.link_attach(mine, &Attach::sender("l", "q"), 0, 0).unwrap();
    let wanted = pair.there()[0].record;
    let theirs = pair.server.link_on(its, wanted.input, Role::Receiver, mode, "marked l").unwrap();
    let attach = Attach::receiver("l", "q");
    assert_eq!(pair.server.link_attach(its, &attach, 1, 9), Err(Error::NoLink));
    assert_eq!(pair.server.link_attach_under(its, "marked l", &attach, 1, 9), Ok(theirs));
    let event = pair.server.link_wanted(&wanted, theirs).unwrap();
    assert_eq!(pair.server.link_respond(&event, 0), Ok(true));
    pair.back();
    for number in 0..3 {
        let flags = flag::TAGGED;
        let head = TransferHead { session: mine, link: own, payload: 5, flags, tag_size: 1, ..TransferHead::default() };
        assert_eq!(pair.client.link_send(&head, b"thello", 0), Ok(Told { number, given: None }));
    }
    assert_eq!(pair.client.link_detach(mine, own, true, None), Err(Error::HeldBack));
    assert_eq!(pair.client.link_due(mine), Ok(None));
    assert_eq!(pair.there().len(), 2);
    pair.back();
    let due = pair.client.link_due(mine).unwrap().unwrap();
    assert_eq!((due.kind(), due.link, pair.client.link_due(mine)), (EventKind::Due, own, Ok(None)));
    assert_eq!(pair.client.link_respond(&due, 0), Ok(false));
    assert_eq!(pair.client.link_detach(mine, own, true, None), Ok(true));
    let ended = EventKind::Ended { end: LinkEnd::ByPeer, for_good: true };
    assert_eq!(kinds(&pair.there()), [EventKind::Part(whole(2)), ended]);
}

#[test]
fn deliveries_are_rejected_by_a_disposition() {
    let mut pair = Pair::new();
    let (own, _) = pair.attached(1, 2, 0);
    pair.back();
    pair.send(own, "hello", 0).unwrap();
    pair.there();
    let rejected = Disposition { role: Role::Receiver, first: 0, last: 0, settled: true, outcome: Outcome::Rejected };
    assert_eq!(pair.server.link_dispose(SERVER, &rejected), Ok(true));
    assert_eq!(pair.server.link_dispose(SERVER, &Begin::default()), Err(Error::BadArgument));
    let came = pair.back();
    assert_eq!(kinds(&came), [EventKind::Settled { role: Role::Sender, first: 0, last: 0, by_peer: true }]);
    assert_eq!(came[0].record.outcome, 2);
    let settled = pair.client.link_settled(CLIENT, Role::Sender, 0, 0).unwrap().unwrap();
    assert_eq!((settled.given, settled.link), (70, own));
}
