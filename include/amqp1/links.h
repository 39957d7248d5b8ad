/* Links with credit, over an engine: senders and receivers, settlement, and what a record is to them. For amqp1.h.

   Each session has links of its own (AMQP 1.0 part 2, sections 2.6 and 2.7). A program attaches them (amqp1_sender,
   amqp1_receiver), tells every record that amqp1_take wrote to them (amqp1_link_event), once and in order, and has
   answered what they owe for it (amqp1_link_respond). What it sends goes by amqp1_link_send: it is refused where there
   is no credit. The calls below never pass the credit that the peer gave, nor let the peer pass what was granted; each
   unsettled delivery is given back once, with the number that was given with it. Of a link that is attached here the
   program asks for no flow, transfer, disposition or detach by the calls that know nothing of links.

   Where the peer's session window is used up, the session holds transfers back (section 2.5.6). A Detach of a link, or
   its answer to a drain, does not overtake these: it is answered AMQP1_HELD_BACK, and amqp1_link_due tells when it may
   be asked for again. A disposition does not wait: it is for deliveries that the peer has.

   A Detach that is asked for before the peer's Attach has come is answered AMQP1_HELD_BACK too: AMQP1_EVENT_ATTACHED
   tells that it may be asked for again.

   Beside its link, the session may keep a record of an unsettled delivery, of some 120 bytes. It goes where either side
   settles or aborts the delivery, and with amqp1_link_respond and amqp1_link_left: so respond is called for each event.

       amqp1_event event;
       amqp1_sender(&engine, 0, "out", "queue", &link);             -- in a session that has begun
       for each record: if (amqp1_link_follow(&engine, record, &event) != AMQP1_DONE) ..
       if (event.kind == AMQP1_EVENT_FLOW && event.credit)
           amqp1_link_send(&engine, &head, bytes, 4 + payload, 70, &told);
       if (event.kind == AMQP1_EVENT_SETTLED)
           while (amqp1_link_settled_of(&engine, &event, &delivery) == AMQP1_DONE) .. */
#ifndef AMQP1_LINKS_H
#define AMQP1_LINKS_H

#if defined(__cplusplus) && defined(__GNUC__)
#pragma GCC system_header
#endif

#include "attach.h"
#include "calls.h"

#ifdef __cplusplus
extern "C" {
#endif

/* What a record is to the links of its session. An event of a kind that is not named here is of a later version: pass
   over it. */
enum amqp1_event_kind {
    AMQP1_EVENT_NOTHING = 0,     /* it says nothing of them */
    AMQP1_EVENT_ATTACHED = 1,    /* the peer's Attach has come: `detail` says where the link stands, an amqp1_life */
    AMQP1_EVENT_FLOW = 2,        /* a flow has come, to either end: `credit` is the link's; of what a receiver has
                                    granted, `detail` were used up undelivered */
    AMQP1_EVENT_PART = 3,        /* a part of a delivery has come: its payload stands where the record says */
    AMQP1_EVENT_PASSED_OVER = 4, /* a transfer on a link that is not attached has come (section 2.6.6): it is passed
                                    over */
    AMQP1_EVENT_FAULT = 5,       /* the peer did what it may not do, an amqp1_fault in `detail`: this side ends the link
                                    for it */
    AMQP1_EVENT_SETTLED = 6,     /* the deliveries from `first` to `last` are settled: amqp1_link_settled gives each of
                                    them back */
    AMQP1_EVENT_ENDED = 7,       /* the peer's Detach has come: `detail` says what it was, an amqp1_link_end */
    AMQP1_EVENT_DUE = 8          /* a call of the link was answered AMQP1_HELD_BACK, and may be made again:
                                    amqp1_link_due tells it */
};

/* What an event says besides, in amqp1_event.flags. */
enum amqp1_event_flag {
    AMQP1_EVENT_FIRST = 1,     /* a part is the first one of its delivery */
    AMQP1_EVENT_LAST = 2,      /* it is the last one: the delivery is whole */
    AMQP1_EVENT_ABORTED = 4,   /* the delivery is aborted: its payload is discarded, also this part's (section 2.7.5) */
    AMQP1_EVENT_PRESETTLED = 8, /* the delivery is settled so far: where a part of it says so, or it is aborted */
    AMQP1_EVENT_GIVEN = 16,    /* `given` is what was given with the delivery, which this part settles or aborts */
    AMQP1_EVENT_FOR_GOOD = 32, /* a Detach closes the link for good (section 2.6.6) */
    AMQP1_EVENT_RECEIVED = 64, /* the deliveries that are settled have come; else this side sent them */
    AMQP1_EVENT_BY_PEER = 128, /* the peer has settled them; else this side has, in answer to a terminal outcome */
    AMQP1_EVENT_NUMBERED = 256 /* a transfer that is passed over, or at fault, names its delivery */
};

/* Where a link stands. */
enum amqp1_life {
    AMQP1_LIFE_ATTACHING = 0, /* this side's Attach is sent, or is to be, and the peer's has not come */
    AMQP1_LIFE_REFUSED = 1,   /* the peer's has come without the terminus of its own: it refuses the link, and its
                                 Detach follows (section 2.6.3) */
    AMQP1_LIFE_ATTACHED = 2,  /* both have attached */
    AMQP1_LIFE_DETACHING = 3, /* this side's Detach is sent, or is to be, and the peer's has not come */
    AMQP1_LIFE_DETACHED = 4   /* the peer's Detach has come */
};

/* What a Detach of the peer's was. */
enum amqp1_link_end {
    AMQP1_END_REFUSED = 0,  /* the peer refuses the link, and says why */
    AMQP1_END_BY_PEER = 1,  /* the peer detaches */
    AMQP1_END_ANSWERED = 2, /* it answers this side's Detach */
    AMQP1_END_STRAY = 3     /* the link was detached before */
};

/* What a peer did that it may not do. The condition of the Detach for it is in brackets (sections 2.8.15 and
   2.8.18). */
enum amqp1_fault {
    AMQP1_FAULT_OVER_CREDIT = 1,      /* it began a delivery where the credit was 0
                                         [amqp:link:transfer-limit-exceeded] */
    AMQP1_FAULT_COUNT_PAST_LIMIT = 2, /* its flow says a count past all that was granted [amqp:invalid-field] */
    AMQP1_FAULT_NONE_UNDER_WAY = 3,   /* a part goes on with a delivery, and none is under way [amqp:invalid-field] */
    AMQP1_FAULT_NO_NUMBER = 4,        /* a first part has no number [amqp:invalid-field] */
    AMQP1_FAULT_NO_TAG = 5,           /* a first part has no tag [amqp:invalid-field] */
    AMQP1_FAULT_OTHER_DELIVERY = 6,   /* a part of another delivery than the one under way [amqp:invalid-field] */
    AMQP1_FAULT_OTHER_FORMAT = 7,     /* a part with another format than the first one of its delivery
                                         [amqp:invalid-field] */
    AMQP1_FAULT_TOO_LARGE = 8         /* the delivery has more bytes than this side's max-message-size
                                         [amqp:link:message-size-exceeded] */
};

/* For what a flow of a link is sent. */
enum amqp1_wish {
    AMQP1_WISH_GRANT = 0,  /* a receiver grants so much credit */
    AMQP1_WISH_DRAIN = 1,  /* a receiver has its sender use the credit up */
    AMQP1_WISH_RENEW = 2,  /* a receiver renews its credit, where its rule says so */
    AMQP1_WISH_ANSWER = 3  /* either side answers what the peer asked for; a sender has so many messages ready */
};

/* What a record is to the links of its session: 48 bytes without padding. A field of which nothing is said is 0. */
typedef struct amqp1_event {
    uint64_t given;   /* of a part with AMQP1_EVENT_GIVEN: what was given with its delivery */
    uint64_t size;    /* of a part: how many bytes the delivery has so far, this part's too */
    uint32_t session; /* the session */
    uint32_t kind;    /* an amqp1_event_kind */
    uint32_t link;    /* the link, by this side's handle. AMQP1_NONE where it is of none, as where deliveries are
                         settled */
    uint32_t first;   /* of a part, and with AMQP1_EVENT_NUMBERED, the number of its delivery; of what is settled, the
                         first one */
    uint32_t last;    /* the same; of what is settled, the last one */
    uint32_t detail;  /* what is said above */
    uint32_t credit;  /* the link's after the event: so many deliveries may be begun, by this side or by the peer, while
                         it is attached */
    uint32_t flags;   /* those of amqp1_event_flag */
} amqp1_event;

/* What became of a transfer on a link: 24 bytes without padding. */
typedef struct amqp1_told {
    uint64_t given;     /* what was given with its delivery, where `has_given` is 1 */
    uint32_t number;    /* the number of its delivery, where it was accepted. Else 0 */
    uint32_t refusal;   /* why it was refused, an amqp1_why; 0 where it was not */
    uint32_t has_given; /* 1 where the transfer settles or aborts a delivery that was unsettled before */
    uint32_t reserved;  /* 0 */
} amqp1_told;

/* A delivery that was unsettled: 16 bytes without padding. */
typedef struct amqp1_unsettled {
    uint64_t given;  /* what was given with it */
    uint32_t number; /* its number */
    uint32_t link;   /* its link, by this side's handle */
} amqp1_unsettled;

/* Why a link does not send, in amqp1_told.refusal, beside those of amqp1_why. amqp1_refusal_text has the names. */
enum amqp1_link_why {
    AMQP1_WHY_LINK_NO_SENDER = 111,      /* no sending end of the session has the handle */
    AMQP1_WHY_LINK_NOT_ATTACHED = 112,   /* the link is not attached on both sides */
    AMQP1_WHY_LINK_TOO_LARGE = 113,      /* the delivery would have more bytes than the receiver's max-message-size */
    AMQP1_WHY_LINK_NONE_UNDER_WAY = 114, /* no delivery is under way that could be aborted */
    AMQP1_WHY_LINK_NO_CREDIT = 115,      /* the credit is 0: no delivery may be begun */
    AMQP1_WHY_LINK_NOT_NEXT = 116        /* the delivery's number does not lie after each one that is unsettled, by less
                                            than 2^31 */
};

/* ---- the exports of links. Where nothing lies in the place the answer is AMQP1_NO_ENGINE, and nothing is written. */

/* Attaches a link: an Attach is to be sent, and the link has its end from then on. `attach` is PERF of it: its role
   says which end that is; its handle is of no matter, since it gets the one that amqp1_link, or amqp1_link_on, has
   allotted to `name`, or, where `name_length` is 0, to the Attach's own name. A server needs another one whose clients
   give one name to a sender and a receiver: it marks the names. A sender's initial-delivery-count is 0 where it says
   none. A receiver renews its credit up to `high`, where fewer than `low` are left; with a `low` or a `high` of 0 never
   by itself. Its max-message-size is held against what comes. The handle goes to `link`. (Section 2.6.3.)

   DONE. BAD_ARGUMENT: the bytes are no Attach, or the name is no UTF-8. NO_LINK: no handle is allotted to the name.
   IN_USE: its handle has an end: amqp1_link_remove takes it away. NO_MEMORY: nothing changed, ask again. REFUSED: the
   Attach was, by a name that amqp1_refusal tells. */
int32_t amqp1_link_attach(amqp1 *place, uint32_t session, const uint8_t *attach, size_t attach_length,
                          const uint8_t *name, size_t name_length, uint32_t low, uint32_t high, uint32_t *link);

/* Tells the peer's Attach that came first, as the record of AMQP1_KIND_ATTACH_WANTED, to the link that answers it,
   which amqp1_link_attach has attached under this handle. DONE, and `event` says what it is to the link,
   AMQP1_EVENT_NOTHING where no end has the handle. NO_MEMORY: tell it again. */
int32_t amqp1_link_wanted(amqp1 *place, const amqp1_record *record, uint32_t link, amqp1_event *event);

/* Tells a record of amqp1_take to the links of its session. Every record is told once, in order. `given` is kept with a
   delivery that begins by it and is unsettled, and given back with it. DONE, and `event` says what it is to them.
   NO_MEMORY: nothing changed, tell it again. NOT_NEXT: the delivery's number does not lie after each one that is
   unsettled, by less than 2^31 (section 2.8.10): nothing changed. */
int32_t amqp1_link_event(amqp1 *place, const amqp1_record *record, uint64_t given, amqp1_event *event);

/* Tells a link of the session of which a call was answered HELD_BACK, once all that had been sent in the session by
   then has gone out: `event` is of AMQP1_EVENT_DUE. Called after each record until it answers NOTHING, it tells each
   such link once, in the order of the calls. DONE. */
int32_t amqp1_link_due(amqp1 *place, uint32_t session, amqp1_event *event);

/* Sends what a link owes for an event, if it owes anything: a flow, where credit is to be renewed or the peer asked for
   one; a Detach, in answer to the peer's, or for a fault. `available` is how many messages are ready to be sent on the
   link. Of deliveries that are settled, but not by the peer's disposition, and of those that are passed over, the
   session lets its records go. DONE; NOTHING where it owes nothing; HELD_BACK: it is owed still, and AMQP1_EVENT_DUE
   asks for it again; NO_MEMORY: ask again; REFUSED: by a name that amqp1_refusal tells. */
int32_t amqp1_link_respond(amqp1 *place, const amqp1_event *event, uint32_t available);

/* Sends a flow of a link (sections 2.6.7 and 2.7.4) for this wish, an amqp1_wish: GRANT of `number` credit, DRAIN,
   RENEW, or ANSWER with `number` messages ready. DONE; NOTHING where none is wanted: no end has the handle, it is not
   attached, it is a sender's and the wish a receiver's, no credit is to be renewed, or nothing to be answered.
   BAD_ARGUMENT: no such wish. HELD_BACK, of a sender: transfers of the link wait for the peer's window, which it would
   count as used up. NO_MEMORY, REFUSED. The link stands as before then. */
int32_t amqp1_link_flow(amqp1 *place, uint32_t session, uint32_t link, uint32_t wish, uint32_t number);

/* Sends a Detach of a link (section 2.6.5), which ends it for good where `closed` is not 0 (section 2.6.6), with an
   error (amqp1_write_error), or with none where `error_length` is 0. DONE; NOTHING where no end has the handle, or this
   side's was sent before. BAD_ARGUMENT: the bytes are no error. HELD_BACK: transfers of the link wait for the peer's
   window, and would come on a link that is detached; or the peer's Attach is still to come. NO_MEMORY; REFUSED, as
   TooLarge where the error does not fit the peer's frame: nothing is sent. The link stands as before then. */
int32_t amqp1_link_detach(amqp1 *place, uint32_t session, uint32_t link, uint32_t closed, const uint8_t *error,
    size_t error_length);

/* Sends a transfer on the link of `head` (sections 2.6.7 and 2.6.14): it begins a delivery where none is under way on
   the link, and takes one of its credit, or goes on with that one. AMQP1_FLAG_NUMBERED is the link's to say. Its tag
   and payload stand in `bytes`. A longer payload is cut by amqp1_cut. `given` is kept with an unsettled delivery from
   its first transfer on, and given back with it. `told` says what became of it.

   DONE. REFUSED: `refusal` says why; nothing changed. NO_MEMORY, SHORT and OVER as of amqp1_send: nothing changed. */
int32_t amqp1_link_send(amqp1 *place, const amqp1_head *head, const uint8_t *bytes, size_t bytes_length, uint64_t given,
    amqp1_told *told);

/* Sends a disposition of a session's deliveries from the first number to the last (sections 2.6.12 and 2.7.6). `role`
   is this side's: AMQP1_RECEIVER means those that have come. `outcome` is AMQP1_NO_STATE, ACCEPTED, RELEASED or
   MODIFIED. Where it settles them the session lets them go, and amqp1_link_settled gives each one back. DONE; NOTHING
   where the session has no links; BAD_ARGUMENT: no such role or outcome; NO_MEMORY: ask again; REFUSED. */
int32_t amqp1_link_settle(amqp1 *place, uint32_t session, uint32_t role, uint32_t first, uint32_t last,
    uint32_t settled, uint8_t outcome);

/* The same by PERF of a Disposition, of any state: rejected with an error, modified with its fields (part 3, sections
   3.4.2 and 3.4.5). DONE; NOTHING where the session has no links; BAD_ARGUMENT: the bytes are no Disposition;
   NO_MEMORY: ask again; REFUSED. */
int32_t amqp1_link_dispose(amqp1 *place, uint32_t session, const uint8_t *disposition, size_t disposition_length);

/* Takes out the oldest unsettled delivery of a range, which is settled; called until it answers NOTHING it gives each
   one back once, in the order of their numbers. DONE, and `delivery` is it. BAD_ARGUMENT: no such role. */
int32_t amqp1_link_settled(amqp1 *place, uint32_t session, uint32_t role, uint32_t first, uint32_t last,
    amqp1_unsettled *delivery);

/* Takes out the oldest delivery that is left unsettled on a link, once the peer has detached it; called until it
   answers NOTHING it tells each one once, so that a program can send it again (section 2.6.13). The session lets its
   record go. DONE, and `delivery` is it. NO_MEMORY: nothing changed, ask again. */
int32_t amqp1_link_left(amqp1 *place, uint32_t session, uint32_t link, amqp1_unsettled *delivery);

/* The same of all links of a session that is over: of the deliveries that this side sent, or, as AMQP1_RECEIVER, of
   those that have come. */
int32_t amqp1_link_left_of(amqp1 *place, uint32_t session, uint32_t role, amqp1_unsettled *delivery);

/* A link's handle has no end any more: both sides have detached, and nothing is unsettled on it. DONE. NO_LINK: no end
   has the handle. NOT_DETACHED: the peer's Detach has not come, or this side's is still to be sent. UNSETTLED:
   amqp1_link_left tells what is. */
int32_t amqp1_link_remove(amqp1 *place, uint32_t session, uint32_t link);

/* Lets all links of a session go, with what is unsettled on them: for one that is over, behind amqp1_link_left_of.
   DONE; NOTHING where it has none. The links of a session that is not let go so stay until the engine is freed. */
int32_t amqp1_link_forget(amqp1 *place, uint32_t session);

/* The credit of a link: how many deliveries may be begun on it, by this side or by the peer, while it is attached. 0
   where there is no such link. DONE. */
int32_t amqp1_link_credit(amqp1 *place, uint32_t session, uint32_t link, uint32_t *credit);

/* ---- made of these */

/* Whether nothing has to be asked for again at once after this answer: where the connection is over, nothing is owed
   any more. For use within this header. */
AMQP1_FUNCTION int amqp1_link_went(int32_t status)
{
    return status == AMQP1_DONE || status == AMQP1_NOTHING || status == AMQP1_HELD_BACK || status == AMQP1_OVER;
}

/* What links of the session owe that is due is sent: see amqp1_link_due. DONE, or the first answer that is another one
   but NOTHING, HELD_BACK and OVER: `event` is that of the link then, and what it owes may be asked for again by
   amqp1_link_respond. */
AMQP1_FUNCTION int32_t amqp1_link_pay(amqp1 *place, uint32_t session, amqp1_event *event)
{
    amqp1_event due;
    while (amqp1_link_due(place, session, &due) == AMQP1_DONE) {
        int32_t status = amqp1_link_respond(place, &due, 0);
        if (!amqp1_link_went(status)) {
            *event = due;
            return status;
        }
    }
    return AMQP1_DONE;
}

/* A record is told to the links of its session, and what they owe for it, and what is due, is sent. DONE, also where
   the peer has closed the connection behind the record, since nothing is owed then; or the first answer that is another
   one but NOTHING, HELD_BACK and OVER. Where that is no DONE and the event is AMQP1_EVENT_NOTHING, the record was not
   told: it may be told again. Else it was told, and what is owed for the event may be asked for again by
   amqp1_link_respond. */
AMQP1_FUNCTION int32_t amqp1_link_follow(amqp1 *place, const amqp1_record *record, amqp1_event *event)
{
    int32_t status;
    memset(event, 0, sizeof *event);
    status = amqp1_link_event(place, record, 0, event);
    if (status == AMQP1_DONE)
        status = amqp1_link_respond(place, event, 0);
    return amqp1_link_went(status) ? amqp1_link_pay(place, record->session, event) : status;
}

/* The next delivery of those that an event of AMQP1_EVENT_SETTLED tells: see amqp1_link_settled. */
AMQP1_FUNCTION int32_t amqp1_link_settled_of(amqp1 *place, const amqp1_event *event, amqp1_unsettled *delivery)
{
    uint32_t role = event->flags & AMQP1_EVENT_RECEIVED ? AMQP1_RECEIVER : AMQP1_SENDER;
    return amqp1_link_settled(place, event->session, role, event->first, event->last, delivery);
}

/* A handle is allotted to a link, unless one is already, as by a call before that memory was refused to; and it is
   attached, between these termini. For use within this header. */
AMQP1_FUNCTION int32_t amqp1_link_to(amqp1 *place, uint32_t session, const char *name, enum amqp1_role role,
                                     const amqp1_terminus *source, const amqp1_terminus *target, uint32_t low,
                                     uint32_t high, uint32_t *link)
{
    uint8_t attach[AMQP1_ON_STACK];
    size_t length;
    int32_t status = amqp1_write_attach_of(attach, sizeof attach, &length, name, 0, role, 2, AMQP1_FIRST, source,
                                           target, 0);
    if (status == AMQP1_DONE)
        status = amqp1_link_attach(place, session, attach, length, attach, 0, low, high, link);
    if (status != AMQP1_NO_LINK)
        return status;
    status = amqp1_link(place, session, role, AMQP1_FIRST, name, link);
    if (status == AMQP1_DONE)
        status = amqp1_link_attach(place, session, attach, length, attach, 0, low, high, link);
    return status;
}

/* A sender to a target in a session that has begun, as to a durable one: its deliveries are settled one by one, as each
   says (snd-settle-mode mixed, section 2.8.2). Its source has its name for an address. The handle goes to `link`.
   BAD_ARGUMENT: the target has no form. TOO_SMALL: the texts do not fit AMQP1_ON_STACK; REFUSED by the name that
   amqp1_link has; and as of amqp1_link_attach. Where memory is refused ask again. */
AMQP1_FUNCTION int32_t amqp1_sender_to(amqp1 *place, uint32_t session, const char *name, const amqp1_terminus *target,
                                       uint32_t *link)
{
    amqp1_terminus source = amqp1_terminus_at(name);
    return amqp1_link_to(place, session, name, AMQP1_SENDER, &source, target, 0, 0, link);
}

/* The same to an address. */
AMQP1_FUNCTION int32_t amqp1_sender(amqp1 *place, uint32_t session, const char *name, const char *address,
    uint32_t *link)
{
    amqp1_terminus target = amqp1_terminus_at(address);
    return amqp1_sender_to(place, session, name, &target, link);
}

/* A receiver from a source in a session that has begun, as from one whose node keeps its messages. Where fewer than
   half of `high` are left, at least 1, it renews its credit up to `high`; none by itself where that is 0. Answers as
   amqp1_sender_to. */
AMQP1_FUNCTION int32_t amqp1_receiver_from(amqp1 *place, uint32_t session, const char *name,
                                           const amqp1_terminus *source, uint32_t high, uint32_t *link)
{
    amqp1_terminus target = amqp1_terminus_at(name);
    return amqp1_link_to(place, session, name, AMQP1_RECEIVER, source, &target, high - high / 2, high, link);
}

/* The same from an address. */
AMQP1_FUNCTION int32_t amqp1_receiver(amqp1 *place, uint32_t session, const char *name, const char *address,
    uint32_t high, uint32_t *link)
{
    amqp1_terminus source = amqp1_terminus_at(address);
    return amqp1_receiver_from(place, session, name, &source, high, link);
}

/* A receiver grants so much credit, whatever it granted before; see amqp1_link_flow. Where this is less than before,
   deliveries that are on the way may come past it: AMQP1_FAULT_OVER_CREDIT. */
AMQP1_FUNCTION int32_t amqp1_grant(amqp1 *place, uint32_t session, uint32_t link, uint32_t credit)
{
    return amqp1_link_flow(place, session, link, AMQP1_WISH_GRANT, credit);
}

/* A receiver has its sender use the credit up; see amqp1_link_flow. Until it grants again nothing is renewed. */
AMQP1_FUNCTION int32_t amqp1_drain(amqp1 *place, uint32_t session, uint32_t link)
{
    return amqp1_link_flow(place, session, link, AMQP1_WISH_DRAIN, 0);
}

/* The delivery of a part that has come is accepted and settled; see amqp1_link_settle. What was given with it is let
   go. */
AMQP1_FUNCTION int32_t amqp1_link_accept(amqp1 *place, const amqp1_event *event)
{
    amqp1_unsettled delivery;
    int32_t status = amqp1_link_settle(place, event->session, AMQP1_RECEIVER, event->first, event->last, 1,
        AMQP1_ACCEPTED);
    if (status == AMQP1_DONE)
        while (amqp1_link_settled(place, event->session, AMQP1_RECEIVER, event->first, event->last,
            &delivery) == AMQP1_DONE)
            ;
    return status;
}

AMQP1_IS_SO(event_size, sizeof(amqp1_event) == 48);
AMQP1_IS_SO(event_kind, offsetof(amqp1_event, kind) == 20);
AMQP1_IS_SO(event_flags, offsetof(amqp1_event, flags) == 44);
AMQP1_IS_SO(told_size, sizeof(amqp1_told) == 24);
AMQP1_IS_SO(unsettled_size, sizeof(amqp1_unsettled) == 16);

#ifdef __cplusplus
}
#endif
#endif
