/* Records of received frames, heads of transfers, statuses, and the place in which an engine lies. For amqp1.h. */
#ifndef AMQP1_RECORDS_H
#define AMQP1_RECORDS_H

#if defined(__cplusplus) && defined(__GNUC__)
#pragma GCC system_header
#endif

#include <stddef.h>
#include <stdint.h>

#if !defined(__x86_64__) && !defined(_M_X64)
#error "libamqp1 is built for x86-64 alone"
#endif

/* The functions of these headers stand in each file that includes them. The library has them under the same names too,
   for a program that opens it while it runs, or that is in another language: library.c makes those. */
#ifndef AMQP1_FUNCTION
#define AMQP1_FUNCTION static inline
#endif

/* What a call answers. A status that is not named here is one that a later version may answer: take it as
   AMQP1_REFUSED. */
enum amqp1_status {
    AMQP1_DONE = 0,         /* done */
    AMQP1_REFUSED = 1,      /* of an operation: refused by name, which amqp1_refusal tells. The engine goes on */
    AMQP1_NO_MEMORY = 2,    /* memory was refused. The request, the frame or the transfer was not taken: ask again */
    AMQP1_TOO_SMALL = 3,    /* the output is too small: nothing changed, and `written` says how much is needed */
    AMQP1_BAD_ARGUMENT = 4, /* no such operation, or an input that is none of its: nothing changed. Of amqp1_new also
                               where an engine lies there */
    AMQP1_NO_ENGINE = 5,    /* nothing lies in the place: nothing changed, and nothing is written */
    AMQP1_FULL = 7,         /* of amqp1_take and amqp1_send: something is left, and all places are written. Give the
                               rest again */
    AMQP1_BAD_SIZE = 8,     /* of amqp1_take: a size that no frame may have. A Close for amqp:connection:framing-error
                               waits to be sent */
    AMQP1_SHORT = 9,        /* of amqp1_send: the bytes end before those of the next transfer do */
    AMQP1_AGAIN = 10,       /* of amqp1_take: what was told last is to be answered, or what follows is of another layer.
                               Then give the rest again */
    AMQP1_WAITS = 11,       /* of amqp1_take: amqp1_login, amqp1_challenge or amqp1_respond comes first */
    AMQP1_OVER = 12,        /* of amqp1_take and amqp1_send: the connection is over, and nothing is taken any more */
    AMQP1_TOO_LARGE = 13,   /* of amqp1_take: the SASL frame to send would have more than 512 bytes (part 5, section
                               5.3.1) */
    AMQP1_NOTHING = 14,     /* of amqp1_answer: the record asks for no answer, or for none that was named,
        or none is due. Nothing changed.
                              Of the calls of links: there is nothing to send, or to tell */
    AMQP1_LOST = 15,        /* of an answer to a Begin: memory was refused once the engine had begun. Its number is
                               used, and the peer has no answer */
    AMQP1_BROKEN = 16,      /* of an answer to a Begin: it waits to be sent, and memory was refused for the peer's.
                               Close the connection */
    AMQP1_NOT_RELEASED = 17, /* of an answer to an End: the session's channel was not given back; amqp1_refusal tells
                                why */
    AMQP1_NOT_FORGOTTEN = 18, /* of an answer to an End: the channel was given back, and the session not let go;
                                 amqp1_refusal tells why */
    AMQP1_NOT_DETACHED = 19,  /* of amqp1_link_remove: the peer's Detach has not come, or this side's is still to be
                                 sent */
    AMQP1_UNSETTLED = 20,     /* of amqp1_link_remove: deliveries of the link are unsettled */
    AMQP1_NOT_NEXT = 21,      /* of amqp1_link_event: a delivery's number does not lie after each one that is unsettled,
                                 by less than 2^31 */
    AMQP1_NO_LINK = 22,       /* of amqp1_link_attach: no handle is allotted to the name; of amqp1_link_remove: no end
                                 has the handle */
    AMQP1_IN_USE = 23,        /* of amqp1_link_attach: the handle has an end already */
    AMQP1_HELD_BACK = 24      /* of a flow or a Detach of a link: transfers of it wait for the peer's window,
        and amqp1_link_due tells when to ask again;
                                 or of a Detach the peer's Attach has not come: its record tells when */
};

/* What a frame was. A record of a kind that is not named here is of a later version: pass over it. */
enum amqp1_kind {
    AMQP1_KIND_OPENED = 1,        /* an Open (AMQP 1.0 part 2, section 2.7.1) */
    AMQP1_KIND_BEGUN = 2,         /* the Begin that answers one of this side's (section 2.7.2) */
    AMQP1_KIND_ATTACHED = 3,      /* an Attach (section 2.7.3) */
    AMQP1_KIND_ATTACH_WANTED = 4, /* an Attach whose name no link of this side waits for. It was refused: see
                                     amqp1_link_on */
    AMQP1_KIND_FLOW = 5,          /* a Flow (section 2.7.4) */
    AMQP1_KIND_TRANSFER = 6,      /* a Transfer (section 2.7.5) */
    AMQP1_KIND_DISPOSITION = 7,   /* a Disposition (section 2.7.6) */
    AMQP1_KIND_DETACHED = 8,      /* a Detach (section 2.7.7) */
    AMQP1_KIND_ENDED = 9,         /* an End (section 2.7.8) */
    AMQP1_KIND_CLOSED = 10,       /* a Close (section 2.7.9) */
    AMQP1_KIND_REFUSED = 11,      /* a frame that was refused, or bytes that are none: `refusal` says why */
    /* a Begin that answers none, on a channel that leads to no session: the peer begins one (section 2.5.1). It was
       refused: see amqp1_answer_begin */
    AMQP1_KIND_BEGIN_WANTED = 12,
    AMQP1_KIND_SASL_HEADER = 13,  /* the peer's header of SASL (section 2.2; part 5, section 5.3.1) */
    AMQP1_KIND_AMQP_HEADER = 14,  /* the peer's header of AMQP (section 2.2): the stream is open, and frames follow */
    /* the mechanisms of a server are the payload (part 5, section 5.3.3.1), and this side's login of the number
       `first`, from 0 on, was chosen */
    AMQP1_KIND_MECHANISM_CHOSEN = 15,
    /* a client asks to be let in (part 5, section 5.3.3.2): amqp1_mechanism, amqp1_response and amqp1_host read what it
       says; answer by amqp1_login or amqp1_challenge */
    AMQP1_KIND_LOGIN_ASKED = 16,
    AMQP1_KIND_CHALLENGED = 17, /* a server's challenge is the payload (part 5, section 5.3.3.3): answer by
                                   amqp1_respond */
    AMQP1_KIND_RESPONDED = 18,  /* a client's response is the payload (part 5, section 5.3.3.4): answer by amqp1_login
                                   or amqp1_challenge */
    AMQP1_KIND_LOGGED_IN = 19,  /* a server's outcome `ok` (part 5, section 5.3.3.5): its additional data are the
                                   payload, if there are any */
    AMQP1_KIND_NOT_OPENED = 20  /* the stream is not opened, and is over: `refusal` says why */
};

/* What a frame says besides, in amqp1_record.flags, and what a transfer is to say, in amqp1_head.flags. */
enum amqp1_flag {
    AMQP1_FLAG_NUMBERED = 1,     /* a transfer gives the number of its delivery: it is the first one */
    AMQP1_FLAG_SETTLED = 2,      /* a transfer or a disposition is settled */
    AMQP1_FLAG_MORE = 4,         /* more transfers of the delivery follow */
    AMQP1_FLAG_ABORTED = 8,      /* the delivery is aborted */
    AMQP1_FLAG_RECEIVER = 16,    /* the peer's role in an attach or a disposition is that of the receiver */
    AMQP1_FLAG_STATED = 32,      /* a transfer or a disposition has a state: `outcome` says which */
    AMQP1_FLAG_DRAIN = 64,       /* a flow asks that the credit be used up */
    AMQP1_FLAG_ECHO = 128,       /* a flow asks for a flow in answer */
    AMQP1_FLAG_ERROR = 256,      /* a detach, an End or a Close names an error */
    AMQP1_FLAG_FOR_GOOD = 512,   /* a detach closes the link for good */
    AMQP1_FLAG_CREDITED = 1024,  /* a flow gives a credit, in `credit` */
    AMQP1_FLAG_COUNTED = 2048,   /* a flow gives the delivery count, and an attach its initial one, in `count` */
    AMQP1_FLAG_LINKED = 4096,    /* the frame names a link: by the handle in `input` */
    AMQP1_FLAG_FORMATTED = 8192, /* a transfer gives the format of its message, in `format` */
    AMQP1_FLAG_TAGGED = 16384,   /* a transfer gives the tag of its delivery, of `tag_size` bytes */
    AMQP1_FLAG_AVAILABLE = 32768 /* a flow says how many messages are ready, in `available` */
};

/* The answers that amqp1_answer may give: a program names those that it does not give itself. No flag changes its
   meaning. */
enum amqp1_answers {
    AMQP1_ANSWER_BEGINS = 1,   /* a Begin by which the peer begins a session, of AMQP1_KIND_BEGIN_WANTED */
    AMQP1_ANSWER_ENDS = 2,     /* an End of the peer's, of AMQP1_KIND_ENDED; its session is let go */
    AMQP1_ANSWER_CLOSES = 4,   /* a Close of the peer's, of AMQP1_KIND_CLOSED */
    AMQP1_ANSWER_REFUSALS = 8, /* a frame that was refused, of AMQP1_KIND_REFUSED */
    AMQP1_ANSWER_ALL = 15      /* all of them */
};

/* Which side of SASL a stream is on (part 5, section 5.3). */
enum amqp1_side {
    AMQP1_WITHOUT_SASL = 0,
    AMQP1_SASL_CLIENT = 1,
    AMQP1_SASL_SERVER = 2
};

/* The outcome of a login (part 5, section 5.3.3.6). */
enum amqp1_login_code {
    AMQP1_LOGIN_OK = 0,       /* the client is let in */
    AMQP1_LOGIN_AUTH = 1,     /* what it says does not let it in */
    AMQP1_LOGIN_SYS = 2,      /* the server fails */
    AMQP1_LOGIN_SYS_PERM = 3, /* it fails, and will go on to fail */
    AMQP1_LOGIN_SYS_TEMP = 4  /* it fails, and may be asked again */
};

/* What was due at a tick, and is done (part 2, section 2.4.5). */
enum amqp1_due {
    AMQP1_DUE_NOTHING = 0,
    AMQP1_DUE_BEAT = 1,         /* an empty frame waits to be sent, unless something else does */
    AMQP1_DUE_OPENING_LATE = 2, /* headers, SASL and both Opens have not passed within the limit: the connection is
                                   over */
    AMQP1_DUE_PEER_SILENT = 3   /* nothing came for as long as this side's idle-time-out: a Close waits to be sent, and
                                   the connection is over */
};

/* The state of deliveries (part 3, section 3.4). */
enum amqp1_outcome {
    AMQP1_NO_STATE = 0,
    AMQP1_ACCEPTED = 1,
    AMQP1_REJECTED = 2,
    AMQP1_RELEASED = 3,
    AMQP1_MODIFIED = 4,
    AMQP1_RECEIVED = 5,
    AMQP1_OTHER_STATE = 6 /* any other one */
};

/* Why a frame or a transfer was refused, in amqp1_record.refusal, amqp1_sent.refusal and amqp1_parts.refusal; 0 where
   it was not. amqp1_refusal_text has the names, and the condition by which the peer is answered. No number changes its
   meaning; one that is not named here is of a later version. */
enum amqp1_why {
    AMQP1_WHY_OUTPUT_WAITING = 1,
    AMQP1_WHY_NO_SESSION = 2,
    AMQP1_WHY_SESSION_IN_USE = 3,
    AMQP1_WHY_OUT_OF_MEMORY = 4,
    /* of bytes that are no frame, and of frames that are too long to send */
    AMQP1_WHY_FRAME_IO = 11,
    AMQP1_WHY_FRAME_DECODE_ERROR = 12,
    AMQP1_WHY_FRAME_NOT_IMPLEMENTED = 13,
    AMQP1_WHY_FRAME_TOO_LARGE = 14,
    AMQP1_WHY_FRAME_OUT_OF_MEMORY = 15,
    /* of an Open and a Close */
    AMQP1_WHY_CONNECTION_STATE_ILLEGAL_STATE = 21,
    AMQP1_WHY_CONNECTION_STATE_REMOTE_CLOSED = 22,
    AMQP1_WHY_CONNECTION_STATE_REMOTE_CLOSED_WITH_ERROR = 23,
    AMQP1_WHY_CONNECTION_STATE_TRANSPORT_ERROR = 24,
    AMQP1_WHY_CONNECTION_STATE_OUT_OF_MEMORY = 25,
    /* of a frame that the connection does not pass on */
    AMQP1_WHY_CONNECTION_TRANSPORT_ERROR = 31,
    AMQP1_WHY_CONNECTION_ILLEGAL_STATE = 32,
    AMQP1_WHY_CONNECTION_NOT_IMPLEMENTED = 33, /* a Begin that answers none: AMQP1_WHY_BEGIN_WANTED */
    AMQP1_WHY_CONNECTION_NOT_FOUND = 34,
    AMQP1_WHY_CONNECTION_REMOTE_CLOSED = 35,
    AMQP1_WHY_CONNECTION_REMOTE_CLOSED_WITH_ERROR = 36,
    AMQP1_WHY_CONNECTION_OUT_OF_MEMORY = 37,
    /* of a session that is to begin */
    AMQP1_WHY_ALLOC_SESSION_CONNECTION_NOT_OPENED = 41,
    AMQP1_WHY_ALLOC_SESSION_CONNECTION_STOPPED = 42,
    AMQP1_WHY_ALLOC_SESSION_CHANNEL_MAX_REACHED = 43,
    AMQP1_WHY_ALLOC_SESSION_OUT_OF_MEMORY = 44,
    /* of a Begin and an End */
    AMQP1_WHY_SESSION_STATE_ILLEGAL_STATE = 51,
    AMQP1_WHY_SESSION_STATE_CONNECTION_STOPPED = 52,
    AMQP1_WHY_SESSION_STATE_REMOTE_ENDED = 53,
    AMQP1_WHY_SESSION_STATE_REMOTE_ENDED_WITH_ERROR = 54,
    AMQP1_WHY_SESSION_STATE_OUT_OF_MEMORY = 55,
    /* of a frame of a link */
    AMQP1_WHY_SESSION_UNATTACHED_HANDLE = 61,
    AMQP1_WHY_SESSION_LINK_NAME_NOT_FOUND = 62, /* an Attach whose name no link waits for, of
                                                   AMQP1_KIND_ATTACH_WANTED */
    AMQP1_WHY_SESSION_HANDLE_IN_USE = 63,
    AMQP1_WHY_SESSION_ILLEGAL_STATE = 64,
    AMQP1_WHY_SESSION_CONNECTION_STOPPED = 65,
    AMQP1_WHY_SESSION_TRANSFER_TO_SENDER = 66,
    AMQP1_WHY_SESSION_REMOTE_ENDED = 67,
    AMQP1_WHY_SESSION_REMOTE_ENDED_WITH_ERROR = 68,
    AMQP1_WHY_SESSION_UNKNOWN_TXN_ID = 69,
    AMQP1_WHY_SESSION_OUT_OF_MEMORY = 70,
    /* of a link that is to be allotted a handle */
    AMQP1_WHY_ALLOC_LINK_SESSION_NOT_MAPPED = 81,
    AMQP1_WHY_ALLOC_LINK_SESSION_STOPPED = 82,
    AMQP1_WHY_ALLOC_LINK_DUPLICATED_NAME = 83,
    AMQP1_WHY_ALLOC_LINK_HANDLES_EXHAUSTED = 84,
    AMQP1_WHY_ALLOC_LINK_OUT_OF_MEMORY = 85,
    /* of a head in amqp1_send and amqp1_cut */
    AMQP1_WHY_PAYLOAD_TOO_LONG = 91, /* it does not fit one frame beside the transfer; of amqp1_cut: nor do parts of it
                                        fit frames */
    AMQP1_WHY_TAG_TOO_LONG = 92,     /* it has more than 32 bytes (section 2.8.7) */
    /* of a stream that is not opened, of AMQP1_KIND_NOT_OPENED */
    AMQP1_WHY_NO_MECHANISM = 101,   /* none of this side's logins is among the mechanisms of the server, which are the
                                       payload */
    AMQP1_WHY_NOT_OFFERED = 102,    /* the client chose a mechanism that was not offered: amqp1_mechanism. The outcome
                                       `auth` waits to be sent */
    AMQP1_WHY_LOGIN_REFUSED = 103,  /* the server's outcome, an amqp1_login_code in `outcome`, with its additional data
                                       in the payload */
    AMQP1_WHY_OTHER_PROTOCOL = 104, /* the header of another protocol, whose id is `first`: 0 AMQP, 2 TLS, 3 SASL */
    AMQP1_WHY_OTHER_HEADER = 105,   /* eight bytes that are no header of AMQP 1.0 */
    AMQP1_WHY_NOT_AMQP = 106,       /* bytes with which no header begins */
    AMQP1_WHY_MALFORMED_SASL = 107, /* bytes that are no SASL frame */
    AMQP1_WHY_UNEXPECTED_SASL = 108 /* a SASL frame that has no place there */
};

/* Why a Begin that answers none was refused: see amqp1_answer_begin. */
#define AMQP1_WHY_BEGIN_WANTED AMQP1_WHY_CONNECTION_NOT_IMPLEMENTED

/* No session, or no link, in a record. A handle of that number is told by AMQP1_FLAG_LINKED. */
#define AMQP1_NONE 0xffffffffu

/* What one received frame says: 96 bytes without padding. A field of which the frame says nothing is 0; session, output
   and input are AMQP1_NONE then. Places are those in the input of the call that wrote the record. What an attach says
   in `outcome`, `first`, `last`, `credit` and `available` stands below the fields. */
typedef struct amqp1_record {
    uint8_t kind;        /* an amqp1_kind */
    uint8_t outcome;     /* an amqp1_outcome */
    uint16_t flags;      /* those of amqp1_flag */
    uint32_t session;    /* the session that the frame reached */
    uint32_t output;     /* this side's handle of the link, where one is live; of an attach the one of its name. None of
                            a detach that answers */
    uint32_t input;      /* the peer's handle of the link: of all calls amqp1_link_on alone takes it */
    uint32_t first;      /* the number of the delivery; of a disposition the first one */
    uint32_t last;       /* the number of the delivery; of a disposition the last one */
    uint32_t format;     /* the format of the message */
    uint32_t count;      /* the delivery count of a flow, the initial one of an attach */
    uint32_t credit;     /* the credit of a flow */
    uint32_t available;  /* how many messages the sender of a flow has ready */
    uint32_t refusal;    /* why the frame was refused, an amqp1_why; 0 where it was not. Also 0 of an End or a Close
                            that was taken */
    uint32_t at;         /* where the performative begins: 8 bytes behind the beginning of the frame (section 2.3.1) */
    uint32_t size;       /* how many bytes it has: up to the payload, or up to the end of the frame */
    uint32_t payload_at; /* where the payload begins: at the end of the frame, where there is none */
    uint32_t payload;    /* how many bytes the payload has */
    uint16_t channel;    /* the channel of the frame */
    uint16_t tag_size;   /* how many bytes the tag has, and 65535 where it has more */
    uint8_t tag[32];     /* the tag, and zeros after it; of a longer one zeros, since that stands in the performative */
} amqp1_record;

/* Of an attach (section 2.7.3): `outcome` says which termini the peer's end has, 0 none, 1 a source, 2 a target, 3
   both; a peer that answers with no source, or no target, of its own refuses the link (section 2.6.3). The largest
   message that the peer takes has ((uint64_t)last << 32 | first) bytes, and 0 says that there is no limit. `credit` is
   its snd-settle-mode, 0 unsettled, 1 settled, 2 mixed (section 2.8.2), and `available` its rcv-settle-mode, 0 first, 1
   second (section 2.8.3): the default where the frame does not say it. So does AMQP1_KIND_ATTACH_WANTED. */

/* Of records before the stream is open (part 5, section 5.3): the payload is what is said above; of LOGIN_ASKED and
   NOT_OFFERED the name of the mechanism stands at `first`, of `last` bytes; of LOGIN_ASKED the host stands at `count`,
   of `credit` bytes. A payload or a host that is not there is at AMQP1_NONE. `at` is 0, and `size` how many bytes the
   header or the SASL frame has. */

/* What amqp1_take took. */
typedef struct amqp1_took {
    size_t taken;   /* how many bytes: a header, a SASL frame, or whole frames. The others are given again, with what
                       came since */
    size_t written; /* how many records were written */
    size_t wanted;  /* with AMQP1_DONE: how many bytes the next one of these has, those that are there counted,
        and 4 where its size is not whole.
                       Else 0 */
} amqp1_took;

/* How a stream is made: 40 bytes without padding. */
typedef struct amqp1_how {
    uint8_t key[16];   /* bytes that the peer cannot guess (getrandom, /dev/urandom). All zero: they were forgotten, and
                          it is BAD_ARGUMENT */
    uint64_t time;     /* when it begins, in milliseconds of any clock that the caller has */
    uint32_t limit;    /* how many milliseconds headers, SASL and both Opens may take. AMQP1_NONE: there is no limit */
    uint32_t side;     /* an amqp1_side */
    uint32_t host;     /* how many of the bytes are the name of the host that a client asks for. AMQP1_NONE: it asks for
                          none, or is no client */
    uint32_t reserved; /* it is not read */
} amqp1_how;

/* A login of a client, or a mechanism that a server offers: 8 bytes. */
typedef struct amqp1_login_head {
    uint32_t mechanism; /* how many bytes the name of the mechanism has */
    uint32_t response;  /* how many bytes the initial response behind it has. AMQP1_NONE: it has none, as a mechanism
                           that a server offers */
} amqp1_login_head;

/* What amqp1_tick answers: 16 bytes without padding. */
typedef struct amqp1_ticked {
    uint64_t next;     /* when the next tick is wanted, in milliseconds of the caller's clock. AMQP1_NEVER: none is */
    uint32_t due;      /* what was due, and is done: an amqp1_due */
    uint32_t reserved; /* 0 */
} amqp1_ticked;

/* No tick is wanted. */
#define AMQP1_NEVER 0xffffffffffffffffu

/* The head of one transfer (section 2.7.5), a delivery or a part of one: 20 bytes without padding. Its tag and then its
   payload stand in the bytes that go with the heads. */
typedef struct amqp1_head {
    uint32_t session;  /* the session */
    uint32_t link;     /* the link, by this side's handle: the one that amqp1_link gave, `output` in records */
    uint32_t format;   /* the format of the message, with AMQP1_FLAG_FORMATTED */
    uint32_t payload;  /* how many bytes the payload has. Where they do not fit one frame, amqp1_cut makes the heads of
                          parts */
    uint16_t flags;    /* of amqp1_flag: NUMBERED and TAGGED of the first transfer of a delivery; SETTLED, MORE,
                          ABORTED, FORMATTED */
    uint16_t tag_size; /* how many bytes stand before the payload: the tag, with AMQP1_FLAG_TAGGED, of at most 32
                          bytes */
} amqp1_head;

/* What became of a transfer: 8 bytes. */
typedef struct amqp1_sent {
    uint32_t number;  /* the number of its delivery, where it was accepted and is the first one, also while the session
                         holds it back. Else 0 */
    uint32_t refusal; /* why it was refused, an amqp1_why; 0 where it was accepted */
} amqp1_sent;

/* What amqp1_send took. */
typedef struct amqp1_went {
    size_t taken; /* how many transfers: so many heads, and so many places were written */
    size_t used;  /* how many of the bytes those have */
} amqp1_went;

/* A head that was cut: 48 bytes without padding. Where it was not cut, `part` and `rest` are both the whole head. */
typedef struct amqp1_parts {
    amqp1_head part;  /* the head of the first frame: its tag and its payload stand first in the bytes of the whole */
    amqp1_head rest;  /* the head of what is left, without a tag: its payload stands behind. It may be longer than a
                         frame again */
    uint32_t more;    /* 1 where something is left; else 0 */
    uint32_t refusal; /* why it cannot be sent, AMQP1_WHY_PAYLOAD_TOO_LONG or AMQP1_WHY_TAG_TOO_LONG; else 0 */
} amqp1_parts;

/* The place in which an engine lies, or nothing. */
typedef struct amqp1 {
    uint32_t full; /* 1 where an engine lies here, and 0 where none does */
    struct {
        void *at;
    } slot; /* the engine */
} amqp1;

/* A place in which nothing lies. */
#define AMQP1_EMPTY { 0, { 0 } }

/* The layout is that of the library: a struct that was laid out otherwise does not compile. For use within this
   header. */
#if defined(__cplusplus) && __cplusplus >= 201103L
#define AMQP1_IS_SO(name, holds) static_assert(holds, #name)
#elif defined(__STDC_VERSION__) && __STDC_VERSION__ >= 201112L
#define AMQP1_IS_SO(name, holds) _Static_assert(holds, #name)
#else
#define AMQP1_IS_SO(name, holds) typedef char amqp1_is_so_##name[(holds) ? 1 : -1]
#endif
AMQP1_IS_SO(record_size, sizeof(amqp1_record) == 96);
AMQP1_IS_SO(record_session, offsetof(amqp1_record, session) == 4);
AMQP1_IS_SO(record_first, offsetof(amqp1_record, first) == 16);
AMQP1_IS_SO(record_refusal, offsetof(amqp1_record, refusal) == 40);
AMQP1_IS_SO(record_payload, offsetof(amqp1_record, payload) == 56);
AMQP1_IS_SO(record_channel, offsetof(amqp1_record, channel) == 60);
AMQP1_IS_SO(record_tag, offsetof(amqp1_record, tag) == 64);
AMQP1_IS_SO(how_size, sizeof(amqp1_how) == 40);
AMQP1_IS_SO(how_time, offsetof(amqp1_how, time) == 16);
AMQP1_IS_SO(how_side, offsetof(amqp1_how, side) == 28);
AMQP1_IS_SO(login_head_size, sizeof(amqp1_login_head) == 8);
AMQP1_IS_SO(ticked_size, sizeof(amqp1_ticked) == 16);
AMQP1_IS_SO(ticked_due, offsetof(amqp1_ticked, due) == 8);
AMQP1_IS_SO(head_size, sizeof(amqp1_head) == 20);
AMQP1_IS_SO(head_flags, offsetof(amqp1_head, flags) == 16);
AMQP1_IS_SO(sent_size, sizeof(amqp1_sent) == 8);
AMQP1_IS_SO(place_size, sizeof(amqp1) == 16);
AMQP1_IS_SO(took_size, sizeof(amqp1_took) == 24);
AMQP1_IS_SO(went_size, sizeof(amqp1_went) == 16);
AMQP1_IS_SO(parts_size, sizeof(amqp1_parts) == 48);
AMQP1_IS_SO(parts_rest, offsetof(amqp1_parts, rest) == 20);
AMQP1_IS_SO(parts_more, offsetof(amqp1_parts, more) == 40);

#endif
