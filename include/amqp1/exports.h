/* The exports of the library, its operations, and the states of connections and sessions. For amqp1.h. */
#ifndef AMQP1_EXPORTS_H
#define AMQP1_EXPORTS_H

#if defined(__cplusplus) && defined(__GNUC__)
#pragma GCC system_header
#endif

#include "records.h"

#ifdef __cplusplus
extern "C" {
#endif

/* What amqp1_call is asked to do. Each has a function in a header of calls.h, which says what it takes and gives. 1,
   17, 22 and 26 are none. */
enum amqp1_operation {
    AMQP1_OPEN = 2,
    AMQP1_CLOSE = 3,
    AMQP1_BEGIN = 4,
    AMQP1_END = 5,
    AMQP1_RELEASE = 6,
    AMQP1_FORGET = 7,
    AMQP1_LINK = 8,
    AMQP1_LINK_ON = 9,
    AMQP1_ATTACH = 10,
    AMQP1_DETACH = 11,
    AMQP1_FLOW = 12,
    AMQP1_TRANSFER = 13,
    AMQP1_DISPOSITION = 14,
    AMQP1_SETTLE = 15,
    AMQP1_OUTPUT = 16,
    AMQP1_REFUSAL = 18,
    AMQP1_REMOTE_OPEN = 19,
    AMQP1_MAX_PIECE_LEN = 20,
    AMQP1_PAYLOAD_ROOM = 21,
    AMQP1_SESSION_OF = 23,
    AMQP1_STATE = 24,
    AMQP1_SESSION_STATE = 25,
    AMQP1_UNFIT = 27,
    AMQP1_REFUSAL_TEXT = 28,
    AMQP1_DISPOSE = 29,
    AMQP1_LOGIN = 30,
    AMQP1_CHALLENGE = 31,
    AMQP1_RESPOND = 32,
    AMQP1_IS_OVER = 33,
    AMQP1_BEGIN_ANSWER = 34,
    AMQP1_END_ANSWER = 35,
    AMQP1_LET_GO = 36
};

/* The state of the connection (AMQP 1.0 part 2, section 2.4.6). */
enum amqp1_connection_state {
    AMQP1_STATE_START = 0,
    AMQP1_STATE_HEADER_RECEIVED = 1,
    AMQP1_STATE_HEADER_SENT = 2,
    AMQP1_STATE_HEADER_EXCHANGE = 3,
    AMQP1_STATE_OPEN_PIPE = 4,
    AMQP1_STATE_OPEN_CLOSE_PIPE = 5,
    AMQP1_STATE_OPEN_RECEIVED = 6,
    AMQP1_STATE_OPEN_SENT = 7,
    AMQP1_STATE_CLOSE_PIPE = 8,
    AMQP1_STATE_OPENED = 9,
    AMQP1_STATE_CLOSE_RECEIVED = 10,
    AMQP1_STATE_CLOSE_SENT = 11,
    AMQP1_STATE_DISCARDING = 12,
    AMQP1_STATE_ENDED = 13
};

/* The state of a session (section 2.5.5). */
enum amqp1_session_state_of {
    AMQP1_SESSION_UNMAPPED = 0,
    AMQP1_SESSION_BEGIN_SENT = 1,
    AMQP1_SESSION_BEGIN_RECEIVED = 2,
    AMQP1_SESSION_MAPPED = 3,
    AMQP1_SESSION_END_SENT = 4,
    AMQP1_SESSION_END_RECEIVED = 5,
    AMQP1_SESSION_DISCARDING = 6
};

/* The end of a link on which a side stands (section 2.8.1). */
enum amqp1_role { AMQP1_SENDER = 0, AMQP1_RECEIVER = 1 };

/* How the receiving end settles (section 2.8.3). */
enum amqp1_rcv_settle_mode { AMQP1_FIRST = 0, AMQP1_SECOND = 1 };

/* The exports of the library. In each no pointer may be null; an input, an output or an array of no elements is any
   other pointer. Lengths of records, heads and places of `sent` are counts of those; all other lengths are bytes. Where
   nothing lies in the place the answer is AMQP1_NO_ENGINE, and nothing is written. */

/* Makes an engine in an empty place, for a connection from its first byte on: protocol headers (section 2.2), SASL
   where it is asked for (part 5, section 5.3), then frames. Its first header waits to be sent. By `how->key` the
   engine's maps find what the peer names: with a key that the peer cannot guess it cannot choose names or numbers that
   collide. `open` is PERF of this side's Open.

   `logins` are the sizes of a client's logins, in the order in which it prefers them, or of the mechanisms that a
   server offers, at least one, whose `response` is AMQP1_NONE. `bytes` has first the host, then each mechanism and its
   response, one after the other, and no more. Without SASL there are neither. start.h puts these together: amqp1_start,
   amqp1_start_client, amqp1_start_by, amqp1_start_server.

   DONE; else NO_MEMORY, and the place stays empty; BAD_ARGUMENT where what is said is another, as a mechanism that is
   not ASCII, a host that is not UTF-8, or sizes that are not those of the bytes; where all bytes of the key are zero;
   and where an engine lies in the place already: it stays. */
int32_t amqp1_new(amqp1 *place, const amqp1_how *how, const uint8_t *open, size_t open_length,
                  const amqp1_login_head *logins, size_t logins_length, const uint8_t *bytes, size_t bytes_length);

/* Has the engine do one operation. `written` gets how much of the output was written, or how much is needed
   (TOO_SMALL). The headers of calls.h have a function for each. BAD_ARGUMENT where there is no such operation, or the
   input is none of its. */
int32_t amqp1_call(amqp1 *place, uint32_t operation, const uint8_t *input, size_t input_length, uint8_t *output,
                   size_t output_length, size_t *written);

/* Takes what came, at the time `now` in milliseconds: before the stream is open one header or one SASL frame, and then
   whole frames (section 2.3), of which each is run once, in order. It writes a record of what each says. It keeps no
   byte: the caller keeps what was not taken, and gives it again with what came since. A frame that was refused has a
   record too, of AMQP1_KIND_REFUSED, and the next one is taken; an empty frame (section 2.4.5) is taken and has none.
   Records behind those that were written stay as they were. What is answered waits for amqp1_output.

   No frame is run before both headers of AMQP have passed, and with SASL none before a login: a server's own
   amqp1_login with AMQP1_LOGIN_OK, or a client's record of AMQP1_KIND_LOGGED_IN.

   AGAIN where what was told last comes first, as a frame that the program answers, or where what follows is of another
   layer: read the records, and give the rest again. DONE where what is left is no whole thing: `wanted` says how long
   the next one is, as far as it is known. FULL where one is left and all records are written: give the rest again.
   WAITS where amqp1_login, amqp1_challenge or amqp1_respond comes first. OVER where the connection is over. BAD_SIZE at
   a size below 8 or above this side's max-frame-size (sections 2.3.1 and 2.7.1): a Close for
   amqp:connection:framing-error waits to be sent, and the connection is over. NO_MEMORY where the next thing was not
   taken: give the rest again. TOO_LARGE where the SASL frame to send would be too long, as of a login whose response
   is. With each of them `answer` says what was taken, and the records that were written are to be read. Of an input of
   more than 4294967295 bytes the others are not looked at. */
int32_t amqp1_take(amqp1 *place, uint64_t now, const uint8_t *input, size_t input_length, amqp1_record *records,
                   size_t records_length, amqp1_took *answer);

/* Gives what a record asks for that amqp1_take wrote, of the answers that `flags` names, which are AMQP1_ANSWER_BEGINS
   and those beside it. `input` is the one of that call: there the record's frame stands. The answers wait for
   amqp1_output.

   - BEGINS: a Begin of the peer's (section 2.5.1) is answered by a session of this `number`, which no session had
     before (else it is REFUSED, `SessionInUse`), with windows of 5000 transfers. Of any other record the number says
     nothing. Count it on after each Begin: numbers that are given in order take least memory.
   - ENDS: an End of the peer's (section 2.5.3) is answered by one without an error, unless this side has ended the
     session before; and the session is let go: its channel is given back, and it is forgotten.
   - CLOSES: a Close of the peer's (section 2.4.3) is answered by one without an error.
   - REFUSALS: a frame that was refused is answered by the End of its session or by a Close, with the condition that
     amqp1_refusal_text tells, where one is due (sections 2.8.15 to 2.8.17). None is once this side has closed.

   Every other record, an Attach that wants an answer too, asks for none: NOTHING, and so where the flags do not name
   the answer.

   DONE. NO_MEMORY: nothing changed but that some of what waited may be sent; ask again. BAD_ARGUMENT where `input` has
   no Begin there that answers none: nothing changed. REFUSED, by a name that amqp1_refusal tells: of a Begin
   `NotOpened` where the connection is not open, `ChannelInUse` where its channel leads to a session, and the engine's
   name where no session begins, as `SessionInUse` or `ChannelMaxReached`; of an End `NotEnded` where its session was
   let go before; of all others that of the End or the Close, as `Over`. LOST, BROKEN: see amqp1_answer_begin.
   NOT_RELEASED, NOT_FORGOTTEN: see amqp1_let_go. */
int32_t amqp1_answer(amqp1 *place, const amqp1_record *record, const uint8_t *input, size_t input_length,
                     uint16_t flags, uint32_t number);

/* Tells that bytes came at this time, in milliseconds, though none of them were given to amqp1_take yet: the peer is
   not silent (section 2.4.5). amqp1_take says it of what it takes. Call it where more was read than is taken at once,
   as where records or memory are short. DONE. */
int32_t amqp1_heard(amqp1 *place, uint64_t now);

/* Tells the time, in milliseconds, and does what is due (section 2.4.5): from both Opens on an empty frame, where
   nothing was sent for half of the peer's idle-time-out; a Close for amqp:resource-limit-exceeded, where nothing came
   for as long as this side's own; and the end of a connection of which headers, SASL and both Opens have not passed
   within the limit of `how`. `answer` gets what it was, and when the next tick is wanted. Call it by then, and after
   other calls, since these may move that time. A time before the latest one that was told counts as that. DONE. */
int32_t amqp1_tick(amqp1 *place, uint64_t now, amqp1_ticked *answer);

/* Sends transfers, each of one frame, in order (sections 2.6.12 and 2.7.5). In `bytes` stand the tag and the payload of
   each, one after the other. What became of a transfer goes to the next place of `sent`: of an accepted first one the
   number of its delivery, which it keeps also where the session holds it back until the peer's window lets it out; of a
   refused one why. A refused one changes nothing, and the next one is taken; but behind a part with MORE that is
   refused, the later parts of its delivery in the call are refused as it was, unless that of another link breaks off
   between. The session counts no link's credit: that is the caller's. A transfer that is longer than a frame goes in
   parts: amqp1_cut makes a head for each.

   DONE where all were taken. OVER where the connection is over. FULL where all places of `sent` are written, SHORT
   where the bytes end before those of the next transfer do, NO_MEMORY where the next one was not taken, so that none is
   refused for want of memory: with each of them `answer` says how many were, and the others are given again. */
int32_t amqp1_send(amqp1 *place, const amqp1_head *heads, size_t heads_length, const uint8_t *bytes,
                   size_t bytes_length, amqp1_sent *sent, size_t sent_length, amqp1_went *answer);

/* Cuts the head of a transfer that is longer than a frame (sections 2.6.14 and 2.7.5). `part` is the head of the first
   frame, with as much payload as fits whatever number the delivery gets, and `rest` that of what is left. While `more`
   is 1, `rest` is cut again: so there is a head for each frame, for amqp1_send. The bytes stay where they are, those of
   a part behind those of the part before. AMQP1_FLAG_NUMBERED, TAGGED, FORMATTED and SETTLED stay with the first part
   alone. MORE is set on all parts but the last, which has it where the whole has it, and ABORTED on the last alone,
   where the whole has it. A head that fits one frame is not cut: `part` is that head, and `more` is 0.

   The limit is that of the peer's Open, and until that has come this side's own. Of `bytes` the tag alone is read, with
   which they begin: of a head without a tag 0 bytes are enough. `head` does not lie in `answer`. The engine does not
   change.

   Send a part only where the one before was accepted. Within a call amqp1_send looks after that.

   DONE; where a head can be neither sent nor cut `refusal` says why, and amqp1_send refuses it too. NO_MEMORY where
   memory was refused for a copy of the tag: nothing is written, ask again. */
int32_t amqp1_cut(amqp1 *place, const amqp1_head *head, const uint8_t *bytes, size_t bytes_length, amqp1_parts *answer);

/* Frees the engine, if there is one. The place is empty then, and may be used again. */
void amqp1_free(amqp1 *place);

/* The version of the library, as AMQP1_VERSION_NUMBER is written. */
uint32_t amqp1_version(void);

#ifdef __cplusplus
}
#endif
#endif
