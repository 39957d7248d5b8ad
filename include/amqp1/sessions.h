/* The connection and its sessions: what this side begins and ends, and how it answers the peer. For amqp1.h. */
#ifndef AMQP1_SESSIONS_H
#define AMQP1_SESSIONS_H

#if defined(__cplusplus) && defined(__GNUC__)
#pragma GCC system_header
#endif

#include "asking.h"

#ifdef __cplusplus
extern "C" {
#endif

/* This side's Open is to be sent. */
AMQP1_FUNCTION int32_t amqp1_open(amqp1 *place)
{
    return amqp1_join_and_ask(place, AMQP1_OPEN, NULL, 0, NULL, 0, NULL, 0);
}

/* This side's Close is to be sent, with an error (amqp1_write_error), or with none, which NULL says. An error of 0
   bytes is BAD_ARGUMENT. */
AMQP1_FUNCTION int32_t amqp1_close(amqp1 *place, const uint8_t *error, size_t error_length)
{
    uint8_t is_there = error ? 1 : 0;
    return amqp1_join_and_ask(place, AMQP1_CLOSE, &is_there, 1, error, error ? error_length : 0, NULL, 0);
}

/* A session begins, under a number of the caller's that no session of the engine had, with what PERF of a Begin says
   (without remote-channel). */
AMQP1_FUNCTION int32_t amqp1_begin(amqp1 *place, uint32_t session, const uint8_t *begin, size_t length)
{
    return amqp1_of_session(place, AMQP1_BEGIN, session, begin, length);
}

/* The session ends, with an error, or with none, which NULL says, as in amqp1_close; or the peer's End is answered. */
AMQP1_FUNCTION int32_t amqp1_end(amqp1 *place, uint32_t session, const uint8_t *error, size_t error_length)
{
    uint8_t head[5];
    amqp1_u32_at(head, session);
    head[4] = error ? 1 : 0;
    return amqp1_join_and_ask(place, AMQP1_END, head, sizeof head, error, error ? error_length : 0, NULL, 0);
}

/* The session's channel is given back for another, after the exchange of End. */
AMQP1_FUNCTION int32_t amqp1_release(amqp1 *place, uint32_t session)
{
    return amqp1_of_session(place, AMQP1_RELEASE, session, NULL, 0);
}

/* The session, which is over and has given its channel back, is let go with all that is kept of it. Its number stays
   used. */
AMQP1_FUNCTION int32_t amqp1_forget(amqp1 *place, uint32_t session)
{
    return amqp1_of_session(place, AMQP1_FORGET, session, NULL, 0);
}

/* Answers the Begin by which the peer begins a session, which a record of AMQP1_KIND_BEGIN_WANTED tells
   (section 2.5.1): a session begins under a number of the caller's that no session of the engine had, with what PERF of
   a Begin says (without remote-channel). Its Begin waits to be sent as the answer, on a channel of this side's own, and
   frames on the peer's channel reach the session. `input` is the one in which the record's frame stands.

   DONE. BAD_ARGUMENT where the frame is no Begin that answers none, or PERF is none: nothing changed. NO_MEMORY:
   nothing changed but that some of what waited may be sent; ask again. REFUSED: `NotOpened` where the connection is not
   open; `ChannelInUse` where the channel of the peer's Begin leads to a session; `TooLarge` where this side's is longer
   than the peer takes, and is not sent; and where the engine begins no session, as `SessionInUse` of a number that was
   used, or `ChannelMaxReached`: no End can tell the peer so, and the program closes. LOST where memory was refused once
   the engine had begun: the number is used, and the peer may be answered under another one. BROKEN where memory was
   refused for the peer's Begin, once this side's waits to be sent: the connection cannot go on, and the program closes
   it. */
AMQP1_FUNCTION int32_t amqp1_answer_begin(amqp1 *place, const amqp1_record *record, const uint8_t *input,
                                          uint32_t session, const uint8_t *begin, size_t length)
{
    uint8_t head[8];
    if (record->at < 4 || length > UINT32_MAX)
        return AMQP1_BAD_ARGUMENT;
    amqp1_u32_at(amqp1_u32_at(head, session), (uint32_t)length);
    return amqp1_join_and_ask(place, AMQP1_BEGIN_ANSWER, head, sizeof head, begin, length, input + record->at - 4,
                              (size_t)record->size + 4);
}

/* Answers the End by which the peer ends a session (section 2.5.3), with an error, or with none, which NULL says, as in
   amqp1_close; and lets the session go, as amqp1_let_go does.

   DONE. REFUSED: `NotEnded` where there is no such session, the peer has not ended it, or this side has too, and `Over`
   where the connection is over: nothing changed; or why this side's End was not done. NO_MEMORY: nothing changed but
   that some of what waited may be sent. NOT_RELEASED and NOT_FORGOTTEN: this side's End waits to be sent, and on as in
   amqp1_let_go. */
AMQP1_FUNCTION int32_t amqp1_answer_end(amqp1 *place, uint32_t session, const uint8_t *error, size_t error_length)
{
    uint8_t head[5];
    amqp1_u32_at(head, session);
    head[4] = error ? 1 : 0;
    return amqp1_join_and_ask(place, AMQP1_END_ANSWER, head, sizeof head, error, error ? error_length : 0, NULL, 0);
}

/* Lets a session go that both sides have ended: amqp1_release and amqp1_forget, the second where the first was done.

   DONE. REFUSED, `NotEnded`, where there is no such session, or not both sides have ended it: nothing changed, and it
   keeps its channel. NOT_RELEASED where the first was not done: nothing changed. NOT_FORGOTTEN where the second was
   not: its channel was given back. Of both amqp1_refusal tells why, also `OutOfMemory`, after which it may be done by
   those two. */
AMQP1_FUNCTION int32_t amqp1_let_go(amqp1 *place, uint32_t session)
{
    return amqp1_of_session(place, AMQP1_LET_GO, session, NULL, 0);
}

#ifdef __cplusplus
}
#endif
#endif
