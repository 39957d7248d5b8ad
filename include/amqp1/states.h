/* What waits to be sent, refusals, and where the connection and its sessions stand. For amqp1.h. */
#ifndef AMQP1_STATES_H
#define AMQP1_STATES_H

#if defined(__cplusplus) && defined(__GNUC__)
#pragma GCC system_header
#endif

#include "asking.h"

#ifdef __cplusplus
extern "C" {
#endif

/* Takes off as many of the bytes that wait to be sent as fit into the output. `written` says how many, whatever the
   status: send them. 0 where none waits. NO_MEMORY: some wait still that could not be written yet, call again. */
AMQP1_FUNCTION int32_t amqp1_output(amqp1 *place, uint8_t *output, size_t room, size_t *written)
{
    return amqp1_ask_alone(place, AMQP1_OUTPUT, output, room, written);
}

/* The last refusal of an operation, as three lines: its name, the AMQP error condition that the peer is told of it, and
   a description; the last two may be empty. Where the peer closed or ended with an error, they are that error's.
   `TooLarge` says that the request was accepted, and a frame of it was not sent, since the peer takes no frame so long.
   0 bytes where nothing was refused. What amqp1_take and amqp1_send refuse stands in records and in `sent` alone. It is
   no string: there is no 0 at its end, and the last line ends with it. */
AMQP1_FUNCTION int32_t amqp1_refusal(amqp1 *place, uint8_t *output, size_t room, size_t *written)
{
    return amqp1_ask_alone(place, AMQP1_REFUSAL, output, room, written);
}

/* The text of a refusal by its number, as a record or an amqp1_sent has it: its name, a line feed, the AMQP error
   condition by which the peer is answered, which may be empty, a line feed, and `end` or `close`, by which of the two
   that is done, or nothing. It is no string: there is no 0 at its end. 0 bytes where no refusal has the number. */
AMQP1_FUNCTION int32_t amqp1_refusal_text(amqp1 *place, uint32_t refusal, uint8_t *output, size_t room, size_t *written)
{
    uint8_t input[4];
    *written = 0;
    amqp1_u32_at(input, refusal);
    return amqp1_join_and_call(place, AMQP1_REFUSAL_TEXT, input, sizeof input, NULL, 0, NULL, 0, output, room, written);
}

/* PERF of the peer's Open; 0 bytes where none came. */
AMQP1_FUNCTION int32_t amqp1_remote_open(amqp1 *place, uint8_t *output, size_t room, size_t *written)
{
    return amqp1_ask_alone(place, AMQP1_REMOTE_OPEN, output, room, written);
}

/* How long a frame goes out at most, without its four bytes of size. */
AMQP1_FUNCTION int32_t amqp1_max_piece_len(amqp1 *place, uint32_t *length)
{
    uint64_t number;
    int is_there;
    int32_t status = amqp1_ask_number(place, AMQP1_MAX_PIECE_LEN, NULL, 0, &number, &is_there);
    *length = (uint32_t)number;
    return status;
}

/* How long a payload goes out in one frame beside this Transfer (its PERF); `fits` is 0 where the Transfer itself does
   not. */
AMQP1_FUNCTION int32_t amqp1_payload_room(amqp1 *place, const uint8_t *transfer, size_t length, uint32_t *room,
                                          int *fits)
{
    uint64_t number;
    int32_t status = amqp1_ask_number(place, AMQP1_PAYLOAD_ROOM, transfer, length, &number, fits);
    *room = (uint32_t)number;
    return status;
}

/* How many frames that were to go out did not fit the peer's max-frame-size (section 2.7.1), and were not sent: at most
   4294967295 are counted. A side whose transfers are no longer than amqp1_payload_room sees none. */
AMQP1_FUNCTION int32_t amqp1_unfit(amqp1 *place, uint32_t *count)
{
    uint64_t number;
    int is_there;
    int32_t status = amqp1_ask_number(place, AMQP1_UNFIT, NULL, 0, &number, &is_there);
    *count = (uint32_t)number;
    return status;
}

/* The number of the session to which a channel of the peer's leads; `leads` is 0 where none does. */
AMQP1_FUNCTION int32_t amqp1_session_of(amqp1 *place, uint16_t channel, uint32_t *session, int *leads)
{
    uint64_t number;
    uint8_t input[2];
    int32_t status;
    input[0] = (uint8_t)(channel >> 8);
    input[1] = (uint8_t)channel;
    status = amqp1_ask_number(place, AMQP1_SESSION_OF, input, sizeof input, &number, leads);
    *session = (uint32_t)number;
    return status;
}

/* Whether the connection is over: a header or a login was refused, the opening was late or the peer silent, a size came
   that no frame may have, or both Closes have passed. Then nothing is taken, and requests are REFUSED (`Over`). What
   waits is still to be sent. */
AMQP1_FUNCTION int32_t amqp1_is_over(amqp1 *place, int *is_over)
{
    uint64_t number;
    int is_there;
    int32_t status = amqp1_ask_number(place, AMQP1_IS_OVER, NULL, 0, &number, &is_there);
    *is_over = number != 0;
    return status;
}

/* The state of the connection, an amqp1_connection_state. */
AMQP1_FUNCTION int32_t amqp1_state(amqp1 *place, uint32_t *state)
{
    uint64_t number;
    int is_there;
    int32_t status = amqp1_ask_number(place, AMQP1_STATE, NULL, 0, &number, &is_there);
    *state = (uint32_t)number;
    return status;
}

/* The state of a session, an amqp1_session_state_of; `is_there` is 0 where there is no such session. */
AMQP1_FUNCTION int32_t amqp1_session_state(amqp1 *place, uint32_t session, uint32_t *state, int *is_there)
{
    uint64_t number;
    uint8_t input[4];
    int32_t status;
    amqp1_u32_at(input, session);
    status = amqp1_ask_number(place, AMQP1_SESSION_STATE, input, sizeof input, &number, is_there);
    *state = (uint32_t)number;
    return status;
}

/* The name of a status, as "DONE"; "unknown" of one that is not named here. */
AMQP1_FUNCTION const char *amqp1_status_name(int32_t status)
{
    static const char *const names[] = { "DONE",      "REFUSED",  "NO_MEMORY",    "TOO_SMALL",     "BAD_ARGUMENT",
                                         "NO_ENGINE", "unknown",  "FULL",         "BAD_SIZE",      "SHORT",
                                         "AGAIN",     "WAITS",    "OVER",         "TOO_LARGE",     "NOTHING",
                                         "LOST",      "BROKEN",   "NOT_RELEASED", "NOT_FORGOTTEN", "NOT_DETACHED",
                                         "UNSETTLED", "NOT_NEXT", "NO_LINK",      "IN_USE",        "HELD_BACK" };
    return status >= 0 && (size_t)status < sizeof names / sizeof *names ? names[status] : "unknown";
}

#ifdef __cplusplus
}
#endif
#endif
