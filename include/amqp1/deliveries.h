/* Links and their deliveries, without credit: links.h has links that count it. For amqp1.h. */
#ifndef AMQP1_DELIVERIES_H
#define AMQP1_DELIVERIES_H

#if defined(__cplusplus) && defined(__GNUC__)
#pragma GCC system_header
#endif

#include "asking.h"

#ifdef __cplusplus
extern "C" {
#endif

/* LINK or LINK_ON, with its head. For use within this header. */
AMQP1_FUNCTION int32_t amqp1_allot(amqp1 *place, uint32_t operation, const uint8_t *head, size_t head_length,
                                   const char *name, uint32_t *handle)
{
    uint8_t output[4] = { 0 };
    size_t written = 0;
    int32_t status = amqp1_join_and_call(place, operation, head, head_length, (const uint8_t *)name, strlen(name), NULL,
                                         0, output, sizeof output, &written);
    *handle = 0;
    if (status == AMQP1_DONE && written == sizeof output)
        *handle = amqp1_u32_of(output);
    return status;
}

/* An output handle is allotted for a link of this name (UTF-8), on whose end `role` this side stands; the peer's attach
   is awaited under the name, which serves one live link of a session, on either end. `mode` is the receiver settle
   mode: deliveries that come by AMQP1_SECOND are recorded until they are settled. All later calls name the link by this
   handle, in PERF or in an amqp1_head. */
AMQP1_FUNCTION int32_t amqp1_link(amqp1 *place, uint32_t session, enum amqp1_role role, enum amqp1_rcv_settle_mode mode,
                                  const char *name, uint32_t *handle)
{
    uint8_t head[6];
    amqp1_u32_at(head, session);
    head[4] = amqp1_u8_of((int)role);
    head[5] = amqp1_u8_of((int)mode);
    return amqp1_allot(place, AMQP1_LINK, head, sizeof head, name, handle);
}

/* The same for a link whose Attach came first, on this input handle: its record is of AMQP1_KIND_ATTACH_WANTED. The
   link is attached with this call, and amqp1_attach answers. amqp1_take stops behind such an Attach (AMQP1_AGAIN), so
   that frames of the link that follow find it. */
AMQP1_FUNCTION int32_t amqp1_link_on(amqp1 *place, uint32_t session, uint32_t input_handle, enum amqp1_role role,
                                     enum amqp1_rcv_settle_mode mode, const char *name, uint32_t *handle)
{
    uint8_t head[10];
    amqp1_u32_at(amqp1_u32_at(head, session), input_handle);
    head[8] = amqp1_u8_of((int)role);
    head[9] = amqp1_u8_of((int)mode);
    return amqp1_allot(place, AMQP1_LINK_ON, head, sizeof head, name, handle);
}

/* An Attach of the session (its PERF) is to be sent. Its handle is the output handle that was allotted. */
AMQP1_FUNCTION int32_t amqp1_attach(amqp1 *place, uint32_t session, const uint8_t *attach, size_t length)
{
    return amqp1_of_session(place, AMQP1_ATTACH, session, attach, length);
}

/* A Detach (its PERF) is to be sent, and its output handle is given back. `awaited` is 1 where the peer is to answer
   it, and 0 where it answers. */
AMQP1_FUNCTION int32_t amqp1_detach(amqp1 *place, uint32_t session, int awaited, const uint8_t *detach, size_t length)
{
    uint8_t head[5];
    amqp1_u32_at(head, session);
    head[4] = awaited ? 1 : 0;
    return amqp1_join_and_ask(place, AMQP1_DETACH, head, sizeof head, detach, length, NULL, 0);
}

/* A Flow of a link (PERF of a Flow with a handle) is to be sent. What it says of the session is replaced by what is so.
*/
AMQP1_FUNCTION int32_t amqp1_flow(amqp1 *place, uint32_t session, const uint8_t *flow, size_t length)
{
    return amqp1_of_session(place, AMQP1_FLOW, session, flow, length);
}

/* A Transfer (its PERF, and the payload) of a link is to be sent: the first of its delivery (1), or a later one (0).
   The handle in PERF is that of a link which the peer has attached and neither side has detached: else, in a session
   that is mapped, it is REFUSED (`UnattachedHandle`). PERF of 0 bytes is BAD_ARGUMENT: the payload is never read as
   PERF. The delivery's number is the engine's. A payload longer than amqp1_payload_room is cut, which a peer's window
   counts as several. */
AMQP1_FUNCTION int32_t amqp1_transfer(amqp1 *place, uint32_t session, int first, const uint8_t *transfer, size_t length,
                                      const uint8_t *payload, size_t payload_length)
{
    uint8_t head[9];
    if (length > UINT32_MAX)
        return AMQP1_BAD_ARGUMENT;
    amqp1_u32_at(head, session);
    head[4] = first ? 1 : 0;
    amqp1_u32_at(head + 5, (uint32_t)length);
    return amqp1_join_and_ask(place, AMQP1_TRANSFER, head, sizeof head, transfer, length, payload, payload_length);
}

/* A Disposition (its PERF) of the session's deliveries is to be sent. */
AMQP1_FUNCTION int32_t amqp1_disposition(amqp1 *place, uint32_t session, const uint8_t *disposition, size_t length)
{
    return amqp1_of_session(place, AMQP1_DISPOSITION, session, disposition, length);
}

/* A Disposition is to be sent, by numbers and without a performative: of the deliveries from `first` to `last`, in
   which this side stands on the end `role` (section 2.7.6); whether it settles them, and their state. That is NO_STATE,
   ACCEPTED, RELEASED or MODIFIED, without fields: any other one is BAD_ARGUMENT, and goes by amqp1_disposition. */
AMQP1_FUNCTION int32_t amqp1_dispose(amqp1 *place, uint32_t session, enum amqp1_role role, uint32_t first,
                                     uint32_t last, int settled, enum amqp1_outcome outcome)
{
    uint8_t head[15];
    amqp1_u32_at(head, session);
    head[4] = amqp1_u8_of((int)role);
    amqp1_u32_at(amqp1_u32_at(head + 5, first), last);
    head[13] = settled ? 1 : 0;
    head[14] = amqp1_u8_of((int)outcome);
    return amqp1_join_and_ask(place, AMQP1_DISPOSE, head, sizeof head, NULL, 0, NULL, 0);
}

/* Open deliveries from `first` to `last` that this side settles by itself are let go: of those that it sent, or that it
   received, by its role. Nothing goes out. */
AMQP1_FUNCTION int32_t amqp1_settle(amqp1 *place, uint32_t session, enum amqp1_role role, uint32_t first, uint32_t last)
{
    uint8_t head[13];
    amqp1_u32_at(head, session);
    head[4] = amqp1_u8_of((int)role);
    amqp1_u32_at(amqp1_u32_at(head + 5, first), last);
    return amqp1_join_and_ask(place, AMQP1_SETTLE, head, sizeof head, NULL, 0, NULL, 0);
}

#ifdef __cplusplus
}
#endif
#endif
