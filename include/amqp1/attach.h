/* Attaches, and the termini of their links: sources and targets (AMQP 1.0 part 3, section 3.5). For amqp1.h.

   They are written as amqp1/write.h says of all writers. */
#ifndef AMQP1_ATTACH_H
#define AMQP1_ATTACH_H

#if defined(__cplusplus) && defined(__GNUC__)
#pragma GCC system_header
#endif

#include "write.h"

#ifdef __cplusplus
extern "C" {
#endif

/* What of a terminus outlasts the peer that keeps it, as one that is ended and started again (section 3.5.5). */
enum amqp1_durability {
    AMQP1_DURABLE_NONE = 0,          /* nothing */
    AMQP1_DURABLE_CONFIGURATION = 1, /* that it is there, and how it is set up */
    AMQP1_DURABLE_UNSETTLED = 2      /* and what is unsettled on it */
};

/* A source or a target. Of what is NULL or 0 nothing is said: all of it is zero before it is filled in. */
typedef struct amqp1_terminus {
    const char *address;           /* of its node */
    uint32_t durable;              /* an amqp1_durability. A broker may make a queue of the node that is as durable */
    uint32_t timeout;              /* for how many seconds it is kept once it is to go */
    const char *expiry_policy;     /* when it is to go: "link-detach", "session-end", which holds where nothing is said,
                                      "connection-close" or "never" (section 3.5.6) */
    const char *distribution_mode; /* of a source: "move"; or "copy", for which the node keeps them (section 3.5.7) */
    const char *capability;        /* of the node, as "queue" or "topic" */
    int is_dynamic;                /* 1: the peer makes a node, and its Attach has the address; none is given here */
} amqp1_terminus;

/* A symbol, or null. */
AMQP1_FUNCTION void amqp1_put_any_symbol(amqp1_text *text, const char *symbol)
{
    if (symbol)
        amqp1_put_symbol(text, symbol);
    else
        amqp1_put_null(text);
}

/* How many fields are to be written of a source (28) or a target (29): the last one of which something is said. For use
   within this header. */
AMQP1_FUNCTION uint32_t amqp1_terminus_fields(unsigned descriptor, const amqp1_terminus *of)
{
    if (of->capability)
        return descriptor == 0x28 ? 11 : 7;
    if (of->distribution_mode)
        return 7;
    if (of->is_dynamic)
        return 5;
    if (of->timeout)
        return 4;
    return of->expiry_policy ? 3 : of->durable ? 2 : 1;
}

/* The fields behind the dynamic node's properties, of so many in all. For use within this header. */
AMQP1_FUNCTION void amqp1_put_terminus_end(amqp1_text *text, unsigned descriptor, const amqp1_terminus *of,
                                           uint32_t fields)
{
    uint32_t at;
    if (fields > 6)
        amqp1_put_any_symbol(text, descriptor == 0x28 ? of->distribution_mode : of->capability);
    for (at = 7; at + 1 < fields; at++)
        amqp1_put_null(text);
    if (fields > 7)
        amqp1_put_any_symbol(text, of->capability);
}

/* A source (28) or a target (29), or null where it is NULL. It has no form where no amqp1_durability has the number,
   and where a target has a distribution-mode. */
AMQP1_FUNCTION void amqp1_put_terminus_of(amqp1_text *text, unsigned descriptor, const amqp1_terminus *of)
{
    uint32_t fields = of ? amqp1_terminus_fields(descriptor, of) : 0;
    size_t list;
    if (!of) {
        amqp1_put_null(text);
        return;
    }
    if (of->durable > AMQP1_DURABLE_UNSETTLED || (descriptor == 0x29 && of->distribution_mode))
        text->is_bad = 1;
    list = amqp1_begin_list(text, descriptor, fields);
    amqp1_put_string(text, of->address);
    if (fields > 1)
        amqp1_put_uint(text, of->durable);
    if (fields > 2)
        amqp1_put_any_symbol(text, of->expiry_policy);
    if (fields > 3)
        amqp1_put_uint(text, of->timeout);
    if (fields > 4)
        amqp1_put_boolean(text, of->is_dynamic);
    if (fields > 5)
        amqp1_put_null(text);
    amqp1_put_terminus_end(text, descriptor, of, fields);
    amqp1_end_list(text, list);
}

/* A terminus with an address, or with none where it is NULL. */
AMQP1_FUNCTION amqp1_terminus amqp1_terminus_at(const char *address)
{
    amqp1_terminus it;
    memset(&it, 0, sizeof it);
    it.address = address;
    return it;
}

/* A source (28) or target (29) with an address, or with none where it is NULL. */
AMQP1_FUNCTION void amqp1_put_terminus(amqp1_text *text, unsigned descriptor, const char *address)
{
    amqp1_terminus it = amqp1_terminus_at(address);
    amqp1_put_terminus_of(text, descriptor, &it);
}

/* An Attach on an output handle: the link's name, this side's end of it, how deliveries are settled (sender: 0
   unsettled, 1 settled, 2 mixed), and its source and target, each NULL for none. `initial_delivery_count` is a
   sender's. DONE or TOO_SMALL; BAD_ARGUMENT where the name is NULL, and of a role, a mode or a terminus without a
   form. */
AMQP1_FUNCTION AMQP1_CHECKED int32_t amqp1_write_attach_of(uint8_t *out, size_t room, size_t *written, const char *name,
                                                           uint32_t handle, enum amqp1_role role,
                                                           unsigned snd_settle_mode,
                                                           enum amqp1_rcv_settle_mode rcv_settle_mode,
                                                           const amqp1_terminus *source, const amqp1_terminus *target,
                                                           uint32_t initial_delivery_count)
{
    amqp1_text text = amqp1_text_at(out, room);
    size_t list = amqp1_begin_list(&text, 0x12, role == AMQP1_SENDER ? 10 : 7);
    text.is_bad = !name || (unsigned)role > (unsigned)AMQP1_RECEIVER || snd_settle_mode > 2 ||
                  (unsigned)rcv_settle_mode > (unsigned)AMQP1_SECOND;
    amqp1_put_string(&text, name);
    amqp1_put_uint(&text, handle);
    amqp1_put_boolean(&text, role == AMQP1_RECEIVER);
    amqp1_put_ubyte(&text, snd_settle_mode);
    amqp1_put_ubyte(&text, rcv_settle_mode);
    amqp1_put_terminus_of(&text, 0x28, source);
    amqp1_put_terminus_of(&text, 0x29, target);
    if (role == AMQP1_SENDER) {
        amqp1_put_null(&text);
        amqp1_put_null(&text);
        amqp1_put_uint(&text, initial_delivery_count);
    }
    amqp1_end_list(&text, list);
    return amqp1_written(&text, written);
}

/* The same by the addresses of source and target, each NULL for a terminus without one. */
AMQP1_FUNCTION AMQP1_CHECKED int32_t amqp1_write_attach(uint8_t *out, size_t room, size_t *written, const char *name,
                                                        uint32_t handle, enum amqp1_role role, unsigned snd_settle_mode,
                                                        enum amqp1_rcv_settle_mode rcv_settle_mode, const char *source,
                                                        const char *target, uint32_t initial_delivery_count)
{
    amqp1_terminus from = amqp1_terminus_at(source), to = amqp1_terminus_at(target);
    return amqp1_write_attach_of(out, room, written, name, handle, role, snd_settle_mode, rcv_settle_mode, &from, &to,
                                 initial_delivery_count);
}

AMQP1_IS_SO(terminus_size, sizeof(amqp1_terminus) == 48);
AMQP1_IS_SO(terminus_expiry_policy, offsetof(amqp1_terminus, expiry_policy) == 16);
AMQP1_IS_SO(terminus_is_dynamic, offsetof(amqp1_terminus, is_dynamic) == 40);

#ifdef __cplusplus
}
#endif
#endif
