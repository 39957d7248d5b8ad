/* AMQP 1.0's connection for C, from its first byte to its last: protocol headers, SASL, frames, sessions, and the time.
   Bytes and requests go in, records and bytes to send come out. It opens no socket and reads no clock. The library is
   written in Rattle, and its exports are proved; what stands in these headers is C, and is tested alone.

   A program makes an engine with its Open (amqp1_start, amqp1_start_client, amqp1_start_server), asks for what it wants
   (amqp1_open, amqp1_begin, amqp1_link, amqp1_attach ..), hands over the bytes that come (amqp1_take), reads a record
   of each header, SASL frame and frame, has those answered that ask for it (amqp1_answer), sends deliveries
   (amqp1_send; amqp1_cut where one is longer than a frame), writes the bytes that wait (amqp1_output) to its socket,
   and tells the time (amqp1_tick). Links with credit, and settlement, stand beside (amqp1_sender, amqp1_receiver,
   amqp1_link_event, amqp1_link_send).

       amqp1 engine = AMQP1_EMPTY;
       amqp1_record records[64];
       amqp1_took took;
       uint8_t open[256], out[4096];
       size_t length, waits;
       if (amqp1_write_open(open, sizeof open, &length, "me", NULL, 65536, 255, 0) != AMQP1_DONE) ..
       -- key: 16 bytes of randomness
       if (amqp1_start_client(&engine, key, now, 20000, "host", "me", "secret", open, length) != AMQP1_DONE) ..
       amqp1_open(&engine);
       while (amqp1_output(&engine, out, sizeof out, &waits) == AMQP1_DONE && waits) ..write the bytes to the socket..
       -- what came, of which took.taken bytes were taken; AMQP1_AGAIN: again
       amqp1_take(&engine, now, in, in_length, records, 64, &took);
       amqp1_tick(&engine, now, &ticked);                           -- the next one by ticked.next at the latest
       amqp1_free(&engine);

   The folder amqp1/ has records and heads, the exports, the calls that are made of them, writers of performatives, and
   readers of fields. Numbers in records and heads are in the order of the host; numbers in inputs and outputs of
   amqp1_call are in network order. PERF stands for the bytes of one performative (AMQP 1.0 part 2, section 2.7): its
   descriptor and its list, as in a frame after the header. Of no bytes there is no PERF: each call answers
   AMQP1_BAD_ARGUMENT.

   What the caller owes:
   - The place is all zero before the first call (AMQP1_EMPTY), and from then on only these calls write it.
   - It may be moved (memcpy, and the old one is never used again), and never copied: one place owns the engine.
   - Calls on one place come one at a time. Different places have nothing in common: a thread may have each.
   - Inputs are read and outputs are written during the call alone; an input and an output do not overlap. No pointer is
     null.

   A later version may answer statuses, kinds and flags that are not named here. A program passes over a record of a
   kind that it does not know, and takes a status that it does not know as it takes AMQP1_REFUSED: no number changes its
   meaning. */
#ifndef AMQP1_H
#define AMQP1_H

#if defined(__cplusplus) && defined(__GNUC__)
#pragma GCC system_header
#endif

/* The version of this header. amqp1_version tells that of the library, in the form of AMQP1_VERSION_NUMBER. */
#define AMQP1_VERSION_MAJOR 0
#define AMQP1_VERSION_MINOR 1
#define AMQP1_VERSION_PATCH 0
#define AMQP1_VERSION "0.1.0"
#define AMQP1_VERSION_NUMBER (AMQP1_VERSION_MAJOR << 16 | AMQP1_VERSION_MINOR << 8 | AMQP1_VERSION_PATCH)

#include "amqp1/records.h"
#include "amqp1/exports.h"
#include "amqp1/attach.h"
#include "amqp1/calls.h"
#include "amqp1/links.h"
#include "amqp1/read.h"
#include "amqp1/trace.h"
#include "amqp1/write.h"

#endif
