/* Two engines face to face, for the tests of links with credit: a client and a server, each with one session and its links. See amqp1_faces.c. */
#ifndef AMQP1_FACES_H
#define AMQP1_FACES_H

#include "amqp1_try.h"

enum { EVENTS = 512, CLIENTS = 7, SERVERS = 3 };

/* A side: its engine and its session. A silent one does not send what its links owe, one that follows does it by amqp1_link_follow, and a plain one
   tells its links nothing: it is a peer that knows no credit. Of the last pass to it: the events, but for those of nothing; how many transfers came; and the
   last flow, the Attach that came before this side's, and the Detach, with the condition of its error. */
typedef struct face {
    amqp1 engine;
    uint32_t session;
    int is_silent, follows, is_plain;
    amqp1_event events[EVENTS];
    size_t count, transfers;
    amqp1_record wanted, flow, detached;
    char condition[64];
} face;

/* A client and a server whose session has begun: CLIENTS of the client's, and SERVERS of the server's. Frames have up to 1,024 bytes. */
extern face client, server;
void meet(void);

/* The same where the client's session takes so many transfers at a time. */
void meet_with(uint32_t window);

void part(void);

/* What one side has to send comes to the other, which tells each record to its links: how many events those are. */
size_t passes(face *from, face *to);

/* The same both ways, until nothing waits. */
void exchanges(void);

/* What is given with a delivery that comes, by its number: more than four bytes say. */
uint64_t given_with(uint32_t number);

/* PERF of an Attach with addresses for source and target, or without a terminus where it is NULL, and with a max-message-size. How many bytes. */
size_t attach_text(uint8_t *out, size_t room, const char *name, enum amqp1_role role, const char *source, const char *target, uint64_t limit);

/* A side takes the other end of a link that the peer has attached first, with both termini: its handle. What the Attach was to the link is events[0]. */
uint32_t answers_link(face *it, const char *name, enum amqp1_role role, uint32_t low, uint32_t high, uint64_t limit);

/* The client sends on a link "out", and the server receives, with a rule of renewal and a max-message-size. Both have the handle 0. */
void meet_by_link(uint32_t low, uint32_t high, uint64_t limit);

/* Sends a delivery, or a part of one, with these flags and so much payload: the status, and what was told. */
int32_t sends_part(face *from, uint32_t link, unsigned flags, uint32_t payload, uint64_t given, amqp1_told *told);

/* The same of a whole one. Whether it was accepted by this number. */
int sends_one(face *from, uint32_t link, unsigned flags, uint32_t number);

/* Whether a place of the events has these fields, and 0 in all others. */
int is_event(const face *it, size_t at, enum amqp1_event_kind kind, uint32_t link, uint32_t detail, uint32_t credit, unsigned flags);
int is_part(const face *it, size_t at, uint32_t link, uint32_t number, uint64_t size, uint32_t credit, unsigned flags);
int is_settled(const face *it, size_t at, uint32_t first, uint32_t last, unsigned flags);

int is_told(const amqp1_told *told, uint32_t number, uint32_t refusal, int has_given, uint64_t given);
int is_unsettled(const amqp1_unsettled *it, uint32_t number, uint32_t link, uint64_t given);

/* The credit of a link of this side. */
uint32_t credit_of(face *it, uint32_t link);

#endif
