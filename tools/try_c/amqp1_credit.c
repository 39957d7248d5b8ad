/* Tests of libamqp1: links with credit, on both ends, with two engines face to face: what is granted, what goes by it, what is settled, and the end. */
#include "amqp1_faces.h"

enum { WHOLE = AMQP1_EVENT_FIRST | AMQP1_EVENT_LAST };

static amqp1_told told;
static amqp1_unsettled delivery;

/* Credit comes with the answer to the Attach, and is renewed where fewer than 6 are left. */
static void try_renewal(void)
{
    uint32_t number;
    meet_by_link(6, 10, 0);
    CHECK(client.count == 2 && is_event(&client, 1, AMQP1_EVENT_FLOW, 0, 0, 10, 0));
    CHECK(credit_of(&client, 0) == 10 && credit_of(&server, 0) == 10 && credit_of(&client, 1) == 0);
    for (number = 0; number < 4; number++)
        CHECK(sends_one(&client, 0, AMQP1_FLAG_SETTLED, number) && credit_of(&client, 0) == 9 - number);
    CHECK(passes(&client, &server) == 4 && credit_of(&server, 0) == 6);
    for (number = 0; number < 4; number++)
        CHECK(is_part(&server, number, 0, number, 3, 9 - number, WHOLE | AMQP1_EVENT_PRESETTLED));
    CHECK(passes(&server, &client) == 0 && credit_of(&client, 0) == 6);
    CHECK(sends_one(&client, 0, 0, 4) && passes(&client, &server) == 1 && is_part(&server, 0, 0, 4, 3, 5, WHOLE));
    CHECK(credit_of(&server, 0) == 10 && passes(&server, &client) == 1);
    CHECK(is_event(&client, 0, AMQP1_EVENT_FLOW, 0, 0, 10, 0) && credit_of(&client, 0) == 10);
    part();
}

/* Where the credit is 0 nothing begins, and what is under way goes on. */
static void try_no_credit(void)
{
    meet_by_link(0, 0, 0);
    CHECK(client.count == 1 && credit_of(&client, 0) == 0);
    CHECK(sends_part(&client, 0, 0, 3, 5, &told) == AMQP1_REFUSED && is_told(&told, 0, AMQP1_WHY_LINK_NO_CREDIT, 0, 0));
    CHECK(amqp1_grant(&server.engine, SERVERS, 0, 1) == AMQP1_DONE && passes(&server, &client) == 1);
    CHECK(is_event(&client, 0, AMQP1_EVENT_FLOW, 0, 0, 1, 0));
    CHECK(sends_one(&client, 0, AMQP1_FLAG_MORE, 0) && credit_of(&client, 0) == 0 && sends_one(&client, 0, 0, 0));
    CHECK(sends_part(&client, 0, 0, 3, 5, &told) == AMQP1_REFUSED && is_told(&told, 0, AMQP1_WHY_LINK_NO_CREDIT, 0, 0));
    CHECK(passes(&client, &server) == 2 && is_part(&server, 0, 0, 0, 3, 0, AMQP1_EVENT_FIRST) && is_part(&server, 1, 0, 0, 6, 0, AMQP1_EVENT_LAST));
    part();
}

/* Both sides are given back what they gave, once, in order: where the peer settles, and where this side does. */
static void try_settled(void)
{
    meet_by_link(5, 10, 0);
    CHECK(sends_one(&client, 0, 0, 0) && sends_one(&client, 0, AMQP1_FLAG_SETTLED, 1) && sends_one(&client, 0, 0, 2) && sends_one(&client, 0, 0, 3));
    CHECK(passes(&client, &server) == 4);
    CHECK(amqp1_link_settle(&server.engine, SERVERS, AMQP1_RECEIVER, 0, 2, 1, AMQP1_ACCEPTED) == AMQP1_DONE);
    CHECK(amqp1_link_settled(&server.engine, SERVERS, AMQP1_SENDER, 0, 2, &delivery) == AMQP1_NOTHING);
    CHECK(amqp1_link_settled(&server.engine, SERVERS, AMQP1_RECEIVER, 0, 2, &delivery) == AMQP1_DONE && is_unsettled(&delivery, 0, 0, given_with(0)));
    CHECK(amqp1_link_settled(&server.engine, SERVERS, AMQP1_RECEIVER, 0, 2, &delivery) == AMQP1_DONE && is_unsettled(&delivery, 2, 0, given_with(2)));
    CHECK(amqp1_link_settled(&server.engine, SERVERS, AMQP1_RECEIVER, 0, 2, &delivery) == AMQP1_NOTHING && is_unsettled(&delivery, 2, 0, given_with(2)));
    CHECK(passes(&server, &client) == 1 && is_settled(&client, 0, 0, 2, AMQP1_EVENT_BY_PEER));
    CHECK(amqp1_link_settled_of(&client.engine, client.events, &delivery) == AMQP1_DONE && is_unsettled(&delivery, 0, 0, given_with(70)));
    CHECK(amqp1_link_settled_of(&client.engine, client.events, &delivery) == AMQP1_DONE && is_unsettled(&delivery, 2, 0, given_with(72)));
    CHECK(amqp1_link_settled_of(&client.engine, client.events, &delivery) == AMQP1_NOTHING && is_unsettled(&delivery, 2, 0, given_with(72)));
    /* the sender settles the last one, and the receiver is told */
    CHECK(amqp1_link_settle(&client.engine, CLIENTS, AMQP1_SENDER, 3, 3, 1, AMQP1_NO_STATE) == AMQP1_DONE);
    CHECK(amqp1_link_settled(&client.engine, CLIENTS, AMQP1_SENDER, 3, 3, &delivery) == AMQP1_DONE && is_unsettled(&delivery, 3, 0, given_with(73)));
    CHECK(passes(&client, &server) == 1 && is_settled(&server, 0, 3, 3, AMQP1_EVENT_RECEIVED | AMQP1_EVENT_BY_PEER));
    CHECK(amqp1_link_settled_of(&server.engine, server.events, &delivery) == AMQP1_DONE && is_unsettled(&delivery, 3, 0, given_with(3)));
    CHECK(amqp1_link_settled_of(&server.engine, server.events, &delivery) == AMQP1_NOTHING);
    part();
}

/* A receiver accepts without settling: the sender's engine settles then, and both are told. */
static void try_accepted(void)
{
    meet_by_link(5, 10, 0);
    CHECK(sends_one(&client, 0, 0, 0) && sends_one(&client, 0, 0, 1) && passes(&client, &server) == 2);
    CHECK(amqp1_link_settle(&server.engine, SERVERS, AMQP1_RECEIVER, 0, 0, 0, AMQP1_ACCEPTED) == AMQP1_DONE);
    CHECK(passes(&server, &client) == 1 && is_settled(&client, 0, 0, 0, 0));
    CHECK(amqp1_link_settled_of(&client.engine, client.events, &delivery) == AMQP1_DONE && is_unsettled(&delivery, 0, 0, given_with(70)));
    CHECK(passes(&client, &server) == 1 && is_settled(&server, 0, 0, 0, AMQP1_EVENT_RECEIVED | AMQP1_EVENT_BY_PEER));
    CHECK(amqp1_link_settled_of(&server.engine, server.events, &delivery) == AMQP1_DONE && is_unsettled(&delivery, 0, 0, given_with(0)));
    CHECK(sends_one(&client, 0, 0, 2) && passes(&client, &server) == 1 && is_part(&server, 0, 0, 2, 3, 7, WHOLE));
    CHECK(amqp1_link_accept(&server.engine, server.events) == AMQP1_DONE);
    CHECK(amqp1_link_settled(&server.engine, SERVERS, AMQP1_RECEIVER, 2, 2, &delivery) == AMQP1_NOTHING);
    CHECK(passes(&server, &client) == 1 && is_settled(&client, 0, 2, 2, AMQP1_EVENT_BY_PEER));
    CHECK(amqp1_link_settled_of(&client.engine, client.events, &delivery) == AMQP1_DONE && is_unsettled(&delivery, 2, 0, given_with(72)));
    /* a disposition that says no outcome, and does not settle, is nothing */
    CHECK(amqp1_link_settle(&server.engine, SERVERS, AMQP1_RECEIVER, 1, 1, 0, AMQP1_NO_STATE) == AMQP1_DONE && passes(&server, &client) == 0);
    CHECK(amqp1_link_settle(&server.engine, SERVERS, AMQP1_RECEIVER, 1, 1, 1, AMQP1_RELEASED) == AMQP1_DONE && passes(&server, &client) == 1);
    CHECK(amqp1_link_settled_of(&client.engine, client.events, &delivery) == AMQP1_DONE && is_unsettled(&delivery, 1, 0, given_with(71)));
    part();
}

/* Deliveries in parts: one that its last part settles, one that is aborted, and one that goes to its end. */
static void try_parts(void)
{
    meet_by_link(5, 10, 0);
    CHECK(sends_part(&client, 0, AMQP1_FLAG_MORE, 100, 7, &told) == AMQP1_DONE && is_told(&told, 0, 0, 0, 0));
    CHECK(sends_part(&client, 0, AMQP1_FLAG_MORE, 100, 8, &told) == AMQP1_DONE && is_told(&told, 0, 0, 0, 0));
    CHECK(sends_part(&client, 0, AMQP1_FLAG_SETTLED, 1, 9, &told) == AMQP1_DONE && is_told(&told, 0, 0, 1, 7));
    CHECK(passes(&client, &server) == 3 && is_part(&server, 0, 0, 0, 100, 9, AMQP1_EVENT_FIRST) && is_part(&server, 1, 0, 0, 200, 9, 0));
    CHECK(is_part(&server, 2, 0, 0, 201, 9, AMQP1_EVENT_LAST | AMQP1_EVENT_PRESETTLED | AMQP1_EVENT_GIVEN));
    CHECK(sends_part(&client, 0, AMQP1_FLAG_MORE, 100, given_with(5), &told) == AMQP1_DONE && is_told(&told, 1, 0, 0, 0));
    CHECK(sends_part(&client, 0, AMQP1_FLAG_ABORTED, 50, 9, &told) == AMQP1_DONE && is_told(&told, 1, 0, 1, given_with(5)));
    CHECK(passes(&client, &server) == 2 && is_part(&server, 0, 0, 1, 100, 8, AMQP1_EVENT_FIRST));
    CHECK(is_part(&server, 1, 0, 1, 100, 8, AMQP1_EVENT_ABORTED | AMQP1_EVENT_PRESETTLED | AMQP1_EVENT_GIVEN));
    CHECK(sends_part(&client, 0, AMQP1_FLAG_ABORTED, 1, 9, &told) == AMQP1_REFUSED && is_told(&told, 0, AMQP1_WHY_LINK_NONE_UNDER_WAY, 0, 0));
    CHECK(sends_part(&client, 0, AMQP1_FLAG_MORE | AMQP1_FLAG_SETTLED, 1, 9, &told) == AMQP1_DONE && is_told(&told, 2, 0, 0, 0));
    CHECK(sends_part(&client, 0, 0, 1, 9, &told) == AMQP1_DONE && is_told(&told, 2, 0, 0, 0));
    CHECK(passes(&client, &server) == 2 && is_part(&server, 0, 0, 2, 1, 7, AMQP1_EVENT_FIRST | AMQP1_EVENT_PRESETTLED));
    CHECK(is_part(&server, 1, 0, 2, 2, 7, AMQP1_EVENT_LAST | AMQP1_EVENT_PRESETTLED));
    CHECK(amqp1_link_left_of(&client.engine, CLIENTS, AMQP1_SENDER, &delivery) == AMQP1_NOTHING);
    CHECK(amqp1_link_left_of(&server.engine, SERVERS, AMQP1_RECEIVER, &delivery) == AMQP1_NOTHING);
    part();
}

/* A receiver that renews nothing by itself grants, and has the credit used up; the sender has it so once none of its messages are ready. */
static void try_drain(void)
{
    uint32_t link = 99;
    meet();
    CHECK(amqp1_receiver(&client.engine, CLIENTS, "in", "q", 0, &link) == AMQP1_DONE && link == 0);
    passes(&client, &server);
    CHECK(answers_link(&server, "in", AMQP1_SENDER, 0, 0, 0) == 0 && is_event(&server, 0, AMQP1_EVENT_ATTACHED, 0, AMQP1_LIFE_ATTACHED, 0, 0));
    CHECK(passes(&server, &client) == 1 && is_event(&client, 0, AMQP1_EVENT_ATTACHED, 0, AMQP1_LIFE_ATTACHED, 0, 0));
    CHECK(amqp1_grant(&client.engine, CLIENTS, 0, 5) == AMQP1_DONE && credit_of(&client, 0) == 5 && passes(&client, &server) == 1);
    CHECK(is_event(&server, 0, AMQP1_EVENT_FLOW, 0, 0, 5, 0));
    server.is_silent = 1;
    CHECK(amqp1_drain(&client.engine, CLIENTS, 0) == AMQP1_DONE && passes(&client, &server) == 1 && is_event(&server, 0, AMQP1_EVENT_FLOW, 0, 0, 5, 0));
    CHECK(amqp1_link_respond(&server.engine, server.events, 1) == AMQP1_NOTHING && sends_one(&server, 0, AMQP1_FLAG_SETTLED, 0));
    CHECK(amqp1_link_respond(&server.engine, server.events, 0) == AMQP1_DONE && credit_of(&server, 0) == 0);
    CHECK(amqp1_link_respond(&server.engine, server.events, 0) == AMQP1_NOTHING);
    CHECK(passes(&server, &client) == 2 && is_part(&client, 0, 0, 0, 3, 4, WHOLE | AMQP1_EVENT_PRESETTLED));
    CHECK(is_event(&client, 1, AMQP1_EVENT_FLOW, 0, 4, 0, 0) && credit_of(&client, 0) == 0);
    CHECK(sends_part(&server, 0, 0, 3, 5, &told) == AMQP1_REFUSED && is_told(&told, 0, AMQP1_WHY_LINK_NO_CREDIT, 0, 0));
    part();
}

/* A receiver that renews by itself drains: what comes renews nothing then, nor does a wish, until it grants. */
static void try_drain_and_renew(void)
{
    meet_by_link(9, 10, 0);
    client.is_silent = 1;
    CHECK(amqp1_drain(&server.engine, SERVERS, 0) == AMQP1_DONE && passes(&server, &client) == 1 && client.flow.credit == 10);
    CHECK(amqp1_has(&client.flow, AMQP1_FLAG_DRAIN) && sends_one(&client, 0, AMQP1_FLAG_SETTLED, 0) && sends_one(&client, 0, AMQP1_FLAG_SETTLED, 1));
    CHECK(passes(&client, &server) == 2 && is_part(&server, 1, 0, 1, 3, 8, WHOLE | AMQP1_EVENT_PRESETTLED) && credit_of(&server, 0) == 8);
    CHECK(passes(&server, &client) == 0 && amqp1_link_respond(&client.engine, client.events, 0) == AMQP1_DONE && credit_of(&client, 0) == 0);
    CHECK(passes(&client, &server) == 1 && is_event(&server, 0, AMQP1_EVENT_FLOW, 0, 8, 0, 0) && passes(&server, &client) == 0);
    CHECK(amqp1_link_flow(&server.engine, SERVERS, 0, AMQP1_WISH_RENEW, 0) == AMQP1_NOTHING);
    CHECK(amqp1_grant(&server.engine, SERVERS, 0, 1) == AMQP1_DONE && passes(&server, &client) == 1);
    CHECK(is_event(&client, 0, AMQP1_EVENT_FLOW, 0, 0, 1, 0) && !amqp1_has(&client.flow, AMQP1_FLAG_DRAIN) && credit_of(&server, 0) == 1);
    CHECK(amqp1_link_flow(&server.engine, SERVERS, 0, AMQP1_WISH_RENEW, 0) == AMQP1_DONE && credit_of(&server, 0) == 10);
    part();
}

/* Less credit than before is granted while a delivery is on the way: it comes past the credit. */
static void try_less_credit(void)
{
    meet_by_link(5, 10, 0);
    CHECK(sends_one(&client, 0, 0, 0) && amqp1_grant(&server.engine, SERVERS, 0, 0) == AMQP1_DONE && credit_of(&server, 0) == 0);
    CHECK(passes(&client, &server) == 1 && is_event(&server, 0, AMQP1_EVENT_FAULT, 0, AMQP1_FAULT_OVER_CREDIT, 0, AMQP1_EVENT_NUMBERED));
    part();
}

/* A flow of a link by hand, of one that knows no credit, with `echo`. */
static void echoes(face *from, uint32_t credit)
{
    uint8_t flow[64];
    uint32_t count = 0;
    size_t length;
    CHECK(amqp1_write_flow(flow, sizeof flow, &length, 0, &count, credit, 0, 1) == AMQP1_DONE);
    CHECK(amqp1_flow(&from->engine, from->session, flow, length) == AMQP1_DONE);
}

/* The peer asks for a flow: either end answers, once. */
static void try_echo(void)
{
    meet_by_link(5, 10, 0);
    server.is_silent = client.is_silent = 1;
    echoes(&client, 0);
    CHECK(passes(&client, &server) == 1 && is_event(&server, 0, AMQP1_EVENT_FLOW, 0, 0, 10, 0));
    CHECK(amqp1_link_respond(&server.engine, server.events, 0) == AMQP1_DONE && amqp1_link_respond(&server.engine, server.events, 0) == AMQP1_NOTHING);
    CHECK(passes(&server, &client) == 1 && is_event(&client, 0, AMQP1_EVENT_FLOW, 0, 0, 10, 0));
    echoes(&server, 3);
    CHECK(passes(&server, &client) == 1 && is_event(&client, 0, AMQP1_EVENT_FLOW, 0, 0, 3, 0));
    CHECK(amqp1_link_flow(&client.engine, CLIENTS, 0, AMQP1_WISH_ANSWER, 77) == AMQP1_DONE);
    CHECK(amqp1_link_flow(&client.engine, CLIENTS, 0, AMQP1_WISH_ANSWER, 77) == AMQP1_NOTHING);
    CHECK(passes(&client, &server) == 1 && server.flow.available == 77 && server.flow.credit == 3 && server.flow.count == 0);
    part();
}

/* A record is told, and what is owed for it is sent, by one call: Attach, flow, part, and the Detaches. */
static void try_follow(void)
{
    amqp1_event event;
    uint32_t link = 99;
    meet();
    client.follows = server.follows = 1;
    CHECK(amqp1_receiver(&client.engine, CLIENTS, "in", "q", 3, &link) == AMQP1_DONE && link == 0);
    passes(&client, &server);
    CHECK(answers_link(&server, "in", AMQP1_SENDER, 0, 0, 0) == 0);
    CHECK(passes(&server, &client) == 1 && is_event(&client, 0, AMQP1_EVENT_ATTACHED, 0, AMQP1_LIFE_ATTACHED, 0, 0));
    CHECK(passes(&client, &server) == 1 && is_event(&server, 0, AMQP1_EVENT_FLOW, 0, 0, 3, 0));
    CHECK(sends_one(&server, 0, 0, 0) && sends_one(&server, 0, 0, 1) && passes(&server, &client) == 2);
    CHECK(is_part(&client, 0, 0, 0, 3, 2, WHOLE) && is_part(&client, 1, 0, 1, 3, 1, WHOLE) && credit_of(&client, 0) == 3);
    CHECK(passes(&client, &server) == 1 && is_event(&server, 0, AMQP1_EVENT_FLOW, 0, 0, 3, 0));
    CHECK(amqp1_link_left_of(&client.engine, CLIENTS, AMQP1_RECEIVER, &delivery) == AMQP1_DONE && is_unsettled(&delivery, 0, 0, 0));
    CHECK(amqp1_link_detach(&client.engine, CLIENTS, 0, 1, key, 0) == AMQP1_DONE && passes(&client, &server) == 1);
    CHECK(is_event(&server, 0, AMQP1_EVENT_ENDED, 0, AMQP1_END_BY_PEER, 3, AMQP1_EVENT_FOR_GOOD) && passes(&server, &client) == 1);
    CHECK(is_event(&client, 0, AMQP1_EVENT_ENDED, 0, AMQP1_END_ANSWERED, 3, AMQP1_EVENT_FOR_GOOD));
    part();
    memset(&event, 7, sizeof event);
    CHECK(amqp1_link_follow(&client.engine, &client.wanted, &event) == AMQP1_NO_ENGINE && event.kind == AMQP1_EVENT_NOTHING && !event.credit);
}

/* A window of 1: each delivery is followed by a flow. */
static void try_least_window(void)
{
    uint32_t link = 99, number;
    meet();
    CHECK(amqp1_receiver(&client.engine, CLIENTS, "in", "q", 1, &link) == AMQP1_DONE);
    passes(&client, &server);
    CHECK(answers_link(&server, "in", AMQP1_SENDER, 0, 0, 0) == 0);
    exchanges();
    for (number = 0; number < 3; number++) {
        CHECK(credit_of(&server, 0) == 1 && sends_one(&server, 0, AMQP1_FLAG_SETTLED, number) && credit_of(&server, 0) == 0);
        CHECK(passes(&server, &client) == 1 && is_part(&client, 0, 0, number, 3, 0, WHOLE | AMQP1_EVENT_PRESETTLED) && passes(&client, &server) == 1);
    }
    part();
}

void try_credit(void)
{
    try_renewal();
    try_no_credit();
    try_settled();
    try_accepted();
    try_parts();
    try_drain();
    try_drain_and_renew();
    try_less_credit();
    try_echo();
    try_follow();
    try_least_window();
}
