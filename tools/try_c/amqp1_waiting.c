/* Tests of libamqp1: what waits for the peer's session window on links with credit, and what the session lets go. */
#include "amqp1_faces.h"

static amqp1_told told;
static amqp1_unsettled delivery;
static amqp1_event due;

/* A receiver of the client's with a credit of 9, in a session of two transfers at a time; the server has sent five. Both have the handle 0. */
static void meet_by_window(void)
{
    uint32_t number, link = 99;
    meet_with(2);
    CHECK(amqp1_receiver(&client.engine, CLIENTS, "in", "q", 0, &link) == AMQP1_DONE && link == 0);
    passes(&client, &server);
    CHECK(answers_link(&server, "in", AMQP1_SENDER, 0, 0, 0) == 0);
    passes(&server, &client);
    CHECK(amqp1_grant(&client.engine, CLIENTS, 0, 9) == AMQP1_DONE && passes(&client, &server) == 1);
    for (number = 0; number < 5; number++)
        CHECK(sends_one(&server, 0, 0, number));
    CHECK(credit_of(&server, 0) == 4);
}

/* A Detach of this side waits for the transfers of its link. */
static void try_detach_waits(void)
{
    meet_by_window();
    CHECK(amqp1_link_detach(&server.engine, SERVERS, 0, 1, key, 0) == AMQP1_HELD_BACK);
    CHECK(amqp1_link_detach(&server.engine, SERVERS, 0, 1, key, 0) == AMQP1_HELD_BACK);
    CHECK(amqp1_link_due(&server.engine, SERVERS, &due) == AMQP1_NOTHING && amqp1_link_due(&server.engine, 99, &due) == AMQP1_NOTHING);
    CHECK(passes(&server, &client) == 2 && passes(&client, &server) == 0 && amqp1_link_due(&server.engine, SERVERS, &due) == AMQP1_NOTHING);
    CHECK(passes(&server, &client) == 2 && passes(&client, &server) == 0);
    CHECK(amqp1_link_due(&server.engine, SERVERS, server.events) == AMQP1_DONE && is_event(&server, 0, AMQP1_EVENT_DUE, 0, 0, 4, 0));
    CHECK(amqp1_link_due(&server.engine, SERVERS, &due) == AMQP1_NOTHING);
    CHECK(amqp1_link_respond(&server.engine, server.events, 0) == AMQP1_NOTHING);
    CHECK(amqp1_link_detach(&server.engine, SERVERS, 0, 1, key, 0) == AMQP1_DONE && passes(&server, &client) == 2);
    CHECK(is_part(&client, 0, 0, 4, 3, 4, AMQP1_EVENT_FIRST | AMQP1_EVENT_LAST));
    CHECK(is_event(&client, 1, AMQP1_EVENT_ENDED, 0, AMQP1_END_BY_PEER, 4, AMQP1_EVENT_FOR_GOOD));
    part();
}

/* So does the answer to a drain. */
static void try_drain_waits(void)
{
    meet_by_window();
    CHECK(amqp1_drain(&client.engine, CLIENTS, 0) == AMQP1_DONE && passes(&client, &server) == 1);
    CHECK(amqp1_link_flow(&server.engine, SERVERS, 0, AMQP1_WISH_ANSWER, 0) == AMQP1_HELD_BACK && credit_of(&server, 0) == 4);
    CHECK(passes(&server, &client) == 2 && passes(&client, &server) == 0 && passes(&server, &client) == 2 && passes(&client, &server) == 0);
    CHECK(amqp1_link_pay(&server.engine, SERVERS, &due) == AMQP1_DONE && credit_of(&server, 0) == 0);
    CHECK(passes(&server, &client) == 2 && is_part(&client, 0, 0, 4, 3, 4, AMQP1_EVENT_FIRST | AMQP1_EVENT_LAST));
    CHECK(is_event(&client, 1, AMQP1_EVENT_FLOW, 0, 4, 0, 0));
    part();
}

/* And the answer to a Detach of the peer's, by amqp1_link_follow alone; what is left goes from the session too. */
static void try_answer_waits(void)
{
    uint32_t number;
    meet_by_window();
    server.follows = client.follows = 1;
    CHECK(amqp1_link_detach(&client.engine, CLIENTS, 0, 1, key, 0) == AMQP1_DONE);
    exchanges();
    CHECK(amqp1_link_remove(&client.engine, CLIENTS, 0) == AMQP1_DONE);
    for (number = 0; number < 5; number++)
        CHECK(amqp1_link_left(&server.engine, SERVERS, 0, &delivery) == AMQP1_DONE && is_unsettled(&delivery, number, 0, given_with(70 + number)));
    CHECK(amqp1_link_left(&server.engine, SERVERS, 0, &delivery) == AMQP1_NOTHING && amqp1_link_remove(&server.engine, SERVERS, 0) == AMQP1_DONE);
    part();
}

/* A Detach waits for the peer's Attach; and one whose error does not fit the peer's frame is not sent. */
static void try_early(void)
{
    uint8_t text[1200];
    char why[1100];
    uint32_t link = 99;
    size_t length;
    meet();
    CHECK(amqp1_sender(&client.engine, CLIENTS, "out", "q", &link) == AMQP1_DONE && link == 0);
    CHECK(amqp1_link_detach(&client.engine, CLIENTS, 0, 1, key, 0) == AMQP1_HELD_BACK && passes(&client, &server) == 0);
    CHECK(amqp1_link_due(&client.engine, CLIENTS, &due) == AMQP1_NOTHING && answers_link(&server, "out", AMQP1_RECEIVER, 0, 0, 0) == 0);
    CHECK(passes(&server, &client) == 1 && is_event(&client, 0, AMQP1_EVENT_ATTACHED, 0, AMQP1_LIFE_ATTACHED, 0, 0));
    memset(why, 'x', sizeof why - 1);
    why[sizeof why - 1] = 0;
    CHECK(amqp1_write_error(text, sizeof text, &length, "amqp:internal-error", why) == AMQP1_DONE);
    CHECK(amqp1_link_detach(&client.engine, CLIENTS, 0, 1, text, length) == AMQP1_REFUSED && passes(&client, &server) == 0);
    CHECK(amqp1_link_detach(&client.engine, CLIENTS, 0, 1, key, 0) == AMQP1_DONE && passes(&client, &server) == 1);
    CHECK(is_event(&server, 0, AMQP1_EVENT_ENDED, 0, AMQP1_END_BY_PEER, 0, AMQP1_EVENT_FOR_GOOD) && passes(&server, &client) == 1);
    CHECK(is_event(&client, 0, AMQP1_EVENT_ENDED, 0, AMQP1_END_ANSWERED, 0, AMQP1_EVENT_FOR_GOOD));
    part();
}

/* Deliveries are rejected, by a Disposition; and a terminal outcome that leaves the settlement to this side is answered. */
static void try_dispose(void)
{
    uint8_t text[128];
    size_t length;
    meet_by_link(5, 10, 0);
    CHECK(sends_one(&client, 0, 0, 0) && sends_one(&client, 0, 0, 1) && sends_one(&client, 0, 0, 2) && passes(&client, &server) == 3);
    CHECK(amqp1_write_disposition(text, sizeof text, &length, AMQP1_RECEIVER, 0, 1, 1, AMQP1_REJECTED) == AMQP1_DONE);
    CHECK(amqp1_link_dispose(&server.engine, SERVERS, text, length - 1) == AMQP1_BAD_ARGUMENT);
    CHECK(amqp1_link_dispose(&server.engine, 99, text, length) == AMQP1_NOTHING);
    CHECK(amqp1_link_dispose(&server.engine, SERVERS, text, length) == AMQP1_DONE && passes(&server, &client) == 1);
    CHECK(is_settled(&client, 0, 0, 1, AMQP1_EVENT_BY_PEER) && client.events[0].link == AMQP1_NONE);
    CHECK(amqp1_link_settled_of(&client.engine, client.events, &delivery) == AMQP1_DONE && is_unsettled(&delivery, 0, 0, given_with(70)));
    CHECK(amqp1_link_settled_of(&client.engine, client.events, &delivery) == AMQP1_DONE && is_unsettled(&delivery, 1, 0, given_with(71)));
    CHECK(amqp1_link_settled_of(&client.engine, client.events, &delivery) == AMQP1_NOTHING);
    CHECK(amqp1_link_settle(&server.engine, SERVERS, AMQP1_RECEIVER, 2, 2, 0, AMQP1_ACCEPTED) == AMQP1_DONE);
    client.is_silent = 1;
    CHECK(passes(&server, &client) == 1 && is_settled(&client, 0, 2, 2, 0));
    CHECK(amqp1_link_respond(&client.engine, client.events, 0) == AMQP1_DONE && passes(&client, &server) == 1);
    CHECK(is_settled(&server, 0, 2, 2, AMQP1_EVENT_RECEIVED | AMQP1_EVENT_BY_PEER));
    CHECK(amqp1_link_respond(&server.engine, server.events, 0) == AMQP1_NOTHING);
    part();
}

/* The handle of a link is allotted to another name than its Attach has, as by a server that marks names. */
static void try_name(void)
{
    uint8_t text[128];
    uint32_t link = 99, other = 99;
    size_t length;
    meet();
    CHECK(amqp1_sender(&client.engine, CLIENTS, "both", "q", &link) == AMQP1_DONE && passes(&client, &server) == 0);
    CHECK(amqp1_link_on(&server.engine, SERVERS, server.wanted.input, AMQP1_RECEIVER, AMQP1_FIRST, "r:both", &link) == AMQP1_DONE && link == 0);
    length = attach_text(text, sizeof text, "both", AMQP1_RECEIVER, "q", "q", 0);
    CHECK(amqp1_link_attach(&server.engine, SERVERS, text, length, text, 0, 5, 10, &other) == AMQP1_NO_LINK && other == 99);
    CHECK(amqp1_link_attach(&server.engine, SERVERS, text, length, (const uint8_t *)"r:\xff", 3, 5, 10, &other) == AMQP1_BAD_ARGUMENT);
    CHECK(amqp1_link_attach(&server.engine, SERVERS, text, length, (const uint8_t *)"r:both", 6, 5, 10, &other) == AMQP1_DONE && other == 0);
    CHECK(amqp1_link_wanted(&server.engine, &server.wanted, 0, server.events) == AMQP1_DONE);
    CHECK(is_event(&server, 0, AMQP1_EVENT_ATTACHED, 0, AMQP1_LIFE_ATTACHED, 0, 0));
    CHECK(amqp1_link_respond(&server.engine, server.events, 0) == AMQP1_DONE && passes(&server, &client) == 2 && credit_of(&client, 0) == 10);
    CHECK(sends_part(&client, 0, 0, 3, 5, &told) == AMQP1_DONE && passes(&client, &server) == 1);
    part();
}

void try_waiting(void)
{
    try_detach_waits();
    try_drain_waits();
    try_answer_waits();
    try_early();
    try_dispose();
    try_name();
}
