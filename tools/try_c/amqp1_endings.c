/* Tests of libamqp1: how links with credit end, what is left on them, what a peer may not do on them, and what is refused of this side. */
#include "amqp1_faces.h"

static amqp1_told told;
static amqp1_unsettled delivery;

/* The record of a Detach has this error, or none, and is for good or not. */
static int detached_by(const face *it, const char *condition, int for_good)
{
    return it->detached.kind == AMQP1_KIND_DETACHED && !strcmp(it->condition, condition) && amqp1_has(&it->detached, AMQP1_FLAG_FOR_GOOD) == for_good &&
           amqp1_has(&it->detached, AMQP1_FLAG_ERROR) == (*condition != 0);
}

/* This side detaches, without an error and not for good; the peer answers; the name may be attached again. */
static void try_detach(void)
{
    uint32_t link = 99;
    meet_by_link(5, 10, 0);
    CHECK(amqp1_link_remove(&client.engine, CLIENTS, 0) == AMQP1_NOT_DETACHED);
    CHECK(amqp1_link_detach(&client.engine, CLIENTS, 0, 0, key, 0) == AMQP1_DONE);
    CHECK(amqp1_link_detach(&client.engine, CLIENTS, 0, 0, key, 0) == AMQP1_NOTHING);
    CHECK(amqp1_link_detach(&client.engine, CLIENTS, 1, 0, key, 0) == AMQP1_NOTHING);
    CHECK(sends_part(&client, 0, 0, 3, 5, &told) == AMQP1_REFUSED && is_told(&told, 0, AMQP1_WHY_LINK_NOT_ATTACHED, 0, 0));
    CHECK(amqp1_link_remove(&client.engine, CLIENTS, 0) == AMQP1_NOT_DETACHED);
    server.is_silent = 1;
    CHECK(passes(&client, &server) == 1 && is_event(&server, 0, AMQP1_EVENT_ENDED, 0, AMQP1_END_BY_PEER, 10, 0) && detached_by(&server, "", 0));
    CHECK(amqp1_link_remove(&server.engine, SERVERS, 0) == AMQP1_NOT_DETACHED);
    CHECK(amqp1_link_respond(&server.engine, server.events, 0) == AMQP1_DONE && amqp1_link_respond(&server.engine, server.events, 0) == AMQP1_NOTHING);
    CHECK(amqp1_link_remove(&server.engine, SERVERS, 0) == AMQP1_DONE && amqp1_link_remove(&server.engine, SERVERS, 0) == AMQP1_NO_LINK);
    CHECK(passes(&server, &client) == 1 && is_event(&client, 0, AMQP1_EVENT_ENDED, 0, AMQP1_END_ANSWERED, 10, 0) && detached_by(&client, "", 0));
    CHECK(amqp1_link_remove(&client.engine, CLIENTS, 0) == AMQP1_DONE && amqp1_link_remove(&client.engine, CLIENTS, 0) == AMQP1_NO_LINK);
    CHECK(amqp1_link_remove(&client.engine, 99, 0) == AMQP1_NO_LINK && credit_of(&client, 0) == 0);
    server.is_silent = 0;
    CHECK(amqp1_sender(&client.engine, CLIENTS, "out", "q", &link) == AMQP1_DONE && link == 0);
    passes(&client, &server);
    CHECK(answers_link(&server, "out", AMQP1_RECEIVER, 5, 10, 0) == 0 && passes(&server, &client) == 2 && credit_of(&client, 0) == 10);
    part();
}

/* A Detach with an error, for good; and what was unsettled on the link is left, on either side. */
static void try_left(void)
{
    uint8_t error[64];
    size_t length;
    meet_by_link(5, 10, 0);
    CHECK(sends_one(&client, 0, 0, 0) && sends_one(&client, 0, 0, 1) && sends_one(&client, 0, AMQP1_FLAG_SETTLED, 2) && passes(&client, &server) == 3);
    CHECK(amqp1_write_error(error, sizeof error, &length, "amqp:resource-deleted", "gone") == AMQP1_DONE);
    CHECK(amqp1_link_detach(&server.engine, SERVERS, 0, 1, error, 3) == AMQP1_BAD_ARGUMENT);
    CHECK(amqp1_link_left(&server.engine, SERVERS, 0, &delivery) == AMQP1_NOTHING);
    CHECK(amqp1_link_detach(&server.engine, SERVERS, 0, 1, error, length) == AMQP1_DONE && passes(&server, &client) == 1);
    CHECK(is_event(&client, 0, AMQP1_EVENT_ENDED, 0, AMQP1_END_BY_PEER, 7, AMQP1_EVENT_FOR_GOOD) && detached_by(&client, "amqp:resource-deleted", 1));
    CHECK(amqp1_link_remove(&client.engine, CLIENTS, 0) == AMQP1_UNSETTLED);
    CHECK(amqp1_link_left(&client.engine, CLIENTS, 1, &delivery) == AMQP1_NOTHING && amqp1_link_left(&client.engine, 99, 0, &delivery) == AMQP1_NOTHING);
    CHECK(amqp1_link_left(&client.engine, CLIENTS, 0, &delivery) == AMQP1_DONE && is_unsettled(&delivery, 0, 0, given_with(70)));
    CHECK(amqp1_link_left(&client.engine, CLIENTS, 0, &delivery) == AMQP1_DONE && is_unsettled(&delivery, 1, 0, given_with(71)));
    CHECK(amqp1_link_left(&client.engine, CLIENTS, 0, &delivery) == AMQP1_NOTHING && is_unsettled(&delivery, 1, 0, given_with(71)));
    CHECK(amqp1_link_remove(&client.engine, CLIENTS, 0) == AMQP1_DONE);
    CHECK(passes(&client, &server) == 1 && is_event(&server, 0, AMQP1_EVENT_ENDED, 0, AMQP1_END_ANSWERED, 7, AMQP1_EVENT_FOR_GOOD));
    CHECK(amqp1_link_remove(&server.engine, SERVERS, 0) == AMQP1_UNSETTLED);
    CHECK(amqp1_link_left_of(&server.engine, SERVERS, AMQP1_SENDER, &delivery) == AMQP1_NOTHING);
    CHECK(amqp1_link_left_of(&server.engine, SERVERS, 2, &delivery) == AMQP1_BAD_ARGUMENT);
    CHECK(amqp1_link_left_of(&server.engine, SERVERS, AMQP1_RECEIVER, &delivery) == AMQP1_DONE && is_unsettled(&delivery, 0, 0, given_with(0)));
    CHECK(amqp1_link_left_of(&server.engine, SERVERS, AMQP1_RECEIVER, &delivery) == AMQP1_DONE && is_unsettled(&delivery, 1, 0, given_with(1)));
    CHECK(amqp1_link_left_of(&server.engine, SERVERS, AMQP1_RECEIVER, &delivery) == AMQP1_NOTHING);
    CHECK(amqp1_link_remove(&server.engine, SERVERS, 0) == AMQP1_DONE);
    part();
}

/* A session ends with links, and what is unsettled is told; then the links are let go. */
static void try_forget(void)
{
    amqp1_event event;
    meet_by_link(5, 10, 0);
    CHECK(amqp1_link_forget(&client.engine, 99) == AMQP1_NOTHING && sends_one(&client, 0, 0, 0) && passes(&client, &server) == 1);
    CHECK(amqp1_end(&client.engine, CLIENTS, NULL, 0) == AMQP1_DONE && passes(&client, &server) == 0);
    CHECK(amqp1_answer_end(&server.engine, SERVERS, NULL, 0) == AMQP1_DONE && passes(&server, &client) == 0);
    CHECK(amqp1_let_go(&client.engine, CLIENTS) == AMQP1_DONE);
    CHECK(amqp1_link_left_of(&client.engine, CLIENTS, AMQP1_SENDER, &delivery) == AMQP1_DONE && is_unsettled(&delivery, 0, 0, given_with(70)));
    CHECK(amqp1_link_left_of(&client.engine, CLIENTS, AMQP1_SENDER, &delivery) == AMQP1_NOTHING);
    CHECK(sends_part(&client, 0, 0, 3, 5, &told) == AMQP1_REFUSED && is_told(&told, 0, AMQP1_WHY_NO_SESSION, 0, 0));
    CHECK(amqp1_link_flow(&server.engine, SERVERS, 0, AMQP1_WISH_GRANT, 5) == AMQP1_REFUSED && refused_as(&server.engine, "NoSession", ""));
    CHECK(amqp1_link_detach(&server.engine, SERVERS, 0, 1, key, 0) == AMQP1_REFUSED && refused_as(&server.engine, "NoSession", ""));
    event = server.events[0];
    event.kind = AMQP1_EVENT_ENDED;
    CHECK(amqp1_link_respond(&server.engine, &event, 0) == AMQP1_REFUSED && refused_as(&server.engine, "NoSession", ""));
    CHECK(amqp1_link_forget(&client.engine, CLIENTS) == AMQP1_DONE && amqp1_link_forget(&client.engine, CLIENTS) == AMQP1_NOTHING);
    CHECK(amqp1_link_forget(&server.engine, SERVERS) == AMQP1_DONE && amqp1_link_forget(&server.engine, SERVERS) == AMQP1_NOTHING);
    CHECK(sends_part(&client, 0, 0, 3, 5, &told) == AMQP1_REFUSED && is_told(&told, 0, AMQP1_WHY_LINK_NO_SENDER, 0, 0));
    CHECK(amqp1_link_left_of(&server.engine, SERVERS, AMQP1_RECEIVER, &delivery) == AMQP1_NOTHING);
    part();
}

/* The peer attaches without the terminus of its own, and detaches: the link is refused. */
static void try_refused_link(void)
{
    uint8_t text[128];
    uint32_t link = 99;
    size_t length;
    meet();
    server.is_plain = 1;
    CHECK(amqp1_sender(&client.engine, CLIENTS, "out", "q", &link) == AMQP1_DONE);
    passes(&client, &server);
    CHECK(amqp1_link_on(&server.engine, SERVERS, server.wanted.input, AMQP1_RECEIVER, AMQP1_FIRST, "out", &link) == AMQP1_DONE && link == 0);
    length = attach_text(text, sizeof text, "out", AMQP1_RECEIVER, "q", NULL, 0);
    CHECK(amqp1_attach(&server.engine, SERVERS, text, length) == AMQP1_DONE && passes(&server, &client) == 1);
    CHECK(is_event(&client, 0, AMQP1_EVENT_ATTACHED, 0, AMQP1_LIFE_REFUSED, 0, 0));
    CHECK(sends_part(&client, 0, 0, 3, 5, &told) == AMQP1_REFUSED && is_told(&told, 0, AMQP1_WHY_LINK_NOT_ATTACHED, 0, 0));
    CHECK(amqp1_write_detach(text, sizeof text, &length, 0, 1, "amqp:not-found", NULL) == AMQP1_DONE);
    CHECK(amqp1_detach(&server.engine, SERVERS, 1, text, length) == AMQP1_DONE);
    client.is_silent = 1;
    CHECK(passes(&server, &client) == 1 && detached_by(&client, "amqp:not-found", 1));
    CHECK(is_event(&client, 0, AMQP1_EVENT_ENDED, 0, AMQP1_END_REFUSED, 0, AMQP1_EVENT_FOR_GOOD));
    CHECK(amqp1_link_remove(&client.engine, CLIENTS, 0) == AMQP1_NOT_DETACHED && amqp1_link_respond(&client.engine, client.events, 0) == AMQP1_DONE);
    CHECK(amqp1_link_remove(&client.engine, CLIENTS, 0) == AMQP1_DONE && passes(&client, &server) == 0 && detached_by(&server, "", 1));
    part();
}

/* Attaches cross, and so do Detaches, with a transfer and a flow before one of them: each side takes the other's for the answer. */
static void try_crossing(void)
{
    uint32_t link = 99;
    meet();
    CHECK(amqp1_sender(&client.engine, CLIENTS, "out", "q", &link) == AMQP1_DONE && link == 0);
    CHECK(amqp1_receiver(&server.engine, SERVERS, "out", "q", 10, &link) == AMQP1_DONE && link == 0);
    CHECK(passes(&client, &server) == 1 && is_event(&server, 0, AMQP1_EVENT_ATTACHED, 0, AMQP1_LIFE_ATTACHED, 0, 0));
    CHECK(passes(&server, &client) == 2 && is_event(&client, 0, AMQP1_EVENT_ATTACHED, 0, AMQP1_LIFE_ATTACHED, 0, 0) && credit_of(&client, 0) == 10);
    CHECK(sends_one(&client, 0, 0, 0) && amqp1_link_detach(&client.engine, CLIENTS, 0, 1, key, 0) == AMQP1_DONE);
    CHECK(amqp1_grant(&server.engine, SERVERS, 0, 20) == AMQP1_DONE && amqp1_link_detach(&server.engine, SERVERS, 0, 1, key, 0) == AMQP1_DONE);
    CHECK(passes(&client, &server) == 2 && is_event(&server, 0, AMQP1_EVENT_PASSED_OVER, 0, 0, 20, AMQP1_EVENT_NUMBERED));
    CHECK(is_event(&server, 1, AMQP1_EVENT_ENDED, 0, AMQP1_END_ANSWERED, 20, AMQP1_EVENT_FOR_GOOD));
    CHECK(passes(&server, &client) == 2 && is_event(&client, 0, AMQP1_EVENT_FLOW, 0, 0, 9, 0));
    CHECK(is_event(&client, 1, AMQP1_EVENT_ENDED, 0, AMQP1_END_ANSWERED, 9, AMQP1_EVENT_FOR_GOOD));
    CHECK(amqp1_link_remove(&server.engine, SERVERS, 0) == AMQP1_DONE && amqp1_link_remove(&client.engine, CLIENTS, 0) == AMQP1_UNSETTLED);
    CHECK(passes(&client, &server) == 0 && passes(&server, &client) == 0);
    part();
}

/* A link on which the peer's Attach has not come yet sends nothing; and an Attach that is told to a handle that no end has is nothing. */
static void try_attaching(void)
{
    uint32_t link = 99;
    amqp1_event event;
    meet();
    CHECK(amqp1_sender(&client.engine, CLIENTS, "out", "q", &link) == AMQP1_DONE);
    CHECK(amqp1_sender(&client.engine, CLIENTS, "out", "q", &link) == AMQP1_IN_USE);
    CHECK(sends_part(&client, 0, 0, 3, 5, &told) == AMQP1_REFUSED && is_told(&told, 0, AMQP1_WHY_LINK_NOT_ATTACHED, 0, 0));
    passes(&client, &server);
    CHECK(amqp1_link_wanted(&server.engine, &server.wanted, 0, &event) == AMQP1_DONE && event.kind == AMQP1_EVENT_NOTHING && event.link == AMQP1_NONE);
    CHECK(answers_link(&server, "out", AMQP1_RECEIVER, 5, 10, 0) == 0);
    CHECK(amqp1_link_wanted(&server.engine, &server.detached, 9, &event) == AMQP1_DONE && event.kind == AMQP1_EVENT_NOTHING);
    CHECK(passes(&server, &client) == 2 && is_event(&client, 0, AMQP1_EVENT_ATTACHED, 0, AMQP1_LIFE_ATTACHED, 0, 0));
    part();
}

/* A target that is durable, and a source whose node keeps its messages; and one that has no form, or is too long. */
static void try_termini(void)
{
    amqp1_terminus to = amqp1_terminus_at("q"), from = to;
    char address[1200];
    uint32_t link = 99;
    memset(address, 'a', sizeof address - 1);
    address[sizeof address - 1] = 0;
    to.durable = AMQP1_DURABLE_UNSETTLED;
    from.distribution_mode = "copy";
    meet();
    CHECK(amqp1_sender_to(&client.engine, CLIENTS, "out", &to, &link) == AMQP1_DONE && link == 0);
    CHECK(sends(&client.engine, "[02000000 005312 c0(0a a1(6f7574) 43 42 40 40 005328 d0 00000009 00000001 a1(6f7574)"
                                "005329 d0 0000000c 00000002 a1(71) 7000000002 40 40 43)]"));
    CHECK(amqp1_receiver_from(&client.engine, CLIENTS, "in", &from, 5, &link) == AMQP1_DONE && link == 1);
    CHECK(sends(&client.engine, "[02000000 005312 c0(07 a1(696e) 5201 41 40 40"
                                "005328 d0 0000001a 00000007 a1(71) 7000000000 40 7000000000 42 40 a3(636f7079)"
                                "005329 d0 00000008 00000001 a1(696e))]"));
    to.durable = 3;
    CHECK(amqp1_sender_to(&client.engine, CLIENTS, "bad", &to, &link) == AMQP1_BAD_ARGUMENT);
    from.address = address;
    CHECK(amqp1_receiver_from(&client.engine, CLIENTS, "long", &from, 5, &link) == AMQP1_TOO_SMALL && link == 1);
    CHECK(sends(&client.engine, ""));
    part();
}

/* What attaches answers where it does not attach. */
static void try_refused_attaches(void)
{
    uint8_t text[1500];
    char address[1200];
    uint32_t link = 99;
    size_t length;
    memset(address, 'a', sizeof address - 1);
    address[sizeof address - 1] = 0;
    meet();
    length = attach_text(text, sizeof text, "out", AMQP1_SENDER, "q", "q", 0);
    CHECK(amqp1_link_attach(&client.engine, CLIENTS, text, length, text, 0, 0, 0, &link) == AMQP1_NO_LINK && link == 99);
    CHECK(amqp1_link_attach(&client.engine, 99, text, length, text, 0, 0, 0, &link) == AMQP1_NO_LINK && link == 99);
    CHECK(amqp1_link_attach(&client.engine, CLIENTS, text, length - 1, text, 0, 0, 0, &link) == AMQP1_BAD_ARGUMENT && link == 99);
    CHECK(amqp1_link_attach(&client.engine, CLIENTS, text, 0, text, 0, 0, 0, &link) == AMQP1_BAD_ARGUMENT && link == 99);
    CHECK(amqp1_sender(&client.engine, 99, "out", "q", &link) == AMQP1_REFUSED && refused_as(&client.engine, "NoSession", ""));
    CHECK(amqp1_sender(&client.engine, CLIENTS, "out", address, &link) == AMQP1_TOO_SMALL);
    CHECK(amqp1_link(&client.engine, CLIENTS, AMQP1_SENDER, AMQP1_FIRST, "out", &link) == AMQP1_DONE && link == 0);
    link = 99;
    CHECK(amqp1_link_attach(&client.engine, CLIENTS, text, length, text, 0, 0, 0, &link) == AMQP1_DONE && link == 0);
    link = 99;
    CHECK(amqp1_link_attach(&client.engine, CLIENTS, text, length, text, 0, 0, 0, &link) == AMQP1_IN_USE && link == 99);
    /* one that is longer than the peer's frames */
    CHECK(amqp1_link(&client.engine, CLIENTS, AMQP1_RECEIVER, AMQP1_FIRST, "long", &link) == AMQP1_DONE && link == 1);
    length = attach_text(text, sizeof text, "long", AMQP1_RECEIVER, address, "q", 0);
    link = 99;
    CHECK(amqp1_link_attach(&client.engine, CLIENTS, text, length, text, 0, 0, 0, &link) == AMQP1_REFUSED && link == 99);
    CHECK(refused_as(&client.engine, "TooLarge", ""));
    part();
}

/* What the other calls answer where they do nothing. */
static void try_nothing(void)
{
    meet();
    CHECK(amqp1_link_settle(&client.engine, CLIENTS, AMQP1_SENDER, 0, 0, 1, AMQP1_ACCEPTED) == AMQP1_NOTHING);
    CHECK(amqp1_link_flow(&client.engine, CLIENTS, 0, AMQP1_WISH_GRANT, 1) == AMQP1_NOTHING);
    CHECK(amqp1_link_detach(&client.engine, CLIENTS, 0, 1, key, 0) == AMQP1_NOTHING);
    CHECK(sends_part(&client, 0, 0, 3, 5, &told) == AMQP1_REFUSED && is_told(&told, 0, AMQP1_WHY_LINK_NO_SENDER, 0, 0));
    meet_by_link(5, 10, 0);
    CHECK(sends_part(&client, 9, 0, 3, 5, &told) == AMQP1_REFUSED && is_told(&told, 0, AMQP1_WHY_LINK_NO_SENDER, 0, 0));
    CHECK(sends_part(&server, 0, 0, 3, 5, &told) == AMQP1_REFUSED && is_told(&told, 0, AMQP1_WHY_LINK_NO_SENDER, 0, 0));
    CHECK(amqp1_link_flow(&client.engine, CLIENTS, 0, AMQP1_WISH_GRANT, 1) == AMQP1_NOTHING && amqp1_drain(&client.engine, CLIENTS, 0) == AMQP1_NOTHING);
    CHECK(amqp1_link_flow(&client.engine, CLIENTS, 9, AMQP1_WISH_GRANT, 1) == AMQP1_NOTHING);
    CHECK(amqp1_link_flow(&client.engine, 99, 0, AMQP1_WISH_GRANT, 1) == AMQP1_NOTHING);
    CHECK(amqp1_link_flow(&client.engine, CLIENTS, 0, 4, 1) == AMQP1_BAD_ARGUMENT);
    CHECK(amqp1_link_flow(&client.engine, 99, 9, AMQP1_NONE, 1) == AMQP1_BAD_ARGUMENT);
    CHECK(amqp1_link_flow(&server.engine, SERVERS, 0, AMQP1_WISH_RENEW, 0) == AMQP1_NOTHING);
    CHECK(amqp1_link_flow(&server.engine, SERVERS, 0, AMQP1_WISH_ANSWER, 0) == AMQP1_NOTHING);
    CHECK(amqp1_link_settle(&server.engine, SERVERS, 2, 0, 0, 1, AMQP1_ACCEPTED) == AMQP1_BAD_ARGUMENT);
    CHECK(amqp1_link_settle(&server.engine, SERVERS, AMQP1_RECEIVER, 0, 0, 1, AMQP1_REJECTED) == AMQP1_BAD_ARGUMENT);
    CHECK(amqp1_link_settle(&server.engine, SERVERS, AMQP1_RECEIVER, 0, 0, 1, AMQP1_RECEIVED) == AMQP1_BAD_ARGUMENT);
    CHECK(amqp1_link_settled(&server.engine, SERVERS, 2, 0, 0, &delivery) == AMQP1_BAD_ARGUMENT);
    CHECK(amqp1_link_settled(&server.engine, 99, AMQP1_RECEIVER, 0, 0, &delivery) == AMQP1_NOTHING);
    CHECK(passes(&client, &server) == 0 && passes(&server, &client) == 0);
    part();
}

/* Transfers that are not sent, beside those without credit. */
static void try_refused_sends_on_links(void)
{
    amqp1_head head = head_of(CLIENTS, 0, AMQP1_FLAG_TAGGED, 1, 3);
    static const uint8_t many[40] = { 1 };
    amqp1_told kept = { 1, 2, 3, 4, 0 };
    meet_by_link(5, 10, 250);
    CHECK(sends_part(&client, 0, 0, 251, 5, &told) == AMQP1_REFUSED && is_told(&told, 0, AMQP1_WHY_LINK_TOO_LARGE, 0, 0));
    CHECK(sends_part(&client, 0, AMQP1_FLAG_MORE, 200, 5, &told) == AMQP1_DONE && is_told(&told, 0, 0, 0, 0) && credit_of(&client, 0) == 9);
    CHECK(sends_part(&client, 0, 0, 51, 5, &told) == AMQP1_REFUSED && is_told(&told, 0, AMQP1_WHY_LINK_TOO_LARGE, 0, 0));
    CHECK(sends_part(&client, 0, 0, 50, 5, &told) == AMQP1_DONE && is_told(&told, 0, 0, 0, 0) && credit_of(&client, 0) == 9);
    CHECK(amqp1_link_send(&client.engine, &head, key, 3, 5, &kept) == AMQP1_SHORT && is_told(&kept, 0, 0, 0, 0) && credit_of(&client, 0) == 9);
    head.tag_size = 33;
    CHECK(amqp1_link_send(&client.engine, &head, many, 40, 5, &told) == AMQP1_REFUSED && is_told(&told, 0, AMQP1_WHY_TAG_TOO_LONG, 0, 0));
    CHECK(credit_of(&client, 0) == 9);
    CHECK(passes(&client, &server) == 2 && is_part(&server, 1, 0, 0, 250, 9, AMQP1_EVENT_LAST));
    part();
    meet_by_link(5, 10, 0);
    CHECK(sends_part(&client, 0, 0, 1020, 5, &told) == AMQP1_REFUSED && is_told(&told, 0, AMQP1_WHY_PAYLOAD_TOO_LONG, 0, 0));
    CHECK(sends_one(&client, 0, 0, 0) && amqp1_close(&client.engine, NULL, 0) == AMQP1_DONE);
    passes(&client, &server);
    passes(&server, &client);
    CHECK(sends_part(&client, 0, 0, 3, 5, &told) == AMQP1_OVER && is_told(&told, 0, 0, 0, 0));
    CHECK(amqp1_link_settle(&client.engine, CLIENTS, AMQP1_SENDER, 0, 0, 1, AMQP1_ACCEPTED) == AMQP1_REFUSED && refused_as(&client.engine, "Over", ""));
    CHECK(amqp1_link_left_of(&client.engine, CLIENTS, AMQP1_SENDER, &delivery) == AMQP1_DONE && is_unsettled(&delivery, 0, 0, given_with(70)));
    part();
}

void try_endings(void)
{
    try_detach();
    try_left();
    try_forget();
    try_refused_link();
    try_crossing();
    try_attaching();
    try_termini();
    try_refused_attaches();
    try_nothing();
    try_refused_sends_on_links();
}
