/* How a server answers what a client begins and ends, by links: see amqp1_socket.h. */
#include "amqp1_socket.h"

uint32_t answer_link(const amqp1_record *record, const uint8_t *input, uint32_t credit)
{
    enum amqp1_role role = amqp1_has(record, AMQP1_FLAG_RECEIVER) ? AMQP1_SENDER : AMQP1_RECEIVER;
    amqp1_bytes perf = amqp1_performative(input, record), of;
    char name[256], address[256];
    uint8_t text[1024];
    uint32_t link;
    size_t length;
    amqp1_event event;
    amqp1_field(perf, role == AMQP1_SENDER ? AMQP1_ATTACH_SOURCE : AMQP1_ATTACH_TARGET, &of);
    string_of(amqp1_bytes_field(perf, AMQP1_ATTACH_NAME), name, sizeof name);
    string_of(amqp1_bytes_field(of, AMQP1_TERMINUS_ADDRESS), address, sizeof address);
    must("a link", amqp1_link_on(&engine, record->session, record->input, role, AMQP1_FIRST, name, &link));
    must("an attach's text",
        amqp1_write_attach(text, sizeof text, &length, name, link, role, 2, AMQP1_FIRST, address, address, 0));
    must("an attach", amqp1_link_attach(&engine, record->session, text, length, text, 0, credit - credit / 2, credit,
        &link));
    must("an attach's event", amqp1_link_wanted(&engine, record, link, &event));
    if (role == AMQP1_RECEIVER)
        must("credit", amqp1_link_respond(&engine, &event, 0));
    return link;
}

/* A link is over: what is unsettled on it is let go, and its handle is free. */
static void drop_link(const amqp1_event *event)
{
    amqp1_unsettled delivery;
    while (amqp1_link_left(&engine, event->session, event->link, &delivery) == AMQP1_DONE)
        ;
    must("a link's end", amqp1_link_remove(&engine, event->session, event->link));
}

void answer(const amqp1_record *record, const uint8_t *input, const amqp1_event *event)
{
    static uint32_t sessions;
    if (event->kind == AMQP1_EVENT_ENDED)
        drop_link(event);
    if (record->kind == AMQP1_KIND_BEGIN_WANTED || record->kind == AMQP1_KIND_ENDED
        || record->kind == AMQP1_KIND_CLOSED) {
        must("an answer", amqp1_answer(&engine, record, input, record->payload_at + record->payload, AMQP1_ANSWER_ALL,
            sessions));
        sessions += record->kind == AMQP1_KIND_BEGIN_WANTED;
    } else if (record->refusal) {
        unexpected(record, input);
    }
    if (record->kind == AMQP1_KIND_ENDED)
        amqp1_link_forget(&engine, record->session);
}

/* By PLAIN, as this user, or by ANONYMOUS. */
static void let_in(const amqp1_record *record, const uint8_t *input, const char *user, const char *password)
{
    char plain[256];
    int length = snprintf(plain, sizeof plain, "%c%s%c%s", 0, user, 0, password);
    int is_right = amqp1_mechanism_is(input, record, "ANONYMOUS")
        || is_text(amqp1_payload(input, record), plain, (size_t)length);
    must("a login", amqp1_login(&engine, is_right ? AMQP1_LOGIN_OK : AMQP1_LOGIN_AUTH));
    printf("%s by %.*s\n", is_right ? "let in" : "refused", (int)record->last, (const char *)input + record->first);
}

/* What a client receives or sends begins by an event of its own, since the link's is told by its answer. */
static amqp1_event take_link(const amqp1_record *record, const uint8_t *input)
{
    amqp1_event event;
    memset(&event, 0, sizeof event);
    event.kind = AMQP1_EVENT_ATTACHED;
    event.session = record->session;
    event.link = answer_link(record, input, window);
    return event;
}

amqp1_event serve_on(const amqp1_record *record, const uint8_t *input, const char *user, const char *password)
{
    amqp1_event event;
    amqp1_unsettled delivery;
    must("a record", amqp1_link_follow(&engine, record, &event));
    if (record->kind == AMQP1_KIND_LOGIN_ASKED)
        let_in(record, input, user, password);
    else if (record->kind == AMQP1_KIND_ATTACH_WANTED)
        return take_link(record, input);
    else
        answer(record, input, &event);
    while (event.kind == AMQP1_EVENT_SETTLED && amqp1_link_settled_of(&engine, &event, &delivery) == AMQP1_DONE)
        ;
    return event;
}

int serve_next(int listening, const char *name)
{
    uint8_t key[16], open[64];
    size_t length;
    accept_on(listening, key);
    must("an open's text", amqp1_write_open(open, sizeof open, &length, name, NULL, 65536, 255, 0));
    must("an engine", amqp1_start_server(&engine, key, now(), LIMIT, "PLAIN ANONYMOUS", open, length));
    must("an open", amqp1_open(&engine));
    return run();
}
