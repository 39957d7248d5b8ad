/* Two engines face to face, for the tests of links with credit: see amqp1_faces.h. */
#include "amqp1_faces.h"

face client, server;
static uint8_t passing[1 << 16];

uint64_t given_with(uint32_t number)
{
    return ((uint64_t)9 << 40) + number;
}

/* The condition of the peer's Detach. */
static void note_detach(face *to, const amqp1_record *record, const uint8_t *input)
{
    amqp1_bytes error, condition;
    to->detached = *record;
    to->condition[0] = 0;
    if (!amqp1_field(amqp1_performative(input, record), AMQP1_DETACH_ERROR, &error))
        return;
    condition = amqp1_bytes_field(error, AMQP1_ERROR_CONDITION);
    snprintf(to->condition, sizeof to->condition, "%.*s", (int)condition.length, (const char *)condition.at);
}

/* A record is told to the links, which say what they owe. */
static void tell(face *to, const amqp1_record *record)
{
    amqp1_event event;
    int32_t status;
    if (to->follows)
        EACH(amqp1_link_follow(&to->engine, record, &event) == AMQP1_DONE);
    else
        EACH(amqp1_link_event(&to->engine, record, given_with(record->first), &event) == AMQP1_DONE);
    if (event.kind == AMQP1_EVENT_NOTHING)
        return;
    EACH(to->count < EVENTS);
    if (to->count < EVENTS)
        to->events[to->count++] = event;
    status = to->is_silent || to->follows ? AMQP1_NOTHING : amqp1_link_respond(&to->engine, &event, 0);
    EACH(amqp1_link_went(status));
}

static void hear(face *to, const amqp1_record *record, const uint8_t *input, size_t length)
{
    int32_t status = amqp1_answer(&to->engine, record, input, length, AMQP1_ANSWER_BEGINS | AMQP1_ANSWER_CLOSES, to->session);
    EACH(status == AMQP1_DONE || status == AMQP1_NOTHING || record->kind == AMQP1_KIND_CLOSED);
    EACH(record->kind != AMQP1_KIND_REFUSED);
    to->transfers += record->kind == AMQP1_KIND_TRANSFER;
    if (record->kind == AMQP1_KIND_ATTACH_WANTED)
        to->wanted = *record;
    if (record->kind == AMQP1_KIND_FLOW)
        to->flow = *record;
    if (record->kind == AMQP1_KIND_DETACHED)
        note_detach(to, record, input);
    if (!to->is_plain)
        tell(to, record);
}

size_t passes(face *from, face *to)
{
    size_t length = 0, at = 0, n;
    amqp1_record records[16];
    amqp1_took took;
    int32_t status;
    to->count = to->transfers = 0;
    EACH(amqp1_output(&from->engine, passing, sizeof passing, &length) == AMQP1_DONE && length < sizeof passing);
    do {
        status = amqp1_take(&to->engine, 0, passing + at, length - at, records, 16, &took);
        for (n = 0; n < took.written; n++)
            hear(to, records + n, passing + at, length - at);
        at += took.taken;
    } while (status == AMQP1_AGAIN || status == AMQP1_FULL);
    EACH(at == length && (status == AMQP1_DONE || status == AMQP1_OVER));
    return to->count;
}

void exchanges(void)
{
    int round;
    for (round = 0; round < 4; round++) {
        passes(&client, &server);
        passes(&server, &client);
    }
}

static void start(face *it, const char *name, uint32_t session)
{
    uint8_t open[64];
    size_t length;
    amqp1_free(&it->engine);
    memset(it, 0, sizeof *it);
    it->session = session;
    EACH(amqp1_write_open(open, sizeof open, &length, name, NULL, 1024, 9, 0) == AMQP1_DONE);
    EACH(amqp1_start(&it->engine, key, open, length) == AMQP1_DONE && amqp1_open(&it->engine) == AMQP1_DONE);
}

void meet(void)
{
    meet_with(5000);
}

void meet_with(uint32_t window)
{
    uint8_t begin[64];
    size_t length;
    start(&client, "client", CLIENTS);
    start(&server, "server", SERVERS);
    exchanges();
    EACH(amqp1_write_begin(begin, sizeof begin, &length, 0, window, 5000, 255) == AMQP1_DONE);
    EACH(amqp1_begin(&client.engine, CLIENTS, begin, length) == AMQP1_DONE);
    exchanges();
    CHECK(session_state_of(&client.engine, CLIENTS) == AMQP1_SESSION_MAPPED && session_state_of(&server.engine, SERVERS) == AMQP1_SESSION_MAPPED);
}

void part(void)
{
    amqp1_free(&client.engine);
    amqp1_free(&server.engine);
}

static void put_end(amqp1_text *text, unsigned descriptor, const char *address)
{
    if (address)
        amqp1_put_terminus(text, descriptor, address);
    else
        amqp1_put_null(text);
}

size_t attach_text(uint8_t *out, size_t room, const char *name, enum amqp1_role role, const char *source, const char *target, uint64_t limit)
{
    amqp1_text text = amqp1_text_at(out, room);
    size_t length, list = amqp1_begin_list(&text, AMQP1_ATTACH_CODE, 11);
    amqp1_put_string(&text, name);
    amqp1_put_uint(&text, 0);
    amqp1_put_boolean(&text, role == AMQP1_RECEIVER);
    amqp1_put_null(&text);
    amqp1_put_null(&text);
    put_end(&text, 0x28, source);
    put_end(&text, 0x29, target);
    amqp1_put_null(&text);
    amqp1_put_null(&text);
    amqp1_put_uint(&text, 0);
    amqp1_put_byte(&text, 0x80);
    amqp1_put_number(&text, (uint32_t)(limit >> 32));
    amqp1_put_number(&text, (uint32_t)limit);
    amqp1_end_list(&text, list);
    EACH(amqp1_written(&text, &length) == AMQP1_DONE);
    return length;
}

uint32_t answers_link(face *it, const char *name, enum amqp1_role role, uint32_t low, uint32_t high, uint64_t limit)
{
    uint8_t attach[128];
    uint32_t link = 99, same = 99;
    size_t length = attach_text(attach, sizeof attach, name, role, "q", "q", limit);
    int32_t status;
    CHECK(it->wanted.kind == AMQP1_KIND_ATTACH_WANTED);
    CHECK(amqp1_link_on(&it->engine, it->session, it->wanted.input, role, AMQP1_FIRST, name, &link) == AMQP1_DONE);
    CHECK(amqp1_link_attach(&it->engine, it->session, attach, length, attach, 0, low, high, &same) == AMQP1_DONE && same == link);
    CHECK(amqp1_link_wanted(&it->engine, &it->wanted, link, &it->events[0]) == AMQP1_DONE);
    status = amqp1_link_respond(&it->engine, &it->events[0], 0);
    CHECK(status == (role == AMQP1_RECEIVER && high ? AMQP1_DONE : AMQP1_NOTHING));
    it->wanted.kind = 0;
    return link;
}

void meet_by_link(uint32_t low, uint32_t high, uint64_t limit)
{
    uint32_t link = 99;
    meet();
    CHECK(amqp1_sender(&client.engine, CLIENTS, "out", "q", &link) == AMQP1_DONE && link == 0);
    passes(&client, &server);
    CHECK(answers_link(&server, "out", AMQP1_RECEIVER, low, high, limit) == 0);
    passes(&server, &client);
    CHECK(is_event(&client, 0, AMQP1_EVENT_ATTACHED, 0, AMQP1_LIFE_ATTACHED, 0, 0));
}

int32_t sends_part(face *from, uint32_t link, unsigned flags, uint32_t payload, uint64_t given, amqp1_told *told)
{
    static const uint8_t bytes[1024] = { 't', 1, 2, 3 };
    amqp1_head head = head_of(from->session, link, (uint16_t)(flags | AMQP1_FLAG_TAGGED), 1, payload);
    memset(told, 0xee, sizeof *told);
    return amqp1_link_send(&from->engine, &head, bytes, 1 + payload, given, told);
}

int sends_one(face *from, uint32_t link, unsigned flags, uint32_t number)
{
    amqp1_told told;
    return sends_part(from, link, flags, 3, given_with(70 + number), &told) == AMQP1_DONE && is_told(&told, number, 0, 0, 0);
}

static int are_same(const amqp1_event *is, const amqp1_event *wanted)
{
    if (!memcmp(is, wanted, sizeof *is))
        return 1;
    printf("  event %u of link %u: detail %u, credit %u, flags %u, %u to %u, size %lu, given %lx\n", (unsigned)is->kind, (unsigned)is->link,
           (unsigned)is->detail, (unsigned)is->credit, (unsigned)is->flags, (unsigned)is->first, (unsigned)is->last, (unsigned long)is->size, (unsigned long)is->given);
    return 0;
}

static amqp1_event event_of(const face *it, enum amqp1_event_kind kind, uint32_t link, uint32_t detail, uint32_t credit, unsigned flags)
{
    amqp1_event event;
    memset(&event, 0, sizeof event);
    event.session = it->session;
    event.kind = (uint32_t)kind;
    event.link = link;
    event.detail = detail;
    event.credit = credit;
    event.flags = flags;
    return event;
}

int is_event(const face *it, size_t at, enum amqp1_event_kind kind, uint32_t link, uint32_t detail, uint32_t credit, unsigned flags)
{
    amqp1_event wanted = event_of(it, kind, link, detail, credit, flags);
    return are_same(it->events + at, &wanted);
}

int is_part(const face *it, size_t at, uint32_t link, uint32_t number, uint64_t size, uint32_t credit, unsigned flags)
{
    amqp1_event wanted = event_of(it, AMQP1_EVENT_PART, link, 0, credit, flags);
    wanted.first = wanted.last = number;
    wanted.size = size;
    wanted.given = flags & AMQP1_EVENT_GIVEN ? given_with(number) : 0;
    return are_same(it->events + at, &wanted);
}

int is_settled(const face *it, size_t at, uint32_t first, uint32_t last, unsigned flags)
{
    amqp1_event wanted = event_of(it, AMQP1_EVENT_SETTLED, AMQP1_NONE, 0, 0, flags);
    wanted.first = first;
    wanted.last = last;
    return are_same(it->events + at, &wanted);
}

int is_told(const amqp1_told *told, uint32_t number, uint32_t refusal, int has_given, uint64_t given)
{
    if (told->number == number && told->refusal == refusal && told->has_given == (unsigned)has_given && told->given == given && !told->reserved)
        return 1;
    printf("  told %u, refusal %u, given %u %lx\n", (unsigned)told->number, (unsigned)told->refusal, (unsigned)told->has_given, (unsigned long)told->given);
    return 0;
}

int is_unsettled(const amqp1_unsettled *it, uint32_t number, uint32_t link, uint64_t given)
{
    if (it->number == number && it->link == link && it->given == given)
        return 1;
    printf("  unsettled %u of link %u, given %lx\n", (unsigned)it->number, (unsigned)it->link, (unsigned long)it->given);
    return 0;
}

uint32_t credit_of(face *it, uint32_t link)
{
    uint32_t credit = 99;
    CHECK(amqp1_link_credit(&it->engine, it->session, link, &credit) == AMQP1_DONE);
    return credit;
}
