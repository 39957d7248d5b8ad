/* Tests of libamqp1: a client and a server, face to face, with a thousand deliveries each way. Bytes pass in pieces of any size, and records are
   taken a few at a time. */
#include "amqp1_try.h"

enum { DELIVERIES = 1000, WINDOW = 64, BATCH = 100, ROOM = 1 << 19 };

/* One side: what came and was not taken; its handles of the link on which it sends and of the one on which it receives, with the peer's of that;
   and how far each is. */
typedef struct side {
    amqp1 engine;
    uint8_t in[ROOM];
    size_t length;
    int is_server, settles;
    uint32_t to, from, from_input;
    uint32_t sent, numbered, settled, received, opened, attached, closed;
} side;

static side client, server;
static uint32_t seed;

static uint32_t drawn(uint32_t most)
{
    seed = seed * 1664525 + 1013904223;
    return 1 + (seed >> 8) % most;
}

static void put(side *to, const uint8_t *bytes, size_t length)
{
    EACH(length <= ROOM - to->length);
    if (length > ROOM - to->length)
        return;
    memcpy(to->in + to->length, bytes, length);
    to->length += length;
}

/* What a side has to send passes to the other. */
static void pass(side *from, side *to)
{
    uint8_t out[999];
    size_t written;
    do {
        EACH(amqp1_output(&from->engine, out, drawn(sizeof out), &written) == AMQP1_DONE);
        put(to, out, written);
    } while (written);
}

static void start(side *it, int is_server, int settles)
{
    uint8_t open[64];
    size_t length;
    amqp1_free(&it->engine);
    memset(it, 0, sizeof *it);
    it->is_server = is_server;
    it->settles = settles;
    CHECK(amqp1_write_open(open, sizeof open, &length, is_server ? "server" : "client", NULL, 1024, 9, 0) ==
          AMQP1_DONE);
    CHECK(amqp1_start(&it->engine, key, open, length) == AMQP1_DONE && exchanges_headers(&it->engine));
    CHECK(amqp1_open(&it->engine) == AMQP1_DONE);
}

/* The server's answer to a Begin. */
static void serve_begin(const amqp1_record *record, const uint8_t *input)
{
    uint8_t text[64], out[128], turned[128];
    size_t written, length;
    amqp1_took took;
    amqp1_record begun;
    pass(&server, &client);
    CHECK(amqp1_write_begin(text, sizeof text, &length, 0, WINDOW, WINDOW, 9) == AMQP1_DONE);
    CHECK(amqp1_begin(&server.engine, 0, text, length) == AMQP1_DONE);
    CHECK(amqp1_output(&server.engine, out, sizeof out, &written) == AMQP1_DONE);
    length = amqp1_turn_begin(turned, sizeof turned, amqp1_bytes_at(out, written), record->channel);
    put(&client, turned, length);
    length = amqp1_turn_begin(turned, sizeof turned, amqp1_bytes_at(input + record->at - 8, record->size + 8), (uint16_t)(out[6] << 8 | out[7]));
    CHECK(amqp1_take(&server.engine, 0, turned, length, &begun, 1, &took) == AMQP1_DONE && begun.kind == AMQP1_KIND_BEGUN);
}

/* A link of this name: its Attach goes out. */
static void attach(side *it, const char *name, enum amqp1_role role, uint32_t handle)
{
    uint8_t text[128];
    size_t length;
    CHECK(amqp1_write_attach(text, sizeof text, &length, name, handle, role, 2, AMQP1_FIRST, name, name, 0) ==
          AMQP1_DONE);
    CHECK(amqp1_attach(&it->engine, 0, text, length) == AMQP1_DONE);
    *(role == AMQP1_SENDER ? &it->to : &it->from) = handle;
    if (role == AMQP1_RECEIVER) {
        CHECK(amqp1_write_flow(text, sizeof text, &length, handle, NULL, DELIVERIES, 0, 0) == AMQP1_DONE);
        CHECK(amqp1_flow(&it->engine, 0, text, length) == AMQP1_DONE);
    }
}

static void attached(side *it, const amqp1_record *record, const uint8_t *input)
{
    char name[8] = { 0 };
    uint32_t handle;
    enum amqp1_role role = amqp1_has(record, AMQP1_FLAG_RECEIVER) ? AMQP1_SENDER : AMQP1_RECEIVER;
    amqp1_bytes text = amqp1_bytes_field(amqp1_performative(input, record), AMQP1_ATTACH_NAME);
    memcpy(name, text.at, text.length);
    if (role == AMQP1_RECEIVER)
        it->from_input = record->input;
    it->attached++;
    if (!it->is_server)
        return;
    CHECK(record->kind == AMQP1_KIND_ATTACH_WANTED);
    CHECK(amqp1_link_on(&it->engine, 0, record->input, role, AMQP1_FIRST, name, &handle) == AMQP1_DONE);
    attach(it, name, role, handle);
}

/* A delivery: its payload is its number, as many times as its last byte says. */
static void received(side *it, const amqp1_record *record, const uint8_t *input)
{
    amqp1_bytes payload = amqp1_payload(input, record);
    EACH(record->input == it->from_input && record->output == it->from && record->first == it->received);
    EACH(payload.length == 4u * (1 + it->received % 7) && amqp1_u32_of(payload.at + payload.length - 4) == it->received);
    EACH(record->tag_size == 4 && amqp1_u32_of(record->tag) == it->received);
    EACH(amqp1_dispose(&it->engine, 0, AMQP1_RECEIVER, record->first, record->last, it->settles, AMQP1_ACCEPTED) == AMQP1_DONE);
    it->received++;
}

static void read_one(side *it, const amqp1_record *record, const uint8_t *input)
{
    switch (record->kind) {
    case AMQP1_KIND_OPENED: it->opened++; break;
    case AMQP1_KIND_BEGUN: it->opened++; break;
    case AMQP1_KIND_ATTACHED:
    case AMQP1_KIND_ATTACH_WANTED: attached(it, record, input); break;
    case AMQP1_KIND_TRANSFER: received(it, record, input); break;
    case AMQP1_KIND_DISPOSITION:
        EACH(record->outcome == AMQP1_ACCEPTED);
        it->settled += amqp1_has(record, AMQP1_FLAG_RECEIVER) ? record->last - record->first + 1 : 0;
        break;
    case AMQP1_KIND_FLOW: break;
    case AMQP1_KIND_CLOSED: it->closed++; break;
    case AMQP1_KIND_BEGIN_WANTED:
        EACH(it->is_server && record->refusal == AMQP1_WHY_BEGIN_WANTED);
        serve_begin(record, input);
        break;
    default: EACH(0);
    }
}

/* Takes what came, in pieces of any size, a few records at a time. The server's engine stops behind each Begin and each Attach that it answers. */
static void take(side *it)
{
    static uint8_t input[ROOM];
    amqp1_record records[7];
    amqp1_took took;
    size_t known = 0, at, all = it->length;
    memcpy(input, it->in, all);
    it->length = 0;
    for (at = 0; known < all || at < known;) {
        size_t n;
        int32_t status;
        known = all - known < 300 ? all : known + drawn(300);
        status = amqp1_take(&it->engine, 0, input + at, known - at, records, drawn(7), &took);
        EACH(status == AMQP1_DONE || status == AMQP1_FULL || status == AMQP1_AGAIN || status == AMQP1_OVER);
        for (n = 0; n < took.written; n++)
            read_one(it, records + n, input + at);
        at += took.taken;
        if ((status == AMQP1_DONE && known == all) || status == AMQP1_OVER)
            break;
    }
    put(it, input + at, all - at);
}

/* A batch of deliveries, by heads. */
static void send_batch(side *it)
{
    static amqp1_head heads[BATCH];
    static amqp1_sent sent[BATCH];
    static uint8_t bytes[BATCH * 40];
    amqp1_went went;
    size_t length = 0, n, k;
    for (n = 0; n < BATCH; n++, it->sent++) {
        heads[n] = head_of(0, it->to, AMQP1_FLAG_NUMBERED | AMQP1_FLAG_TAGGED, 4, 4u * (1 + it->sent % 7));
        for (k = 0; k <= 1 + it->sent % 7; k++, length += 4)
            amqp1_u32_at(bytes + length, it->sent);
    }
    EACH(amqp1_send(&it->engine, heads, BATCH, bytes, length, sent, BATCH, &went) == AMQP1_DONE && went.taken == BATCH && went.used == length);
    for (n = 0; n < BATCH; n++)
        EACH(sent[n].refusal == 0 && sent[n].number == it->numbered++);
}

static void exchange(void)
{
    pass(&client, &server);
    take(&server);
    pass(&server, &client);
    take(&client);
}

/* The client's handles of the two links are not the server's, which allots them as they are attached. */
static void meet(void)
{
    uint8_t text[64];
    uint32_t up, down;
    size_t length;
    exchange();
    CHECK(client.opened == 1 && server.opened == 1);
    CHECK(amqp1_write_begin(text, sizeof text, &length, 0, WINDOW, WINDOW, 9) == AMQP1_DONE);
    CHECK(amqp1_begin(&client.engine, 0, text, length) == AMQP1_DONE);
    exchange();
    CHECK(client.opened == 2);
    CHECK(amqp1_link(&client.engine, 0, AMQP1_SENDER, AMQP1_FIRST, "up", &up) == AMQP1_DONE);
    CHECK(amqp1_link(&client.engine, 0, AMQP1_RECEIVER, AMQP1_FIRST, "down", &down) == AMQP1_DONE);
    attach(&client, "down", AMQP1_RECEIVER, down);
    attach(&client, "up", AMQP1_SENDER, up);
    exchange();
    CHECK(client.attached == 2 && server.attached == 2 && client.to != server.from && client.from != server.to);
}

/* Where a side does not settle what it accepts, the sender's engine does, and tells. */
static void try_pair(int client_settles, int server_settles)
{
    int round;
    start(&client, 0, client_settles);
    start(&server, 1, server_settles);
    meet();
    for (round = 0; round < 200 && (client.received < DELIVERIES || server.received < DELIVERIES || client.settled < DELIVERIES); round++) {
        if (client.sent < DELIVERIES)
            send_batch(&client);
        if (server.sent < DELIVERIES)
            send_batch(&server);
        exchange();
    }
    exchange();
    CHECK(client.received == DELIVERIES && server.received == DELIVERIES && client.settled == DELIVERIES && server.settled == DELIVERIES);
    CHECK(amqp1_close(&client.engine, NULL, 0) == AMQP1_DONE);
    exchange();
    CHECK(server.closed == 1 && amqp1_close(&server.engine, NULL, 0) == AMQP1_DONE);
    exchange();
    CHECK(client.closed == 1 && state_of(&client.engine) == AMQP1_STATE_ENDED && state_of(&server.engine) == AMQP1_STATE_ENDED);
    amqp1_free(&client.engine);
    amqp1_free(&server.engine);
}

void try_pairs(void)
{
    seed = 1;
    try_pair(1, 1);
    try_pair(0, 1);
    try_pair(1, 0);
    try_pair(0, 0);
}
