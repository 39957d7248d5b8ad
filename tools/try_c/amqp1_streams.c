/* Tests of libamqp1: connections from their first byte on: headers, SASL by each mechanism, what is no opening, the time, and the end. A client and
   a server stand face to face; bytes pass one by one, and all at once. */
#include "amqp1_try.h"

enum { PLACES = 4096, KINDS = 32, LIMIT = 1000 };

#define SASL_HEADER "414d5150 03010000"
#define AMQP_HEADER "414d5150 00010000"
#define MECHANISMS "[02010000 005340 c0(01 a3(504c41494e))]"
#define MECHANISMS_OUT "[02010000 005340 c0(01 e0(01 a3 (504c41494e)))]"
#define INIT "[02010000 005341 c0(02 a3(504c41494e) a0(00 6d65 00 7077))]"
#define OUTCOME_OK "[02010000 005344 c0(01 5000)]"
#define OUTCOME_AUTH "[02010000 005344 c0(01 5001)]"

/* One end: what came and was not taken, the kinds of its records, and what its program says. */
typedef struct end {
    amqp1 engine;
    uint8_t in[PLACES];
    size_t length;
    unsigned kinds[KINDS];
    size_t count;
    int32_t status;
    amqp1_record last;
    const char *password; /* of a server: whom it lets in by PLAIN */
    int challenges;       /* of a server: whether it asks once more */
} end;

static end client, server;

static size_t open_of(uint8_t *open, size_t room, const char *name, uint32_t idle)
{
    size_t length = 0;
    CHECK(amqp1_write_open(open, room, &length, name, NULL, 65536, 255, idle) == AMQP1_DONE);
    return length;
}

/* What a server answers to a client that asks to be let in. */
static void answer(end *it, const uint8_t *input, const amqp1_record *record)
{
    amqp1_bytes authorization = amqp1_bytes_at(input, 0), user = authorization, password = authorization, response;
    if (record->kind == AMQP1_KIND_RESPONDED) {
        CHECK(is(amqp1_payload(input, record), "72"));
        CHECK(amqp1_login_with(&it->engine, AMQP1_LOGIN_OK, (const uint8_t *)"more", 4) == AMQP1_DONE);
    } else if (amqp1_mechanism_is(input, record, "PLAIN")) {
        int is_right;
        CHECK(amqp1_response(input, record, &response) && amqp1_plain_parts(input, record, &authorization, &user, &password));
        CHECK(authorization.length == 0 && is(user, "6d65"));
        is_right = password.length == strlen(it->password) && !memcmp(password.at, it->password, password.length);
        CHECK(amqp1_login(&it->engine, is_right ? AMQP1_LOGIN_OK : AMQP1_LOGIN_AUTH) == AMQP1_DONE);
    } else if (it->challenges) {
        CHECK(!amqp1_response(input, record, &response) && !amqp1_plain_parts(input, record, &authorization, &user, &password));
        CHECK(amqp1_challenge(&it->engine, (const uint8_t *)"c", 1) == AMQP1_DONE);
        CHECK(amqp1_challenge(&it->engine, (const uint8_t *)"c", 1) == AMQP1_REFUSED && refused_as(&it->engine, "WrongTime", ""));
    } else {
        CHECK(amqp1_response(input, record, &response));
        CHECK(amqp1_login(&it->engine, AMQP1_LOGIN_OK) == AMQP1_DONE);
        CHECK(amqp1_login(&it->engine, AMQP1_LOGIN_OK) == AMQP1_REFUSED && refused_as(&it->engine, "WrongTime", ""));
    }
}

/* An end takes what came, as far as it goes. */
static void take(end *it)
{
    amqp1_record records[2];
    amqp1_took took;
    size_t at = 0, n;
    do {
        it->status = amqp1_take(&it->engine, 0, it->in + at, it->length - at, records, 2, &took);
        for (n = 0; n < took.written; n++) {
            it->last = records[n];
            if (it->count < KINDS)
                it->kinds[it->count++] = records[n].kind;
            if (records[n].kind == AMQP1_KIND_LOGIN_ASKED || records[n].kind == AMQP1_KIND_RESPONDED)
                answer(it, it->in + at, records + n);
            if (records[n].kind == AMQP1_KIND_CHALLENGED)
                CHECK(is(amqp1_payload(it->in + at, records + n), "63") && amqp1_respond(&it->engine, (const uint8_t *)"r", 1) == AMQP1_DONE);
            if (records[n].kind == AMQP1_KIND_LOGGED_IN && server.challenges)
                CHECK(is(amqp1_payload(it->in + at, records + n), "6d6f7265"));
        }
        at += took.taken;
    } while (it->status == AMQP1_AGAIN || it->status == AMQP1_FULL);
    memmove(it->in, it->in + at, it->length -= at);
}

/* What an end has to send passes to the other, so many bytes at once. How many. */
static size_t pass(end *from, end *to, size_t chunk)
{
    uint8_t out[PLACES];
    size_t written = 0, all = 0;
    while (amqp1_output(&from->engine, out, chunk, &written) == AMQP1_DONE && written && written <= PLACES - to->length) {
        memcpy(to->in + to->length, out, written);
        to->length += written;
        all += written;
        take(to);
    }
    return all;
}

static void talk(size_t chunk)
{
    int round;
    for (round = 0; round < 20 && pass(&client, &server, chunk) + pass(&server, &client, chunk); round++) {
    }
}

/* Whether these kinds came, and no others. */
static int came(const end *it, const unsigned *kinds, size_t count)
{
    size_t at;
    int is_so = it->count == count;
    for (at = 0; is_so && at < count; at++)
        is_so = it->kinds[at] == kinds[at];
    for (at = 0; !is_so && at < it->count; at++)
        printf("  %s\n", amqp1_kind_name(it->kinds[at]));
    return is_so;
}

static int is_over(amqp1 *engine)
{
    int over = -1;
    CHECK(amqp1_is_over(engine, &over) == AMQP1_DONE);
    return over;
}

/* An end that is over takes nothing, asks for nothing, and wants no tick. */
static void try_over(amqp1 *engine)
{
    uint8_t bytes[8] = { 'A', 'M', 'Q', 'P', 0, 1, 0, 0 };
    amqp1_head head = head_of(7, 0, 0, 0, 0);
    amqp1_record record;
    amqp1_took took;
    amqp1_sent sent;
    amqp1_went went;
    amqp1_ticked ticked;
    CHECK(is_over(engine) == 1);
    CHECK(amqp1_take(engine, 9, bytes, sizeof bytes, &record, 1, &took) == AMQP1_OVER && !took.taken && !took.written && !took.wanted);
    CHECK(amqp1_open(engine) == AMQP1_REFUSED && refused_as(engine, "Over", ""));
    CHECK(amqp1_dispose(engine, 7, AMQP1_SENDER, 0, 0, 1, AMQP1_ACCEPTED) == AMQP1_REFUSED && refused_as(engine, "Over", ""));
    CHECK(amqp1_dispose(engine, 7, AMQP1_SENDER, 0, 0, 1, AMQP1_REJECTED) == AMQP1_BAD_ARGUMENT);
    CHECK(amqp1_send(engine, &head, 1, bytes, 0, &sent, 1, &went) == AMQP1_OVER && !went.taken && !went.used);
    CHECK(amqp1_login(engine, AMQP1_LOGIN_OK) == AMQP1_REFUSED && refused_as(engine, "WrongTime", ""));
    CHECK(amqp1_respond(engine, bytes, 8) == AMQP1_REFUSED && amqp1_challenge(engine, bytes, 8) == AMQP1_REFUSED);
    CHECK(amqp1_tick(engine, 1u << 30, &ticked) == AMQP1_DONE && ticked.next == AMQP1_NEVER && ticked.due == AMQP1_DUE_NOTHING);
}

static void clear(void)
{
    amqp1_free(&client.engine);
    amqp1_free(&server.engine);
    memset(&client, 0, sizeof client);
    memset(&server, 0, sizeof server);
}

/* Both ends open, and close. */
static void go_through(size_t chunk, const unsigned *clients, size_t clients_count, const unsigned *servers, size_t servers_count)
{
    CHECK(!is_over(&client.engine) && !is_over(&server.engine));
    CHECK(amqp1_open(&client.engine) == AMQP1_DONE && amqp1_open(&server.engine) == AMQP1_DONE);
    talk(chunk);
    CHECK(came(&client, clients, clients_count) && came(&server, servers, servers_count));
    CHECK(state_of(&client.engine) == AMQP1_STATE_OPENED && state_of(&server.engine) == AMQP1_STATE_OPENED);
    CHECK(amqp1_close(&client.engine, NULL, 0) == AMQP1_DONE);
    talk(chunk);
    CHECK(!is_over(&server.engine) && amqp1_close(&server.engine, NULL, 0) == AMQP1_DONE);
    talk(chunk);
    CHECK(client.last.kind == AMQP1_KIND_CLOSED && server.last.kind == AMQP1_KIND_CLOSED);
    try_over(&client.engine);
    try_over(&server.engine);
    clear();
}

/* Without SASL, and by each mechanism, in chunks of this size. */
static void try_logins(size_t chunk)
{
    static const unsigned plain[] = { AMQP1_KIND_AMQP_HEADER, AMQP1_KIND_OPENED };
    static const unsigned clients[] = { AMQP1_KIND_SASL_HEADER, AMQP1_KIND_MECHANISM_CHOSEN, AMQP1_KIND_LOGGED_IN, AMQP1_KIND_AMQP_HEADER,
                                        AMQP1_KIND_OPENED };
    static const unsigned servers[] = { AMQP1_KIND_SASL_HEADER, AMQP1_KIND_LOGIN_ASKED, AMQP1_KIND_AMQP_HEADER, AMQP1_KIND_OPENED };
    static const unsigned asked_clients[] = { AMQP1_KIND_SASL_HEADER, AMQP1_KIND_MECHANISM_CHOSEN, AMQP1_KIND_CHALLENGED, AMQP1_KIND_LOGGED_IN,
                                              AMQP1_KIND_AMQP_HEADER, AMQP1_KIND_OPENED };
    static const unsigned asked_servers[] = { AMQP1_KIND_SASL_HEADER, AMQP1_KIND_LOGIN_ASKED, AMQP1_KIND_RESPONDED, AMQP1_KIND_AMQP_HEADER,
                                              AMQP1_KIND_OPENED };
    static const unsigned refused[] = { AMQP1_KIND_SASL_HEADER, AMQP1_KIND_MECHANISM_CHOSEN, AMQP1_KIND_NOT_OPENED };
    static const char offered[] = "PLAIN ANONYMOUS EXTERNAL ASKING";
    uint8_t open[64];
    size_t length = open_of(open, sizeof open, "me", 0);
    CHECK(amqp1_start(&client.engine, key, open, length) == AMQP1_DONE && amqp1_start(&server.engine, key, open, length) == AMQP1_DONE);
    go_through(chunk, plain, 2, plain, 2);
    CHECK(amqp1_start_client(&client.engine, key, 0, LIMIT, "host", "me", "pw", open, length) == AMQP1_DONE);
    CHECK(amqp1_start_server(&server.engine, key, 0, LIMIT, offered, open, length) == AMQP1_DONE);
    server.password = "pw";
    go_through(chunk, clients, 5, servers, 4);
    CHECK(amqp1_start_client(&client.engine, key, 0, LIMIT, NULL, NULL, NULL, open, length) == AMQP1_DONE);
    CHECK(amqp1_start_server(&server.engine, key, 0, LIMIT, offered, open, length) == AMQP1_DONE);
    go_through(chunk, clients, 5, servers, 4);
    CHECK(amqp1_start_external(&client.engine, key, 0, LIMIT, NULL, "", open, length) == AMQP1_DONE);
    CHECK(amqp1_start_server(&server.engine, key, 0, LIMIT, offered, open, length) == AMQP1_DONE);
    go_through(chunk, clients, 5, servers, 4);
    CHECK(amqp1_start_by(&client.engine, key, 0, LIMIT, NULL, "ASKING", NULL, 0, open, length) == AMQP1_DONE);
    CHECK(amqp1_start_server(&server.engine, key, 0, LIMIT, offered, open, length) == AMQP1_DONE);
    server.challenges = 1;
    go_through(chunk, asked_clients, 6, asked_servers, 5);
    /* a wrong password */
    CHECK(amqp1_start_client(&client.engine, key, 0, LIMIT, NULL, "me", "pv", open, length) == AMQP1_DONE);
    CHECK(amqp1_start_server(&server.engine, key, 0, LIMIT, offered, open, length) == AMQP1_DONE);
    server.password = "pw";
    CHECK(amqp1_open(&client.engine) == AMQP1_DONE && amqp1_open(&server.engine) == AMQP1_DONE);
    talk(chunk);
    CHECK(came(&client, refused, 3) && came(&server, servers, 2));
    CHECK(client.last.refusal == AMQP1_WHY_LOGIN_REFUSED && client.last.outcome == AMQP1_LOGIN_AUTH && client.last.payload_at == AMQP1_NONE);
    try_over(&client.engine);
    try_over(&server.engine);
    CHECK(sends(&client.engine, "") && sends(&server.engine, ""));
    clear();
}

/* A new client or server, whose first header is taken off. */
static amqp1 fresh(enum amqp1_side side)
{
    amqp1 engine = AMQP1_EMPTY;
    uint8_t open[64];
    size_t length = open_of(open, sizeof open, "me", 0);
    if (side == AMQP1_SASL_CLIENT)
        CHECK(amqp1_start_client(&engine, key, 0, LIMIT, NULL, "me", "pw", open, length) == AMQP1_DONE);
    else if (side == AMQP1_SASL_SERVER)
        CHECK(amqp1_start_server(&engine, key, 0, LIMIT, "PLAIN", open, length) == AMQP1_DONE);
    else
        CHECK(amqp1_start(&engine, key, open, length) == AMQP1_DONE);
    CHECK(sends(&engine, side == AMQP1_WITHOUT_SASL ? AMQP_HEADER : SASL_HEADER));
    return engine;
}

/* One thing comes: the status; its record is the first of those that were heard. */
static int32_t comes(amqp1 *engine, const char *digits)
{
    amqp1_took took = { 9, 9, 9 };
    size_t length = bytes_of(digits, heard_bytes, sizeof heard_bytes);
    memset(heard, 0, sizeof *heard);
    return amqp1_take(engine, 0, heard_bytes, length, heard, 1, &took);
}

/* What comes, one thing after the other with | between, and why the stream is not opened then. */
static void try_not_opened(void)
{
    static const struct row {
        enum amqp1_side side;
        const char *before[3], *last;
        unsigned why;
        const char *name, *answer;
    } rows[] = {
        { AMQP1_SASL_CLIENT, { SASL_HEADER, "", "" }, "[02010000 005340 c0(01 a3(4f54484552))]", AMQP1_WHY_NO_MECHANISM, "NoMechanism", "" },
        { AMQP1_SASL_SERVER, { SASL_HEADER, "", "" }, "[02010000 005341 c0(01 a3(4f54484552))]", AMQP1_WHY_NOT_OFFERED, "NotOffered", OUTCOME_AUTH },
        { AMQP1_SASL_CLIENT, { SASL_HEADER, MECHANISMS, "" }, OUTCOME_AUTH, AMQP1_WHY_LOGIN_REFUSED, "LoginRefused", "" },
        { AMQP1_SASL_CLIENT, { "", "", "" }, AMQP_HEADER, AMQP1_WHY_OTHER_PROTOCOL, "OtherProtocol", "" },
        { AMQP1_WITHOUT_SASL, { "", "", "" }, SASL_HEADER, AMQP1_WHY_OTHER_PROTOCOL, "OtherProtocol", "" },
        { AMQP1_WITHOUT_SASL, { "", "", "" }, "414d5150 00010001", AMQP1_WHY_OTHER_HEADER, "OtherHeader", "" },
        { AMQP1_WITHOUT_SASL, { "", "", "" }, "[02000000 " PEERS_OPEN "]", AMQP1_WHY_OTHER_HEADER, "OtherHeader", "" },
        { AMQP1_WITHOUT_SASL, { "", "", "" }, "00000018 02", AMQP1_WHY_NOT_AMQP, "NotAmqp", "" },
        { AMQP1_SASL_SERVER, { "", "", "" }, "47", AMQP1_WHY_NOT_AMQP, "NotAmqp", "" },
        { AMQP1_SASL_SERVER, { SASL_HEADER, "", "" }, "[02000000 " PEERS_OPEN "]", AMQP1_WHY_MALFORMED_SASL, "MalformedSasl", "" },
        { AMQP1_SASL_SERVER, { SASL_HEADER, "", "" }, "00000007", AMQP1_WHY_MALFORMED_SASL, "MalformedSasl", "" },
        { AMQP1_SASL_SERVER, { SASL_HEADER, "", "" }, "00000201", AMQP1_WHY_MALFORMED_SASL, "MalformedSasl", "" },
        { AMQP1_SASL_SERVER, { SASL_HEADER, "", "" }, OUTCOME_OK, AMQP1_WHY_UNEXPECTED_SASL, "UnexpectedSasl", "" },
        { AMQP1_SASL_CLIENT, { SASL_HEADER, MECHANISMS, "" }, MECHANISMS, AMQP1_WHY_UNEXPECTED_SASL, "UnexpectedSasl", "" },
    };
    char text[32];
    uint8_t said[64];
    size_t at, n, written;
    for (at = 0; at < sizeof rows / sizeof *rows; at++) {
        amqp1 engine = fresh(rows[at].side);
        uint8_t out[256];
        CHECK(amqp1_open(&engine) == AMQP1_DONE);
        for (n = 0; n < 3 && *rows[at].before[n]; n++)
            CHECK(comes(&engine, rows[at].before[n]) == AMQP1_AGAIN && amqp1_output(&engine, out, sizeof out, &written) == AMQP1_DONE);
        CHECK(comes(&engine, rows[at].last) == AMQP1_AGAIN && heard[0].kind == AMQP1_KIND_NOT_OPENED && heard[0].refusal == rows[at].why);
        CHECK(sends(&engine, rows[at].answer));
        CHECK(amqp1_refusal_text(&engine, rows[at].why, said, sizeof said, &written) == AMQP1_DONE);
        snprintf(text, sizeof text, "%s\n\n", rows[at].name);
        CHECK(written == strlen(text) && !memcmp(said, text, written));
        try_over(&engine);
        amqp1_free(&engine);
    }
}

/* A client that asks once is not asked again: a second init waits, and is no frame of AMQP once it is let in. */
static void try_twice(void)
{
    amqp1 engine = fresh(AMQP1_SASL_SERVER);
    CHECK(comes(&engine, SASL_HEADER) == AMQP1_AGAIN && heard[0].kind == AMQP1_KIND_SASL_HEADER && sends(&engine, MECHANISMS_OUT));
    CHECK(amqp1_login(&engine, AMQP1_LOGIN_OK) == AMQP1_REFUSED && refused_as(&engine, "WrongTime", ""));
    CHECK(comes(&engine, INIT) == AMQP1_AGAIN && heard[0].kind == AMQP1_KIND_LOGIN_ASKED);
    CHECK(is(amqp1_mechanism(heard_bytes, heard), "504c41494e") && heard[0].count == AMQP1_NONE && sends(&engine, ""));
    CHECK(comes(&engine, INIT) == AMQP1_WAITS && heard[0].kind == 0);
    CHECK(amqp1_login(&engine, AMQP1_LOGIN_OK) == AMQP1_DONE && sends(&engine, OUTCOME_OK AMQP_HEADER));
    CHECK(comes(&engine, INIT) == AMQP1_AGAIN && heard[0].kind == AMQP1_KIND_NOT_OPENED && heard[0].refusal == AMQP1_WHY_OTHER_HEADER);
    try_over(&engine);
    amqp1_free(&engine);
    /* frames of AMQP before the header of AMQP, and no room for a record */
    engine = fresh(AMQP1_SASL_SERVER);
    CHECK(comes(&engine, SASL_HEADER) == AMQP1_AGAIN && comes(&engine, INIT) == AMQP1_AGAIN);
    CHECK(amqp1_login(&engine, AMQP1_LOGIN_OK) == AMQP1_DONE);
    CHECK(comes(&engine, "[02000000 " PEERS_OPEN "]") == AMQP1_AGAIN && heard[0].refusal == AMQP1_WHY_OTHER_HEADER);
    amqp1_free(&engine);
    /* a client that is not challenged does not respond; its host and its empty response are there */
    engine = fresh(AMQP1_SASL_CLIENT);
    CHECK(comes(&engine, SASL_HEADER) == AMQP1_AGAIN && amqp1_respond(&engine, heard_bytes, 1) == AMQP1_REFUSED);
    CHECK(comes(&engine, MECHANISMS) == AMQP1_AGAIN && heard[0].kind == AMQP1_KIND_MECHANISM_CHOSEN && heard[0].first == 0);
    CHECK(sends(&engine, INIT) && comes(&engine, "") == AMQP1_DONE);
    amqp1_free(&engine);
}

/* An init of each size up to the largest of a SASL frame, and one byte more. */
static void try_sizes(void)
{
    size_t size;
    for (size = 30; size <= AMQP1_SASL_FRAME + 1; size++) {
        amqp1 engine = fresh(AMQP1_SASL_SERVER);
        amqp1_record record;
        amqp1_took took;
        amqp1_bytes response;
        uint8_t *frame = (uint8_t *)malloc(size);
        size_t head = bytes_of("00000000 02010000 005341 d0 00000000 00000002 a3(504c41494e) b0 00000000", heard_bytes, sizeof heard_bytes);
        int32_t status;
        CHECK(head == 32 && frame != NULL);
        if (!frame)
            return;
        memset(frame, 'r', size);
        memcpy(frame, heard_bytes, size < head ? size : head);
        amqp1_u32_at(frame, (uint32_t)size);
        if (size >= head) {
            amqp1_u32_at(frame + 12, (uint32_t)(size - 16));
            amqp1_u32_at(frame + 28, (uint32_t)(size - head));
        }
        CHECK(comes(&engine, SASL_HEADER) == AMQP1_AGAIN);
        EACH(amqp1_take(&engine, 0, frame, size - 1, &record, 1, &took) == (size > AMQP1_SASL_FRAME ? AMQP1_AGAIN : AMQP1_DONE));
        status = amqp1_take(&engine, 0, frame, size, &record, 1, &took);
        if (size > AMQP1_SASL_FRAME)
            EACH(status == AMQP1_OVER);
        else if (size < head)
            EACH(status == AMQP1_AGAIN && record.kind == AMQP1_KIND_NOT_OPENED && record.refusal == AMQP1_WHY_MALFORMED_SASL);
        else
            EACH(status == AMQP1_AGAIN && record.kind == AMQP1_KIND_LOGIN_ASKED && amqp1_response(frame, &record, &response) &&
                 response.length == size - head && took.taken == size);
        free(frame);
        amqp1_free(&engine);
    }
}

/* What a call has to send is longer than a SASL frame may be: it is refused, and nothing changes. */
static void try_too_large(void)
{
    static const uint8_t many[600] = { 0 };
    static char name[600];
    amqp1 engine = AMQP1_EMPTY;
    amqp1_login_head head = { 5, 500 };
    amqp1_how how = amqp1_how_of(key, 0, AMQP1_NONE, AMQP1_SASL_CLIENT);
    uint8_t open[64], bytes[505] = { 'P', 'L', 'A', 'I', 'N' };
    size_t length = open_of(open, sizeof open, "me", 0);
    memset(name, 'n', sizeof name - 1);
    CHECK(amqp1_start_client(&engine, key, 0, 0, NULL, name, "pw", open, length) == AMQP1_TOO_LARGE);
    CHECK(amqp1_start_client(&engine, key, 0, 0, name, NULL, NULL, open, length) == AMQP1_TOO_LARGE);
    CHECK(amqp1_start_by(&engine, key, 0, 0, NULL, "PLAIN", many, sizeof many, open, length) == AMQP1_TOO_LARGE);
    CHECK(amqp1_start_server(&engine, key, 0, 0, name, open, length) == AMQP1_TOO_LARGE && engine.full == 0);
    CHECK(amqp1_start_server(&engine, key, 0, 0, "", open, length) == AMQP1_BAD_ARGUMENT && engine.full == 0);
    CHECK(amqp1_new(&engine, &how, open, length, &head, 1, bytes, sizeof bytes) == AMQP1_DONE && sends(&engine, SASL_HEADER));
    CHECK(comes(&engine, SASL_HEADER) == AMQP1_AGAIN && comes(&engine, MECHANISMS) == AMQP1_TOO_LARGE && sends(&engine, ""));
    CHECK(comes(&engine, MECHANISMS) == AMQP1_TOO_LARGE && !is_over(&engine));
    amqp1_free(&engine);
    engine = fresh(AMQP1_SASL_SERVER);
    CHECK(comes(&engine, SASL_HEADER) == AMQP1_AGAIN && comes(&engine, INIT) == AMQP1_AGAIN && sends(&engine, MECHANISMS_OUT));
    CHECK(amqp1_challenge(&engine, many, sizeof many) == AMQP1_REFUSED && refused_as(&engine, "TooLarge", "") && sends(&engine, ""));
    CHECK(amqp1_login_with(&engine, AMQP1_LOGIN_OK, many, sizeof many) == AMQP1_REFUSED && refused_as(&engine, "TooLarge", ""));
    CHECK(amqp1_login_with(&engine, AMQP1_LOGIN_OK, many, 0) == AMQP1_DONE);
    CHECK(sends(&engine, "[02010000 005344 c0(02 5000 a0())]" AMQP_HEADER));
    amqp1_free(&engine);
}

/* An open connection of an engine whose Open asks for 500 milliseconds and whose peer's asks for 400. */
static amqp1 timed(void)
{
    amqp1 engine = AMQP1_EMPTY;
    uint8_t open[64];
    size_t length = open_of(open, sizeof open, "me", 500), written;
    CHECK(amqp1_start(&engine, key, open, length) == AMQP1_DONE && exchanges_headers(&engine));
    CHECK(amqp1_open(&engine) == AMQP1_DONE && amqp1_output(&engine, heard_bytes, sizeof heard_bytes, &written) == AMQP1_DONE);
    CHECK(hears_one(&engine, "[02000000 005310 c0(05 a1(70656572) 40 7000000400 40 7000000190)]", AMQP1_KIND_OPENED));
    return engine;
}

static int ticks(amqp1 *engine, uint64_t now, enum amqp1_due due, uint64_t next)
{
    amqp1_ticked ticked = { 7, 7, 7 };
    if (amqp1_tick(engine, now, &ticked) == AMQP1_DONE && ticked.due == (unsigned)due && ticked.next == next && ticked.reserved == 0)
        return 1;
    printf("  at %u: due %u, next %u\n", (unsigned)now, (unsigned)ticked.due, (unsigned)ticked.next);
    return 0;
}

static void try_time(void)
{
    amqp1 engine = AMQP1_EMPTY;
    uint8_t open[64];
    size_t length = open_of(open, sizeof open, "me", 0), at;
    /* no limit, and a limit that passes */
    CHECK(amqp1_start(&engine, key, open, length) == AMQP1_DONE && ticks(&engine, 1u << 31, AMQP1_DUE_NOTHING, AMQP1_NEVER));
    amqp1_free(&engine);
    CHECK(amqp1_start_client(&engine, key, 100, LIMIT, NULL, NULL, NULL, open, length) == AMQP1_DONE);
    CHECK(ticks(&engine, 100, AMQP1_DUE_NOTHING, 1100) && ticks(&engine, 1099, AMQP1_DUE_NOTHING, 1100) && !is_over(&engine));
    CHECK(ticks(&engine, 1100, AMQP1_DUE_OPENING_LATE, AMQP1_NEVER));
    try_over(&engine);
    CHECK(sends(&engine, SASL_HEADER));
    amqp1_free(&engine);
    /* a beat each 200 milliseconds, while the peer is not silent; none is added while one waits */
    engine = timed();
    CHECK(ticks(&engine, 0, AMQP1_DUE_NOTHING, 200) && sends(&engine, ""));
    CHECK(ticks(&engine, 200, AMQP1_DUE_BEAT, 400) && sends(&engine, "[02000000]"));
    CHECK(ticks(&engine, 400, AMQP1_DUE_BEAT, 500) && amqp1_output(&engine, open, 3, &at) == AMQP1_DONE && at == 3);
    CHECK(sends(&engine, "08 02000000"));
    length = bytes_of("[02000000]", heard_bytes, sizeof heard_bytes);
    {
        amqp1_took took;
        CHECK(amqp1_take(&engine, 450, heard_bytes, length, heard, 1, &took) == AMQP1_DONE && took.taken == 8 && !took.written);
    }
    CHECK(ticks(&engine, 450, AMQP1_DUE_NOTHING, 600));
    CHECK(ticks(&engine, 700, AMQP1_DUE_BEAT, 900) && ticks(&engine, 900, AMQP1_DUE_BEAT, 950) && sends(&engine, "[02000000]"));
    /* what came and is not taken counts, once it is told */
    CHECK(amqp1_heard(&engine, 940) == AMQP1_DONE && ticks(&engine, 950, AMQP1_DUE_NOTHING, 1100) && !is_over(&engine));
    CHECK(ticks(&engine, 1400, AMQP1_DUE_BEAT, 1440) && sends(&engine, "[02000000]"));
    CHECK(ticks(&engine, 1440, AMQP1_DUE_PEER_SILENT, AMQP1_NEVER));
    CHECK(sends(&engine, "[02000000 005318 c0(01 00531d c0(01 a3(616d71703a7265736f757263652d6c696d69742d6578636565646564)))]"));
    try_over(&engine);
    amqp1_free(&engine);
    /* a side that has closed beats no more */
    engine = timed();
    CHECK(ticks(&engine, 0, AMQP1_DUE_NOTHING, 200) && amqp1_close(&engine, NULL, 0) == AMQP1_DONE && sends(&engine, "[02000000 00531845]"));
    CHECK(ticks(&engine, 300, AMQP1_DUE_BEAT, 500) && sends(&engine, ""));
    amqp1_free(&engine);
}

void try_streams(void)
{
    try_logins(1);
    try_logins(7);
    try_logins(PLACES);
    try_not_opened();
    try_twice();
    try_sizes();
    try_too_large();
    try_time();
}
