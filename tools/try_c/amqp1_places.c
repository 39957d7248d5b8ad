/* Tests of libamqp1: where the fields of records and heads stand, and the place of an engine and its life. */
#include "amqp1_try.h"

#define STANDS(type, field, at, size) CHECK(offsetof(type, field) == (at) && sizeof(((type *)0)->field) == (size))

void try_records(void)
{
    CHECK(sizeof(amqp1_record) == 96 && sizeof(amqp1_head) == 20 && sizeof(amqp1_sent) == 8 && sizeof(amqp1) == 16);
    STANDS(amqp1_record, kind, 0, 1);
    STANDS(amqp1_record, outcome, 1, 1);
    STANDS(amqp1_record, flags, 2, 2);
    STANDS(amqp1_record, session, 4, 4);
    STANDS(amqp1_record, output, 8, 4);
    STANDS(amqp1_record, input, 12, 4);
    STANDS(amqp1_record, first, 16, 4);
    STANDS(amqp1_record, last, 20, 4);
    STANDS(amqp1_record, format, 24, 4);
    STANDS(amqp1_record, count, 28, 4);
    STANDS(amqp1_record, credit, 32, 4);
    STANDS(amqp1_record, available, 36, 4);
    STANDS(amqp1_record, refusal, 40, 4);
    STANDS(amqp1_record, at, 44, 4);
    STANDS(amqp1_record, size, 48, 4);
    STANDS(amqp1_record, payload_at, 52, 4);
    STANDS(amqp1_record, payload, 56, 4);
    STANDS(amqp1_record, channel, 60, 2);
    STANDS(amqp1_record, tag_size, 62, 2);
    STANDS(amqp1_record, tag, 64, 32);
    STANDS(amqp1_head, session, 0, 4);
    STANDS(amqp1_head, link, 4, 4);
    STANDS(amqp1_head, format, 8, 4);
    STANDS(amqp1_head, payload, 12, 4);
    STANDS(amqp1_head, flags, 16, 2);
    STANDS(amqp1_head, tag_size, 18, 2);
    STANDS(amqp1_sent, number, 0, 4);
    STANDS(amqp1_sent, refusal, 4, 4);
    STANDS(amqp1_took, written, 8, 8);
    STANDS(amqp1_went, used, 8, 8);
    CHECK(sizeof(amqp1_parts) == 48 && sizeof(amqp1_how) == 40 && sizeof(amqp1_login_head) == 8 && sizeof(amqp1_ticked) == 16);
    STANDS(amqp1_how, key, 0, 16);
    STANDS(amqp1_how, time, 16, 8);
    STANDS(amqp1_how, limit, 24, 4);
    STANDS(amqp1_how, side, 28, 4);
    STANDS(amqp1_how, host, 32, 4);
    STANDS(amqp1_how, reserved, 36, 4);
    STANDS(amqp1_login_head, mechanism, 0, 4);
    STANDS(amqp1_login_head, response, 4, 4);
    STANDS(amqp1_ticked, next, 0, 8);
    STANDS(amqp1_ticked, due, 8, 4);
    STANDS(amqp1_parts, part, 0, 20);
    STANDS(amqp1_parts, rest, 20, 20);
    STANDS(amqp1_parts, more, 40, 4);
    STANDS(amqp1_parts, refusal, 44, 4);
    CHECK(sizeof(amqp1_event) == 48 && sizeof(amqp1_told) == 24 && sizeof(amqp1_unsettled) == 16);
    STANDS(amqp1_event, given, 0, 8);
    STANDS(amqp1_event, size, 8, 8);
    STANDS(amqp1_event, session, 16, 4);
    STANDS(amqp1_event, kind, 20, 4);
    STANDS(amqp1_event, link, 24, 4);
    STANDS(amqp1_event, first, 28, 4);
    STANDS(amqp1_event, last, 32, 4);
    STANDS(amqp1_event, detail, 36, 4);
    STANDS(amqp1_event, credit, 40, 4);
    STANDS(amqp1_event, flags, 44, 4);
    STANDS(amqp1_told, given, 0, 8);
    STANDS(amqp1_told, number, 8, 4);
    STANDS(amqp1_told, refusal, 12, 4);
    STANDS(amqp1_told, has_given, 16, 4);
    STANDS(amqp1_told, reserved, 20, 4);
    STANDS(amqp1_unsettled, given, 0, 8);
    STANDS(amqp1_unsettled, number, 8, 4);
    STANDS(amqp1_unsettled, link, 12, 4);
    CHECK(amqp1_version() >> 16 == AMQP1_VERSION_MAJOR && amqp1_version() == AMQP1_VERSION_NUMBER);
    CHECK(!strcmp(amqp1_status_name(AMQP1_SHORT), "SHORT") && !strcmp(amqp1_status_name(-1), "unknown") && !strcmp(amqp1_status_name(13), "TOO_LARGE") && !strcmp(amqp1_status_name(18), "NOT_FORGOTTEN") && !strcmp(amqp1_status_name(19), "NOT_DETACHED") && !strcmp(amqp1_status_name(23), "IN_USE") && !strcmp(amqp1_status_name(24), "HELD_BACK") && !strcmp(amqp1_status_name(25), "unknown"));
    CHECK(!strcmp(amqp1_kind_name(AMQP1_KIND_REFUSED), "Refused") && !strcmp(amqp1_kind_name(AMQP1_KIND_NOT_OPENED), "NotOpened") && !strcmp(amqp1_kind_name(21), "unknown"));
}

/* The exports of links where nothing lies. */
static void try_empty_links(amqp1 *place)
{
    static const uint8_t in[4] = { 0 };
    amqp1_head head = head_of(7, 5, 0, 0, 0);
    amqp1_record record;
    amqp1_event event, old;
    amqp1_told told = { 7, 7, 7, 7, 7 };
    amqp1_unsettled delivery = { 7, 7, 7 };
    uint32_t number = 7;
    memset(&record, 7, sizeof record);
    memset(&event, 7, sizeof event);
    old = event;
    CHECK(amqp1_link_attach(place, 7, in, sizeof in, in, 0, 1, 2, &number) == AMQP1_NO_ENGINE && number == 7);
    CHECK(amqp1_link_wanted(place, &record, 0, &event) == AMQP1_NO_ENGINE && !memcmp(&event, &old, sizeof event));
    CHECK(amqp1_link_event(place, &record, 9, &event) == AMQP1_NO_ENGINE && !memcmp(&event, &old, sizeof event));
    CHECK(amqp1_link_due(place, 7, &event) == AMQP1_NO_ENGINE && !memcmp(&event, &old, sizeof event));
    CHECK(amqp1_link_respond(place, &event, 9) == AMQP1_NO_ENGINE && amqp1_link_dispose(place, 7, in, sizeof in) == AMQP1_NO_ENGINE);
    CHECK(amqp1_link_flow(place, 7, 0, AMQP1_WISH_GRANT, 9) == AMQP1_NO_ENGINE && amqp1_link_flow(place, 7, 0, 99, 9) == AMQP1_NO_ENGINE);
    CHECK(amqp1_link_detach(place, 7, 0, 1, in, sizeof in) == AMQP1_NO_ENGINE);
    CHECK(amqp1_link_send(place, &head, in, sizeof in, 9, &told) == AMQP1_NO_ENGINE && told.given == 7 && told.number == 7 && told.refusal == 7);
    CHECK(told.has_given == 7 && told.reserved == 7);
    CHECK(amqp1_link_settle(place, 7, 99, 0, 0, 1, AMQP1_ACCEPTED) == AMQP1_NO_ENGINE);
    CHECK(amqp1_link_settled(place, 7, AMQP1_SENDER, 0, 9, &delivery) == AMQP1_NO_ENGINE);
    CHECK(amqp1_link_left(place, 7, 0, &delivery) == AMQP1_NO_ENGINE);
    CHECK(amqp1_link_left_of(place, 7, AMQP1_RECEIVER, &delivery) == AMQP1_NO_ENGINE);
    CHECK(delivery.given == 7 && delivery.number == 7 && delivery.link == 7);
    CHECK(amqp1_link_remove(place, 7, 0) == AMQP1_NO_ENGINE && amqp1_link_forget(place, 7) == AMQP1_NO_ENGINE);
    CHECK(amqp1_link_credit(place, 7, 0, &number) == AMQP1_NO_ENGINE && number == 7);
    CHECK(place->full == 0);
}

/* What each export answers where nothing lies; nothing is written. */
static void try_empty(amqp1 *place)
{
    uint8_t out[8] = { 9, 9, 9, 9, 9, 9, 9, 9 }, in[4] = { 0 };
    size_t written = 77;
    uint32_t operation;
    amqp1_record record;
    amqp1_took took = { 7, 7, 7 };
    amqp1_head head = head_of(7, 5, 0, 0, 0);
    amqp1_sent sent = { 7, 7 };
    amqp1_went went = { 7, 7 };
    amqp1_ticked ticked = { 7, 7, 7 };
    amqp1_parts cut, old;
    memset(&record, 7, sizeof record);
    memset(&cut, 7, sizeof cut);
    old = cut;
    for (operation = 0; operation < 40; operation++)
        CHECK(amqp1_call(place, operation, in, sizeof in, out, sizeof out, &written) == AMQP1_NO_ENGINE);
    CHECK(written == 77 && out[0] == 9 && out[7] == 9);
    CHECK(amqp1_take(place, 0, in, sizeof in, &record, 1, &took) == AMQP1_NO_ENGINE && took.taken == 7 && took.written == 7 && took.wanted == 7);
    CHECK(record.kind == 7 && record.tag[31] == 7);
    CHECK(amqp1_send(place, &head, 1, in, sizeof in, &sent, 1, &went) == AMQP1_NO_ENGINE && went.taken == 7 && went.used == 7 && sent.number == 7);
    CHECK(amqp1_cut(place, &head, in, sizeof in, &cut) == AMQP1_NO_ENGINE && !memcmp(&cut, &old, sizeof cut));
    CHECK(amqp1_heard(place, 9) == AMQP1_NO_ENGINE);
    CHECK(amqp1_tick(place, 9, &ticked) == AMQP1_NO_ENGINE && ticked.next == 7 && ticked.due == 7);
    CHECK(place->full == 0);
    try_empty_links(place);
}

static void try_made_twice(void)
{
    amqp1 engine = made();
    void *at = engine.slot.at;
    amqp1_how how = amqp1_how_of(key, 0, AMQP1_NONE, AMQP1_WITHOUT_SASL);
    amqp1_login_head head = { 0, 0 };
    uint8_t open[64], none[1] = { 0 };
    size_t length;
    CHECK(amqp1_write_open(open, sizeof open, &length, "other", NULL, 512, 1, 0) == AMQP1_DONE);
    CHECK(amqp1_start(&engine, key, open, length) == AMQP1_BAD_ARGUMENT);
    CHECK(amqp1_new(&engine, &how, none, 0, &head, 0, none, 0) == AMQP1_BAD_ARGUMENT);
    CHECK(engine.full == 1 && engine.slot.at == at);
    CHECK(amqp1_open(&engine) == AMQP1_DONE && sends(&engine, OPEN_OUT));
    amqp1_free(&engine);
}

static void try_moved(void)
{
    amqp1 engine = made(), moved;
    CHECK(amqp1_open(&engine) == AMQP1_DONE);
    memcpy(&moved, &engine, sizeof engine);
    memset(&engine, 0, sizeof engine);
    CHECK(sends(&moved, OPEN_OUT));
    amqp1_free(&engine);
    amqp1_free(&moved);
    CHECK(moved.full == 0);
}

/* A key of zeros, and one of which a single byte is none. */
static void try_keys(void)
{
    amqp1 place = AMQP1_EMPTY;
    uint8_t zeros[16] = { 0 }, open[64];
    size_t at, length;
    CHECK(amqp1_write_open(open, sizeof open, &length, "me", NULL, 512, 1, 0) == AMQP1_DONE);
    CHECK(amqp1_start(&place, zeros, open, length) == AMQP1_BAD_ARGUMENT && place.full == 0);
    for (at = 0; at < 16; at++) {
        memset(zeros, 0, sizeof zeros);
        zeros[at] = 1;
        CHECK(amqp1_start(&place, zeros, open, length) == AMQP1_DONE && place.full == 1);
        amqp1_free(&place);
    }
}

void try_places(void)
{
    amqp1 place = AMQP1_EMPTY;
    int at;
    try_empty(&place);
    amqp1_free(&place);
    amqp1_free(&place);
    try_empty(&place);
    for (at = 0; at < 100; at++) {
        place = made();
        CHECK(place.full == 1 && amqp1_open(&place) == AMQP1_DONE);
        amqp1_free(&place);
        CHECK(place.full == 0);
        amqp1_free(&place);
        try_empty(&place);
    }
    try_made_twice();
    try_moved();
    try_keys();
}
