/* Any bytes to libamqp1, for libFuzzer: headers, SASL frames and frames in any pieces and with any room for records, and the answers to them; records
   that no call wrote; requests, ticks, transfers by heads, which are cut too, and outputs of any room; and the calls of links with credit, which are
   told each record. What a call says that it took and wrote has to fit what it was given. With AMQP1_FUZZ_ALONE it is a program that does the same with
   files. See amqp1_try.sh.

   The input is a row of steps: a byte that says what is done (the lowest three bits) and with what room (the others), two bytes of length, and
   as many bytes. */
#include <amqp1.h>
#include <stdio.h>

int LLVMFuzzerTestOneInput(const uint8_t *data, size_t size);

enum { MOST = 1 << 16, LIMIT = 4000 };

static const uint8_t key[16] = { 1 };
static uint8_t waiting[MOST];
static size_t waits;
static uint64_t now;

#define MUST(holds) ((holds) ? (void)0 : (fprintf(stderr, "line %d: %s\n", __LINE__, #holds), abort()))

/* A record is told to the links of its session, and what they owe is sent. */
static void tell(amqp1 *engine, const amqp1_record *it, uint64_t given)
{
    amqp1_event event;
    int32_t status = amqp1_link_event(engine, it, given, &event);
    MUST(status == AMQP1_DONE || status == AMQP1_NOT_NEXT);
    if (status != AMQP1_DONE)
        return;
    MUST(event.kind <= AMQP1_EVENT_ENDED && event.session == it->session && event.flags < 2 * AMQP1_EVENT_NUMBERED);
    MUST((event.kind == AMQP1_EVENT_NOTHING || event.kind == AMQP1_EVENT_SETTLED) == (event.link == AMQP1_NONE));
    status = amqp1_link_respond(engine, &event, (uint32_t)given);
    MUST(amqp1_link_went(status) || status == AMQP1_REFUSED);
    if (event.kind != AMQP1_EVENT_SETTLED && status != AMQP1_REFUSED)
        MUST(amqp1_link_respond(engine, &event, (uint32_t)given) == (status == AMQP1_HELD_BACK ? AMQP1_HELD_BACK : AMQP1_NOTHING));
    while (amqp1_link_due(engine, it->session, &event) == AMQP1_DONE) {
        MUST(event.kind == AMQP1_EVENT_DUE && event.session == it->session && event.link != AMQP1_NONE);
        status = amqp1_link_respond(engine, &event, (uint32_t)given);
        MUST(amqp1_link_went(status) || status == AMQP1_REFUSED);
    }
}

/* An engine as far as this: 0 made, 1 its Open sent, 2 open, 3 with the session 7, 4 with a link on which it sends (0, the peer's 5) and 5 also
   one on which it receives (1, the peer's 6); or that of a server (6) and of a client (7) that SASL comes first for, with its first header waiting.
   Where it idles both sides have an idle-time-out, and where it is credited the links have ends, with a credit of 5 on the second one. */
static void make(amqp1 *engine, unsigned far, unsigned idles, unsigned credited)
{
    static const uint8_t opens[2][33] = { "\0\0\0\x1a\2\0\0\0\0\x53\x10\xc0\x0d\3\xa1\4peer\x40\x70\0\0\4\0",
                                          "\0\0\0\x20\2\0\0\0\0\x53\x10\xc0\x13\5\xa1\4peer\x40\x70\0\0\4\0\x40\x70\0\0\1\0" };
    static const uint8_t frames[] = "\0\0\0\x16\2\0\0\3\0\x53\x11\xc0\x09\4\x60\0\0\x43\x52\x0a\x52\x0a"
                                    "\0\0\0\x16\2\0\0\3\0\x53\x12\xc0\x09\3\xa1\3out\x52\5\x41"
                                    "\0\0\0\x15\2\0\0\3\0\x53\x12\xc0\x08\3\xa1\2in\x52\6\x42";
    static const uint8_t attaches[2][37] = { "\0\0\0\x20\2\0\0\3\0\x53\x12\xc0\x13\7\xa1\3out\x52\5\x41\x40\x40\0\x53\x28\x45\0\x53\x29\x45",
                                             "\0\0\0\x22\2\0\0\3\0\x53\x12\xc0\x15\x0a\xa1\2in\x52\6\x42\x40\x40\0\x53\x28\x45\0\x53\x29\x45\x40\x40\x43" };
    static const char *const names[] = { "out", "in" };
    static const uint8_t header[8] = { 'A', 'M', 'Q', 'P', 0, 1, 0, 0 };
    uint8_t text[128];
    amqp1_record records[4];
    amqp1_took took;
    uint32_t handle;
    size_t written;
    unsigned at;
    amqp1_free(engine);
    waits = 0;
    now = 0;
    MUST(amqp1_write_open(text, sizeof text, &written, "me", NULL, 4096, 255, idles ? 1000 : 0) == AMQP1_DONE);
    if (far == 6)
        MUST(amqp1_start_server(engine, key, now, LIMIT, "PLAIN ANONYMOUS", text, written) == AMQP1_DONE);
    if (far == 7)
        MUST(amqp1_start_client(engine, key, now, LIMIT, "host", "me", "secret", text, written) == AMQP1_DONE);
    if (far >= 6) {
        MUST(amqp1_open(engine) == AMQP1_DONE);
        return;
    }
    MUST(amqp1_start(engine, key, text, written) == AMQP1_DONE);
    MUST(amqp1_output(engine, text, 8, &written) == AMQP1_DONE && written == 8 && !memcmp(text, header, 8));
    MUST(amqp1_take(engine, 0, header, 8, records, 4, &took) == AMQP1_AGAIN && took.taken == 8 && records[0].kind == AMQP1_KIND_AMQP_HEADER);
    if (far >= 1)
        MUST(amqp1_open(engine) == AMQP1_DONE);
    if (far >= 2)
        MUST(amqp1_take(engine, 0, opens[idles], opens[idles][3], records, 4, &took) == AMQP1_DONE && records[0].kind == AMQP1_KIND_OPENED);
    MUST(amqp1_write_begin(text, sizeof text, &written, 0, 64, 64, 255) == AMQP1_DONE);
    if (far >= 3)
        MUST(amqp1_begin(engine, 7, text, written) == AMQP1_DONE);
    if (far >= 3)
        MUST(amqp1_take(engine, 0, frames, 22, records, 4, &took) == AMQP1_DONE && took.taken == 22 && records[0].kind == AMQP1_KIND_BEGUN);
    for (at = 0; at < 2 && far >= 4 + at; at++) {
        const uint8_t *attach = credited ? attaches[at] : frames + 22 + (at ? 22 : 0);
        size_t length = attach[3];
        enum amqp1_role role = at ? AMQP1_RECEIVER : AMQP1_SENDER;
        MUST(amqp1_link(engine, 7, role, at ? AMQP1_SECOND : AMQP1_FIRST, names[at], &handle) == AMQP1_DONE && handle == at);
        MUST(amqp1_write_attach(text, sizeof text, &written, names[at], at, role, 2, AMQP1_FIRST, "q", "q", 0) ==
             AMQP1_DONE);
        MUST((credited ? amqp1_link_attach(engine, 7, text, written, text, 0, 3, 5, &handle) : amqp1_attach(engine, 7, text, written)) == AMQP1_DONE);
        MUST(amqp1_take(engine, 0, attach, length, records, 4, &took) == AMQP1_DONE && took.taken == length && records[0].kind == AMQP1_KIND_ATTACHED);
        tell(engine, records, 0);
    }
}

/* What stands in a frame's record, or in that of a header or a SASL frame, stands in what was taken. */
static void look(const amqp1_record *it, const uint8_t *input, uint64_t taken)
{
    MUST(it->kind >= 1 && it->kind <= 20 && it->outcome <= 6);
    MUST((it->refusal != 0) == (it->kind == AMQP1_KIND_REFUSED || it->kind == AMQP1_KIND_ATTACH_WANTED || it->kind == AMQP1_KIND_BEGIN_WANTED ||
                                it->kind == AMQP1_KIND_NOT_OPENED));
    if (it->kind > 12) {
        MUST(!it->at && it->size <= taken && (it->payload_at == AMQP1_NONE || (uint64_t)it->payload_at + it->payload <= taken));
        if (it->kind == AMQP1_KIND_LOGIN_ASKED)
            MUST((uint64_t)it->first + it->last <= taken && (it->count == AMQP1_NONE || (uint64_t)it->count + it->credit <= taken));
        return;
    }
    MUST(it->at >= 8 && it->at + it->size == it->payload_at && it->payload_at + it->payload <= taken);
    MUST(amqp1_u32_of(input + it->at - 8) == it->size + it->payload + 8);
    amqp1_bytes_field(amqp1_performative(input, it), AMQP1_ATTACH_NAME);
}

/* Gives a record the answers that the flags name; a session that begins has this number. */
static void answer(amqp1 *engine, const amqp1_record *it, const uint8_t *input, size_t length, uint16_t flags, uint32_t number)
{
    int asks = it->kind == AMQP1_KIND_BEGIN_WANTED ? AMQP1_ANSWER_BEGINS
               : it->kind == AMQP1_KIND_ENDED      ? AMQP1_ANSWER_ENDS
               : it->kind == AMQP1_KIND_CLOSED     ? AMQP1_ANSWER_CLOSES
               : it->kind == AMQP1_KIND_REFUSED    ? AMQP1_ANSWER_REFUSALS
                                                   : 0;
    int32_t status = amqp1_answer(engine, it, input, length, flags, number);
    uint32_t state;
    int is_there;
    MUST(status == AMQP1_DONE || status == AMQP1_NOTHING || status == AMQP1_REFUSED || status == AMQP1_BAD_ARGUMENT || status == AMQP1_NOT_RELEASED ||
         status == AMQP1_NOT_FORGOTTEN);
    MUST((flags & asks) || status == AMQP1_NOTHING);
    if (status == AMQP1_DONE && asks == AMQP1_ANSWER_BEGINS)
        MUST(amqp1_session_state(engine, number, &state, &is_there) == AMQP1_DONE && is_there && state == AMQP1_SESSION_MAPPED);
    if (status == AMQP1_DONE && asks == AMQP1_ANSWER_ENDS)
        MUST(amqp1_session_state(engine, it->session, &state, &is_there) == AMQP1_DONE && !is_there);
}

/* A record that no call wrote, and any bytes as the input of its call. */
static void answer_any(amqp1 *engine, const uint8_t *bytes, size_t length)
{
    amqp1_record it;
    uint8_t *input;
    if (length < 2 + sizeof it)
        return;
    memcpy(&it, bytes + 2, sizeof it);
    length -= 2 + sizeof it;
    input = (uint8_t *)malloc(length ? length : 1);
    MUST(input);
    memcpy(input, bytes + 2 + sizeof it, length);
    answer(engine, &it, input, length, bytes[0], bytes[1]);
    free(input);
}

/* Bytes come. What was not taken stays, unless nothing more can be taken. The records lie in memory of just their number; each is answered, where
   there are flags. */
static void take(amqp1 *engine, const uint8_t *bytes, size_t length, size_t room, uint16_t flags, uint32_t number)
{
    amqp1_record *records = (amqp1_record *)malloc(room ? room * sizeof *records : 1);
    amqp1_took took = { 9, 9, 9 };
    uint8_t *input;
    size_t n;
    int32_t status;
    if (waits + length > MOST)
        waits = 0;
    memcpy(waiting + waits, bytes, length);
    waits += length;
    input = (uint8_t *)malloc(waits ? waits : 1);
    MUST(records && input);
    memcpy(input, waiting, waits);
    status = amqp1_take(engine, now, input, waits, records, room, &took);
    MUST(status == AMQP1_DONE || status == AMQP1_FULL || status == AMQP1_BAD_SIZE || status == AMQP1_AGAIN || status == AMQP1_WAITS ||
         status == AMQP1_OVER || status == AMQP1_TOO_LARGE);
    MUST(took.taken <= waits && took.written <= room && (status == AMQP1_DONE ? took.wanted > waits - took.taken : !took.wanted));
    for (n = 0; n < took.written; n++)
        look(records + n, input, took.taken);
    for (n = 0; n < took.written; n++)
        tell(engine, records + n, number + n);
    for (n = 0; flags && n < took.written; n++)
        answer(engine, records + n, input, waits, flags, number + (uint32_t)n);
    memmove(waiting, waiting + took.taken, waits - took.taken);
    waits = status == AMQP1_BAD_SIZE || status == AMQP1_OVER ? 0 : waits - took.taken;
    free(records);
    free(input);
}

/* Time passes. */
static void tick(amqp1 *engine, uint64_t more)
{
    amqp1_ticked ticked = { 9, 9, 9 };
    int is_over;
    now += more;
    if (more & 1)
        MUST(amqp1_heard(engine, now) == AMQP1_DONE);
    MUST(amqp1_tick(engine, now, &ticked) == AMQP1_DONE && ticked.due <= AMQP1_DUE_PEER_SILENT && !ticked.reserved && ticked.next > now);
    MUST(amqp1_is_over(engine, &is_over) == AMQP1_DONE);
    MUST(is_over ? ticked.next == AMQP1_NEVER : ticked.due <= AMQP1_DUE_BEAT);
}

/* The oldest delivery that is settled or left, by any of the three calls. */
static void unsettled(amqp1 *engine, unsigned which, const uint32_t *numbers)
{
    amqp1_unsettled it;
    int32_t status = which == 8   ? amqp1_link_settled(engine, numbers[0], numbers[1], numbers[2], numbers[3], &it)
                     : which == 9 ? amqp1_link_left(engine, numbers[0], numbers[1], &it)
                                  : amqp1_link_left_of(engine, numbers[0], numbers[1], &it);
    MUST(status == AMQP1_DONE || status == AMQP1_NOTHING || status == (which == 9 ? AMQP1_NOTHING : AMQP1_BAD_ARGUMENT));
    MUST(status != AMQP1_DONE || which != 9 || it.link == numbers[1]);
}

/* A transfer on a link takes one of its credit, or none. */
static void link_send(amqp1 *engine, const uint32_t *numbers, const uint8_t *bytes, size_t length)
{
    amqp1_head head = { 7, 0, 0, 0, 0, 0 };
    amqp1_told told;
    uint32_t before, after;
    int32_t status;
    head.session = numbers[0];
    head.link = numbers[1];
    head.payload = numbers[2] % 2000;
    head.flags = (uint16_t)numbers[3];
    head.tag_size = (uint16_t)(numbers[3] >> 16) % 34;
    MUST(amqp1_link_credit(engine, head.session, head.link, &before) == AMQP1_DONE);
    status = amqp1_link_send(engine, &head, bytes, length, numbers[2], &told);
    MUST(amqp1_link_credit(engine, head.session, head.link, &after) == AMQP1_DONE);
    MUST(status == AMQP1_DONE || status == AMQP1_REFUSED || status == AMQP1_SHORT || status == AMQP1_OVER);
    MUST(status == AMQP1_DONE ? before == after || before == after + 1 : before == after && !told.number && !told.has_given);
    MUST((status == AMQP1_REFUSED) == (told.refusal != 0) && told.has_given <= 1 && !told.reserved);
}

/* A call of links: four numbers, of which a high byte makes the first one the session that is there, and bytes. */
static void link_call(amqp1 *engine, unsigned which, const uint8_t *bytes, size_t length)
{
    uint32_t n[4], link = 99, at;
    amqp1_record record;
    amqp1_event event;
    int32_t status = AMQP1_DONE;
    if (length < 16)
        return;
    for (at = 0; at < 4; at++)
        n[at] = amqp1_u32_of(bytes + 4 * at);
    n[0] = n[0] >> 31 ? 7 : n[0];
    bytes += 16;
    length -= 16;
    memset(&record, 0, sizeof record);
    memset(&event, 0, sizeof event);
    memcpy(&record, bytes, length < sizeof record ? length : sizeof record);
    memcpy(&event, bytes, length < sizeof event ? length : sizeof event);
    switch (which) {
    case 0: status = amqp1_link_attach(engine, n[0], bytes, length, bytes, n[3] % 2 ? length % 4 : 0, n[1], n[2], &link); break;
    case 1: status = amqp1_link_wanted(engine, &record, n[1], &event); break;
    case 2: tell(engine, &record, n[1]); break;
    case 3: status = amqp1_link_respond(engine, &event, n[1]); break;
    case 4: status = amqp1_link_flow(engine, n[0], n[1], n[2], n[3]); break;
    case 5: status = amqp1_link_detach(engine, n[0], n[1], n[2], bytes, length); break;
    case 6: link_send(engine, n, bytes, length); break;
    case 7: status = amqp1_link_settle(engine, n[0], n[1], n[2], n[3], length & 1, (uint8_t)(length >> 1)); break;
    case 8:
    case 9:
    case 10: unsettled(engine, which, n); break;
    case 11: status = amqp1_link_remove(engine, n[0], n[1]); break;
    case 12: status = amqp1_link_forget(engine, n[0]); break;
    case 13: status = amqp1_link_due(engine, n[0], &event); break;
    case 14: status = amqp1_link_dispose(engine, n[0], bytes, length); break;
    default: status = amqp1_link_credit(engine, n[0], n[1], &link); break;
    }
    MUST(status == AMQP1_DONE || status == AMQP1_REFUSED || status == AMQP1_BAD_ARGUMENT || status == AMQP1_NOTHING ||
         (status >= AMQP1_NOT_DETACHED && status <= AMQP1_HELD_BACK));
}

/* A request, whose output has just this room. From 128 on the first byte names a call of links. */
static void call(amqp1 *engine, const uint8_t *input, size_t length, size_t room)
{
    uint8_t *output = (uint8_t *)malloc(room ? room : 1);
    size_t written = 0;
    int32_t status;
    MUST(output);
    if (length && input[0] >= 128)
        link_call(engine, (input[0] - 128u) % 16, input + 1, length - 1);
    else if (length) {
        status = amqp1_call(engine, input[0] % 38, input + 1, length - 1, output, room, &written);
        MUST((status >= AMQP1_DONE && status <= AMQP1_BAD_ARGUMENT) || status == AMQP1_NOT_RELEASED || status == AMQP1_NOT_FORGOTTEN);
        MUST(written <= room || status == AMQP1_TOO_SMALL);
    }
    free(output);
}

/* Cuts a head until nothing is left. The parts have its payload, and each but the last is as much as fits a frame. */
static void cut(amqp1 *engine, amqp1_head head, const uint8_t *bytes, size_t length)
{
    amqp1_parts parts;
    unsigned round;
    for (round = 0; round < 9; round++) {
        MUST(amqp1_cut(engine, &head, bytes, round ? 0 : length, &parts) == AMQP1_DONE);
        MUST(parts.refusal == 0 || parts.refusal == AMQP1_WHY_PAYLOAD_TOO_LONG || parts.refusal == AMQP1_WHY_TAG_TOO_LONG);
        if (!parts.more) {
            MUST(!memcmp(&parts.part, &head, sizeof head) && !memcmp(&parts.rest, &head, sizeof head));
            return;
        }
        MUST(parts.more == 1 && !parts.refusal && parts.part.payload < head.payload && parts.rest.payload == head.payload - parts.part.payload);
        MUST(parts.part.flags == ((head.flags & ~AMQP1_FLAG_ABORTED) | AMQP1_FLAG_MORE) && parts.part.tag_size == head.tag_size && !parts.rest.tag_size);
        MUST(parts.rest.flags == (head.flags & (AMQP1_FLAG_MORE | AMQP1_FLAG_ABORTED)) && (round == 0 || parts.part.payload));
        head = parts.rest;
    }
}

/* Transfers: the heads stand in the bytes first. Of every second one session and link are those that are there, and the sizes are small. */
static void send(amqp1 *engine, const uint8_t *bytes, size_t length, unsigned room)
{
    amqp1_head heads[4];
    amqp1_sent sent[4];
    amqp1_went went = { 9, 9 };
    size_t count = room % 4, n;
    int32_t status;
    if (length < count * sizeof *heads)
        return;
    memcpy(heads, bytes, count * sizeof *heads);
    for (n = 0; room & 4 && n < count; n++) {
        heads[n].session = 7;
        heads[n].link = 0;
        heads[n].tag_size %= 34;
        heads[n].payload %= 2000;
    }
    length -= count * sizeof *heads;
    for (n = 0; n < count; n++)
        cut(engine, heads[n], bytes + count * sizeof *heads, length);
    status = amqp1_send(engine, heads, count, bytes + count * sizeof *heads, length, sent, room >> 3, &went);
    MUST(status == AMQP1_DONE || status == AMQP1_FULL || status == AMQP1_SHORT || status == AMQP1_OVER);
    MUST(went.taken <= count && went.taken <= room >> 3 && went.used <= length && (status != AMQP1_DONE || went.taken == count));
    for (n = 0; n < went.taken; n++)
        MUST(sent[n].refusal == 0 || sent[n].number == 0);
}

static void output(amqp1 *engine, size_t room)
{
    uint8_t *out = (uint8_t *)malloc(room ? room : 1);
    size_t written = 9;
    MUST(out && amqp1_output(engine, out, room, &written) == AMQP1_DONE && written <= room);
    free(out);
}

int LLVMFuzzerTestOneInput(const uint8_t *data, size_t size)
{
    amqp1 engine = AMQP1_EMPTY;
    make(&engine, 5, 0, 0);
    while (size >= 3) {
        unsigned step = data[0] % 8, room = data[0] / 8;
        size_t length = (size_t)data[1] << 8 | data[2];
        data += 3;
        size -= 3;
        length = length < size ? length : size;
        if (step == 0)
            make(&engine, room % 8, room / 8 % 2, room / 16);
        else if (step == 1)
            take(&engine, data, length, room % 8, 0, 0);
        else if (step == 2 && length >= 2)
            take(&engine, data + 2, length - 2, room % 8, data[0], data[1]);
        else if (step == 3)
            answer_any(&engine, data, length);
        else if (step == 4)
            call(&engine, data, length, room * 8);
        else if (step == 5)
            tick(&engine, room * 40);
        else if (step == 6)
            send(&engine, data, length, room);
        else
            output(&engine, room * room * 7);
        data += length;
        size -= length;
    }
    amqp1_free(&engine);
    return 0;
}

#ifdef AMQP1_FUZZ_ALONE
int main(int count, char **words)
{
    static uint8_t bytes[1 << 20];
    int at;
    for (at = 1; at < count; at++) {
        FILE *file = fopen(words[at], "rb");
        MUST(file);
        LLVMFuzzerTestOneInput(bytes, fread(bytes, 1, sizeof bytes, file));
        fclose(file);
    }
    printf("%d inputs\n", count - 1);
    return 0;
}
#endif
