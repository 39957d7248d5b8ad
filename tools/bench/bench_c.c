/* The library for C beside qpid-proton's connection driver, in one program: bytes of frames go in, what they say is read, and bytes to send come out.

     bench_c ours|proton receive|unsettled|settled N BATCH [SIZE]

   receive      takes N transfers, reads each, and accepts and settles BATCH of them by one disposition
   unsettled    sends N transfers, and lets each go when the peer has settled it, BATCH by one disposition
   settled      sends N transfers that are settled

   Of each transfer that comes are read: number, tag, whether it is settled, whether more follows, and the payload, of SIZE bytes (64). Each has a tag of its own. The
   bytes of BATCH transfers come at once, as one read of a socket brings them, and go out at once. The peer's bytes are made beforehand and are the same
   for both. The last line of the output is what was done, and the bytes that went out. tools/bench/bench_c.py builds it, and counts. */

#include <amqp1.h>
#include <proton/connection.h>
#include <proton/connection_driver.h>
#include <proton/delivery.h>
#include <proton/link.h>
#include <proton/session.h>
#include <stdio.h>
#include <stdlib.h>
#include <string.h>

enum { WINDOW = 2000000000, MOST = 65536, BATCH = 256 };

static uint8_t *peer, *peer_end, *peer_at;
static uint8_t out[1 << 20], payload[MOST], message[MOST + 16];
static size_t size = 64, length;
static long done;
static unsigned long long went;

#define MUST(what) ((what) ? (void)0 : (fprintf(stderr, "bench_c: line %d: %s\n", __LINE__, #what), exit(3)))

/* ---- what the peer says */

static void frame(const uint8_t *text, size_t length, const uint8_t *rest, size_t rest_length)
{
    amqp1_u32_at(peer_end, (uint32_t)(8 + length + rest_length));
    memcpy(peer_end + 4, "\2\0\0\0", 4);
    memcpy(peer_end + 8, text, length);
    memcpy(peer_end + 8 + length, rest, rest_length);
    peer_end += 8 + length + rest_length;
}

static void peer_says(int receives, int settles, long count, long batch)
{
    uint8_t text[512], tag[4];
    size_t written;
    long i;
    peer = peer_at = peer_end = malloc((size_t)count * (receives ? length + 96 : 64) + 4096);
    MUST(peer);
    MUST(amqp1_write_open(text, sizeof text, &written, "peer", NULL, 1 << 20, 255, 0) == AMQP1_DONE);
    frame(text, written, NULL, 0);
    {
        /* the Begin answers that of channel 0 */
        amqp1_text it = amqp1_text_at(text, sizeof text);
        size_t at = amqp1_begin_list(&it, 0x11, 4);
        amqp1_put_ushort(&it, 0);
        amqp1_put_uint(&it, 0);
        amqp1_put_uint(&it, WINDOW);
        amqp1_put_uint(&it, WINDOW);
        amqp1_end_list(&it, at);
        MUST(amqp1_written(&it, &written) == AMQP1_DONE);
        frame(text, written, NULL, 0);
    }
    MUST(amqp1_write_attach(text, sizeof text, &written, "link", 0, receives ? AMQP1_SENDER : AMQP1_RECEIVER, 2,
                            AMQP1_FIRST, NULL, NULL, 0) == AMQP1_DONE);
    frame(text, written, NULL, 0);
    if (!receives) {
        /* credit for all, in a window for all */
        static const uint32_t says[7] = { 0, WINDOW, 0, WINDOW, 0, 0, 1 << 30 };
        amqp1_text it = amqp1_text_at(text, sizeof text);
        size_t at = amqp1_begin_list(&it, 0x13, 7), field;
        for (field = 0; field < 7; field++)
            amqp1_put_uint(&it, says[field]);
        amqp1_end_list(&it, at);
        MUST(amqp1_written(&it, &written) == AMQP1_DONE);
        frame(text, written, NULL, 0);
    }
    for (i = 0; i < count; i++) {
        if (receives) {
            amqp1_text it = amqp1_text_at(text, sizeof text);
            size_t at = amqp1_begin_list(&it, 0x14, 5);
            amqp1_u32_at(tag, (uint32_t)i);
            amqp1_put_uint(&it, 0);
            amqp1_put_uint(&it, (uint32_t)i);
            amqp1_put_bytes(&it, 0xa0, tag, 4);
            amqp1_put_uint(&it, 0);
            amqp1_put_boolean(&it, 0);
            amqp1_end_list(&it, at);
            MUST(amqp1_written(&it, &written) == AMQP1_DONE);
            frame(text, written, message, length);
        } else if (settles && (i + 1) % batch == 0) {
            MUST(amqp1_write_disposition(text, sizeof text, &written, AMQP1_RECEIVER, (uint32_t)(i + 1 - batch),
                                         (uint32_t)i, 1, AMQP1_ACCEPTED) == AMQP1_DONE);
            frame(text, written, NULL, 0);
        }
    }
}

/* ---- ours */

static amqp1 engine = AMQP1_EMPTY;
static uint32_t handle;
static amqp1_record records[BATCH];

static void ours_out(void)
{
    size_t written;
    do {
        MUST(amqp1_output(&engine, out, sizeof out, &written) == AMQP1_DONE);
        went += written;
    } while (written == sizeof out);
}

static size_t of_frames(long frames)
{
    const uint8_t *at = peer_at;
    while (frames--)
        at += amqp1_u32_of(at);
    return (size_t)(at - peer_at);
}

/* What a transfer says is read, as a program does. */
static void ours_read(const amqp1_record *it)
{
    if (it->kind == AMQP1_KIND_TRANSFER)
        done += it->payload > size && peer_at[it->payload_at + it->payload - 1] == 'x' && it->tag_size == 4 && amqp1_u32_of(it->tag) == it->first &&
                !(it->flags & (AMQP1_FLAG_SETTLED | AMQP1_FLAG_MORE));
    else if (it->kind == AMQP1_KIND_DISPOSITION && it->flags & AMQP1_FLAG_SETTLED)
        done += it->last - it->first + 1;
}

/* The engine takes the peer's next frames; what they say is read. */
static void ours_in(long frames)
{
    size_t left = of_frames(frames), at;
    amqp1_took took;
    while (left) {
        MUST(amqp1_take(&engine, 0, peer_at, left, records, BATCH, &took) == AMQP1_DONE && took.taken);
        for (at = 0; at < took.written; at++)
            ours_read(&records[at]);
        peer_at += took.taken;
        left -= took.taken;
    }
}

static void ours_send(long first, long batch, int settled)
{
    static amqp1_head heads[BATCH];
    static amqp1_sent sent[BATCH];
    static uint8_t *bytes;
    uint8_t *at = bytes = bytes ? bytes : malloc((size_t)BATCH * (MOST + 20));
    amqp1_went all;
    long k;
    for (k = 0; k < batch; k++) {
        amqp1_head head = { 0, 0, 0, 0, AMQP1_FLAG_NUMBERED | AMQP1_FLAG_TAGGED | AMQP1_FLAG_FORMATTED, 4 };
        head.payload = (uint32_t)length;
        head.flags = (uint16_t)(head.flags | (settled ? AMQP1_FLAG_SETTLED : 0));
        heads[k] = head;
        amqp1_u32_at(at, (uint32_t)(first + k));
        memcpy(at + 4, message, length);
        at += 4 + length;
    }
    MUST(amqp1_send(&engine, heads, (size_t)batch, bytes, (size_t)(at - bytes), sent, BATCH, &all) == AMQP1_DONE);
    for (k = 0; k < batch; k++)
        done += sent[k].refusal == 0 && sent[k].number == (uint32_t)(first + k) && settled;
}

static void ours(int receives, int settled, long count, long batch)
{
    uint8_t text[512], key[16] = { 1 };
    uint32_t zero = 0;
    amqp1_took took;
    size_t written;
    long i;
    MUST(amqp1_write_open(text, sizeof text, &written, "bench", NULL, 1 << 20, 255, 0) == AMQP1_DONE);
    MUST(amqp1_start(&engine, key, text, written) == AMQP1_DONE);
    MUST(amqp1_output(&engine, text, 8, &written) == AMQP1_DONE && written == 8);
    MUST(amqp1_take(&engine, 0, text, 8, records, 1, &took) == AMQP1_AGAIN && took.taken == 8);
    MUST(amqp1_open(&engine) == AMQP1_DONE);
    ours_in(1);
    MUST(amqp1_write_begin(text, sizeof text, &written, 0, WINDOW, WINDOW, 255) == AMQP1_DONE);
    MUST(amqp1_begin(&engine, 0, text, written) == AMQP1_DONE);
    ours_in(1);
    MUST(amqp1_link(&engine, 0, receives ? AMQP1_RECEIVER : AMQP1_SENDER, AMQP1_FIRST, "link", &handle) == AMQP1_DONE);
    MUST(amqp1_write_attach(text, sizeof text, &written, "link", handle, receives ? AMQP1_RECEIVER : AMQP1_SENDER, 2,
                            AMQP1_FIRST, NULL, NULL, 0) == AMQP1_DONE);
    MUST(amqp1_attach(&engine, 0, text, written) == AMQP1_DONE);
    ours_in(1);
    MUST(amqp1_write_flow(text, sizeof text, &written, handle, &zero, 1 << 30, 0, 0) == AMQP1_DONE);
    if (receives)
        MUST(amqp1_flow(&engine, 0, text, written) == AMQP1_DONE);
    else
        ours_in(1);
    ours_out();
    for (i = 0; i < count; i += batch) {
        if (receives) {
            ours_in(batch);
            MUST(amqp1_dispose(&engine, 0, AMQP1_RECEIVER, (uint32_t)i, (uint32_t)(i + batch - 1), 1, AMQP1_ACCEPTED) == AMQP1_DONE);
        } else {
            ours_send(i, batch, settled);
        }
        ours_out();
        if (!receives && !settled)
            ours_in(1);
    }
    amqp1_free(&engine);
}

/* ---- qpid-proton's driver */

static pn_connection_driver_t driver;

static void proton_out(void)
{
    for (pn_bytes_t some; (some = pn_connection_driver_write_buffer(&driver)).size;) {
        went += some.size;
        pn_connection_driver_write_done(&driver, some.size);
    }
}

static void proton_take(pn_delivery_t *delivery)
{
    pn_link_t *link = pn_delivery_link(delivery);
    if (pn_link_is_receiver(link)) {
        static char came[MOST + 16];
        pn_delivery_tag_t tag = pn_delivery_tag(delivery);
        ssize_t count;
        if (!pn_delivery_readable(delivery) || pn_delivery_partial(delivery))
            return;
        count = pn_link_recv(link, came, sizeof came);
        done += count > (ssize_t)size && came[count - 1] == 'x' && tag.size == 4 && !pn_delivery_settled(delivery);
        pn_delivery_update(delivery, PN_ACCEPTED);
        pn_delivery_settle(delivery);
    } else if (pn_delivery_settled(delivery)) {
        done++;
        pn_delivery_settle(delivery);
    }
}

static void proton_events(void)
{
    for (pn_event_t *event; (event = pn_connection_driver_next_event(&driver));)
        if (pn_event_type(event) == PN_DELIVERY)
            proton_take(pn_event_delivery(event));
}

static void proton_in(long frames)
{
    size_t left = of_frames(frames);
    while (left) {
        pn_rwbytes_t room = pn_connection_driver_read_buffer(&driver);
        size_t some = room.size < left ? room.size : left;
        MUST(some);
        memcpy(room.start, peer_at, some);
        pn_connection_driver_read_done(&driver, some);
        peer_at += some;
        left -= some;
        proton_events();
    }
}

static void proton(int receives, int settled, long count, long batch)
{
    long i, k;
    pn_session_t *session;
    pn_link_t *link;
    pn_rwbytes_t room;
    MUST(!pn_connection_driver_init(&driver, NULL, NULL));
    pn_connection_set_container(driver.connection, "bench");
    pn_connection_open(driver.connection);
    session = pn_session(driver.connection);
    pn_session_open(session);
    link = receives ? pn_receiver(session, "link") : pn_sender(session, "link");
    pn_link_open(link);
    if (receives)
        pn_link_flow(link, 1 << 30);
    proton_events();
    proton_out();
    room = pn_connection_driver_read_buffer(&driver);
    memcpy(room.start, "AMQP\0\1\0\0", 8);
    pn_connection_driver_read_done(&driver, 8);
    proton_in(receives ? 3 : 4);
    proton_out();
    for (i = 0; i < count; i += batch) {
        if (receives)
            proton_in(batch);
        for (k = i; !receives && k < i + batch; k++) {
            uint8_t tag[4];
            pn_delivery_t *delivery;
            amqp1_u32_at(tag, (uint32_t)k);
            delivery = pn_delivery(link, pn_dtag((char *)tag, 4));
            MUST(delivery && pn_link_send(link, (char *)message, length) == (ssize_t)length);
            if (settled) {
                pn_delivery_settle(delivery);
                done++;
            } else {
                pn_link_advance(link);
            }
        }
        proton_events();
        proton_out();
        if (!receives && !settled)
            proton_in(1);
    }
    pn_connection_driver_destroy(&driver);
}

int main(int argc, char **argv)
{
    int receives, settled;
    long count, batch;
    if (argc < 5)
        return 2;
    receives = !strcmp(argv[2], "receive"), settled = !strcmp(argv[2], "settled"), count = atol(argv[3]), batch = atol(argv[4]);
    size = argc > 5 ? (size_t)atol(argv[5]) : size;
    MUST(batch <= BATCH && size <= MOST);
    memset(payload, 'x', sizeof payload);
    MUST(amqp1_write_data(message, sizeof message, &length, payload, size) == AMQP1_DONE);
    peer_says(receives, !settled, count, batch);
    (!strcmp(argv[1], "ours") ? ours : proton)(receives, settled, count, batch);
    printf("done=%ld of %ld, %llu bytes out\n", done, count, went);
    return done != count;
}
