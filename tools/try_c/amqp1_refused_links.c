/* A connection by libamqp1 with links with credit, for amqp1_try.sh to run with each request for memory refused in turn (refuse_nth.c). What is answered
   AMQP1_NO_MEMORY is asked again, and what is refused as OutOfMemory too, a frame of the peer's as well; so all that goes out, and what every record is to the
   links, has to be as it is when nothing is refused, but that a disposition may go out twice. It is printed, and at the end how many pieces of memory are
   left; after ~ stands how often a call was asked again. */
#define _GNU_SOURCE
#include "amqp1_try.h"
#include <dlfcn.h>

static amqp1 one;
static char printed[1 << 16];
static long again, held;

/* The function of this name that stands behind those of this program: its requests for memory are counted here. */
static void next_of(const char *name, void *function, size_t size)
{
    void *it = dlsym(RTLD_NEXT, name);
    memcpy(function, &it, size);
}

void *malloc(size_t size)
{
    static void *(*next)(size_t);
    void *it;
    if (!next)
        next_of("malloc", &next, sizeof next);
    it = next(size);
    held += it != NULL;
    return it;
}

void *realloc(void *old, size_t size)
{
    static void *(*next)(void *, size_t);
    void *it;
    if (!next)
        next_of("realloc", &next, sizeof next);
    it = next(old, size);
    held += it && !old;
    return it;
}

void free(void *old)
{
    static void (*next)(void *);
    if (!next)
        next_of("free", &next, sizeof next);
    held -= old != NULL;
    next(old);
}

static void print(const char *what, const void *bytes, size_t length)
{
    size_t at;
    printf("%s ", what);
    for (at = 0; at < length; at++)
        printf("%02x", (unsigned)((const uint8_t *)bytes)[at]);
    printf("\n");
}

/* Whether a refusal is for want of memory. */
static int is_memory(uint32_t refusal)
{
    return refusal == AMQP1_WHY_OUT_OF_MEMORY || refusal == AMQP1_WHY_FRAME_OUT_OF_MEMORY || refusal == AMQP1_WHY_CONNECTION_STATE_OUT_OF_MEMORY ||
           refusal == AMQP1_WHY_CONNECTION_OUT_OF_MEMORY || refusal == AMQP1_WHY_SESSION_STATE_OUT_OF_MEMORY ||
           refusal == AMQP1_WHY_SESSION_OUT_OF_MEMORY || refusal == AMQP1_WHY_ALLOC_LINK_OUT_OF_MEMORY;
}

/* Whether a call has to be asked again. */
static int asks_again(int32_t status)
{
    uint8_t said[256];
    size_t written = 0;
    if (status == AMQP1_REFUSED && amqp1_refusal(&one, said, sizeof said, &written) == AMQP1_NO_MEMORY)
        amqp1_refusal(&one, said, sizeof said, &written);
    if (status != AMQP1_NO_MEMORY && !(status == AMQP1_REFUSED && written > 11 && !memcmp(said, "OutOfMemory\n", 12)))
        return 0;
    again++;
    return 1;
}

/* Asks until memory is there, and prints what is answered unless it is this. */
#define ASK(call, wanted)                                                \
    do {                                                                 \
        int32_t answered;                                                \
        while (answered = (call), asks_again(answered)) {                \
        }                                                                \
        if (answered != (wanted))                                        \
            printf("%s: %s\n", #call, amqp1_status_name(answered));      \
    } while (0)
#define DO(call) ASK(call, AMQP1_DONE)

/* The frames that go out, one by one; of a disposition that goes twice only the first. */
static void tell(void)
{
    static uint8_t out[4096], last[256];
    static size_t last_length;
    size_t written, length = 0, at, size;
    int32_t status;
    do {
        status = amqp1_output(&one, out + length, sizeof out - length, &written);
        again += status == AMQP1_NO_MEMORY;
        length += written;
    } while (written || status == AMQP1_NO_MEMORY);
    for (at = 0; at < length; at += size) {
        size = amqp1_u32_of(out + at) > length - at ? length - at : amqp1_u32_of(out + at);
        if (amqp1_frame_code(amqp1_bytes_at(out + at, size)) == AMQP1_DISPOSITION_CODE && size == last_length && !memcmp(last, out + at, size))
            continue;
        print("out", out + at, size);
        last_length = size < sizeof last ? size : 0;
        memcpy(last, out + at, last_length);
    }
}

/* A frame of the peer's; one that is gone for want of memory comes once more. */
static amqp1_record hear(const char *digits)
{
    static uint8_t frame[256];
    size_t length = bytes_of(digits, frame, sizeof frame);
    amqp1_record record;
    amqp1_took took;
    do {
        took.written = 0;
        while (amqp1_take(&one, 0, frame, length, &record, 1, &took) == AMQP1_NO_MEMORY)
            again++;
        again += took.written && is_memory(record.refusal);
    } while (took.written && is_memory(record.refusal));
    if (took.written != 1 || took.taken != length)
        printf("not taken: %s\n", digits);
    return record;
}

/* The same, told to the links, which send what they owe. */
static amqp1_event follow(const char *digits)
{
    amqp1_record record = hear(digits);
    amqp1_event event;
    int32_t status;
    DO(amqp1_link_event(&one, &record, ((uint64_t)5 << 40) + record.first, &event));
    print("event", &event, sizeof event);
    while (status = amqp1_link_respond(&one, &event, 0), asks_again(status)) {
    }
    printf("respond: %s\n", amqp1_status_name(status));
    tell();
    return event;
}

static void settle_all(uint32_t role, uint32_t first, uint32_t last)
{
    amqp1_unsettled delivery;
    while (amqp1_link_settled(&one, 7, role, first, last, &delivery) == AMQP1_DONE)
        print("settled", &delivery, sizeof delivery);
}

static void send_one(unsigned flags, int32_t wanted)
{
    static const uint8_t bytes[4] = { 't', 1, 2, 3 };
    amqp1_head head = head_of(7, 0, (uint16_t)(flags | AMQP1_FLAG_TAGGED), 1, 3);
    amqp1_told told;
    int32_t status;
    while (status = amqp1_link_send(&one, &head, bytes, sizeof bytes, 70 + flags, &told), status == AMQP1_NO_MEMORY)
        again++;
    if (status != wanted)
        printf("send: %s\n", amqp1_status_name(status));
    print("told", &told, sizeof told);
    tell();
}

static void begin(void)
{
    uint8_t text[64];
    size_t length;
    if (amqp1_write_open(text, sizeof text, &length, "me", NULL, 65536, 255, 0) != AMQP1_DONE)
        exit(1);
    DO(amqp1_start(&one, key, text, length));
    tell();
    hear("414d5150 00010000");
    DO(amqp1_open(&one));
    hear("[02000000 " PEERS_OPEN "]");
    if (amqp1_write_begin(text, sizeof text, &length, 0, 64, 64, 255) != AMQP1_DONE)
        exit(1);
    DO(amqp1_begin(&one, 7, text, length));
    hear("[02000003 005311 c0(04 600000 43 520a 520a)]");
    tell();
}

/* A sender on the handle 0, and the peer's 5; a receiver with a window of 2 on 1 and 6; and a receiver that the peer attaches first, on 2 and 4. */
static void attach(void)
{
    uint8_t text[128];
    amqp1_record record;
    amqp1_event event;
    uint32_t link = 99;
    size_t length;
    int32_t status;
    DO(amqp1_sender(&one, 7, "out", "q", &link));
    follow("[02000003 005312 c0(07 a1(6f7574) 5205 41 40 40 00532845 00532945)]");
    DO(amqp1_receiver(&one, 7, "in", "q", 2, &link));
    follow("[02000003 005312 c0(0a a1(696e) 5206 42 40 40 00532845 00532945 40 40 43)]");
    record = hear("[02000003 005312 c0(0a a1(6e6577) 5204 42 40 40 00532845 00532945 40 40 43)]");
    DO(amqp1_link_on(&one, 7, record.input, AMQP1_RECEIVER, AMQP1_FIRST, "new", &link));
    if (amqp1_write_attach(text, sizeof text, &length, "new", 0, AMQP1_RECEIVER, 2, AMQP1_FIRST, "q", "q", 0) != AMQP1_DONE)
        exit(1);
    DO(amqp1_link_attach(&one, 7, text, length, text, 0, 1, 9, &link));
    DO(amqp1_link_wanted(&one, &record, link, &event));
    print("event", &event, sizeof event);
    while (status = amqp1_link_respond(&one, &event, 0), asks_again(status)) {
    }
    tell();
}

static void send_some(void)
{
    send_one(0, AMQP1_REFUSED);
    follow("[02000003 005313 c0(07 43 5240 43 520a 5205 43 5204)]");
    send_one(0, AMQP1_DONE);
    send_one(AMQP1_FLAG_MORE, AMQP1_DONE);
    send_one(AMQP1_FLAG_ABORTED, AMQP1_DONE);
    send_one(AMQP1_FLAG_SETTLED, AMQP1_DONE);
    send_one(0, AMQP1_DONE);
    send_one(0, AMQP1_REFUSED);
    follow("[02000003 005315 c0(05 41 43 43 41 00532445)]");
    settle_all(AMQP1_SENDER, 0, 0);
}

static void receive_some(void)
{
    amqp1_event event;
    follow("[02000003 005314 c0(06 5206 43 a0(61) 43 42 41) 01]");
    event = follow("[02000003 005314 c0(05 5206 40 40 40 42) 02]");
    DO(amqp1_link_settle(&one, 7, AMQP1_RECEIVER, event.first, event.last, 1, AMQP1_ACCEPTED));
    settle_all(AMQP1_RECEIVER, event.first, event.last);
    tell();
    event = follow("[02000003 005314 c0(05 5206 5201 a0(62) 43 42) 03]");
    DO(amqp1_link_accept(&one, &event));
    tell();
    follow("[02000003 005314 c0(05 5204 5202 a0(63) 43 42) 04]");
    DO(amqp1_grant(&one, 7, 1, 5));
    DO(amqp1_drain(&one, 7, 1));
    tell();
    follow("[02000003 005313 c0(09 43 5240 43 520a 5206 5207 43 43 41)]");
    follow("[02000003 005314 c0(05 5206 5203 a0(64) 43 42) 05]");
    follow("[02000003 005316 c0(02 5206 41)]");
    DO(amqp1_link_remove(&one, 7, 1));
}

static void end(void)
{
    uint8_t error[64];
    amqp1_unsettled delivery;
    size_t length;
    if (amqp1_write_error(error, sizeof error, &length, "amqp:internal-error", "a reason") != AMQP1_DONE)
        exit(1);
    DO(amqp1_link_detach(&one, 7, 0, 1, error, length));
    tell();
    follow("[02000003 005316 c0(02 5205 41)]");
    while (amqp1_link_left(&one, 7, 0, &delivery) == AMQP1_DONE)
        print("left", &delivery, sizeof delivery);
    DO(amqp1_link_remove(&one, 7, 0));
    DO(amqp1_end(&one, 7, NULL, 0));
    hear("[02000003 00531745]");
    while (amqp1_link_left_of(&one, 7, AMQP1_RECEIVER, &delivery) == AMQP1_DONE)
        print("left", &delivery, sizeof delivery);
    DO(amqp1_link_forget(&one, 7));
    DO(amqp1_close(&one, NULL, 0));
    hear("[02000000 00531845]");
    tell();
}

int main(void)
{
    setvbuf(stdout, printed, _IOFBF, sizeof printed);
    held = 0;
    begin();
    attach();
    send_some();
    receive_some();
    end();
    amqp1_free(&one);
    printf("%ld pieces of memory are left\n~ %ld\n", held, again);
    return 0;
}
