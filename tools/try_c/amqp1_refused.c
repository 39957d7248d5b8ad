/* A whole connection by libamqp1, for amqp1_try.sh to run with each request for memory refused in turn (refuse_nth.c). What is answered
   AMQP1_NO_MEMORY is asked again, and what is refused as OutOfMemory too, a frame of the peer's as well; so all that goes out and all that comes has
   to be as it is when nothing is refused. It is printed; after ~ stands how often a call was asked again. */
#include "amqp1_try.h"

static amqp1 one;
static char printed[1 << 16];
static long again;

static void print(const char *what, const uint8_t *bytes, size_t length)
{
    size_t at;
    if (!length)
        return;
    printf("%s ", what);
    for (at = 0; at < length; at++)
        printf("%02x", (unsigned)bytes[at]);
    printf("\n");
}

/* Whether memory was refused, by the number of a refusal. */
static int is_memory(uint32_t refusal)
{
    return refusal == AMQP1_WHY_OUT_OF_MEMORY || refusal == AMQP1_WHY_FRAME_OUT_OF_MEMORY || refusal == AMQP1_WHY_CONNECTION_STATE_OUT_OF_MEMORY ||
           refusal == AMQP1_WHY_CONNECTION_OUT_OF_MEMORY || refusal == AMQP1_WHY_ALLOC_SESSION_OUT_OF_MEMORY ||
           refusal == AMQP1_WHY_SESSION_STATE_OUT_OF_MEMORY || refusal == AMQP1_WHY_SESSION_OUT_OF_MEMORY ||
           refusal == AMQP1_WHY_ALLOC_LINK_OUT_OF_MEMORY;
}

/* Whether an operation has to be asked again. */
static int asks_again(const char *what, int32_t status)
{
    uint8_t said[256];
    size_t written = 0;
    if (status == AMQP1_REFUSED && amqp1_refusal(&one, said, sizeof said, &written) == AMQP1_NO_MEMORY)
        amqp1_refusal(&one, said, sizeof said, &written);
    if (status == AMQP1_NO_MEMORY || (status == AMQP1_REFUSED && written > 11 && !memcmp(said, "OutOfMemory\n", 12))) {
        again++;
        return 1;
    }
    if (status != AMQP1_DONE)
        printf("%s: %s\n", what, amqp1_status_name(status));
    return 0;
}

#define ASK(call)                     \
    while (asks_again(#call, call)) { \
    }

/* What is written has its form and its room: no memory is asked for it. */
static void must(int32_t status)
{
    if (status == AMQP1_DONE)
        return;
    printf("a writer: %s\n", amqp1_status_name(status));
    exit(1);
}

static void tell(void)
{
    uint8_t out[2048];
    size_t written;
    do {
        int32_t status = amqp1_output(&one, out, sizeof out, &written);
        again += status == AMQP1_NO_MEMORY;
        print("out", out, written);
        if (status == AMQP1_NO_MEMORY)
            written = 1;
    } while (written);
}

/* Hands over one frame, until it is taken. 0 where it was refused for want of memory: it is gone then. */
static int hear_once(const uint8_t *frame, size_t length)
{
    amqp1_record record;
    amqp1_took took;
    int32_t status;
    while (status = amqp1_take(&one, 0, frame, length, &record, 1, &took), status == AMQP1_NO_MEMORY)
        again++;
    if ((status != AMQP1_DONE && status != AMQP1_AGAIN && status != AMQP1_OVER) || took.taken != length || took.written != 1)
        printf("take: %s\n", amqp1_status_name(status));
    if (is_memory(record.refusal))
        return 0;
    print("record", (const uint8_t *)&record, sizeof record);
    tell();
    return 1;
}

/* The same; a frame that is gone comes once more. */
static void hear(const char *digits)
{
    uint8_t frame[256];
    size_t length = bytes_of(digits, frame, sizeof frame);
    while (!hear_once(frame, length))
        again++;
}

/* Sends a transfer, until it is taken: how many bytes it has. */
static size_t send_one(const amqp1_head *head, const uint8_t *bytes, size_t length)
{
    amqp1_sent sent;
    amqp1_went went;
    int32_t status;
    while (status = amqp1_send(&one, head, 1, bytes, length, &sent, 1, &went), status == AMQP1_NO_MEMORY || (went.taken && is_memory(sent.refusal)))
        again++;
    printf("%s %u %u\n", amqp1_status_name(status), (unsigned)sent.number, (unsigned)sent.refusal);
    return went.used;
}

/* The same of a frame that is never gone. */
static void hear_whole(const char *digits)
{
    uint8_t frame[256];
    size_t length = bytes_of(digits, frame, sizeof frame);
    if (!hear_once(frame, length))
        printf("a transfer is gone\n");
}

/* Sends two deliveries, one after the other, and one that is refused. */
static void send_three(void)
{
    static const uint8_t bytes[6 + 600] = { 't', '0', 1, 't', '1', 't', '2', 2 };
    amqp1_head heads[3];
    size_t at, from = 0;
    heads[0] = head_of(7, 0, AMQP1_FLAG_NUMBERED | AMQP1_FLAG_TAGGED, 2, 1);
    heads[1] = head_of(7, 9, AMQP1_FLAG_NUMBERED | AMQP1_FLAG_TAGGED, 2, 0);
    heads[2] = head_of(7, 0, AMQP1_FLAG_NUMBERED | AMQP1_FLAG_TAGGED, 2, 599);
    for (at = 0; at < 3; at++)
        from += send_one(heads + at, bytes + from, sizeof bytes - from);
    tell();
}

/* Cuts a head, until memory is there: where it is refused nothing is written. */
static amqp1_parts cut_one(const amqp1_head *head, const uint8_t *tag)
{
    amqp1_parts cut, old;
    int32_t status;
    memset(&old, 0xee, sizeof old);
    for (cut = old; status = amqp1_cut(&one, head, tag, head->tag_size, &cut), status == AMQP1_NO_MEMORY; again++)
        if (memcmp(&cut, &old, sizeof cut))
            printf("cut: written\n");
    printf("%s %u %u %u\n", amqp1_status_name(status), (unsigned)cut.part.payload, (unsigned)cut.more, (unsigned)cut.refusal);
    return cut;
}

/* Sends a delivery of three frames, one by one. */
static void send_long(void)
{
    static const uint8_t bytes[2 + 2500] = { 't', '3', 3 };
    amqp1_head head = head_of(7, 0, AMQP1_FLAG_NUMBERED | AMQP1_FLAG_TAGGED, 2, 2500);
    amqp1_parts cut;
    size_t from = 0;
    do {
        cut = cut_one(&head, bytes + from);
        from += send_one(&cut.part, bytes + from, sizeof bytes - from);
        tell();
        head = cut.rest;
    } while (cut.more);
}

static void begin(void)
{
    uint8_t text[1024];
    uint32_t handle;
    size_t length;
    must(amqp1_write_begin(text, sizeof text, &length, 0, 64, 64, 255));
    ASK(amqp1_begin(&one, 7, text, length));
    hear("[02000003 005311 c0(04 600000 43 520a 520a)]");
    ASK(amqp1_link(&one, 7, AMQP1_SENDER, AMQP1_FIRST, "out", &handle));
    must(amqp1_write_attach(text, sizeof text, &length, "out", handle, AMQP1_SENDER, 0, AMQP1_FIRST, NULL, "q", 3));
    ASK(amqp1_attach(&one, 7, text, length));
    hear("[02000003 005312 c0(03 a1(6f7574) 5205 41)]");
    ASK(amqp1_link(&one, 7, AMQP1_RECEIVER, AMQP1_SECOND, "in", &handle));
    must(amqp1_write_attach(text, sizeof text, &length, "in", handle, AMQP1_RECEIVER, 0, AMQP1_SECOND, "q", NULL, 0));
    ASK(amqp1_attach(&one, 7, text, length));
    hear("[02000003 005312 c0(03 a1(696e) 5206 42)]");
    tell();
}

static void go_on(void)
{
    uint8_t text[64];
    size_t length;
    send_three();
    send_long();
    must(amqp1_write_flow(text, sizeof text, &length, 1, NULL, 10, 0, 0));
    ASK(amqp1_flow(&one, 7, text, length));
    /* a transfer is never refused for want of memory: it is not taken then, and not counted, as the flow after it says */
    hear_whole("[02000003 005314 c0(05 5206 43 a0(61) 43 42) 010203]");
    ASK(amqp1_flow(&one, 7, text, length));
    ASK(amqp1_dispose(&one, 7, AMQP1_RECEIVER, 0, 0, 1, AMQP1_ACCEPTED));
    ASK(amqp1_settle(&one, 7, AMQP1_RECEIVER, 0, 0));
    hear("[02000003 005315 c0(05 41 43 5201 42 00532445)]");
    must(amqp1_write_detach(text, sizeof text, &length, 0, 1, NULL, NULL));
    ASK(amqp1_detach(&one, 7, 1, text, length));
    tell();
}

/* A client logs in: its engine is made, and both headers pass. */
static void log_in(const uint8_t *open, size_t length)
{
    ASK(amqp1_start_client(&one, key, 0, AMQP1_NONE, "host", "me", "pw", open, length));
    tell();
    hear("414d5150 03010000");
    hear("[02010000 005340 c0(01 a3(504c41494e))]");
    hear("[02010000 005344 c0(01 5000)]");
    hear("414d5150 00010000");
}

/* A server lets a client in, after a challenge. */
static void let_in(const uint8_t *open, size_t length)
{
    ASK(amqp1_start_server(&one, key, 0, AMQP1_NONE, "PLAIN ASKING", open, length));
    tell();
    hear("414d5150 03010000");
    hear("[02010000 005341 c0(01 a3(41534b494e47))]");
    ASK(amqp1_challenge(&one, open, 3));
    tell();
    hear("[02010000 005343 c0(01 a0(72))]");
    ASK(amqp1_login_with(&one, AMQP1_LOGIN_OK, open, 3));
    tell();
    hear("414d5150 00010000");
    ASK(amqp1_open(&one));
    tell();
}

int main(void)
{
    uint8_t text[64];
    size_t length;
    setvbuf(stdout, printed, _IOFBF, sizeof printed);
    must(amqp1_write_open(text, sizeof text, &length, "me", NULL, 65536, 255, 0));
    log_in(text, length);
    ASK(amqp1_open(&one));
    hear("[02000000 " PEERS_OPEN "]");
    begin();
    go_on();
    ASK(amqp1_end(&one, 7, NULL, 0));
    hear("[02000003 00531745]");
    ASK(amqp1_release(&one, 7));
    ASK(amqp1_forget(&one, 7));
    ASK(amqp1_close(&one, NULL, 0));
    hear("[02000000 00531845]");
    tell();
    amqp1_free(&one);
    must(amqp1_write_open(text, sizeof text, &length, "me", NULL, 65536, 255, 0));
    let_in(text, length);
    amqp1_free(&one);
    printf("~ %ld\n", again);
    return 0;
}
