/* What engines of libamqp1 hold: the memory that this process has touched, for each engine that was begun, and after many frames, for try_c.sh. It is no test under
   valgrind, which touches memory of its own. The last line is 'N passed, M failed'. */
#include "amqp1_try.h"
#include <stdlib.h>
#include <unistd.h>

enum { ENGINES = 20, FRAMES = 5000, TOGETHER = 32, MOST_BEGUN = 30, MOST_MORE = 32 };

int tried, wrong;
static amqp1 engines[ENGINES];

static void must(int holds, const char *what)
{
    if (holds)
        return;
    printf("%s\n0 passed, 1 failed\n", what);
    exit(1);
}

/* The memory of this process that is resident. */
static long kilobytes(void)
{
    long all, resident = 0;
    FILE *file = fopen("/proc/self/statm", "r");
    must(file && fscanf(file, "%ld %ld", &all, &resident) == 2, "no /proc/self/statm");
    fclose(file);
    return resident * (sysconf(_SC_PAGESIZE) / 1024);
}

/* Hands over a frame, which has to have a record of this kind. */
static void hear(amqp1 *engine, const uint8_t *frame, size_t length, enum amqp1_kind kind)
{
    amqp1_record record;
    amqp1_took took;
    must(amqp1_take(engine, 0, frame, length, &record, 1, &took) == AMQP1_DONE && took.taken == length, "a frame is not taken");
    must(took.written == 1 && record.kind == kind, "a frame says something else");
}

static void hear_digits(amqp1 *engine, const char *digits, enum amqp1_kind kind)
{
    uint8_t frame[256];
    hear(engine, frame, bytes_of(digits, frame, sizeof frame), kind);
}

static void take_out(amqp1 *engine)
{
    static uint8_t out[1 << 16];
    size_t written;
    must(amqp1_output(engine, out, sizeof out, &written) == AMQP1_DONE && written < sizeof out, "it does not go out");
}

/* An engine with a link on which it receives, on input handle 5, and one on which it sends, on 6 and output handle 1. */
static void begin(amqp1 *engine)
{
    const uint8_t some[16] = { 7 };
    uint8_t text[128];
    uint32_t handle;
    size_t length;
    must(amqp1_write_open(text, sizeof text, &length, "me", NULL, 65536, 255, 0) == AMQP1_DONE, "no room");
    must(amqp1_start(engine, some, text, length) == AMQP1_DONE && exchanges_headers(engine), "no engine");
    must(amqp1_open(engine) == AMQP1_DONE, "no open");
    hear_digits(engine, "[02000000 " PEERS_OPEN "]", AMQP1_KIND_OPENED);
    must(amqp1_write_begin(text, sizeof text, &length, 0, 2000000000, 2048, 255) == AMQP1_DONE, "no room");
    must(amqp1_begin(engine, 7, text, length) == AMQP1_DONE, "no begin");
    hear_digits(engine, "[02000003 005311 c0(04 600000 43 7077777777 7077777777)]", AMQP1_KIND_BEGUN);
    must(amqp1_link(engine, 7, AMQP1_RECEIVER, AMQP1_FIRST, "in", &handle) == AMQP1_DONE && handle == 0, "no link");
    hear_digits(engine, "[02000003 005312 c0(03 a1(696e) 5205 42)]", AMQP1_KIND_ATTACHED);
    must(amqp1_link(engine, 7, AMQP1_SENDER, AMQP1_FIRST, "out", &handle) == AMQP1_DONE && handle == 1, "no link");
    hear_digits(engine, "[02000003 005312 c0(03 a1(6f7574) 5206 41)]", AMQP1_KIND_ATTACHED);
    take_out(engine);
}

/* The peer's transfer of this number, settled. */
static void one_comes(amqp1 *engine, uint32_t number)
{
    uint8_t frame[64];
    size_t length = bytes_of("[02000003 005314 c0(05 5205 7000000000 a0(61) 43 41)]", frame, sizeof frame);
    amqp1_u32_at(frame + 17, number);
    hear(engine, frame, length, AMQP1_KIND_TRANSFER);
}

/* So many deliveries go out, and the peer settles them all by one disposition. */
static void some_go(amqp1 *engine, uint32_t first)
{
    static const uint8_t bytes[TOGETHER] = { 't' };
    amqp1_head heads[TOGETHER];
    amqp1_sent sent[TOGETHER];
    amqp1_went went;
    uint8_t frame[64];
    size_t at, length = bytes_of("[02000003 005315 c0(04 41 7000000000 7000000000 41)]", frame, sizeof frame);
    for (at = 0; at < TOGETHER; at++)
        heads[at] = head_of(7, 1, AMQP1_FLAG_NUMBERED | AMQP1_FLAG_TAGGED, 1, 0);
    must(amqp1_send(engine, heads, TOGETHER, bytes, sizeof bytes, sent, TOGETHER, &went) == AMQP1_DONE, "not sent");
    must(sent[0].number == first && sent[TOGETHER - 1].number == first + TOGETHER - 1, "another number");
    take_out(engine);
    amqp1_u32_at(frame + 16, first);
    amqp1_u32_at(frame + 21, first + TOGETHER - 1);
    hear(engine, frame, length, AMQP1_KIND_DISPOSITION);
}

/* Whether each engine has come to hold at most so many kilobytes more. */
static void holds(const char *what, long before, long most)
{
    long each = (kilobytes() - before + ENGINES - 1) / ENGINES;
    printf("%s: %ld kB for each engine\n", what, each);
    tried++;
    wrong += each > most;
}

int main(void)
{
    uint32_t number, at;
    long before;
    /* the first one touches what they share */
    begin(&engines[0]);
    before = kilobytes();
    for (at = 1; at < ENGINES; at++)
        begin(&engines[at]);
    holds("a session with two links", before, MOST_BEGUN);
    before = kilobytes();
    for (number = 0; number < FRAMES; number++)
        for (at = 0; at < ENGINES; at++)
            one_comes(&engines[at], number);
    holds("after 5000 transfers that came", before, MOST_MORE);
    for (number = 0; number < FRAMES / TOGETHER; number++)
        for (at = 0; at < ENGINES; at++)
            some_go(&engines[at], number * TOGETHER);
    holds("and as many that went, 32 at once", before, MOST_MORE);
    for (at = 0; at < ENGINES; at++)
        amqp1_free(&engines[at]);
    printf("%d passed, %d failed\n", tried - wrong, wrong);
    return wrong != 0;
}
