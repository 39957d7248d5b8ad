/* Many idle connections in one process, without a socket: how much memory each takes, and how much processor time an
   hour of them.

     amqp1_idle [CONNECTIONS [BUSY]]          100000 and 1000 where they are not said

   The clock is turned by hand. Each connection says when it wants to be told the time (amqp1_tick); a heap has those
   times, the earliest first, and the clock is turned to that. So nothing is done for a connection that wants nothing.
   Half of the peer's idle-time-out of 60 s is 30 s, so an hour of an idle connection is 120 empty frames. The peers of
   BUSY of them send an empty frame each second beside that. */

#include <amqp1.h>
#include <malloc.h>
#include <stdio.h>
#include <time.h>

#define MUST(what) ((what) ? (void)0 : (fprintf(stderr, "amqp1_idle: line %d: %s\n", __LINE__, #what), exit(3)))

enum { HOUR = 3600000, TIME_OUT = 60000, SECOND = 1000 };

static const uint8_t header[8] = { 'A', 'M', 'Q', 'P', 0, 1, 0, 0 }, empty[8] = { 0, 0, 0, 8, 2, 0, 0, 0 };

static amqp1 *engines;
static uint32_t *heap;    /* connections, by the time that each wants */
static uint64_t *wants;   /* that time, by connection */
static size_t count, frames;
static unsigned long long ticks, took_in;

static double seconds(void)
{
    return (double)clock() / CLOCKS_PER_SEC;
}

/* Sends what waits: here it is counted, and thrown away. */
static void give(amqp1 *engine)
{
    uint8_t out[512];
    size_t length;
    do {
        MUST(amqp1_output(engine, out, sizeof out, &length) == AMQP1_DONE);
        frames += length == sizeof empty && !memcmp(out, empty, sizeof empty);
    } while (length);
}

/* Takes what came, which is whole. */
static void take(amqp1 *engine, uint64_t now, const uint8_t *bytes, size_t length)
{
    amqp1_record record;
    amqp1_took took;
    do {
        int32_t status = amqp1_take(engine, now, bytes, length, &record, 1, &took);
        MUST(status == AMQP1_DONE || status == AMQP1_AGAIN || status == AMQP1_FULL);
        bytes += took.taken;
        length -= took.taken;
        took_in += took.taken;
    } while (length);
}

/* Moves the connection at a place of the heap down to where it belongs. */
static void sink(size_t at)
{
    uint32_t it = heap[at];
    for (;;) {
        size_t next = 2 * at + 1;
        if (next + 1 < count && wants[heap[next + 1]] < wants[heap[next]])
            next++;
        if (next >= count || wants[it] <= wants[heap[next]])
            break;
        heap[at] = heap[next];
        at = next;
    }
    heap[at] = it;
}

static void tick(uint32_t connection, uint64_t now)
{
    amqp1_ticked ticked;
    MUST(amqp1_tick(engines + connection, now, &ticked) == AMQP1_DONE && ticked.due <= 1);
    give(engines + connection);
    wants[connection] = ticked.next;
    ticks++;
}

/* The frame of the peer's Open, behind its header. */
static size_t peer_says(uint8_t *to, size_t room)
{
    size_t written;
    memcpy(to, header, 8);
    MUST(amqp1_write_open(to + 16, room - 16, &written, "peer", NULL, 65536, 255, TIME_OUT) == AMQP1_DONE);
    amqp1_u32_at(to + 8, (uint32_t)written + 8);
    memcpy(to + 12, "\2\0\0\0", 4);
    return written + 16;
}

static void open_all(void)
{
    uint8_t key[16] = "0123456789abcde", open[256], peer[256];
    size_t length, says = peer_says(peer, sizeof peer), i;
    MUST(amqp1_write_open(open, sizeof open, &length, "idle", NULL, 65536, 255, 0) == AMQP1_DONE);
    for (i = 0; i < count; i++) {
        MUST(amqp1_start(engines + i, key, open, length) == AMQP1_DONE && amqp1_open(engines + i) == AMQP1_DONE);
        take(engines + i, i % TIME_OUT, peer, says);
        give(engines + i);
        heap[i] = (uint32_t)i;
        tick((uint32_t)i, i % TIME_OUT);
    }
    for (i = count / 2; i-- > 0;)
        sink(i);
}

/* Turns the clock from one time to another; the peers of so many connections send an empty frame each second. */
static void turn(uint64_t from, uint64_t to, size_t busy)
{
    uint64_t now, second = from;
    size_t i;
    for (now = from; now < to;) {
        now = wants[heap[0]] < second ? wants[heap[0]] : second;
        if (now == second) {
            for (i = 0; i < busy; i++)
                take(engines + i, now, empty, sizeof empty);
            second += SECOND;
        } else {
            tick(heap[0], now);
            sink(0);
        }
    }
}

int main(int argc, char **argv)
{
    size_t busy = argc > 2 ? (size_t)atol(argv[2]) : 1000, before, i;
    double at;
    count = argc > 1 ? (size_t)atol(argv[1]) : 100000;
    engines = (amqp1 *)calloc(count, sizeof *engines);
    heap = (uint32_t *)calloc(count, sizeof *heap);
    wants = (uint64_t *)calloc(count, sizeof *wants);
    MUST(count && engines && heap && wants && busy <= count);
    before = mallinfo2().uordblks;
    open_all();
    printf("%zu connections, %.0f bytes each, and %zu in the caller's place\n", count,
           (double)(mallinfo2().uordblks - before) / (double)count, sizeof *engines + sizeof *heap + sizeof *wants);
    frames = 0, ticks = 0, at = seconds();
    turn(TIME_OUT, TIME_OUT + HOUR, 0);
    printf("an idle hour: %zu empty frames, %llu ticks, %.2f s of processor time\n", frames, ticks, seconds() - at);
    frames = 0, ticks = 0, took_in = 0, at = seconds();
    turn(TIME_OUT + HOUR, TIME_OUT + 2 * HOUR, busy);
    printf("an hour with %zu busy peers: %zu empty frames, %llu ticks, %llu bytes taken, %.2f s\n", busy, frames, ticks,
        took_in, seconds() - at);
    for (i = 0; i < count; i++)
        amqp1_free(engines + i);
    printf("%zu bytes are left\n", mallinfo2().uordblks - before);
    free(engines), free(heap), free(wants);
    return 0;
}
