/* The bytes of the server: epoll, and the time. See amqp1_epoll.c. */
#define _GNU_SOURCE
#include "amqp1_epoll.h"
#include <errno.h>
#include <netinet/in.h>
#include <sys/epoll.h>
#include <sys/random.h>
#include <sys/socket.h>
#include <time.h>
#include <unistd.h>

static struct peer *peers;
static int poll_fd, listening;

int told(struct peer *p, const char *what, int32_t status)
{
    uint8_t said[128];
    size_t length = 0;
    if (status == AMQP1_DONE || status == AMQP1_NOTHING)
        return 0;
    if (status != AMQP1_REFUSED || amqp1_refusal(&p->engine, said, sizeof said, &length) != AMQP1_DONE)
        length = 0;
    fprintf(stderr, "%d: %s: %s %.*s\n", p->fd, what, amqp1_status_name(status), (int)length, (const char *)said);
    return 1;
}

static uint64_t now(void)
{
    struct timespec it;
    clock_gettime(CLOCK_MONOTONIC, &it);
    return (uint64_t)it.tv_sec * 1000 + (uint64_t)it.tv_nsec / 1000000;
}

void put_out(struct peer *p, const void *bytes, size_t length)
{
    if (p->out_room - p->out_length < length) {
        p->out_room = 2 * (p->out_length + length);
        p->out = (uint8_t *)realloc(p->out, p->out_room);
        if (!p->out)
            abort();
    }
    memcpy(p->out + p->out_length, bytes, length);
    p->out_length += length;
}

void collect(struct peer *p)
{
    uint8_t out[16384];
    size_t length;
    do {
        if (told(p, "output", amqp1_output(&p->engine, out, sizeof out, &length)))
            p->is_over = 1;
        put_out(p, out, length);
    } while (length && !p->is_over);
}

void end_with(struct peer *p, uint32_t session, const char *condition)
{
    uint8_t text[256];
    uint32_t state = AMQP1_SESSION_UNMAPPED;
    size_t length;
    int is_there;
    drop_links(p, NULL, session);
    if (amqp1_session_state(&p->engine, session, &state, &is_there) != AMQP1_DONE || state != AMQP1_SESSION_MAPPED)
        return;
    if (!told(p, "an error", amqp1_write_error(text, sizeof text, &length, condition, NULL)))
        told(p, "an end", amqp1_end(&p->engine, session, text, length));
}

void close_with(struct peer *p, const char *condition)
{
    uint8_t text[256];
    size_t length;
    if (!told(p, "an error", amqp1_write_error(text, sizeof text, &length, condition, NULL)))
        told(p, "a close", amqp1_close(&p->engine, text, length));
    p->is_over = 1;
}

/* Takes what came, up to what is to be answered. How many bytes were taken. */
static size_t take(struct peer *p, const uint8_t *in, size_t length)
{
    amqp1_record records[32];
    amqp1_took took = { 0, 0, 0 };
    size_t at;
    int32_t status = amqp1_take(&p->engine, now(), in, length, records, 32, &took);
    for (at = 0; at < took.written && !p->is_over; at++)
        read_record(p, records + at, in, length);
    if (status != AMQP1_FULL && status != AMQP1_AGAIN && told(p, "what came", status))
        p->is_over = 1;
    collect(p);
    return took.taken;
}

static void hear(struct peer *p)
{
    ssize_t count = recv(p->fd, p->in + p->in_length, sizeof p->in - p->in_length, 0);
    size_t at = 0, taken;
    if (count <= 0) {
        p->is_over = count < 0 && errno == EAGAIN ? p->is_over : 2;
        return;
    }
    p->in_length += (size_t)count;
    do {
        taken = take(p, p->in + at, p->in_length - at);
        at += taken;
    } while (taken && !p->is_over);
    p->in_length -= at;
    memmove(p->in, p->in + at, p->in_length);
}

/* ---- clients */

static void accept_one(void)
{
    struct epoll_event event = { EPOLLIN, { 0 } };
    uint8_t key[16], text[64];
    size_t length;
    int fd = accept4(listening, NULL, NULL, SOCK_NONBLOCK);
    struct peer *p = fd < 0 ? NULL : (struct peer *)calloc(1, sizeof *p);
    if (!p)
        return;
    p->fd = fd;
    if (getrandom(key, sizeof key, 0) != sizeof key ||
        told(p, "an open's text", amqp1_write_open(text, sizeof text, &length, "amqp1_epoll", NULL, 65536, 255, 0)) ||
        told(p, "an engine", amqp1_start_server(&p->engine, key, now(), 20000, "ANONYMOUS", text, length)) ||
        told(p, "an open", amqp1_open(&p->engine)))
        abort();
    p->next = peers;
    peers = p;
    event.data.ptr = p;
    epoll_ctl(poll_fd, EPOLL_CTL_ADD, fd, &event);
}

/* Tells the engine the time, and writes what goes out. */
static void give(struct peer *p)
{
    struct epoll_event event = { 0, { 0 } };
    amqp1_ticked tick;
    ssize_t count;
    if (told(p, "a tick", amqp1_tick(&p->engine, now(), &tick)) || tick.due >= AMQP1_DUE_OPENING_LATE)
        p->is_over = 1;
    collect(p);
    count = p->out_length ? send(p->fd, p->out, p->out_length, MSG_NOSIGNAL) : 0;
    if (count < 0 && errno != EAGAIN)
        p->is_over = 2;
    if (count > 0) {
        p->out_length -= (size_t)count;
        memmove(p->out, p->out + count, p->out_length);
    }
    event.events = (p->out_length < BACKLOG ? EPOLLIN : 0u) | (p->out_length ? EPOLLOUT : 0u);
    event.data.ptr = p;
    epoll_ctl(poll_fd, EPOLL_CTL_MOD, p->fd, &event);
}

/* Lets clients go that are over, once all has been written or cannot be. How many. */
static int let_go(void)
{
    struct peer **at = &peers;
    int count = 0;
    while (*at) {
        struct peer *p = *at;
        if (p->is_over == 2 || (p->is_over && !p->out_length)) {
            *at = p->next;
            close(p->fd);
            drop_links(p, NULL, AMQP1_NONE);
            amqp1_free(&p->engine);
            free(p->out);
            free(p);
            count++;
        } else {
            at = &p->next;
        }
    }
    return count;
}

static void listen_on(const char *port)
{
    struct sockaddr_in address;
    struct epoll_event event = { EPOLLIN, { 0 } };
    int one = 1;
    memset(&address, 0, sizeof address);
    address.sin_family = AF_INET;
    address.sin_port = htons((uint16_t)atoi(port));
    address.sin_addr.s_addr = htonl(INADDR_LOOPBACK);
    poll_fd = epoll_create1(0);
    listening = socket(AF_INET, SOCK_STREAM | SOCK_NONBLOCK, 0);
    setsockopt(listening, SOL_SOCKET, SO_REUSEADDR, &one, sizeof one);
    if (bind(listening, (struct sockaddr *)&address, sizeof address) || listen(listening, 16)) {
        perror("amqp1_epoll");
        exit(1);
    }
    epoll_ctl(poll_fd, EPOLL_CTL_ADD, listening, &event);
}

int main(int count, char **words)
{
    int left = count > 2 ? atoi(words[2]) : -1;
    struct peer *p;
    listen_on(count > 1 ? words[1] : "5672");
    while (left) {
        struct epoll_event events[32];
        int at, ready = epoll_wait(poll_fd, events, 32, 500);
        for (at = 0; at < ready; at++) {
            p = (struct peer *)events[at].data.ptr;
            if (!p)
                accept_one();
            else if (events[at].events & (EPOLLIN | EPOLLHUP | EPOLLERR))
                hear(p);
        }
        for (p = peers; p; p = p->next) {
            if (!p->is_over)
                serve(p);
            give(p);
        }
        left -= let_go();
    }
    close(listening);
    close(poll_fd);
    free_queues();
    return 0;
}
