/* What the two files of the server share: amqp1_epoll.c has queues, links and what clients say, amqp1_epoll_io.c the
   bytes. */
#ifndef AMQP1_EPOLL_H
#define AMQP1_EPOLL_H

#include <amqp1.h>
#include <stdio.h>

/* How long a name or an address may be, with its 0; how many bytes may wait for a client before it is sent no more, and
   is not read from. */
enum { NAME = 256, BACKLOG = 1 << 20 };

struct message {
    struct message *next;
    size_t length;
    uint8_t bytes[];
};

struct queue {
    char name[NAME];
    struct message *first, **last;
    uint32_t length;
    struct queue *next;
};

/* A link of a client, by this side's handle; the library counts its credit. `tag` numbers what is sent, and a message
   of which more comes is `partial`. */
struct link {
    struct link *next;
    int is_receiver;
    uint32_t session, output, tag;
    struct queue *queue;
    struct message *partial;
};

/* A client: bytes that came and were not taken, and bytes that go out. */
struct peer {
    struct peer *next;
    int fd, is_over;
    amqp1 engine;
    uint32_t next_session;
    struct link *links;
    uint8_t in[1 << 17];
    size_t in_length;
    uint8_t *out;
    size_t out_length, out_room;
};

/* Tells a call that was not done, unless nothing was to be done, and answers whether it was not. */
int told(struct peer *p, const char *what, int32_t status);

/* Appends bytes that go out; and those of the engine. */
void put_out(struct peer *p, const void *bytes, size_t length);
void collect(struct peer *p);

/* Ends a session, or closes the connection, with an error of this condition. */
void end_with(struct peer *p, uint32_t session, const char *condition);
void close_with(struct peer *p, const char *condition);

void read_record(struct peer *p, const amqp1_record *record, const uint8_t *input, size_t length);
void serve(struct peer *p);
void drop_links(struct peer *p, const struct link *one, uint32_t session);
void free_queues(void);

#endif
