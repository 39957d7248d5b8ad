/* A server of queues over libamqp1: epoll, any number of clients, and a queue for each address. What is sent to an
   address goes to who receives from it.

       amqp1_epoll PORT [CLIENTS]

   It listens on the loopback, lets each client in by SASL's ANONYMOUS, and ends when so many clients have gone, if a
   number is given. Messages lie in memory, without a bound, and go out settled: it shows how the library is called, and
   is no broker. Build it by `cc amqp1_epoll.c amqp1_epoll_io.c $(pkg-config --cflags --libs amqp1)`. */
#include "amqp1_epoll.h"

/* ---- queues */

static struct queue *queues;

static void *some(size_t size)
{
    void *it = calloc(1, size);
    if (!it)
        abort();
    return it;
}

static struct queue *queue_of(const char *name)
{
    struct queue *it;
    for (it = queues; it; it = it->next)
        if (!strcmp(it->name, name))
            return it;
    it = (struct queue *)some(sizeof *it);
    snprintf(it->name, sizeof it->name, "%s", name);
    it->last = &it->first;
    it->next = queues;
    return queues = it;
}

void free_queues(void)
{
    while (queues) {
        struct queue *it = queues;
        while (it->first) {
            struct message *message = it->first;
            it->first = message->next;
            free(message);
        }
        queues = it->next;
        free(it);
    }
}

/* ---- links */

static struct link *link_of(struct peer *p, const amqp1_event *event)
{
    struct link *it;
    for (it = p->links; it; it = it->next)
        if (it->session == event->session && it->output == event->link)
            return it;
    return NULL;
}

/* Lets links go: that one, or those of a session. */
void drop_links(struct peer *p, const struct link *one, uint32_t session)
{
    struct link **at = &p->links;
    while (*at) {
        struct link *it = *at;
        if (one ? it == one : session == AMQP1_NONE || it->session == session) {
            *at = it->next;
            free(it->partial);
            free(it);
        } else {
            at = &it->next;
        }
    }
}

/* Copies a text of a performative, as far as it fits. 0 where it does not, or has a 0. */
static int text_of(amqp1_bytes from, char *to, size_t room)
{
    if (from.length >= room || memchr(from.at, 0, from.length))
        return 0;
    memcpy(to, from.at, from.length);
    to[from.length] = 0;
    return 1;
}

/* A link is attached: where this side receives, the client may send a hundred at once. */
static void attach_link(struct peer *p, const amqp1_record *record, const uint8_t *text, size_t length)
{
    amqp1_event event;
    uint32_t link;
    if (!told(p, "an attach", amqp1_link_attach(&p->engine, record->session, text, length, text, 0, 50, 100, &link)) &&
        !told(p, "an attach's event", amqp1_link_wanted(&p->engine, record, link, &event)))
        told(p, "credit", amqp1_link_respond(&p->engine, &event, 0));
}

/* A client attaches: this side takes the other end, and answers with the same source and target. */
static void attach(struct peer *p, const amqp1_record *record, const uint8_t *input)
{
    amqp1_bytes perf = amqp1_performative(input, record), terminus;
    enum amqp1_role role = amqp1_has(record, AMQP1_FLAG_RECEIVER) ? AMQP1_SENDER : AMQP1_RECEIVER;
    char name[NAME], address[NAME] = "";
    uint8_t text[3 * NAME + 128];
    size_t length;
    struct link *it;
    uint32_t output;
    amqp1_field(perf, role == AMQP1_SENDER ? AMQP1_ATTACH_SOURCE : AMQP1_ATTACH_TARGET, &terminus);
    if (!text_of(amqp1_bytes_field(terminus, AMQP1_TERMINUS_ADDRESS), address, sizeof address) ||
        !text_of(amqp1_bytes_field(perf, AMQP1_ATTACH_NAME), name, sizeof name)) {
        end_with(p, record->session, "amqp:not-allowed");
        return;
    }
    if (told(p, "a link", amqp1_link_on(&p->engine, record->session, record->input, role, AMQP1_FIRST, name, &output)))
        return;
    it = (struct link *)some(sizeof *it);
    it->session = record->session;
    it->output = output;
    it->is_receiver = role == AMQP1_RECEIVER;
    it->queue = queue_of(address);
    it->next = p->links;
    p->links = it;
    if (!told(p, "an attach's text",
              amqp1_write_attach(text, sizeof text, &length, name, output, role, 1, AMQP1_FIRST, address, address, 0)))
        attach_link(p, record, text, length);
}

/* A part of a message, mostly the whole, is put behind those before. 0 where it is too long. */
static int append(struct link *it, amqp1_bytes payload)
{
    size_t old = it->partial ? it->partial->length : 0;
    struct message *message;
    if (payload.length > UINT32_MAX - old)
        return 0;
    message = (struct message *)realloc(it->partial, sizeof *message + old + payload.length);
    if (!message)
        abort();
    memcpy(message->bytes + old, payload.at, payload.length);
    message->length = old + payload.length;
    message->next = NULL;
    it->partial = message;
    return 1;
}

/* A part comes: a message that is whole goes to its queue, and one that is aborted is gone. */
static void receive(struct peer *p, struct link *it, const amqp1_event *event, amqp1_bytes payload)
{
    if (!append(it, payload)) {
        end_with(p, it->session, "amqp:link:message-size-exceeded");
        return;
    }
    if (event->flags & AMQP1_EVENT_LAST) {
        *it->queue->last = it->partial;
        it->queue->last = &it->partial->next;
        it->queue->length++;
        it->partial = NULL;
        if (!(event->flags & AMQP1_EVENT_PRESETTLED))
            told(p, "a disposition", amqp1_link_accept(&p->engine, event));
    } else if (event->flags & AMQP1_EVENT_ABORTED) {
        free(it->partial);
        it->partial = NULL;
    }
}

/* ---- deliveries that go out */

/* Sends one message, in as many transfers as it needs. */
static void send_message(struct peer *p, struct link *it, const struct message *message)
{
    amqp1_head head = { 0, 0, 0, 0, AMQP1_FLAG_TAGGED | AMQP1_FLAG_FORMATTED | AMQP1_FLAG_SETTLED, 4 };
    size_t at = 0, length = head.tag_size + message->length;
    uint8_t *bytes = (uint8_t *)some(length);
    amqp1_parts cut;
    amqp1_told sent;
    head.session = it->session;
    head.link = it->output;
    head.payload = (uint32_t)message->length;
    amqp1_u32_at(bytes, it->tag++);
    memcpy(bytes + head.tag_size, message->bytes, message->length);
    do {
        if (told(p, "a cut", amqp1_cut(&p->engine, &head, bytes + at, head.tag_size, &cut)) ||
            told(p, "a transfer", amqp1_link_send(&p->engine, &cut.part, bytes + at, length - at, 0, &sent)))
            break;
        at += cut.part.tag_size + cut.part.payload;
        head = cut.rest;
    } while (cut.more);
    free(bytes);
}

/* Whether the client takes another message on a link, and there is one, and room for its bytes. */
static int is_ready(struct peer *p, struct link *it)
{
    uint32_t credit = 0;
    return it->queue->first && p->out_length < BACKLOG
        && amqp1_link_credit(&p->engine, it->session, it->output, &credit) == AMQP1_DONE && credit;
}

/* Sends what waits for a link, as far as there is credit, and answers what its client asked for: that the rest of its
   credit be used up, or a flow. */
static void serve_link(struct peer *p, struct link *it)
{
    while (is_ready(p, it)) {
        struct message *message = it->queue->first;
        it->queue->first = message->next;
        it->queue->length--;
        if (!message->next)
            it->queue->last = &it->queue->first;
        send_message(p, it, message);
        free(message);
        collect(p);
    }
    told(p, "a flow", amqp1_link_flow(&p->engine, it->session, it->output, AMQP1_WISH_ANSWER, it->queue->length));
}

void serve(struct peer *p)
{
    struct link *it;
    for (it = p->links; it; it = it->next)
        if (!it->is_receiver)
            serve_link(p, it);
}

/* ---- what a client says */

/* A client asks to be let in: each is. */
static void let_in(struct peer *p)
{
    told(p, "a login", amqp1_login(&p->engine, AMQP1_LOGIN_OK));
}

/* A client begins a session: one of this side's answers it, or else the connection is closed. */
static void begin(struct peer *p, const amqp1_record *record, const uint8_t *input)
{
    uint8_t text[64];
    size_t length;
    if (told(p, "a begin's text", amqp1_write_begin(text, sizeof text, &length, 0, 2048, 2048, 255)) ||
        told(p, "a session", amqp1_answer_begin(&p->engine, record, input, p->next_session++, text, length)))
        close_with(p, "amqp:resource-limit-exceeded");
}

/* A frame that was refused is answered as the standard says: by an End or a Close with the refusal's condition, if one
   is due. */
static void refused(struct peer *p, const amqp1_record *record, const uint8_t *input, size_t length)
{
    char text[128] = { 0 };
    size_t written;
    uint32_t state = AMQP1_STATE_CLOSE_SENT;
    int32_t status = amqp1_answer(&p->engine, record, input, length, AMQP1_ANSWER_REFUSALS, 0);
    told(p, "a text", amqp1_refusal_text(&p->engine, record->refusal, (uint8_t *)text, sizeof text - 1, &written));
    fprintf(stderr, "%d: refused: %.*s\n", p->fd, (int)strcspn(text, "\n"), text);
    if (status == AMQP1_NOTHING || told(p, "an answer", status))
        return;
    drop_links(p, NULL, record->session);
    if (told(p, "a state", amqp1_state(&p->engine, &state)) || state == AMQP1_STATE_CLOSE_SENT)
        p->is_over = 1;
}

/* A client ends a session, or closes: this side does too. */
static void ended(struct peer *p, const amqp1_record *record, const uint8_t *input, size_t length)
{
    drop_links(p, NULL, record->session);
    told(p, "an end", amqp1_answer(&p->engine, record, input, length, AMQP1_ANSWER_ENDS, 0));
    told(p, "a session's links", amqp1_link_forget(&p->engine, record->session));
}

static void closed(struct peer *p, const amqp1_record *record, const uint8_t *input, size_t length)
{
    told(p, "a close", amqp1_answer(&p->engine, record, input, length, AMQP1_ANSWER_CLOSES, 0));
    p->is_over = 1;
}

/* A link is over: what is unsettled on it is let go. */
static void detached(struct peer *p, const struct link *it, const amqp1_event *event)
{
    amqp1_unsettled delivery;
    while (amqp1_link_left(&p->engine, event->session, event->link, &delivery) == AMQP1_DONE)
        ;
    told(p, "a link's end", amqp1_link_remove(&p->engine, event->session, event->link));
    if (it)
        drop_links(p, it, event->session);
}

/* What a record is to the links, and what they owe for it. A flow is answered as messages are sent. */
static void take_event(struct peer *p, const amqp1_event *event, amqp1_bytes payload)
{
    struct link *it = link_of(p, event);
    amqp1_unsettled delivery;
    if (event->kind == AMQP1_EVENT_PART && it)
        receive(p, it, event, payload);
    while (event->kind == AMQP1_EVENT_SETTLED && amqp1_link_settled_of(&p->engine, event, &delivery) == AMQP1_DONE)
        ;
    if (event->kind == AMQP1_EVENT_FLOW && it && !it->is_receiver)
        serve_link(p, it);
    else
        told(p, "what a link owes", amqp1_link_respond(&p->engine, event, 0));
    if (event->kind == AMQP1_EVENT_ENDED)
        detached(p, it, event);
}

void read_record(struct peer *p, const amqp1_record *record, const uint8_t *input, size_t length)
{
    amqp1_event event;
    if (told(p, "a record", amqp1_link_event(&p->engine, record, 0, &event)))
        close_with(p, "amqp:internal-error");
    else if (event.kind != AMQP1_EVENT_NOTHING)
        take_event(p, &event, amqp1_payload(input, record));
    switch (record->kind) {
    case AMQP1_KIND_LOGIN_ASKED: let_in(p); break;
    case AMQP1_KIND_BEGIN_WANTED: begin(p, record, input); break;
    case AMQP1_KIND_ATTACH_WANTED: attach(p, record, input); break;
    case AMQP1_KIND_ENDED: ended(p, record, input, length); break;
    case AMQP1_KIND_CLOSED: closed(p, record, input, length); break;
    case AMQP1_KIND_REFUSED: refused(p, record, input, length); break;
    default: break;
    }
}
