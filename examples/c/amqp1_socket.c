/* A blocking socket to one peer, with TLS or without: see amqp1_socket.h. */
#define _POSIX_C_SOURCE 200112L
#include "amqp1_socket.h"
#include <netdb.h>
#include <netinet/in.h>
#include <poll.h>
#include <signal.h>
#include <sys/socket.h>
#include <time.h>
#include <unistd.h>
#ifdef AMQP1_TLS
#include <openssl/ssl.h>
#include <openssl/x509v3.h>
static SSL_CTX *certified;
static SSL *tls;
#endif

amqp1 engine;
const char *the_address;
uint32_t messages, window = 100;
static int the_socket = -1;
static char this_side;

/* When the engine wants to be told the time. */
static uint64_t next_tick;

/* What a client counts, and whether it has asked for its Close. */
static const uint32_t *the_count;
static int is_closing;

void fail(const char *what)
{
    fprintf(stderr, "%s\n", what);
    exit(1);
}

/* Ends the program, and says what, how, and why: the lines of a refusal, as one. */
static void fail_by(const char *what, const char *how, uint8_t *why, size_t length)
{
    size_t n;
    for (n = 0; n < length; n++)
        if (why[n] == '\n')
            why[n] = ' ';
    fprintf(stderr, "%s: %s %.*s\n", what, how, (int)length, (const char *)why);
    exit(1);
}

void must(const char *what, int32_t status)
{
    uint8_t why[256];
    size_t length = 0;
    if (status == AMQP1_REFUSED && amqp1_refusal(&engine, why, sizeof why, &length) != AMQP1_DONE)
        length = 0;
    if (status != AMQP1_DONE && status != AMQP1_OVER)
        fail_by(what, amqp1_status_name(status), why, length);
}

/* The error of a Detach, an End or a Close stands in its performative. */
void unexpected(const amqp1_record *record, const uint8_t *input)
{
    char why[256] = "";
    size_t length = 0;
    amqp1_bytes error;
    if (record->refusal && amqp1_refusal_text(&engine, record->refusal, (uint8_t *)why, sizeof why,
        &length) != AMQP1_DONE)
        length = 0;
    if (amqp1_has(record, AMQP1_FLAG_ERROR) &&
        amqp1_field(amqp1_performative(input, record), record->kind == AMQP1_KIND_DETACHED ? 2 : 0, &error)) {
        string_of(amqp1_bytes_field(error, 0), why, sizeof why);
        length = strlen(why);
    }
    fail_by("what came", amqp1_kind_name(record->kind), (uint8_t *)why, length);
}

/* 16 bytes that no peer can guess. */
static void randomness(uint8_t key[16])
{
    FILE *random = fopen("/dev/urandom", "rb");
    if (!random || fread(key, 1, 16, random) != 16)
        fail("no randomness");
    fclose(random);
}

int is_text(amqp1_bytes bytes, const char *text, size_t length)
{
    return bytes.length == length && !memcmp(bytes.at, text, length);
}

void string_of(amqp1_bytes bytes, char *string, size_t room)
{
    snprintf(string, room, "%.*s", (int)bytes.length, (const char *)bytes.at);
}

uint64_t now(void)
{
    struct timespec it;
    clock_gettime(CLOCK_MONOTONIC, &it);
    return (uint64_t)it.tv_sec * 1000 + (uint64_t)it.tv_nsec / 1000000;
}

/* The server of this name and port is the peer. The key is 16 bytes that it cannot guess. */
static void connect_to(const char *host, const char *port, uint8_t key[16])
{
    struct addrinfo hints, *found, *it;
    memset(&hints, 0, sizeof hints);
    hints.ai_socktype = SOCK_STREAM;
    if (getaddrinfo(host, port, &hints, &found))
        fail("no such host");
    for (it = found; it && the_socket < 0; it = it->ai_next) {
        the_socket = socket(it->ai_family, it->ai_socktype, it->ai_protocol);
        if (the_socket >= 0 && connect(the_socket, it->ai_addr, it->ai_addrlen)) {
            close(the_socket);
            the_socket = -1;
        }
    }
    freeaddrinfo(found);
    if (the_socket < 0)
        fail("nobody listens");
    randomness(key);
    this_side = 'A';
}

#ifdef AMQP1_TLS
/* What TLS needs of this side: a certificate and its key, if it has one. */
static SSL_CTX *context_of(const SSL_METHOD *method, const char *certificate, const char *key)
{
    SSL_CTX *context = SSL_CTX_new(method);
    /* OpenSSL writes without MSG_NOSIGNAL */
    signal(SIGPIPE, SIG_IGN);
    if (!context || (certificate && (SSL_CTX_use_certificate_file(context, certificate, SSL_FILETYPE_PEM) != 1 ||
                                     SSL_CTX_use_PrivateKey_file(context, key, SSL_FILETYPE_PEM) != 1)))
        fail("a certificate or a key cannot be read");
    return context;
}

/* Speaks TLS with it, with this side's certificate and its key, or without: the server's certificate has to be for the
   host, and of the authority `ca`. */
static void tls_to(const char *host, const char *ca, const char *certificate, const char *key)
{
    SSL_CTX *context = context_of(TLS_client_method(), certificate, key);
    if (SSL_CTX_load_verify_locations(context, ca, NULL) != 1)
        fail("the authority's certificate cannot be read");
    SSL_CTX_set_verify(context, SSL_VERIFY_PEER, NULL);
    tls = SSL_new(context);
    SSL_CTX_free(context);
    if (!tls || SSL_set1_host(tls, host) != 1 || SSL_set_fd(tls, the_socket) != 1 || SSL_connect(tls) != 1)
        fail("no TLS with the server");
}

static void tls_from(void)
{
    tls = SSL_new(certified);
    if (!tls || SSL_set_fd(tls, the_socket) != 1 || SSL_accept(tls) != 1)
        fail("no TLS with the client");
}
#else
static void tls_to(const char *host, const char *ca, const char *certificate, const char *key)
{
    (void)host, (void)ca, (void)certificate, (void)key;
    fail("it is built without TLS");
}
#endif

/* Starts a client by its words. */
static void start_client(int words_count, char **words, const char *name)
{
    uint8_t key[16], text[512];
    size_t length;
    if (words_count < 4 || words_count > 8)
        fail("usage: HOST PORT ADDRESS [COUNT [USER PASSWORD | CA [CERTIFICATE KEY]]]");
    the_address = words[3];
    messages = words_count > 4 ? (uint32_t)atoi(words[4]) : 5;
    window = getenv("AMQP1_WINDOW") ? (uint32_t)atoi(getenv("AMQP1_WINDOW")) : window;
    connect_to(words[1], words[2], key);
    must("an open's text", amqp1_write_open(text, sizeof text, &length, name, words[1], 65536, 255, 0));
    if (words_count == 6 || words_count == 8)
        tls_to(words[1], words[5], words[6], words_count == 8 ? words[7] : NULL);
    if (words_count == 8) {
        must("an engine", amqp1_start_external(&engine, key, now(), LIMIT, words[1], "", text, length));
    } else {
        const char *user = words_count == 7 ? words[5] : NULL, *password = words_count == 7 ? words[6] : NULL;
        must("an engine", amqp1_start_client(&engine, key, now(), LIMIT, words[1], user, password, text, length));
    }
    must("an open", amqp1_open(&engine));
}

void run_client(int words_count, char **words, const char *name, const uint32_t *counted)
{
    the_count = counted;
    start_client(words_count, words, name);
    if (!run() || *counted != messages)
        fail("it did not go to its end");
}

static void begin(void)
{
    uint8_t text[64];
    size_t length;
    must("a begin's text", amqp1_write_begin(text, sizeof text, &length, 0, 2048, 2048, 255));
    must("a begin", amqp1_begin(&engine, 0, text, length));
}

amqp1_event go_on(const amqp1_record *record, const uint8_t *input)
{
    amqp1_event event;
    must("a record", amqp1_link_follow(&engine, record, &event));
    if (record->refusal || amqp1_has(record, AMQP1_FLAG_ERROR) || record->kind == AMQP1_KIND_DETACHED
        || record->kind == AMQP1_KIND_ENDED)
        unexpected(record, input);
    if (event.kind == AMQP1_EVENT_FAULT)
        fail("the peer did what it may not do on a link");
    if (record->kind == AMQP1_KIND_OPENED)
        begin();
    return event;
}

/* Closes, once the client has counted as many messages as it is to. */
static void close_when_counted(void)
{
    if (is_closing || !the_count || *the_count != messages)
        return;
    must("a close", amqp1_close(&engine, NULL, 0));
    is_closing = 1;
}

uint32_t message_of(uint32_t number, uint8_t bytes[64])
{
    char text[32];
    size_t payload;
    int length = snprintf(text, sizeof text, "message %u", (unsigned)number);
    amqp1_u32_at(bytes, number);
    must("a text", amqp1_write_data(bytes + 4, 60, &payload, text, (size_t)length));
    return (uint32_t)payload;
}

int listen_on(const char *port, const char *certificate, const char *key)
{
    struct sockaddr_in address;
    int one = 1, listening = socket(AF_INET, SOCK_STREAM, 0);
    memset(&address, 0, sizeof address);
    address.sin_family = AF_INET;
    address.sin_port = htons((uint16_t)atoi(port));
    address.sin_addr.s_addr = htonl(INADDR_LOOPBACK);
    setsockopt(listening, SOL_SOCKET, SO_REUSEADDR, &one, sizeof one);
    if (bind(listening, (struct sockaddr *)&address, sizeof address) || listen(listening, 16))
        fail("the port is taken");
#ifdef AMQP1_TLS
    if (certificate)
        certified = context_of(TLS_server_method(), certificate, key);
#else
    (void)key;
    if (certificate)
        fail("it is built without TLS");
#endif
    return listening;
}

void accept_on(int listening, uint8_t key[16])
{
    the_socket = accept(listening, NULL, NULL);
    if (the_socket < 0)
        fail("no client");
    randomness(key);
    this_side = 'B';
#ifdef AMQP1_TLS
    if (certified)
        tls_from();
#endif
}

/* Writes a line of the recording, where there is one. */
static void record_bytes(char side, const uint8_t *bytes, size_t length)
{
    const char *path = getenv("AMQP1_RECORD");
    FILE *file = path ? fopen(path, "a") : NULL;
    size_t at;
    if (!file)
        return;
    fprintf(file, "%c ", side);
    for (at = 0; at < length; at++)
        fprintf(file, "%02x", (unsigned)bytes[at]);
    fprintf(file, "\n");
    fclose(file);
}

static void write_all(const uint8_t *bytes, size_t length)
{
    record_bytes(this_side, bytes, length);
    while (length) {
        ssize_t count;
#ifdef AMQP1_TLS
        if (tls)
            count = SSL_write(tls, bytes, (int)length);
        else
#endif
            count = send(the_socket, bytes, length, MSG_NOSIGNAL);
        if (count <= 0)
            fail("the peer hung up");
        bytes += count;
        length -= (size_t)count;
    }
}

/* Some bytes, at least one; 0 where the peer hung up. */
static size_t read_some(uint8_t *to, size_t room)
{
    ssize_t count;
#ifdef AMQP1_TLS
    if (tls)
        count = SSL_read(tls, to, (int)room);
    else
#endif
        count = recv(the_socket, to, room, 0);
    if (count <= 0)
        return 0;
    record_bytes(this_side == 'A' ? 'B' : 'A', to, (size_t)count);
    return (size_t)count;
}

/* Whether something comes before the engine wants to be told the time. */
static int comes(void)
{
    struct pollfd it = { -1, POLLIN, 0 };
    uint64_t time = now(), left = next_tick > time ? next_tick - time : 0;
    int count;
#ifdef AMQP1_TLS
    if (tls && SSL_pending(tls))
        return 1;
#endif
    it.fd = the_socket;
    count = poll(&it, 1, (int)(left < LIMIT ? left : LIMIT));
    if (!count && left >= LIMIT)
        fail("the peer is silent");
    return count > 0;
}

/* Tells the time, and writes what waits. */
static void give(void)
{
    uint8_t out[4096];
    amqp1_ticked tick;
    size_t length;
    must("a tick", amqp1_tick(&engine, now(), &tick));
    next_tick = tick.next;
    do {
        must("output", amqp1_output(&engine, out, sizeof out, &length));
        if (length)
            write_all(out, length);
    } while (length);
}

/* Takes what came, up to what is no whole thing; how many bytes. What is answered goes out before the next thing is
   taken. */
static size_t take(const uint8_t *in, size_t length)
{
    amqp1_record records[64];
    amqp1_took took;
    size_t at = 0, n;
    int32_t status;
    do {
        status = amqp1_take(&engine, now(), in + at, length - at, records, 64, &took);
        for (n = 0; n < took.written && !is_closing; n++) {
            take_record(records + n, in + at);
            close_when_counted();
        }
        at += took.taken;
        if (status != AMQP1_OVER && status != AMQP1_BAD_SIZE && status != AMQP1_FULL && status != AMQP1_AGAIN)
            must("what came", status);
        give();
    } while (status == AMQP1_FULL || status == AMQP1_AGAIN);
    return at;
}

int run(void)
{
    static uint8_t in[1 << 17];
    size_t length = 0, count, taken;
    uint32_t state = AMQP1_STATE_START;
    int is_over = 0;
    for (give(); !is_over; must("the end", amqp1_is_over(&engine, &is_over))) {
        if (comes()) {
            if (!(count = read_some(in + length, sizeof in - length)))
                break;
            length += count;
            taken = take(in, length);
            memmove(in, in + taken, length -= taken);
        }
        give();
    }
    must("the state", amqp1_state(&engine, &state));
#ifdef AMQP1_TLS
    SSL_free(tls);
    tls = NULL;
#endif
    close(the_socket);
    amqp1_free(&engine);
    return is_over && state == AMQP1_STATE_ENDED;
}
