// A blocking socket to one peer, and a client over it: see client.hpp.
#include "client.hpp"
#include <cstdlib>
#include <cstring>
#include <chrono>
#include <netdb.h>
#include <poll.h>
#include <random>
#ifdef AMQP1_TLS
#include <csignal>
#include <openssl/ssl.h>
#include <openssl/x509v3.h>
#endif
#include <sys/socket.h>
#include <unistd.h>

std::uint64_t now()
{
    using namespace std::chrono;
    return static_cast<std::uint64_t>(duration_cast<milliseconds>(steady_clock::now().time_since_epoch()).count());
}

amqp::key a_key()
{
    amqp::key key;
    std::random_device random;
    for (auto &it : key)
        it = static_cast<std::uint8_t>(random());
    return key;
}

namespace
{

// A message's header section, which says that it is durable (AMQP 1.0 part 3, section 3.2.1).
constexpr std::uint8_t durable[] = {0x00, 0x53, 0x70, 0xc0, 0x02, 0x01, 0x41};

int connect_to(const char *host, const char *port)
{
    addrinfo hints = {}, *found;
    int socket = -1;
    hints.ai_socktype = SOCK_STREAM;
    if (getaddrinfo(host, port, &hints, &found))
        throw std::runtime_error("no such host");
    for (const addrinfo *it = found; it && socket < 0; it = it->ai_next) {
        socket = ::socket(it->ai_family, it->ai_socktype, it->ai_protocol);
        if (socket >= 0 && connect(socket, it->ai_addr, it->ai_addrlen)) {
            close(socket);
            socket = -1;
        }
    }
    freeaddrinfo(found);
    if (socket < 0)
        throw lost("nobody listens");
    return socket;
}

// A socket to the server of a client's words.
int connected(int count, char **words)
{
    if (count < 4 || count > 8)
        throw std::runtime_error("usage: HOST PORT ADDRESS [COUNT [USER PASSWORD | CA [CERTIFICATE KEY]]]");
    return connect_to(words[1], words[2]);
}

} // namespace

#ifdef AMQP1_TLS
// TLS with the server: its certificate has to be for the host, and of the authority of the first of these files; the
// others, if there are any, are this side's certificate and its key.
void peer::start_tls(const char *host, char **files)
{
    // OpenSSL writes without MSG_NOSIGNAL
    std::signal(SIGPIPE, SIG_IGN);
    SSL_CTX *context = SSL_CTX_new(TLS_client_method());
    if (!context || SSL_CTX_load_verify_locations(context, files[0], nullptr) != 1 ||
        (files[1] && (SSL_CTX_use_certificate_file(context, files[1], SSL_FILETYPE_PEM) != 1 ||
                      SSL_CTX_use_PrivateKey_file(context, files[2], SSL_FILETYPE_PEM) != 1)))
        throw std::runtime_error("a certificate or a key cannot be read");
    SSL_CTX_set_verify(context, SSL_VERIFY_PEER, nullptr);
    tls_ = SSL_new(context);
    SSL_CTX_free(context);
    if (!tls_ || SSL_set1_host(tls_, host) != 1 || SSL_set_fd(tls_, socket_) != 1 || SSL_connect(tls_) != 1)
        throw std::runtime_error("no TLS with the server");
}

ssize_t peer::write_some(amqp::bytes from)
{
    if (tls_)
        return SSL_write(tls_, from.data(), static_cast<int>(from.size()));
    return ::send(socket_, from.data(), from.size(), MSG_NOSIGNAL);
}

ssize_t peer::read_some(std::uint8_t *to, std::size_t room)
{
    return tls_ ? SSL_read(tls_, to, static_cast<int>(room)) : recv(socket_, to, room, 0);
}

// Whether there is something that TLS has read already.
bool peer::has_read() { return tls_ && SSL_pending(tls_); }

peer::~peer()
{
    SSL_free(tls_);
    close(socket_);
}
#else
void peer::start_tls(const char *, char **) { throw std::runtime_error("it is built without TLS"); }
ssize_t peer::write_some(amqp::bytes from) { return ::send(socket_, from.data(), from.size(), MSG_NOSIGNAL); }
ssize_t peer::read_some(std::uint8_t *to, std::size_t room) { return recv(socket_, to, room, 0); }
bool peer::has_read() { return false; }
peer::~peer() { close(socket_); }
#endif

client::client(int count, char **words, const char *name) : peer(connected(count, words))
{
    const char *user = count == 7 ? words[5] : nullptr, *password = count == 7 ? words[6] : nullptr;
    auto open = amqp::write_open(name, words[1]);
    address = words[3];
    messages = count > 4 ? static_cast<std::uint32_t>(std::atoi(words[4])) : 5;
    if (count == 6 || count == 8)
        start_tls(words[1], words + 5);
    if (count == 8) {
        engine = amqp::engine::external(a_key(), {now(), limit}, words[1], "", open);
    } else {
        engine = amqp::engine::client(a_key(), {now(), limit}, words[1], user, password, open);
    }
    engine.open();
}

amqp::sender client::durable_sender(const char *name)
{
    amqp::terminus to(address);
    to.durable = AMQP1_DURABLE_UNSETTLED;
    return engine.sender(0, name, to);
}

amqp::receiver client::browser(const char *name)
{
    amqp::terminus from(address);
    from.distribution_mode = "copy";
    return engine.receiver(0, name, from, 0);
}

bool peer::send_bytes(amqp::sender link, std::uint32_t number, amqp::bytes message)
{
    std::string bytes(reinterpret_cast<const char *>(&number), 4);
    bytes += message.text();
    amqp::told told = engine.link_send(link, 4, bytes, number);
    if (!told && told.refusal != AMQP1_WHY_LINK_NO_CREDIT && told.refusal != AMQP1_WHY_LINK_NOT_ATTACHED)
        throw amqp::error(engine.place(), "amqp1_link_send", told.status);
    return static_cast<bool>(told);
}

bool client::send(amqp::sender link, std::uint32_t number, const amqp::properties &says, amqp::bytes body)
{
    std::uint8_t bytes[1024];
    std::memcpy(bytes, durable, sizeof durable);
    amqp::written message = amqp::write_message({bytes + sizeof durable, sizeof bytes - sizeof durable}, says, body);
    if (!message)
        throw std::runtime_error("a message is too long");
    return send_bytes(link, number, {bytes, sizeof durable + message.text.size()});
}

// The error of a Detach, an End or a Close stands in its performative.
std::string peer::why(const amqp::record &record, amqp::bytes came)
{
    std::uint8_t room[256];
    std::string why = std::string("what came: ") + record.name() + " ";
    if (record.refusal)
        why += engine.refusal_text(record.refusal, room);
    if (auto error = amqp::field(record.performative(came), record.kind == AMQP1_KIND_DETACHED ? 2 : 0);
        error && record.has(AMQP1_FLAG_ERROR))
        why += amqp::bytes_field(*error, AMQP1_ERROR_CONDITION).text();
    return why;
}

void client::before(const amqp::record &record, const amqp::event &event, amqp::bytes came)
{
    if (record.refusal || record.has(AMQP1_FLAG_ERROR) || event.kind == AMQP1_EVENT_FAULT ||
        record.kind == AMQP1_KIND_DETACHED || record.kind == AMQP1_KIND_ENDED || record.kind == AMQP1_KIND_CLOSED)
        throw std::runtime_error(why(record, came));
    if (record.kind == AMQP1_KIND_OPENED)
        engine.begin(0, amqp::write_begin());
}

// Tells the time, and writes what waits.
void peer::write()
{
    std::uint8_t room[4096];
    next_tick_ = engine.tick(now()).next;
    for (amqp::written it = engine.output(room); it.text.size(); it = engine.output(room))
        for (amqp::bytes left = it.text; !left.empty();) {
            ssize_t count = write_some(left);
            if (count <= 0)
                throw lost("the peer hung up");
            left = left.from(static_cast<std::size_t>(count));
        }
}

// Whether something comes before the engine wants to be told the time.
bool peer::comes()
{
    if (has_read())
        return true;
    pollfd it = {socket_, POLLIN, 0};
    std::uint64_t time = now(), left = next_tick_ > time ? next_tick_ - time : 0;
    int count = poll(&it, 1, static_cast<int>(left < limit ? left : limit));
    if (!count && left >= limit)
        throw lost("the peer is silent");
    return count > 0;
}

void peer::read()
{
    ssize_t count = read_some(came_ + length_, sizeof came_ - length_);
    if (count <= 0)
        throw lost("the peer hung up");
    length_ += static_cast<std::size_t>(count);
}

// Hands each record on; what is answered goes out before the next ones are taken.
void peer::take(const handler &handle)
{
    amqp::record records[64];
    bool goes_on = true;
    while (goes_on) {
        amqp::bytes came(came_, length_);
        amqp::took took = engine.take(now(), came, records);
        for (const amqp::record &record : took.of(records)) {
            if (has_closed_)
                continue;
            amqp::event event = engine.link_follow(record);
            before(record, event, came);
            if (!has_closed_ && (has_closed_ = handle(record, event, came)))
                engine.close();
        }
        std::memmove(came_, came_ + took.taken, length_ -= took.taken);
        goes_on = took.is_to_go_on();
        write();
    }
}

void peer::run(const handler &handle)
{
    for (write(); !engine.is_over(); write())
        if (comes()) {
            read();
            take(handle);
        }
    if (!has_closed_ || engine.state() != AMQP1_STATE_ENDED)
        throw std::runtime_error("it did not go to its end");
}

int run_program(int count, char **words, void (*program)(int, char **))
{
    try {
        program(count, words);
        return 0;
    } catch (const std::exception &it) {
        std::fprintf(stderr, "%s\n", it.what());
        return 1;
    }
}
