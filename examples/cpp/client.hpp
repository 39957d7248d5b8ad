// A blocking socket to one peer, for the programs in this folder: connecting, with TLS or without, the bytes of an
// engine in and out, the time, and what each client does alike; serving.hpp has a server's side. Build one by `c++
// -std=c++17 send.cpp client.cpp $(pkg-config --cflags --libs amqp1)`, for TLS with `-DAMQP1_TLS -lssl -lcrypto`.
#ifndef CLIENT_HPP
#define CLIENT_HPP

#include <amqp1.hpp>
#include <cstdio>
#include <cstdlib>
#include <functional>
#include <stdexcept>
#include <string>
#include <sys/types.h>

// The connection is lost: nobody listens, or the server hung up or is silent. What is unsettled may be sent again.
struct lost : std::runtime_error {
    using std::runtime_error::runtime_error;
};

// So long may headers, SASL and both Opens take, and so long may the peer be silent, in milliseconds.
constexpr std::uint32_t limit = 20000;

// The time, in milliseconds; and 16 bytes that no peer can guess.
std::uint64_t now();
amqp::key a_key();

// A connection over a socket.
class peer
{
  public:
    peer(const peer &) = delete;
    virtual ~peer();

    // What is done with a record, and with what it is to the links; the frame stands in the bytes. True: this side has
    // what it wants.
    using handler = std::function<bool(const amqp::record &, const amqp::event &, amqp::bytes)>;

    // Hands each record on until the handler has what it wants, closes, and waits for the peer's Close.
    void run(const handler &handle);

    // Sends a message's bytes on a link, with the number as its tag: whether the peer has attached it, and there was
    // credit.
    bool send_bytes(amqp::sender link, std::uint32_t number, amqp::bytes message);

    amqp::engine engine;

  protected:
    explicit peer(int socket) : socket_(socket) {}

    // What a side does with a record before the handler. Throws where it may not go on.
    virtual void before(const amqp::record &record, const amqp::event &event, amqp::bytes came) = 0;

    // What a refusal or an error is.
    std::string why(const amqp::record &record, amqp::bytes came);

    void start_tls(const char *host, char **files);

    bool has_closed_ = false;

  private:
    ssize_t write_some(amqp::bytes from);
    ssize_t read_some(std::uint8_t *to, std::size_t room);
    bool has_read();
    bool comes();
    void read();
    void write();
    void take(const handler &handle);

    int socket_;
    struct ssl_st *tls_ = nullptr;
    std::uint64_t next_tick_ = 0;
    std::size_t length_ = 0;
    std::uint8_t came_[1 << 17];
};

// A client, by the words of its program: HOST PORT ADDRESS [COUNT [USER PASSWORD | CA [CERTIFICATE KEY]]]. It logs in
// by PLAIN as USER; by EXTERNAL over TLS, with a certificate of its own; or by ANONYMOUS, over TLS where there is a CA
// alone. The server's certificate has to be for the host, and of the authority CA. Its session 0 begins by itself. A
// refusal, and what the server ends, throws.
class client : public peer
{
  public:
    client(int count, char **words, const char *name);

    // A sender to the address, in the session 0, whose target is durable: where the server makes a queue of it, that
    // and its durable messages outlast the server (AMQP 1.0 part 3, section 3.5.4).
    amqp::sender durable_sender(const char *name);

    // A receiver from the address that browses, if the server knows the distribution-mode `copy` (section 3.5.7).
    amqp::receiver browser(const char *name);

    // Sends a durable message.
    bool send(amqp::sender link, std::uint32_t number, const amqp::properties &says, amqp::bytes body);

    const char *address;
    std::uint32_t messages;

  protected:
    void before(const amqp::record &record, const amqp::event &event, amqp::bytes came) override;
};

// Runs a program by its words, and says why where it fails: its status.
int run_program(int count, char **words, void (*program)(int, char **));

#endif
