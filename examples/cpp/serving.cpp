// A server's side of a connection: see serving.hpp.
#include "serving.hpp"
#include <cstdlib>
#include <netinet/in.h>
#include <sys/socket.h>

int listen_on(const char *port)
{
    sockaddr_in address = {};
    int one = 1, listening = socket(AF_INET, SOCK_STREAM, 0);
    address.sin_family = AF_INET;
    address.sin_port = htons(static_cast<std::uint16_t>(std::atoi(port)));
    address.sin_addr.s_addr = htonl(INADDR_LOOPBACK);
    setsockopt(listening, SOL_SOCKET, SO_REUSEADDR, &one, sizeof one);
    if (bind(listening, reinterpret_cast<sockaddr *>(&address), sizeof address) || listen(listening, 16))
        throw std::runtime_error("the port is taken");
    return listening;
}

served::served(int listening, const char *name) : peer(accept(listening, nullptr, nullptr))
{
    engine = amqp::engine::server(a_key(), {now(), limit}, "ANONYMOUS", amqp::write_open(name));
    engine.open();
}

// What the client begins and ends is answered; a link that is over is let go.
void served::before(const amqp::record &record, const amqp::event &event, amqp::bytes came)
{
    if (record.kind == AMQP1_KIND_LOGIN_ASKED)
        engine.login(AMQP1_LOGIN_OK);
    if (event.kind == AMQP1_EVENT_ENDED) {
        while (engine.link_left(event.of()))
            continue;
        engine.link_remove(event.of());
        parts_.erase({event.session, event.link});
    }
    if (record.kind == AMQP1_KIND_BEGIN_WANTED || record.kind == AMQP1_KIND_ENDED || record.kind == AMQP1_KIND_CLOSED) {
        engine.answer(record, came, AMQP1_ANSWER_ALL, sessions_);
        sessions_ += record.kind == AMQP1_KIND_BEGIN_WANTED;
    } else if (record.refusal && record.kind != AMQP1_KIND_ATTACH_WANTED) {
        throw std::runtime_error(why(record, came));
    }
    if (record.kind == AMQP1_KIND_ENDED)
        engine.link_forget(record.session);
    has_closed_ = has_closed_ || record.kind == AMQP1_KIND_CLOSED;
}

std::pair<amqp::link, std::string> served::take_link(const amqp::record &wanted, amqp::bytes came, std::uint32_t credit)
{
    amqp1_role role = wanted.has(AMQP1_FLAG_RECEIVER) ? AMQP1_SENDER : AMQP1_RECEIVER;
    amqp::bytes perf = wanted.performative(came);
    auto of = amqp::field(perf, role == AMQP1_SENDER ? AMQP1_ATTACH_SOURCE : AMQP1_ATTACH_TARGET);
    std::string name(amqp::bytes_field(perf, AMQP1_ATTACH_NAME).text()), at;
    if (of)
        at = amqp::bytes_field(*of, AMQP1_TERMINUS_ADDRESS).text();
    std::uint32_t handle = engine.allot_on(wanted.session, wanted.input, role, AMQP1_FIRST, name);
    auto text = amqp::write_attach(name, handle, role, at, at);
    amqp::link link = engine.link_attach(wanted.session, text, credit - credit / 2, credit);
    engine.link_respond(engine.link_wanted(wanted, link));
    return {link, at};
}

std::optional<std::string> served::take_part(const amqp::record &record, const amqp::event &event, amqp::bytes came)
{
    if (event.kind != AMQP1_EVENT_PART)
        return std::nullopt;
    std::string &all = parts_[{event.session, event.link}];
    all += record.payload(came).text();
    if (!event.has(AMQP1_EVENT_LAST))
        return std::nullopt;
    std::string whole;
    whole.swap(all);
    if (event.has(AMQP1_EVENT_ABORTED))
        return std::nullopt;
    if (!event.has(AMQP1_EVENT_PRESETTLED))
        engine.link_accept(event);
    return whole;
}
