// Receives messages from an address of a server, accepts each, and closes: receive HOST PORT ADDRESS [COUNT [USER
// PASSWORD | CA [CERTIFICATE KEY]]]. It gives credit for a hundred, which the library renews, so more may come than are
// awaited: those are not accepted. See client.hpp.
#include "client.hpp"

static void receive(int count, char **words)
{
    client it(count, words, "receive");
    std::uint32_t received = 0;
    it.run([&](const amqp::record &record, const amqp::event &event, amqp::bytes came) {
        if (record.kind == AMQP1_KIND_BEGUN)
            it.engine.receiver(0, "from", it.address, 100);
        if (event.kind != AMQP1_EVENT_PART)
            return false;
        if (!event.has(AMQP1_EVENT_FIRST) || !event.has(AMQP1_EVENT_LAST))
            throw std::runtime_error("a message in parts, which send.cpp does not send");
        if (auto body = amqp::read_data(record.payload(came)))
            std::printf("received %.*s\n", static_cast<int>(body->size()), body->text().data());
        if (!event.has(AMQP1_EVENT_PRESETTLED))
            it.engine.link_accept(event);
        return ++received == it.messages;
    });
    std::printf("received %u messages, all accepted\n", received);
}

int main(int count, char **words) { return run_program(count, words, receive); }
