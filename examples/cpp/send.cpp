// Sends messages to an address of a server as it gives credit, has each accepted, and closes: send HOST PORT ADDRESS
// [COUNT [USER PASSWORD | CA [CERTIFICATE KEY]]]. The status is 0 where all were accepted. See client.hpp.
#include "client.hpp"

static void send(int count, char **words)
{
    client it(count, words, "send");
    amqp::sender out;
    std::uint32_t sent = 0, accepted = 0;
    it.run([&](const amqp::record &record, const amqp::event &event, amqp::bytes) {
        if (record.kind == AMQP1_KIND_BEGUN)
            out = it.engine.sender(0, "to", it.address);
        if (event.kind == AMQP1_EVENT_FLOW)
            while (sent < it.messages && it.send(out, sent, {}, "message " + std::to_string(sent)))
                sent++;
        if (event.kind == AMQP1_EVENT_SETTLED && record.outcome != AMQP1_ACCEPTED)
            throw std::runtime_error("a message was not accepted");
        while (event.kind == AMQP1_EVENT_SETTLED && it.engine.link_settled_of(event))
            accepted++;
        return accepted == it.messages;
    });
    std::printf("sent %u messages, all accepted\n", accepted);
}

int main(int count, char **words) { return run_program(count, words, send); }
