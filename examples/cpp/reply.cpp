// Replies to requests at an address of a server, and closes: reply HOST PORT ADDRESS [COUNT [USER PASSWORD | CA
// CERTIFICATE KEY]]. Each reply goes to the request's reply-to, with its message-id as the correlation-id. request.cpp
// asks. See client.hpp.
#include "client.hpp"
#include <deque>

static void reply(int count, char **words)
{
    struct answer {
        std::string to, id, body;
    };
    client it(count, words, "reply");
    amqp::sender out;
    std::deque<answer> waiting;
    std::uint32_t sent = 0, accepted = 0;
    it.run([&](const amqp::record &record, const amqp::event &event, amqp::bytes came) {
        if (record.kind == AMQP1_KIND_BEGUN)
            it.engine.receiver(0, "requests", it.address, 10);
        if (event.kind == AMQP1_EVENT_PART) {
            amqp::properties says = amqp::read_properties(record.payload(came));
            auto body = amqp::read_data(record.payload(came));
            if (!says.reply_to || !says.message_id || !body)
                throw std::runtime_error("a request without a reply-to");
            waiting.push_back({std::string(says.reply_to->text()), std::string(says.message_id->text()),
                               "reply to " + std::string(body->text())});
            it.engine.link_accept(event);
            if (out == amqp::sender())
                out = it.engine.sender(0, "replies", waiting.front().to);
        }
        for (; !waiting.empty(); waiting.pop_front(), sent++)
            if (const answer &of = waiting.front(); !it.send(out, sent, {{}, of.to, {}, {}, of.id}, of.body))
                break;
        while (event.kind == AMQP1_EVENT_SETTLED && it.engine.link_settled_of(event))
            accepted++;
        return accepted == it.messages;
    });
    std::printf("%u replies, all accepted\n", accepted);
}

int main(int count, char **words) { return run_program(count, words, reply); }
