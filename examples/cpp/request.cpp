// Sends requests to an address of a server, has each replied to at ADDRESS.replies, and closes: request HOST PORT
// ADDRESS [COUNT [USER PASSWORD | CA [CERTIFICATE KEY]]]. reply.cpp replies. A request's id comes back as the reply's
// correlation-id. See client.hpp.
#include "client.hpp"

static void request(int count, char **words)
{
    client it(count, words, "request");
    std::string back = std::string(it.address) + ".replies";
    amqp::sender out;
    amqp::receiver in;
    std::uint32_t asked = 0, replied = 0;
    it.run([&](const amqp::record &record, const amqp::event &event, amqp::bytes came) {
        if (record.kind == AMQP1_KIND_BEGUN)
            in = it.engine.receiver(0, "replies", back, 10);
        if (event.kind == AMQP1_EVENT_ATTACHED && event.of() == in)
            out = it.engine.sender(0, "requests", it.address);
        for (std::string id; event.kind == AMQP1_EVENT_FLOW && event.of() == out && asked < it.messages; asked++)
            if (id = std::to_string(asked);
                !it.send(out, asked, {amqp::bytes(id), {}, {}, amqp::bytes(back), {}}, "request " + id))
                break;
        while (event.kind == AMQP1_EVENT_SETTLED && it.engine.link_settled_of(event))
            continue;
        if (event.kind != AMQP1_EVENT_PART)
            return false;
        auto id = amqp::read_properties(record.payload(came)).correlation_id;
        auto body = amqp::read_data(record.payload(came));
        if (!id || !body || body->text() != "reply to request " + std::string(id->text()))
            throw std::runtime_error("a reply to no request");
        it.engine.link_accept(event);
        return ++replied == it.messages;
    });
    std::printf("%u requests, each replied to\n", replied);
}

int main(int count, char **words) { return run_program(count, words, request); }
