// Shows messages that wait at an address of a server, leaves them there, and closes: browse HOST PORT ADDRESS [COUNT
// [USER PASSWORD | CA [CERTIFICATE KEY]]]. See client.hpp.
#include "client.hpp"

static void browse(int count, char **words)
{
    client it(count, words, "browse");
    std::uint32_t shown = 0;
    amqp::receiver from;
    it.run([&](const amqp::record &record, const amqp::event &event, amqp::bytes came) {
        if (record.kind == AMQP1_KIND_BEGUN)
            from = it.browser("browser");
        if (event.kind == AMQP1_EVENT_ATTACHED)
            it.engine.grant(from, it.messages);
        if (event.kind != AMQP1_EVENT_PART)
            return false;
        if (auto body = amqp::read_data(record.payload(came)))
            std::printf("%.*s\n", static_cast<int>(body->size()), body->text().data());
        it.engine.link_settle(event.session, AMQP1_RECEIVER, event.first, event.last, true, AMQP1_RELEASED);
        return ++shown == it.messages;
    });
}

int main(int count, char **words) { return run_program(count, words, browse); }
