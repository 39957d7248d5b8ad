// Sends messages to an address of a server, and goes on by a new connection where one is lost: resend HOST PORT ADDRESS
// [COUNT [USER PASSWORD | CA [CERTIFICATE KEY]]]. The link is attached under the same name, and what the server had not
// settled is sent again, so each message arrives at least once. The status is 0 where all were accepted; it gives up
// after 60 losses. See client.hpp.
#include "client.hpp"
#include <set>
#include <thread>

// Sends what is open, counts that, and takes out what the server accepts.
static void send_open(client &it, std::set<std::uint32_t> &open, std::uint32_t &sent)
{
    auto next = open.begin();
    amqp::sender out;
    it.run([&](const amqp::record &record, const amqp::event &event, amqp::bytes) {
        if (record.kind == AMQP1_KIND_BEGUN)
            out = it.durable_sender("resend");
        for (; event.kind == AMQP1_EVENT_FLOW && next != open.end(); ++next, ++sent)
            if (!it.send(out, *next, {}, "message " + std::to_string(*next)))
                break;
        if (event.kind == AMQP1_EVENT_SETTLED && record.outcome != AMQP1_ACCEPTED)
            throw std::runtime_error("a message was not accepted");
        while (auto of = event.kind == AMQP1_EVENT_SETTLED ? it.engine.link_settled_of(event) : std::nullopt)
            if (open.erase(static_cast<std::uint32_t>(of->given)); open.size() % 1000 == 0)
                std::fprintf(stderr, "%zu are open\n", open.size());
        return open.empty();
    });
}

static void resend(int count, char **words)
{
    std::set<std::uint32_t> open;
    std::uint32_t all = count > 4 ? static_cast<std::uint32_t>(std::atoi(words[4])) : 5, sent = 0, losses = 0;
    while (open.size() < all)
        open.insert(open.end(), static_cast<std::uint32_t>(open.size()));
    while (!open.empty())
        try {
            client it(count, words, "resend");
            send_open(it, open, sent);
        } catch (const lost &why) {
            if (++losses == 60)
                throw;
            std::fprintf(stderr, "%s, and %zu are open\n", why.what(), open.size());
            std::this_thread::sleep_for(std::chrono::seconds(1));
        }
    std::printf("sent %u messages, and %u again, all accepted\n", all, sent - all);
}

int main(int count, char **words) { return run_program(count, words, resend); }
