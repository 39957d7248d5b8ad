// A broker in memory: server PORT CLIENTS serves so many clients, one after the other, who are let in by ANONYMOUS.
// What is sent to an address waits there for who receives and settles it; what is released, or left unsettled, goes
// back to the end. The status is 0 where each client has closed. Build it with serving.cpp and client.cpp; see
// serving.hpp.
#include "serving.hpp"
#include <deque>
#include <map>

using queue = std::deque<std::string>;

static void serve_next(int listening, std::map<std::string, queue> &queues)
{
    served it(listening, "server");
    std::map<std::pair<std::uint32_t, std::uint32_t>, queue *> in, out;  // by session and handle
    std::map<std::uint64_t, std::pair<queue *, std::string>> unsettled; // by the number of a delivery's tag
    std::uint32_t sent = 0;
    it.run([&](const amqp::record &record, const amqp::event &event, amqp::bytes came) {
        if (record.kind == AMQP1_KIND_ATTACH_WANTED) {
            auto [link, address] = it.take_link(record, came, 100);
            (record.has(AMQP1_FLAG_RECEIVER) ? out : in)[{link.session, link.handle}] = &queues[address];
        }
        if (event.kind == AMQP1_EVENT_ENDED)
            out.erase({event.session, event.link});
        if (auto message = it.take_part(record, event, came))
            in.at({event.session, event.link})->push_back(*message);
        while (auto done = event.kind == AMQP1_EVENT_SETTLED ? it.engine.link_settled_of(event) : std::nullopt) {
            auto [of, message] = unsettled.extract(done->given).mapped();
            if (record.outcome == AMQP1_RELEASED)
                of->push_back(message);
        }
        for (auto &[link, of] : out)
            for (; !of->empty() && it.send_bytes({{link.first, link.second}}, sent, of->front()); of->pop_front())
                unsettled[sent++] = {of, of->front()};
        return false;
    });
    for (auto &[number, left] : unsettled)
        left.first->push_back(left.second);
}

static void serve(int count, char **words)
{
    if (count != 3)
        throw std::runtime_error("usage: PORT CLIENTS");
    std::map<std::string, queue> queues;
    int listening = listen_on(words[1]);
    for (int left = std::atoi(words[2]); left; left--)
        serve_next(listening, queues);
}

int main(int count, char **words) { return run_program(count, words, serve); }
