// A server's side of a connection, for server.cpp, beside client.hpp: listening, and what is answered.
#ifndef SERVING_HPP
#define SERVING_HPP

#include "client.hpp"
#include <map>
#include <utility>

// The next client that connects to a socket that listens: it is let in by ANONYMOUS.
class served : public peer
{
  public:
    served(int listening, const char *name);

    // Takes the other end of a link that the client attaches, by the same addresses; where the client sends it has
    // credit for so many messages, which is renewed. The link, and its address.
    std::pair<amqp::link, std::string> take_link(const amqp::record &wanted, amqp::bytes came, std::uint32_t credit);

    // The bytes of a delivery that is whole by this event, and is accepted; none of another event.
    std::optional<std::string> take_part(const amqp::record &record, const amqp::event &event, amqp::bytes came);

  protected:
    void before(const amqp::record &record, const amqp::event &event, amqp::bytes came) override;

  private:
    std::uint32_t sessions_ = 0;
    // What came of deliveries, by session and link.
    std::map<std::pair<std::uint32_t, std::uint32_t>, std::string> parts_;
};

// A socket that listens on a port of the loopback.
int listen_on(const char *port);

#endif
