// An engine with its links: what makes one, senders and receivers with credit, and settlement. For amqp1.hpp.
#ifndef AMQP1_LINKS_HPP
#define AMQP1_LINKS_HPP

#include "engine.hpp"
#include <array>

namespace amqp
{

// 16 bytes that the peer cannot guess (getrandom, /dev/urandom). Of zeros alone: AMQP1_BAD_ARGUMENT.
using key = std::array<std::uint8_t, 16>;

// When a stream begins, in milliseconds of any clock, and how many of them headers, SASL and both Opens may take.
struct start {
    std::uint64_t now = 0;
    std::uint32_t limit = AMQP1_NONE;
};

// One side of a connection, with the links of its sessions. A link is named by its value, in place of session and
// handle.
template <class Errors>
class basic_engine : public basic_connection<Errors>
{
    using base = basic_connection<Errors>;
    using base::ask_of;
    using base::end_of;
    using base::find_of;
    using base::give_of;
    using base::is_quiet;
    using base::place_;
    using typename base::done;
    using typename base::whether;
    template <class T>
    using given = typename base::template given<T>;
    template <class T>
    using maybe = typename base::template maybe<T>;

  public:
    // ---- what makes an engine. `open` is PERF of this side's Open, as write_open gives it.

    // Of either side, without SASL.
    [[nodiscard]] static given<basic_engine> plain(const key &by, bytes open) noexcept(is_quiet)
    {
        basic_engine it;
        return it.made("amqp1_start", amqp1_start(&it.place_, by.data(), open.data(), open.size()));
    }

    // Of a client that logs in by PLAIN, or, where the user is null, by ANONYMOUS.
    [[nodiscard]] static given<basic_engine> client(const key &by, start at, cstring host, cstring user,
                                                    cstring password, bytes open) noexcept(is_quiet)
    {
        basic_engine it;
        return it.made("amqp1_start_client",
                       amqp1_start_client(&it.place_, by.data(), at.now, at.limit, host.c_str(), user.c_str(),
                                          password.c_str(), open.data(), open.size()));
    }

    // Of a client that logs in by EXTERNAL.
    [[nodiscard]] static given<basic_engine> external(const key &by, start at, cstring host, cstring identity,
                                                      bytes open) noexcept(is_quiet)
    {
        basic_engine it;
        return it.made("amqp1_start_external",
                       amqp1_start_external(&it.place_, by.data(), at.now, at.limit, host.c_str(), identity.c_str(),
                                            open.data(), open.size()));
    }

    // Of a client that logs in by this mechanism, with an initial response or without.
    [[nodiscard]] static given<basic_engine> client_by(const key &by, start at, cstring host, cstring mechanism,
                                                       std::optional<bytes> response, bytes open) noexcept(is_quiet)
    {
        basic_engine it;
        return it.made("amqp1_start_by", amqp1_start_by(&it.place_, by.data(), at.now, at.limit, host.c_str(),
                                                        mechanism.c_str(), response ? response->data() : nullptr,
                                                        response ? response->size() : 0, open.data(), open.size()));
    }

    // Of a server that offers these mechanisms, as "PLAIN ANONYMOUS".
    [[nodiscard]] static given<basic_engine> server(const key &by, start at, cstring mechanisms,
                                                    bytes open) noexcept(is_quiet)
    {
        basic_engine it;
        return it.made("amqp1_start_server", amqp1_start_server(&it.place_, by.data(), at.now, at.limit,
                                                                mechanisms.c_str(), open.data(), open.size()));
    }

    // Of either side, by all that amqp1_new takes.
    [[nodiscard]] static given<basic_engine> with(const amqp1_how &how, bytes open, span<const amqp1_login_head> logins,
                                                  bytes texts) noexcept(is_quiet)
    {
        basic_engine it;
        return it.made("amqp1_new", amqp1_new(&it.place_, &how, open.data(), open.size(), logins.data(), logins.size(),
                                              texts.data(), texts.size()));
    }

    // ---- links

    // A sender to an address, in a session that has begun.
    [[nodiscard]] given<amqp::sender> sender(std::uint32_t session, cstring name, cstring address) noexcept(is_quiet)
    {
        amqp::sender it = {{session, AMQP1_NONE}};
        std::int32_t status = amqp1_sender(&place_, session, name.c_str(), address.c_str(), &it.handle);
        return give_of("amqp1_sender", status, it);
    }

    // The same to a target, as to a durable one.
    [[nodiscard]] given<amqp::sender> sender(std::uint32_t session, cstring name,
                                             const terminus &target) noexcept(is_quiet)
    {
        amqp::sender it = {{session, AMQP1_NONE}};
        std::int32_t status = amqp1_sender_to(&place_, session, name.c_str(), &target, &it.handle);
        return give_of("amqp1_sender_to", status, it);
    }

    // A receiver from an address, which renews its credit up to `high`, or none by itself where that is 0.
    given<amqp::receiver> receiver(std::uint32_t session, cstring name, cstring address,
                                   std::uint32_t high) noexcept(is_quiet)
    {
        amqp::receiver it = {{session, AMQP1_NONE}};
        std::int32_t status = amqp1_receiver(&place_, session, name.c_str(), address.c_str(), high, &it.handle);
        return give_of("amqp1_receiver", status, it);
    }

    // The same from a source, as from one whose node keeps its messages.
    given<amqp::receiver> receiver(std::uint32_t session, cstring name, const terminus &source,
                                   std::uint32_t high) noexcept(is_quiet)
    {
        amqp::receiver it = {{session, AMQP1_NONE}};
        std::int32_t status = amqp1_receiver_from(&place_, session, name.c_str(), &source, high, &it.handle);
        return give_of("amqp1_receiver_from", status, it);
    }

    // Attaches a link by PERF of an Attach, to whose name a handle is allotted, or to `name`, where it is there. A
    // receiver renews its credit up to `high`, below `low`. The answer is a link, of which `sender{it}` or
    // `receiver{it}` says what the Attach does.
    [[nodiscard]] given<link> link_attach(std::uint32_t session, bytes perf, std::uint32_t low = 0,
                                          std::uint32_t high = 0, bytes name = {}) noexcept(is_quiet)
    {
        link it = {session, AMQP1_NONE};
        std::int32_t status = amqp1_link_attach(&place_, session, perf.data(), perf.size(), name.data(), name.size(),
                                                low, high, &it.handle);
        return give_of("amqp1_link_attach", status, it);
    }

    // Tells the peer's Attach that came first to the link that answers it.
    [[nodiscard]] given<event> link_wanted(const record &of, link on) noexcept(is_quiet)
    {
        event it = {};
        std::int32_t status = amqp1_link_wanted(&place_, &of, on.handle, &it);
        return give_of("amqp1_link_wanted", status, it);
    }

    // Tells a record to the links of its session: each record once, in order.
    given<event> link_event(const record &of, std::uint64_t given_with = 0) noexcept(is_quiet)
    {
        event it = {};
        std::int32_t status = amqp1_link_event(&place_, &of, given_with, &it);
        return give_of("amqp1_link_event", status, it);
    }

    // Sends what a link owes for an event: whether it sent something. What is held back is owed still, and `link_due`
    // tells it: no error of an amqp::engine.
    whether link_respond(const event &of, std::uint32_t available = 0) noexcept(is_quiet)
    {
        std::int32_t status = amqp1_link_respond(&place_, &of, available);
        return ask_of("amqp1_link_respond", !is_quiet && status == AMQP1_HELD_BACK ? AMQP1_NOTHING : status);
    }

    // A link of which a call was held back, once its transfers are out: an event of AMQP1_EVENT_DUE.
    [[nodiscard]] maybe<event> link_due(std::uint32_t session) noexcept(is_quiet)
    {
        event it = {};
        std::int32_t status = amqp1_link_due(&place_, session, &it);
        return find_of("amqp1_link_due", status, 1, it);
    }

    // Sends what links of the session owe that is due.
    done link_pay(std::uint32_t session) noexcept(is_quiet)
    {
        event it = {};
        return end_of("amqp1_link_pay", amqp1_link_pay(&place_, session, &it));
    }

    // Tells a record, and sends what is owed for it, and what is due. Where memory is refused, an exception does not
    // say which: a program that goes on then calls the two.
    given<event> link_follow(const record &of) noexcept(is_quiet)
    {
        event it = {};
        std::int32_t status = amqp1_link_follow(&place_, &of, &it);
        return give_of("amqp1_link_follow", status, it);
    }

    whether link_flow(link on, amqp1_wish wish, std::uint32_t number) noexcept(is_quiet)
    {
        return ask_of("amqp1_link_flow",
                      amqp1_link_flow(&place_, on.session, on.handle, static_cast<std::uint32_t>(wish), number));
    }

    // A receiver grants so much credit; and has its sender use it up.
    whether grant(amqp::receiver on, std::uint32_t credit) noexcept(is_quiet)
    {
        return ask_of("amqp1_grant", amqp1_grant(&place_, on.session, on.handle, credit));
    }

    whether drain(amqp::receiver on) noexcept(is_quiet)
    {
        return ask_of("amqp1_drain", amqp1_drain(&place_, on.session, on.handle));
    }

    // Detaches a link, unless transfers of it are held back, or the peer's Attach is still to come (AMQP1_HELD_BACK);
    // for good where `closed`, with an error where one is there.
    whether link_detach(link on, bool closed = true, bytes why = {}) noexcept(is_quiet)
    {
        return ask_of("amqp1_link_detach",
                      amqp1_link_detach(&place_, on.session, on.handle, closed, why.data(), why.size()));
    }

    // Sends a transfer by its head. In no case it throws: what it answers holds where the transfer was accepted.
    // Without credit it does not: `status` is AMQP1_REFUSED then, and `refusal` AMQP1_WHY_LINK_NO_CREDIT.
    [[nodiscard]] told link_send(const head &of, bytes from, std::uint64_t given_with = 0) noexcept
    {
        told it = {};
        it.status = amqp1_link_send(&place_, &of, from.data(), from.size(), given_with, &it);
        return it;
    }

    // The same of a delivery on a link: its tag, of `tag_size` bytes, and then its payload stand in `from`.
    [[nodiscard]] told link_send(amqp::sender on, std::uint16_t tag_size, bytes from, std::uint64_t given_with = 0,
                                 int flags = AMQP1_FLAG_TAGGED | AMQP1_FLAG_FORMATTED) noexcept
    {
        std::size_t payload = from.size() < tag_size ? 0 : from.size() - tag_size;
        head of = {on.session, on.handle, 0, static_cast<std::uint32_t>(payload), static_cast<std::uint16_t>(flags),
                   tag_size};
        return link_send(of, from, given_with);
    }

    // Sends a disposition of deliveries, by their numbers; `role` is this side's.
    whether link_settle(std::uint32_t session, amqp1_role role, std::uint32_t first, std::uint32_t last, bool settled,
                        amqp1_outcome outcome) noexcept(is_quiet)
    {
        auto state = static_cast<std::uint8_t>(outcome);
        return ask_of("amqp1_link_settle", amqp1_link_settle(&place_, session, static_cast<std::uint32_t>(role), first,
                                                             last, settled, state));
    }

    // The same by PERF of a Disposition, of any state.
    whether link_dispose(std::uint32_t session, bytes perf) noexcept(is_quiet)
    {
        return ask_of("amqp1_link_dispose", amqp1_link_dispose(&place_, session, perf.data(), perf.size()));
    }

    // The delivery of a part that came is accepted and settled.
    whether link_accept(const event &of) noexcept(is_quiet)
    {
        return ask_of("amqp1_link_accept", amqp1_link_accept(&place_, &of));
    }

    // The oldest delivery of a range that is settled; each is given back once.
    [[nodiscard]] maybe<unsettled> link_settled(std::uint32_t session, amqp1_role role, std::uint32_t first,
                                                std::uint32_t last) noexcept(is_quiet)
    {
        unsettled it = {};
        std::int32_t status = amqp1_link_settled(&place_, session, static_cast<std::uint32_t>(role), first, last, &it);
        return find_of("amqp1_link_settled", status, 1, it);
    }

    // The same of those that an event of AMQP1_EVENT_SETTLED tells.
    [[nodiscard]] maybe<unsettled> link_settled_of(const event &of) noexcept(is_quiet)
    {
        unsettled it = {};
        std::int32_t status = amqp1_link_settled_of(&place_, &of, &it);
        return find_of("amqp1_link_settled_of", status, 1, it);
    }

    // The oldest delivery that is left unsettled: on a link, or on all links of a session that is over.
    [[nodiscard]] maybe<unsettled> link_left(link on) noexcept(is_quiet)
    {
        unsettled it = {};
        std::int32_t status = amqp1_link_left(&place_, on.session, on.handle, &it);
        return find_of("amqp1_link_left", status, 1, it);
    }

    [[nodiscard]] maybe<unsettled> link_left_of(std::uint32_t session, amqp1_role role) noexcept(is_quiet)
    {
        unsettled it = {};
        std::int32_t status = amqp1_link_left_of(&place_, session, static_cast<std::uint32_t>(role), &it);
        return find_of("amqp1_link_left_of", status, 1, it);
    }

    done link_remove(link on) noexcept(is_quiet)
    {
        return end_of("amqp1_link_remove", amqp1_link_remove(&place_, on.session, on.handle));
    }

    // Lets all links of a session go: whether it has some.
    whether link_forget(std::uint32_t session) noexcept(is_quiet)
    {
        return ask_of("amqp1_link_forget", amqp1_link_forget(&place_, session));
    }

    [[nodiscard]] given<std::uint32_t> link_credit(link on) noexcept(is_quiet)
    {
        std::uint32_t it = 0;
        std::int32_t status = amqp1_link_credit(&place_, on.session, on.handle, &it);
        return give_of("amqp1_link_credit", status, it);
    }

  private:
    given<basic_engine> made(const char *call, std::int32_t status) noexcept(is_quiet)
    {
        return Errors::give(&place_, call, status, std::move(*this));
    }
};

#if AMQP1_HAS_EXCEPTIONS
// An engine whose calls throw an amqp::error where they are not done.
using engine = basic_engine<by_exception>;
#endif

// An engine whose calls answer an amqp::result, and throw in no case.
namespace nothrow
{
using engine = basic_engine<by_status>;
}

} // namespace amqp

#endif
