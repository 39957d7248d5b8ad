// Tests of amqp1.hpp: runs them, and tries the engine but for its links. See cpp_try.hpp.
#include "cpp_try.hpp"
#include <cstdlib>
#include <new>

int tried, wrong;

// How often memory was asked for by `new`.
static std::size_t asked;

void *operator new(std::size_t size)
{
    asked++;
    if (void *it = std::malloc(size ? size : 1))
        return it;
    std::abort();
}

void operator delete(void *it) noexcept { std::free(it); }

void operator delete(void *it, std::size_t) noexcept { std::free(it); }

void check(bool holds, const char *said, const char *file, int line)
{
    tried++;
    if (holds)
        return;
    wrong++;
    std::printf("%s:%d: %s\n", file, line, said);
    std::fflush(stdout);
}

namespace
{

// The text of one that is asked for in a room.
std::uint8_t room[512];

template <class Engine>
void try_place()
{
    Engine none, one = got(Engine::plain(a_key, amqp::write_open("me")));
    CHECK(!none && one && Engine::version() == AMQP1_VERSION_NUMBER);
    CHECK(STATUS(none.open()) == AMQP1_NO_ENGINE);
    Engine moved = std::move(one);
    CHECK(moved && !one && got(moved.state()) == AMQP1_STATE_HEADER_EXCHANGE);
    none = std::move(moved);
    CHECK(none && !moved && none.place()->full == 1);
    static_assert(!std::is_copy_constructible_v<Engine> && std::is_nothrow_move_assignable_v<Engine>);
    CHECK(STATUS(Engine::plain(amqp::key{}, amqp::write_open("me"))) == AMQP1_BAD_ARGUMENT);
    CHECK(STATUS(Engine::plain(a_key, amqp::bytes())) == AMQP1_BAD_ARGUMENT);
    amqp1_how how = {{1}, 5, AMQP1_NONE, AMQP1_WITHOUT_SASL, AMQP1_NONE, 0};
    amqp1_login_head none_of[1];
    Engine by = got(Engine::with(how, amqp::write_open("me"), {none_of, 0}, amqp::bytes()));
    CHECK(by.output(room).text == amqp::bytes(std::string_view("AMQP\0\1\0\0", 8)));
}

// A client and a server pass bytes on, up to the record of this kind, which the other side is told.
template <class Engine>
heard login_of(Engine &client, Engine &server, unsigned kind)
{
    for (int round = 0; round < 4; round++)
        for (int side = 0; side < 2; side++)
            for (const heard &it :
                 side ? faces<Engine>::pass(server, client, false) : faces<Engine>::pass(client, server, false))
                if (it.record.kind == kind)
                    return it;
    check(false, "the record came", __FILE__, __LINE__);
    return {};
}

template <class Engine>
Engine a_server(const char *mechanisms)
{
    return got(Engine::server(a_key, {10, 500}, mechanisms, amqp::write_open("server")));
}

template <class Engine>
void try_logins()
{
    Engine server = a_server<Engine>("PLAIN ANONYMOUS");
    Engine client = got(Engine::client(a_key, {10, 500}, "host", "me", "secret", amqp::write_open("client")));
    heard asked = login_of(client, server, AMQP1_KIND_LOGIN_ASKED);
    std::optional<amqp::plain> parts = asked.record.plain_parts(asked.came);
    CHECK(asked.record.mechanism_is(asked.came, "PLAIN") && asked.record.mechanism(asked.came) == amqp::bytes("PLAIN"));
    CHECK(asked.record.response(asked.came)->text() == std::string_view("\0me\0secret", 10) &&
          asked.record.host(asked.came)->text() == "host");
    CHECK(parts && parts->authorization.empty() && parts->user.text() == "me" && parts->password.text() == "secret");
    DONE(server.login(AMQP1_LOGIN_OK));
    CHECK(login_of(client, server, AMQP1_KIND_LOGGED_IN).record.kind == AMQP1_KIND_LOGGED_IN);
    CHECK(STATUS(server.login(AMQP1_LOGIN_OK)) == AMQP1_REFUSED &&
          got(server.refusal(room)).substr(0, 10) == "WrongTime\n");

    Engine outside = got(Engine::external(a_key, {}, nullptr, "", amqp::write_open("client"))),
           other = a_server<Engine>("EXTERNAL");
    asked = login_of(outside, other, AMQP1_KIND_LOGIN_ASKED);
    CHECK(asked.record.response(asked.came)->empty() && !asked.record.host(asked.came) &&
          !asked.record.plain_parts(asked.came));
    DONE(other.login(AMQP1_LOGIN_AUTH, "no"));
    heard refused = login_of(outside, other, AMQP1_KIND_NOT_OPENED);
    CHECK(refused.record.refusal == AMQP1_WHY_LOGIN_REFUSED &&
          refused.record.payload(refused.came) == amqp::bytes("no"));
    CHECK(got(outside.is_over()) && got(other.is_over()));
}

template <class Engine>
void try_challenges()
{
    Engine client = got(Engine::client_by(a_key, {}, nullptr, "ASKS", std::nullopt, amqp::write_open("client")));
    Engine server = a_server<Engine>("ASKS");
    heard asked = login_of(client, server, AMQP1_KIND_LOGIN_ASKED);
    CHECK(!asked.record.response(asked.came));
    DONE(server.challenge("who?"));
    heard challenged = login_of(client, server, AMQP1_KIND_CHALLENGED);
    CHECK(challenged.record.payload(challenged.came) == amqp::bytes("who?"));
    DONE(client.respond(std::vector<std::uint8_t>{'m', 'e'}));
    heard responded = login_of(client, server, AMQP1_KIND_RESPONDED);
    CHECK(responded.record.response(responded.came)->text() == "me");
    DONE(server.login(AMQP1_LOGIN_OK));
    CHECK(login_of(client, server, AMQP1_KIND_AMQP_HEADER).record.kind == AMQP1_KIND_AMQP_HEADER);
}

template <class Engine>
void try_time()
{
    Engine one = got(Engine::client(a_key, {1000, 50}, nullptr, nullptr, nullptr, amqp::write_open("me")));
    amqp::ticked tick = got(one.tick(1049));
    CHECK(tick.due == AMQP1_DUE_NOTHING && tick.next == 1050);
    tick = got(one.tick(1050));
    CHECK(tick.due == AMQP1_DUE_OPENING_LATE && tick.next == AMQP1_NEVER && got(one.is_over()));
    CHECK(STATUS(one.open()) == AMQP1_REFUSED);
    amqp::record records[1];
    CHECK(one.take(1051, "AMQP", records).status == AMQP1_OVER);
    faces<Engine> both;
    DONE(both.client.heard(90));
}

template <class Engine>
void try_sessions()
{
    faces<Engine> both;
    CHECK(got(both.client.state()) == AMQP1_STATE_OPENED && got(both.client.max_piece_len()) == 1020 &&
          got(both.client.unfit()) == 0);
    CHECK(found(both.server.session_of(0)) == there && !found(both.server.session_of(5)) &&
          !found(both.server.session_state(9)));
    CHECK(amqp::bytes_field(got(both.client.remote_open(room)), AMQP1_OPEN_CONTAINER_ID).text() == "server");
    CHECK(STATUS(both.client.remote_open({room, 3})) == AMQP1_TOO_SMALL);
    CHECK(STATUS(both.client.begin(here, amqp::write_begin())) == AMQP1_REFUSED);
    CHECK(got(both.client.refusal(room)).substr(0, 13) == "SessionInUse\n");
    CHECK(got(both.client.refusal_text(61, room)) == "UnattachedHandle\namqp:session:unattached-handle\nend");
    CHECK(STATUS(both.client.forget(here)) == AMQP1_REFUSED);
    CHECK(STATUS(both.client.let_go(here)) == AMQP1_REFUSED &&
          got(both.client.refusal(room)).substr(0, 9) == "NotEnded\n");
    DONE(both.client.end(here, amqp::write_error("amqp:internal-error", "it is tried")));
    heard ended = both.go().at(0);
    std::optional<amqp::bytes> why = amqp::field(ended.record.performative(ended.came), AMQP1_END_ERROR);
    CHECK(ended.record.has(AMQP1_FLAG_ERROR) &&
          amqp::bytes_field(*why, AMQP1_ERROR_CONDITION).text() == "amqp:internal-error");
    CHECK(!found(both.server.session_state(there)) && both.back().at(0).record.kind == AMQP1_KIND_ENDED);
    CHECK(STATUS(both.client.close(amqp::bytes())) == AMQP1_BAD_ARGUMENT);
    DONE(both.client.close(amqp::write_error("amqp:internal-error")));
    CHECK(std::strcmp(both.go().at(0).record.name(), "Closed") == 0 &&
          both.back().at(0).record.kind == AMQP1_KIND_CLOSED);
    CHECK(got(both.client.is_over()) && got(both.server.is_over()));
}

// The server answers by calls of its own, and the client ends, gives the channel back, and lets the session go.
template <class Engine>
void try_answers()
{
    faces<Engine> both;
    DONE(both.client.begin(here + 1, amqp::write_begin(10, 20)));
    heard wanted = both.pass(both.client, both.server, false).at(0);
    CHECK(wanted.record.kind == AMQP1_KIND_BEGIN_WANTED);
    DONE(both.server.answer_begin(wanted.record, wanted.came, there + 1, amqp::write_begin(8)));
    both.back();
    CHECK(found(both.client.session_state(here + 1)) == AMQP1_SESSION_MAPPED);
    DONE(both.client.end(here + 1));
    CHECK(both.pass(both.client, both.server, false).at(0).record.session == there + 1);
    DONE(both.server.answer_end(there + 1));
    CHECK(STATUS(both.server.answer_end(there + 1)) == AMQP1_REFUSED);
    CHECK(both.pass(both.server, both.client, false).at(0).record.kind == AMQP1_KIND_ENDED);
    DONE(both.client.release(here + 1));
    DONE(both.client.forget(here + 1));
    DONE(both.client.end(here));
    both.pass(both.client, both.server, false);
    DONE(both.server.answer_end(there, amqp::write_error("amqp:not-found")));
    CHECK(both.pass(both.server, both.client, false).at(0).record.has(AMQP1_FLAG_ERROR));
    DONE(both.client.let_go(here));
    DONE(both.client.close());
    heard closed = both.pass(both.client, both.server, false).at(0);
    CHECK(STATUS(both.server.answer(closed.record, closed.came, AMQP1_ANSWER_ENDS)) == AMQP1_NOTHING);
    DONE(both.server.answer(closed.record, closed.came, AMQP1_ANSWER_CLOSES));
}

// What one side has to send comes to the other, which follows each record: the last event of this kind.
template <class Engine>
amqp::event passed(Engine &from, Engine &to, unsigned kind)
{
    amqp::event event = {};
    amqp::record records[8];
    amqp::bytes left = from.output(room).text;
    for (bool goes_on = true; goes_on;) {
        amqp::took took = to.take(0, left, records);
        for (const amqp::record &it : took.of(records))
            if (amqp::event of = got(to.link_follow(it)); of.kind == kind)
                event = of;
        left = left.from(took.taken);
        goes_on = took.is_to_go_on();
    }
    return event;
}

// A message goes there and is settled: no memory is asked for but by the library, and the payload is read where it
// came.
template <class Engine>
void try_memory()
{
    faces<Engine> both;
    amqp::sender out = got(both.client.sender(here, "l", "q"));
    heard wanted = both.go().at(0);
    std::uint32_t handle = got(both.server.allot_on(there, wanted.record.input, AMQP1_RECEIVER, AMQP1_FIRST, "l"));
    amqp::link in =
        got(both.server.link_attach(there, amqp::write_attach("l", handle, AMQP1_RECEIVER, "q", "q"), 1, 9));
    DONE(both.server.link_respond(got(both.server.link_wanted(wanted.record, in))));
    std::size_t before = asked;
    CHECK(passed(both.server, both.client, AMQP1_EVENT_FLOW).credit == 9);
    CHECK(both.client.link_send(out, 1, "thello", 70));
    amqp::event part = passed(both.client, both.server, AMQP1_EVENT_PART);
    DONE(both.server.link_accept(part));
    amqp::event settled = passed(both.server, both.client, AMQP1_EVENT_SETTLED);
    CHECK(found(both.client.link_settled_of(settled))->given == 70 && asked == before);
}

#if AMQP1_HAS_EXCEPTIONS
// What an error says.
void try_error()
{
    faces<amqp::engine> both;
    try {
        both.client.begin(here, amqp::write_begin());
        check(false, "it throws", __FILE__, __LINE__);
    } catch (const std::exception &it) {
        const auto &of = dynamic_cast<const amqp::error &>(it);
        CHECK(of.status() == AMQP1_REFUSED && of.refusal() == "SessionInUse" && of.condition().empty() &&
              of.description().empty());
        CHECK(std::strcmp(it.what(), "amqp1_begin: REFUSED SessionInUse") == 0);
    }
    try {
        both.client.open();
        check(false, "it throws", __FILE__, __LINE__);
    } catch (const amqp::error &it) {
        amqp::error copy = it;
        CHECK(copy.refusal() == "IllegalState" && copy.condition() == "amqp:illegal-state" &&
              copy.description().empty());
        CHECK(std::strcmp(copy.what(), "amqp1_open: REFUSED IllegalState amqp:illegal-state") == 0);
    }
    amqp::error argument(both.client.place(), "amqp1_close", AMQP1_BAD_ARGUMENT);
    CHECK(argument.status() == AMQP1_BAD_ARGUMENT && argument.refusal().empty() &&
          !std::strcmp(argument.what(), "amqp1_close: BAD_ARGUMENT"));
}
#endif

} // namespace

template <class Engine>
void try_engine()
{
    try_place<Engine>();
    try_logins<Engine>();
    try_challenges<Engine>();
    try_time<Engine>();
    try_sessions<Engine>();
    try_answers<Engine>();
    try_memory<Engine>();
    try_links<Engine>();
}

int main()
{
    try_views();
    try_engine<amqp::nothrow::engine>();
#if AMQP1_HAS_EXCEPTIONS
    try_engine<amqp::engine>();
    try_error();
#endif
    std::printf("%d passed, %d failed\n", tried - wrong, wrong);
    return wrong != 0;
}
