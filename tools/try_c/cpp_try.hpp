// What the tests of amqp1.hpp share: checks that count, calls in both ways of telling errors, and two engines face to
// face. See amqp1_try.sh.
#ifndef CPP_TRY_HPP
#define CPP_TRY_HPP

#include <amqp1.hpp>
#include <cstdio>
#include <cstring>
#include <vector>

extern int tried, wrong;

// Counts a check, and tells one that is wrong.
void check(bool holds, const char *said, const char *file, int line);
#define CHECK(x) check((x) ? true : false, #x, __FILE__, __LINE__)

constexpr amqp::key a_key = {1, 2, 3};
constexpr std::uint32_t here = 7, there = 3;

// What a call answers, in either way: its value; whether it was done, and had something to do; and its status.
template <class T>
T got(T it)
{
    return it;
}

template <class T>
T got(amqp::result<T> it)
{
    CHECK(!it.failed());
    return std::move(it.value);
}

// A value or none, in either way.
template <class T>
std::optional<T> found(std::optional<T> it)
{
    return it;
}

template <class T>
std::optional<T> found(amqp::result<T> it)
{
    CHECK(!it.failed() && it.failed() == (it.status != AMQP1_DONE && it.status != AMQP1_NOTHING));
    return it ? std::optional<T>(it.value) : std::nullopt;
}

template <class T>
std::int32_t status_in(const amqp::result<T> &it)
{
    return it.status;
}

template <class T>
std::int32_t status_in(const std::optional<T> &it)
{
    return it ? AMQP1_DONE : AMQP1_NOTHING;
}

// Of any other value: it was done.
template <class T>
std::int32_t status_in(const T &)
{
    return AMQP1_DONE;
}

template <class Call>
std::int32_t quiet_status(const Call &call)
{
    using answer = decltype(call());
    if constexpr (std::is_void_v<answer>)
        call();
    else if constexpr (std::is_same_v<answer, bool>)
        return call() ? AMQP1_DONE : AMQP1_NOTHING;
    else
        return status_in(call());
    return AMQP1_DONE;
}

template <class Call>
std::int32_t status_of(const Call &call)
{
#if AMQP1_HAS_EXCEPTIONS
    try {
        return quiet_status(call);
    } catch (const amqp::error &it) {
        return it.status();
    }
#else
    return quiet_status(call);
#endif
}

#define STATUS(x) status_of([&] { return x; })
#define DONE(x) CHECK(STATUS(x) == AMQP1_DONE)

// A record, with the bytes in which its frame stands.
struct heard {
    amqp::record record;
    std::vector<std::uint8_t> came;
    amqp::event event;
};

// A client's engine and a server's, each with one session, `here` and `there`.
template <class Engine>
struct faces {
    Engine client, server;

    faces()
        : client(got(Engine::plain(a_key, amqp::write_open("client", nullptr, 1024, 9)))),
          server(got(Engine::plain(a_key, amqp::write_open("server", nullptr, 1024, 9))))
    {
        DONE(client.open());
        DONE(server.open());
        exchange();
        DONE(client.begin(here, amqp::write_begin()));
        exchange();
        CHECK(found(client.session_state(here)) == AMQP1_SESSION_MAPPED);
    }

    void exchange()
    {
        for (int round = 0; round < 4; round++) {
            go();
            back();
        }
    }

    std::vector<heard> go() { return pass(client, server); }
    std::vector<heard> back() { return pass(server, client); }

    // What one side has to send comes to the other, which tells it to its links, and answers what is to be answered.
    static std::vector<heard> pass(Engine &from, Engine &to, bool follows = true)
    {
        std::vector<std::uint8_t> came;
        std::uint8_t room[300];
        for (auto it = from.output(room); it && it.text.size(); it = from.output(room))
            came.insert(came.end(), it.text.begin(), it.text.end());
        std::vector<heard> all;
        for (bool goes_on = true; goes_on;) {
            amqp::record records[2];
            amqp::took took = to.take(0, came, records);
            for (const amqp::record &it : took.of(records))
                all.push_back({it, came, follows ? told(to, it, came) : amqp::event{}});
            came.erase(came.begin(), came.begin() + static_cast<std::ptrdiff_t>(took.taken));
            goes_on = took.is_to_go_on();
        }
        CHECK(came.empty());
        return all;
    }

    static amqp::event told(Engine &to, const amqp::record &it, amqp::bytes came)
    {
        amqp::event event = got(to.link_follow(it));
        (void)STATUS(to.answer(it, came, AMQP1_ANSWER_ALL, there));
        return event;
    }
};

// The tests, in either way.
template <class Engine>
void try_links();
template <class Engine>
void try_engine();
void try_views();

#endif
