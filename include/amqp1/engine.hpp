// One side of a connection: the stream, its login, its sessions, and frames. For amqp1.hpp.
#ifndef AMQP1_ENGINE_HPP
#define AMQP1_ENGINE_HPP

#include "errors.hpp"

namespace amqp
{

// What an amqp::engine has but for links: see links.hpp. It is moved and never copied, and frees its engine. One that
// is made without arguments, or was moved from, has none: its calls answer AMQP1_NO_ENGINE. Calls on one engine come
// one at a time.
//
// By Errors a call tells that it was not done. What it answers is a value (`given`), a value or none (`maybe`), or
// whether there was something to do (`whether`). Each member is the call of C that has its name.
template <class Errors>
class basic_connection
{
  protected:
    template <class T>
    using given = typename Errors::template given<T>;
    template <class T>
    using maybe = typename Errors::template maybe<T>;
    using done = typename Errors::done;
    using whether = typename Errors::whether;
    static constexpr bool is_quiet = Errors::is_quiet;

  public:
    basic_connection() noexcept = default;
    basic_connection(basic_connection &&other) noexcept : place_(std::exchange(other.place_, amqp1 AMQP1_EMPTY)) {}

    basic_connection &operator=(basic_connection &&other) noexcept
    {
        if (this != &other) {
            amqp1_free(&place_);
            place_ = std::exchange(other.place_, amqp1 AMQP1_EMPTY);
        }
        return *this;
    }

    ~basic_connection() { amqp1_free(&place_); }

    // Whether an engine lies there.
    explicit operator bool() const noexcept { return place_.full != 0; }

    // The place, for a call of C.
    amqp1 *place() noexcept { return &place_; }

    // The version of the library, as AMQP1_VERSION_NUMBER is written.
    static std::uint32_t version() noexcept { return amqp1_version(); }

    // ---- the stream

    // Takes what came, and writes records. It throws in no case: `status` says why it stopped, and what was taken is to
    // be read.
    [[nodiscard]] took take(std::uint64_t now, bytes came, span<record> records) noexcept
    {
        took it = {};
        it.status = amqp1_take(&place_, now, came.data(), came.size(), records.data(), records.size(), &it);
        return it;
    }

    done heard(std::uint64_t now) noexcept(is_quiet) { return end_of("amqp1_heard", amqp1_heard(&place_, now)); }

    given<ticked> tick(std::uint64_t now) noexcept(is_quiet)
    {
        ticked it = {};
        std::int32_t status = amqp1_tick(&place_, now, &it);
        return give_of("amqp1_tick", status, it);
    }

    // Takes bytes that wait off, into this room: its `text` is to be sent whatever the status, and is empty where none
    // waits.
    [[nodiscard]] written output(span<std::uint8_t> room) noexcept
    {
        std::size_t length = 0;
        std::int32_t status = amqp1_output(&place_, room.data(), room.size(), &length);
        return {bytes(room.data(), length), status};
    }

    // Gives what a record asks for, of these answers: whether it asks for one. `came` is what `take` was given for it.
    whether answer(const record &of, bytes came, int answers = AMQP1_ANSWER_ALL,
                   std::uint32_t number = 0) noexcept(is_quiet)
    {
        auto flags = static_cast<std::uint16_t>(answers);
        return ask_of("amqp1_answer", amqp1_answer(&place_, &of, came.data(), came.size(), flags, number));
    }

    // A server's answer to a client that asks to be let in, with additional data or without.
    done login(amqp1_login_code code) noexcept(is_quiet) { return end_of("amqp1_login", amqp1_login(&place_, code)); }

    done login(amqp1_login_code code, bytes additional) noexcept(is_quiet)
    {
        return end_of("amqp1_login_with", amqp1_login_with(&place_, code, additional.data(), additional.size()));
    }

    done challenge(bytes said) noexcept(is_quiet)
    {
        return end_of("amqp1_challenge", amqp1_challenge(&place_, said.data(), said.size()));
    }

    done respond(bytes response) noexcept(is_quiet)
    {
        return end_of("amqp1_respond", amqp1_respond(&place_, response.data(), response.size()));
    }

    // ---- the connection and its sessions. `why` is an error, as write_error gives it.

    done open() noexcept(is_quiet) { return end_of("amqp1_open", amqp1_open(&place_)); }
    done close() noexcept(is_quiet) { return end_of("amqp1_close", amqp1_close(&place_, nullptr, 0)); }
    done close(bytes why) noexcept(is_quiet)
    {
        return end_of("amqp1_close", amqp1_close(&place_, why.data(), why.size()));
    }

    done begin(std::uint32_t session, bytes perf) noexcept(is_quiet)
    {
        return end_of("amqp1_begin", amqp1_begin(&place_, session, perf.data(), perf.size()));
    }

    done end(std::uint32_t session) noexcept(is_quiet)
    {
        return end_of("amqp1_end", amqp1_end(&place_, session, nullptr, 0));
    }

    done end(std::uint32_t session, bytes why) noexcept(is_quiet)
    {
        return end_of("amqp1_end", amqp1_end(&place_, session, why.data(), why.size()));
    }

    done release(std::uint32_t session) noexcept(is_quiet)
    {
        return end_of("amqp1_release", amqp1_release(&place_, session));
    }
    done forget(std::uint32_t session) noexcept(is_quiet)
    {
        return end_of("amqp1_forget", amqp1_forget(&place_, session));
    }
    done let_go(std::uint32_t session) noexcept(is_quiet)
    {
        return end_of("amqp1_let_go", amqp1_let_go(&place_, session));
    }

    done answer_begin(const record &of, bytes came, std::uint32_t session, bytes perf) noexcept(is_quiet)
    {
        std::int32_t status = amqp1_answer_begin(&place_, &of, came.data(), session, perf.data(), perf.size());
        return end_of("amqp1_answer_begin", status);
    }

    done answer_end(std::uint32_t session) noexcept(is_quiet)
    {
        return end_of("amqp1_answer_end", amqp1_answer_end(&place_, session, nullptr, 0));
    }

    done answer_end(std::uint32_t session, bytes why) noexcept(is_quiet)
    {
        return end_of("amqp1_answer_end", amqp1_answer_end(&place_, session, why.data(), why.size()));
    }

    // ---- what is so

    [[nodiscard]] given<bool> is_over() noexcept(is_quiet)
    {
        int it = 0;
        std::int32_t status = amqp1_is_over(&place_, &it);
        return give_of("amqp1_is_over", status, it != 0);
    }

    [[nodiscard]] given<amqp1_connection_state> state() noexcept(is_quiet)
    {
        std::uint32_t it = 0;
        std::int32_t status = amqp1_state(&place_, &it);
        return give_of("amqp1_state", status, static_cast<amqp1_connection_state>(it));
    }

    [[nodiscard]] maybe<amqp1_session_state_of> session_state(std::uint32_t session) noexcept(is_quiet)
    {
        std::uint32_t it = 0;
        int is_there = 0;
        std::int32_t status = amqp1_session_state(&place_, session, &it, &is_there);
        return find_of("amqp1_session_state", status, is_there, static_cast<amqp1_session_state_of>(it));
    }

    // The session to which a channel of the peer's leads.
    [[nodiscard]] maybe<std::uint32_t> session_of(std::uint16_t channel) noexcept(is_quiet)
    {
        std::uint32_t it = 0;
        int leads = 0;
        std::int32_t status = amqp1_session_of(&place_, channel, &it, &leads);
        return find_of("amqp1_session_of", status, leads, it);
    }

    [[nodiscard]] given<std::uint32_t> max_piece_len() noexcept(is_quiet)
    {
        std::uint32_t it = 0;
        std::int32_t status = amqp1_max_piece_len(&place_, &it);
        return give_of("amqp1_max_piece_len", status, it);
    }

    // How long a payload goes out in one frame beside this Transfer, where that fits itself.
    [[nodiscard]] maybe<std::uint32_t> payload_room(bytes perf) noexcept(is_quiet)
    {
        std::uint32_t it = 0;
        int fits = 0;
        std::int32_t status = amqp1_payload_room(&place_, perf.data(), perf.size(), &it, &fits);
        return find_of("amqp1_payload_room", status, fits, it);
    }

    [[nodiscard]] given<std::uint32_t> unfit() noexcept(is_quiet)
    {
        std::uint32_t it = 0;
        std::int32_t status = amqp1_unfit(&place_, &it);
        return give_of("amqp1_unfit", status, it);
    }

    // The last refusal, in this room: three lines, its name, the condition, and a description.
    [[nodiscard]] given<std::string_view> refusal(span<std::uint8_t> room) noexcept(is_quiet)
    {
        std::size_t length = 0;
        std::int32_t status = amqp1_refusal(&place_, room.data(), room.size(), &length);
        return give_of("amqp1_refusal", status, text_of(room, status, length));
    }

    // The text of a refusal by its number, in this room: its name, the condition, and how it is answered.
    [[nodiscard]] given<std::string_view> refusal_text(std::uint32_t number, span<std::uint8_t> room) noexcept(is_quiet)
    {
        std::size_t length = 0;
        std::int32_t status = amqp1_refusal_text(&place_, number, room.data(), room.size(), &length);
        return give_of("amqp1_refusal_text", status, text_of(room, status, length));
    }

    // PERF of the peer's Open, in this room: as many bytes as this side's max-frame-size are enough. Of no bytes where
    // none came.
    [[nodiscard]] given<bytes> remote_open(span<std::uint8_t> room) noexcept(is_quiet)
    {
        std::size_t length = 0;
        std::int32_t status = amqp1_remote_open(&place_, room.data(), room.size(), &length);
        return give_of("amqp1_remote_open", status, bytes(text_of(room, status, length)));
    }

    // ---- frames, by calls that know nothing of credit

    // A handle of this side's, for a link of this name.
    [[nodiscard]] given<std::uint32_t> allot(std::uint32_t session, amqp1_role role, amqp1_rcv_settle_mode mode,
                                             cstring name) noexcept(is_quiet)
    {
        std::uint32_t handle = AMQP1_NONE;
        std::int32_t status = amqp1_link(&place_, session, role, mode, name.c_str(), &handle);
        return give_of("amqp1_link", status, handle);
    }

    // The same for a link whose Attach came first: `input_handle` is that of the record.
    [[nodiscard]] given<std::uint32_t> allot_on(std::uint32_t session, std::uint32_t input_handle, amqp1_role role,
                                                amqp1_rcv_settle_mode mode, cstring name) noexcept(is_quiet)
    {
        std::uint32_t handle = AMQP1_NONE;
        std::int32_t status = amqp1_link_on(&place_, session, input_handle, role, mode, name.c_str(), &handle);
        return give_of("amqp1_link_on", status, handle);
    }

    done attach(std::uint32_t session, bytes perf) noexcept(is_quiet)
    {
        return end_of("amqp1_attach", amqp1_attach(&place_, session, perf.data(), perf.size()));
    }

    // `awaited`: the peer is to answer it.
    done detach(std::uint32_t session, bool awaited, bytes perf) noexcept(is_quiet)
    {
        return end_of("amqp1_detach", amqp1_detach(&place_, session, awaited, perf.data(), perf.size()));
    }

    done flow(std::uint32_t session, bytes perf) noexcept(is_quiet)
    {
        return end_of("amqp1_flow", amqp1_flow(&place_, session, perf.data(), perf.size()));
    }

    // `first`: it is the first transfer of its delivery.
    done transfer(std::uint32_t session, bool first, bytes perf, bytes payload) noexcept(is_quiet)
    {
        std::int32_t status =
            amqp1_transfer(&place_, session, first, perf.data(), perf.size(), payload.data(), payload.size());
        return end_of("amqp1_transfer", status);
    }

    done disposition(std::uint32_t session, bytes perf) noexcept(is_quiet)
    {
        return end_of("amqp1_disposition", amqp1_disposition(&place_, session, perf.data(), perf.size()));
    }

    done dispose(std::uint32_t session, amqp1_role role, std::uint32_t first, std::uint32_t last, bool settled,
                 amqp1_outcome outcome) noexcept(is_quiet)
    {
        return end_of("amqp1_dispose", amqp1_dispose(&place_, session, role, first, last, settled, outcome));
    }

    done settle(std::uint32_t session, amqp1_role role, std::uint32_t first, std::uint32_t last) noexcept(is_quiet)
    {
        return end_of("amqp1_settle", amqp1_settle(&place_, session, role, first, last));
    }

    // Sends transfers: in `from` stand tag and payload of each. It throws in no case, as `take`.
    [[nodiscard]] went send(span<const head> heads, bytes from, span<sent> became) noexcept
    {
        went it = {};
        it.status = amqp1_send(&place_, heads.data(), heads.size(), from.data(), from.size(), became.data(),
                               became.size(), &it);
        return it;
    }

    // Cuts the head of a transfer that is longer than a frame; `from` begins with its tag.
    [[nodiscard]] given<parts> cut(const head &of, bytes from) noexcept(is_quiet)
    {
        parts it = {};
        std::int32_t status = amqp1_cut(&place_, &of, from.data(), from.size(), &it);
        return give_of("amqp1_cut", status, it);
    }

  protected:
    done end_of(const char *call, std::int32_t status) noexcept(is_quiet) { return Errors::end(&place_, call, status); }
    whether ask_of(const char *call, std::int32_t status) noexcept(is_quiet)
    {
        return Errors::ask(&place_, call, status);
    }

    template <class T>
    given<T> give_of(const char *call, std::int32_t status, T value) noexcept(is_quiet)
    {
        return Errors::give(&place_, call, status, std::move(value));
    }

    template <class T>
    maybe<T> find_of(const char *call, std::int32_t status, int is_there, T value) noexcept(is_quiet)
    {
        return Errors::find(&place_, call, status == AMQP1_DONE && !is_there ? AMQP1_NOTHING : status,
                            std::move(value));
    }

    amqp1 place_ = AMQP1_EMPTY;

  private:
    static std::string_view text_of(span<std::uint8_t> room, std::int32_t status, std::size_t length) noexcept
    {
        return bytes(room.data(), status == AMQP1_DONE ? length : 0).text();
    }
};

} // namespace amqp

#endif
