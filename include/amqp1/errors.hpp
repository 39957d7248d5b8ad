// How it is told that a call was not done: by an exception, or by a status. For amqp1.hpp.
#ifndef AMQP1_ERRORS_HPP
#define AMQP1_ERRORS_HPP

#include "views.hpp"
#include <exception>
#include <utility>

#if defined(__cpp_exceptions) || defined(_CPPUNWIND)
#define AMQP1_HAS_EXCEPTIONS 1
#else
#define AMQP1_HAS_EXCEPTIONS 0
#endif

namespace amqp
{

// The status of a call and, where it was done, its value. It holds where the call was done, and there was something to
// do: a status of AMQP1_NOTHING is no error.
template <class T>
struct [[nodiscard]] result {
    std::int32_t status;
    T value;
    explicit operator bool() const noexcept { return status == AMQP1_DONE; }
    bool failed() const noexcept { return status != AMQP1_DONE && status != AMQP1_NOTHING; }
};

template <>
struct [[nodiscard]] result<void> {
    std::int32_t status;
    explicit operator bool() const noexcept { return status == AMQP1_DONE; }
    bool failed() const noexcept { return status != AMQP1_DONE && status != AMQP1_NOTHING; }
};

// By a status: what the calls of an amqp::nothrow::engine answer.
struct by_status {
    static constexpr bool is_quiet = true;
    template <class T>
    using given = result<T>;
    template <class T>
    using maybe = result<T>;
    using done = result<void>;
    using whether = result<void>;

    static done end(amqp1 *, const char *, std::int32_t status) noexcept { return {status}; }
    static whether ask(amqp1 *, const char *, std::int32_t status) noexcept { return {status}; }

    template <class T>
    static result<T> give(amqp1 *, const char *, std::int32_t status, T &&value) noexcept
    {
        return {status, std::move(value)};
    }

    template <class T>
    static result<T> find(amqp1 *, const char *, std::int32_t status, T &&value) noexcept
    {
        return {status, std::move(value)};
    }
};

#if AMQP1_HAS_EXCEPTIONS

// A call that was not done. Of a refusal the three lines of amqp1_refusal are kept, where they have at most 480 bytes.
class error : public std::exception
{
  public:
    error(amqp1 *place, const char *call, std::int32_t status) noexcept : status_(status)
    {
        std::size_t length = put(put(put(0, call), ": "), amqp1_status_name(status));
        if (status == AMQP1_REFUSED || status == AMQP1_NOT_RELEASED || status == AMQP1_NOT_FORGOTTEN)
            refuse(place, length);
    }

    // An amqp1_status.
    std::int32_t status() const noexcept { return status_; }

    // The refusal's name, as "SessionInUse"; the AMQP error condition; and a description. Each may be empty.
    std::string_view refusal() const noexcept { return line(0); }
    std::string_view condition() const noexcept { return line(1); }
    std::string_view description() const noexcept { return line(2); }

    // The C function that was called, the status, and what a refusal says, in one line.
    const char *what() const noexcept override { return text_; }

  private:
    // Puts a text, as far as there is room: where it ends.
    std::size_t put(std::size_t at, std::string_view text) noexcept
    {
        at += text.copy(text_ + at, sizeof text_ - 1 - at);
        text_[at] = 0;
        return at;
    }

    // Reads the refusal: one that is longer than the room is not told.
    void refuse(amqp1 *place, std::size_t at) noexcept
    {
        std::uint8_t room[480];
        std::size_t length = 0;
        if (amqp1_refusal(place, room, sizeof room, &length) == AMQP1_DONE)
            keep(at, bytes(room, length).text());
    }

    void keep(std::size_t at, std::string_view lines) noexcept
    {
        for (int n = 0; n < 3; n++) {
            std::string_view it = n < 2 ? lines.substr(0, lines.find('\n')) : lines;
            lines.remove_prefix(it.size() < lines.size() ? it.size() + 1 : lines.size());
            line_[n] = it.empty() ? at : put(at, " ");
            at = put(line_[n], it);
            length_[n] = at - line_[n];
        }
    }

    std::string_view line(int n) const noexcept { return {text_ + line_[n], length_[n]}; }

    std::int32_t status_;
    std::size_t line_[3] = {}, length_[3] = {};
    char text_[560];
};

// By an exception: the calls of an amqp::engine answer their value, and throw an error where they were not done.
struct by_exception {
    static constexpr bool is_quiet = false;
    template <class T>
    using given = T;
    template <class T>
    using maybe = std::optional<T>;
    using done = void;
    using whether = bool;

    static void end(amqp1 *place, const char *call, std::int32_t status)
    {
        if (status != AMQP1_DONE)
            throw error(place, call, status);
    }

    static bool ask(amqp1 *place, const char *call, std::int32_t status)
    {
        if (status != AMQP1_NOTHING)
            end(place, call, status);
        return status == AMQP1_DONE;
    }

    template <class T>
    static T give(amqp1 *place, const char *call, std::int32_t status, T &&value)
    {
        end(place, call, status);
        return std::move(value);
    }

    template <class T>
    static std::optional<T> find(amqp1 *place, const char *call, std::int32_t status, T &&value)
    {
        return ask(place, call, status) ? std::optional<T>(std::move(value)) : std::nullopt;
    }
};

#endif

} // namespace amqp

#endif
