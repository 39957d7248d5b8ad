// Views: of bytes, of records and events as they lie in memory, and of what stands in them. For amqp1.hpp.
#ifndef AMQP1_VIEWS_HPP
#define AMQP1_VIEWS_HPP

#include "../amqp1.h"
#include <cstddef>
#include <cstdint>
#include <iterator>
#include <optional>
#include <string>
#include <string_view>
#include <type_traits>

namespace amqp
{

namespace detail
{

// What is pointed at where there is nothing: no call takes a null pointer.
inline constexpr std::uint8_t nowhere[1] = {0};

template <class T>
inline constexpr bool is_byte =
    std::is_same_v<T, unsigned char> || std::is_same_v<T, std::byte> || std::is_same_v<T, char>;

// What a container's elements are, where they lie one after the other.
template <class Container>
using element = std::remove_reference_t<decltype(*std::data(std::declval<Container &>()))>;

} // namespace detail

// Some of the caller's bytes: a pointer and a length. It is made of texts, and of vectors and arrays of bytes, by
// itself.
class bytes
{
  public:
    constexpr bytes() noexcept = default;

    constexpr bytes(const std::uint8_t *at, std::size_t length) noexcept
        : at_(at ? at : detail::nowhere), length_(at ? length : 0)
    {
    }

    constexpr bytes(amqp1_bytes it) noexcept : bytes(it.at, it.length) {}

    bytes(std::string_view text) noexcept : bytes(reinterpret_cast<const std::uint8_t *>(text.data()), text.size()) {}

    // A text that ends at its 0; of a null one no bytes.
    bytes(const char *text) noexcept : bytes(text ? std::string_view(text) : std::string_view()) {}

    // A vector, an array or a string. An array of `char` is a text that ends at its 0.
    template <class Container, class Of = std::remove_cv_t<detail::element<const Container>>,
              class = std::enable_if_t<detail::is_byte<Of> && !std::is_same_v<Container, bytes> &&
                                       !(std::is_array_v<Container> && std::is_same_v<Of, char>)>>
    bytes(const Container &it) noexcept : bytes(reinterpret_cast<const std::uint8_t *>(std::data(it)), std::size(it))
    {
    }

    constexpr const std::uint8_t *data() const noexcept { return at_; }
    constexpr std::size_t size() const noexcept { return length_; }
    constexpr bool empty() const noexcept { return !length_; }
    constexpr const std::uint8_t *begin() const noexcept { return at_; }
    constexpr const std::uint8_t *end() const noexcept { return at_ + length_; }
    constexpr std::uint8_t operator[](std::size_t at) const noexcept { return at_[at]; }

    // The bytes behind the first ones, of which there are so many.
    constexpr bytes from(std::size_t at) const noexcept { return bytes(at_ + at, length_ - at); }

    std::string_view text() const noexcept { return {reinterpret_cast<const char *>(at_), length_}; }
    amqp1_bytes in_c() const noexcept { return amqp1_bytes_at(at_, length_); }

    friend bool operator==(bytes one, bytes other) noexcept { return one.text() == other.text(); }
    friend bool operator!=(bytes one, bytes other) noexcept { return !(one == other); }

  private:
    const std::uint8_t *at_ = detail::nowhere;
    std::size_t length_ = 0;
};

// Some of the caller's elements, of an array or a vector: records that are written, or room for bytes.
template <class T>
class span
{
  public:
    constexpr span(T *at, std::size_t length) noexcept : at_(at), length_(length) {}

    template <class Container,
              class = std::enable_if_t<std::is_convertible_v<detail::element<Container> (*)[], T (*)[]>>>
    constexpr span(Container &it) noexcept : span(std::data(it), std::size(it))
    {
    }

    constexpr T *data() const noexcept { return at_; }
    constexpr std::size_t size() const noexcept { return length_; }
    constexpr T *begin() const noexcept { return at_; }
    constexpr T *end() const noexcept { return at_ + length_; }
    constexpr T &operator[](std::size_t at) const noexcept { return at_[at]; }

  private:
    T *at_;
    std::size_t length_;
};

// A text that ends at its 0, or none: of a `const char *`, which may be null, or of a string, which is not copied.
class cstring
{
  public:
    constexpr cstring(const char *text) noexcept : at_(text) {}
    cstring(const std::string &text) noexcept : at_(text.c_str()) {}
    constexpr const char *c_str() const noexcept { return at_; }

  private:
    const char *at_;
};

// What the three texts of a response of PLAIN are.
struct plain {
    bytes authorization, user, password;
};

// A source or a target: its fields are those of amqp1_terminus. Its texts live as long as it does.
struct terminus : amqp1_terminus {
    explicit terminus(cstring at) noexcept : amqp1_terminus(amqp1_terminus_at(at.c_str())) {}
};

// What one header, SASL frame or frame says: its fields are those of amqp1_record. `came` is what `take` was given for
// it.
struct record : amqp1_record {
    bool has(amqp1_flag flag) const noexcept { return amqp1_has(this, flag) != 0; }
    const char *name() const noexcept { return amqp1_kind_name(kind); }
    bytes performative(bytes came) const noexcept { return amqp1_performative(came.data(), this); }
    bytes payload(bytes came) const noexcept { return amqp1_payload(came.data(), this); }

    // The tag of a transfer, where it has at most 32 bytes; a longer one stands in the performative.
    bytes delivery_tag() const noexcept { return tag_size <= sizeof tag ? bytes(tag, tag_size) : bytes(); }

    bytes mechanism(bytes came) const noexcept { return amqp1_mechanism(came.data(), this); }

    bool mechanism_is(bytes came, cstring name) const noexcept
    {
        return amqp1_mechanism_is(came.data(), this, name.c_str()) != 0;
    }

    std::optional<bytes> response(bytes came) const noexcept
    {
        amqp1_bytes it;
        return amqp1_response(came.data(), this, &it) ? std::optional<bytes>(it) : std::nullopt;
    }

    std::optional<bytes> host(bytes came) const noexcept
    {
        amqp1_bytes it;
        return amqp1_host(came.data(), this, &it) ? std::optional<bytes>(it) : std::nullopt;
    }

    std::optional<plain> plain_parts(bytes came) const noexcept
    {
        amqp1_bytes acts, user, word;
        return amqp1_plain_parts(came.data(), this, &acts, &user, &word) ? std::optional<plain>({acts, user, word})
                                                                         : std::nullopt;
    }
};

// A link of a session, by this side's handle: a small value, which owns nothing. What it can do stands in the engine.
struct link {
    std::uint32_t session = AMQP1_NONE;
    std::uint32_t handle = AMQP1_NONE;

    friend constexpr bool operator==(link one, link other) noexcept
    {
        return one.session == other.session && one.handle == other.handle;
    }
    friend constexpr bool operator!=(link one, link other) noexcept { return !(one == other); }
};

// A link on which this side sends, and one on which it receives.
struct sender : link {
};
struct receiver : link {
};

// What a record is to the links of its session: its fields are those of amqp1_event.
struct event : amqp1_event {
    bool has(amqp1_event_flag flag) const noexcept { return (flags & static_cast<unsigned>(flag)) != 0; }
    amqp::link of() const noexcept { return {session, link}; }
};

// What became of a transfer on a link: its fields are those of amqp1_told. Where it does not hold, `refusal` says why,
// or `status`.
struct told : amqp1_told {
    std::int32_t status;
    explicit operator bool() const noexcept { return status == AMQP1_DONE; }
};

// What `take` took: its fields are those of amqp1_took, and why it stopped.
struct took : amqp1_took {
    std::int32_t status;

    // The records that were written.
    span<const record> of(span<record> records) const noexcept { return {records.data(), written}; }

    // Whether the rest is to be given again at once, now that the records are read.
    bool is_to_go_on() const noexcept { return status == AMQP1_AGAIN || status == AMQP1_FULL; }
};

// What `send` took: its fields are those of amqp1_went, and why it stopped.
struct went : amqp1_went {
    std::int32_t status;
};

// Bytes that were written to the room that was given, and the status: those that wait, which are to be sent whatever
// that is.
struct written {
    bytes text;
    std::int32_t status;
    explicit operator bool() const noexcept { return status == AMQP1_DONE; }
};

using head = amqp1_head;
using parts = amqp1_parts;
using sent = amqp1_sent;
using ticked = amqp1_ticked;
using unsettled = amqp1_unsettled;

static_assert(sizeof(record) == sizeof(amqp1_record) && std::is_standard_layout_v<record>);
static_assert(sizeof(event) == sizeof(amqp1_event) && std::is_trivially_copyable_v<event>);

// ---- what stands in bytes. Each reader copies nothing, and answers none where the bytes are no such thing.

// A described value: its descriptor, and the value behind it.
struct described {
    std::uint64_t descriptor;
    bytes value;
};

inline std::optional<bytes> field(bytes list, std::uint32_t place) noexcept
{
    amqp1_bytes it;
    return amqp1_field(list.in_c(), place, &it) ? std::optional<bytes>(it) : std::nullopt;
}

inline std::uint64_t number_field(bytes list, std::uint32_t place, std::uint64_t absent = 0) noexcept
{
    return amqp1_number_field(list.in_c(), place, absent);
}

inline bool boolean_field(bytes list, std::uint32_t place) noexcept
{
    return amqp1_boolean_field(list.in_c(), place) != 0;
}

inline bytes bytes_field(bytes list, std::uint32_t place) noexcept { return amqp1_bytes_field(list.in_c(), place); }

inline std::size_t value_length(bytes from) noexcept { return amqp1_value_length(from.in_c()); }

inline std::optional<std::uint64_t> read_number(bytes value) noexcept
{
    std::uint64_t it;
    return amqp1_read_number(value.in_c(), &it) ? std::optional<std::uint64_t>(it) : std::nullopt;
}

inline std::optional<bool> read_boolean(bytes value) noexcept
{
    int it;
    return amqp1_read_boolean(value.in_c(), &it) ? std::optional<bool>(it != 0) : std::nullopt;
}

inline std::optional<bytes> read_bytes(bytes value) noexcept
{
    amqp1_bytes it;
    return amqp1_read_bytes(value.in_c(), &it) ? std::optional<bytes>(it) : std::nullopt;
}

inline std::optional<described> read_described(bytes from) noexcept
{
    std::uint64_t code;
    amqp1_bytes it;
    return amqp1_read_described(from.in_c(), &code, &it) ? std::optional<described>({code, it}) : std::nullopt;
}

inline std::optional<bytes> read_data(bytes message) noexcept
{
    amqp1_bytes it;
    return amqp1_read_data(message.in_c(), &it) ? std::optional<bytes>(it) : std::nullopt;
}

inline std::uint64_t frame_code(bytes frame) noexcept { return amqp1_frame_code(frame.in_c()); }

// The lines of whole frames; where they do not fit the room, none, and TOO_SMALL.
inline written trace(cstring word, bytes frames, span<std::uint8_t> room) noexcept
{
    char *out = reinterpret_cast<char *>(room.data());
    std::size_t length = amqp1_trace(word.c_str(), frames.data(), frames.size(), out, room.size());
    return length > room.size() ? written{bytes(), AMQP1_TOO_SMALL} : written{bytes(room.data(), length), AMQP1_DONE};
}

} // namespace amqp

#endif
