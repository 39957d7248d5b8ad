// Writers: of performatives and errors, which lie in the values that are answered, and of messages, in the caller's
// room. For amqp1.hpp.
#ifndef AMQP1_WRITERS_HPP
#define AMQP1_WRITERS_HPP

#include "views.hpp"

namespace amqp
{

// A performative or an error that was written, with its bytes in it. Where it could not be written it has none, and no
// call takes it (AMQP1_BAD_ARGUMENT): `status` says why, AMQP1_TOO_SMALL where it needs more than Room, or
// AMQP1_BAD_ARGUMENT.
template <std::size_t Room>
class [[nodiscard]] text
{
  public:
    // Has a writer of C write it.
    template <class Writer>
    explicit text(const Writer &writer) noexcept
    {
        status_ = writer(room_, Room, &length_);
        length_ = status_ == AMQP1_DONE ? length_ : 0;
    }

    operator bytes() const noexcept { return {room_, length_}; }
    const std::uint8_t *data() const noexcept { return room_; }
    std::size_t size() const noexcept { return length_; }
    std::int32_t status() const noexcept { return status_; }
    explicit operator bool() const noexcept { return status_ == AMQP1_DONE; }

  private:
    std::uint8_t room_[Room];
    std::size_t length_ = 0;
    std::int32_t status_;
};

template <std::size_t Room = AMQP1_ON_STACK>
text<Room> write_open(cstring container_id, cstring hostname = nullptr, std::uint32_t max_frame_size = 65536,
                      std::uint16_t channel_max = 255, std::uint32_t idle_time_out = 0) noexcept
{
    return text<Room>([&](std::uint8_t *out, std::size_t room, std::size_t *length) {
        return amqp1_write_open(out, room, length, container_id.c_str(), hostname.c_str(), max_frame_size, channel_max,
                                idle_time_out);
    });
}

template <std::size_t Room = 64>
text<Room> write_begin(std::uint32_t incoming_window = 5000, std::uint32_t outgoing_window = 5000,
                       std::uint32_t handle_max = 255, std::uint32_t next_outgoing_id = 0) noexcept
{
    return text<Room>([&](std::uint8_t *out, std::size_t room, std::size_t *length) {
        return amqp1_write_begin(out, room, length, next_outgoing_id, incoming_window, outgoing_window, handle_max);
    });
}

// Of an Attach: how deliveries are settled (sender: 0 unsettled, 1 settled, 2 mixed), and a sender's
// initial-delivery-count.
struct terms {
    unsigned snd_settle_mode = 2;
    amqp1_rcv_settle_mode rcv_settle_mode = AMQP1_FIRST;
    std::uint32_t initial_delivery_count = 0;
};

template <std::size_t Room = AMQP1_ON_STACK>
text<Room> write_attach(cstring name, std::uint32_t handle, amqp1_role role, const terminus &source,
                        const terminus &target, terms by = {}) noexcept
{
    return text<Room>([&](std::uint8_t *out, std::size_t room, std::size_t *length) {
        return amqp1_write_attach_of(out, room, length, name.c_str(), handle, role, by.snd_settle_mode,
                                     by.rcv_settle_mode, &source, &target, by.initial_delivery_count);
    });
}

// The same by addresses, each null for a terminus without one.
template <std::size_t Room = AMQP1_ON_STACK>
text<Room> write_attach(cstring name, std::uint32_t handle, amqp1_role role, cstring source, cstring target,
                        terms by = {}) noexcept
{
    return write_attach<Room>(name, handle, role, terminus(source), terminus(target), by);
}

template <std::size_t Room = 64>
text<Room> write_flow(std::uint32_t handle, std::optional<std::uint32_t> delivery_count, std::uint32_t link_credit,
                      bool drain = false, bool echo = false) noexcept
{
    return text<Room>([&](std::uint8_t *out, std::size_t room, std::size_t *length) {
        return amqp1_write_flow(out, room, length, handle, delivery_count ? &*delivery_count : nullptr, link_credit,
                                drain, echo);
    });
}

// A Transfer: the tag is absent in a later transfer of a delivery.
template <std::size_t Room = 128>
text<Room> write_transfer(std::uint32_t handle, std::optional<bytes> tag, std::uint32_t message_format = 0,
                          bool settled = false, bool more = false) noexcept
{
    return text<Room>([&](std::uint8_t *out, std::size_t room, std::size_t *length) {
        return amqp1_write_transfer(out, room, length, handle, tag ? tag->data() : nullptr, tag ? tag->size() : 0,
                                    message_format, settled, more);
    });
}

template <std::size_t Room = 64>
text<Room> write_disposition(amqp1_role role, std::uint32_t first, std::uint32_t last, bool settled,
                             amqp1_outcome outcome) noexcept
{
    return text<Room>([&](std::uint8_t *out, std::size_t room, std::size_t *length) {
        return amqp1_write_disposition(out, room, length, role, first, last, settled, outcome);
    });
}

template <std::size_t Room = AMQP1_ON_STACK>
text<Room> write_detach(std::uint32_t handle, bool closed, cstring condition = nullptr,
                        cstring description = nullptr) noexcept
{
    return text<Room>([&](std::uint8_t *out, std::size_t room, std::size_t *length) {
        return amqp1_write_detach(out, room, length, handle, closed, condition.c_str(), description.c_str());
    });
}

template <std::size_t Room = AMQP1_ON_STACK>
text<Room> write_error(cstring condition, cstring description = nullptr) noexcept
{
    return text<Room>([&](std::uint8_t *out, std::size_t room, std::size_t *length) {
        return amqp1_write_error(out, room, length, condition.c_str(), description.c_str());
    });
}

// A message whose body is these bytes, in the caller's room: one data section.
[[nodiscard]] inline written write_data(span<std::uint8_t> room, bytes body) noexcept
{
    std::size_t length = 0;
    std::int32_t status = amqp1_write_data(room.data(), room.size(), &length, body.data(), body.size());
    return {status == AMQP1_DONE ? bytes(room.data(), length) : bytes(), status};
}

// Of a message's properties (AMQP 1.0 part 3, section 3.2.4) those by which a request finds its reply; each may be
// null. What is read points into the message.
struct properties {
    std::optional<bytes> message_id, to, subject, reply_to, correlation_id;
};

namespace detail
{

inline void put_string(amqp1_text *text, const std::optional<bytes> &it) noexcept
{
    if (it)
        amqp1_put_bytes(text, 0xa1, it->data(), it->size());
    else
        amqp1_put_null(text);
}

inline std::optional<bytes> text_field(bytes list, std::uint32_t place) noexcept
{
    std::optional<bytes> it = field(list, place);
    return it ? read_bytes(*it) : std::nullopt;
}

} // namespace detail

// The same with properties before it, whose ids are strings.
[[nodiscard]] inline written write_message(span<std::uint8_t> room, const properties &says, bytes body) noexcept
{
    amqp1_text text = amqp1_text_at(room.data(), room.size());
    std::size_t length = 0, list = amqp1_begin_list(&text, 0x73, 6);
    detail::put_string(&text, says.message_id);
    amqp1_put_null(&text);
    for (const auto *it : {&says.to, &says.subject, &says.reply_to, &says.correlation_id})
        detail::put_string(&text, *it);
    amqp1_end_list(&text, list);
    amqp1_put(&text, "\0\x53\x75", 3);
    amqp1_put_bytes(&text, 0xa0, body.data(), body.size());
    std::int32_t status = amqp1_written(&text, &length);
    return {status == AMQP1_DONE ? bytes(room.data(), length) : bytes(), status};
}

// The section of a message that has this descriptor: with it, and what stands behind.
inline std::optional<bytes> read_section(bytes message, std::uint64_t descriptor) noexcept
{
    while (std::size_t length = value_length(message)) {
        std::optional<described> it = read_described(message);
        if (it && it->descriptor == descriptor)
            return bytes(message.data(), length);
        message = message.from(length);
    }
    return std::nullopt;
}

// What a message's properties say; nothing, where it has none. An id that is neither text nor bytes is passed over.
inline properties read_properties(bytes message) noexcept
{
    std::optional<bytes> list = read_section(message, 0x73);
    if (!list)
        return {};
    return {detail::text_field(*list, 0), detail::text_field(*list, 2), detail::text_field(*list, 3),
            detail::text_field(*list, 4), detail::text_field(*list, 5)};
}

} // namespace amqp

#endif
