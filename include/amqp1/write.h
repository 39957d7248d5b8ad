/* Writers of performatives with their usual fields, of errors and of a message's body. For amqp1.h.

   Each amqp1_write_ function writes to `out`, which has `room` bytes, touches none past them, and answers a status:
   - AMQP1_DONE: it was written, and `written` says how many bytes it has.
   - AMQP1_TOO_SMALL: it does not fit, and `written` says how many bytes it needs, which are more than `room`. What
     stands in `out` then is of no use: give it to no call.
   - AMQP1_BAD_ARGUMENT: it cannot be written in any room, and `written` is 0. Each writer says of which arguments that
     is so; of each that takes texts it is so too where they are longer than four bytes of size can say.

   100 bytes are room enough beside the texts that are given. Who needs other fields writes the bytes by itself. Texts
   end at their 0; a null text is an absent field, where it may be absent. Lists are written with four-byte sizes; the
   engine sends each performative in its shortest spelling. */
#ifndef AMQP1_WRITE_H
#define AMQP1_WRITE_H

#if defined(__cplusplus) && defined(__GNUC__)
#pragma GCC system_header
#endif

#include "read.h"

/* What a writer answers is to be looked at: but for AMQP1_DONE its bytes are of no use, and they may be more than there
   is room for. Who does not look is warned by gcc and clang. */
#if defined(__GNUC__)
#define AMQP1_CHECKED __attribute__((warn_unused_result))
#else
#define AMQP1_CHECKED
#endif

#ifdef __cplusplus
extern "C" {
#endif

/* Bytes that are being written, and how many there are; the room is 0 once some did not fit, and `is_bad` 1 once one of
   them had no form. For use within this header and by wrappers for other languages, as all that takes one. */
typedef struct amqp1_text {
    uint8_t *at;
    size_t room, length;
    int is_bad;
} amqp1_text;

AMQP1_FUNCTION void amqp1_put(amqp1_text *text, const void *bytes, size_t length)
{
    if (length && text->length <= text->room && length <= text->room - text->length)
        memcpy(text->at + text->length, bytes, length);
    else if (length)
        text->room = 0;
    text->length += length;
}

AMQP1_FUNCTION void amqp1_put_byte(amqp1_text *text, unsigned byte)
{
    uint8_t it = (uint8_t)byte;
    amqp1_put(text, &it, 1);
}

AMQP1_FUNCTION void amqp1_put_number(amqp1_text *text, uint32_t number)
{
    uint8_t it[4];
    amqp1_u32_at(it, number);
    amqp1_put(text, it, sizeof it);
}

AMQP1_FUNCTION void amqp1_put_null(amqp1_text *text)
{
    amqp1_put_byte(text, 0x40);
}

AMQP1_FUNCTION void amqp1_put_boolean(amqp1_text *text, int is_true)
{
    amqp1_put_byte(text, is_true ? 0x41 : 0x42);
}

AMQP1_FUNCTION void amqp1_put_ubyte(amqp1_text *text, unsigned number)
{
    amqp1_put_byte(text, 0x50);
    amqp1_put_byte(text, number);
}

AMQP1_FUNCTION void amqp1_put_ushort(amqp1_text *text, uint16_t number)
{
    amqp1_put_byte(text, 0x60);
    amqp1_put_byte(text, number >> 8);
    amqp1_put_byte(text, number & 0xff);
}

AMQP1_FUNCTION void amqp1_put_uint(amqp1_text *text, uint32_t number)
{
    amqp1_put_byte(text, 0x70);
    amqp1_put_number(text, number);
}

/* Bytes of a kind of which `code` says that the size has one byte, and code + 16 four: binary a0, string a1, symbol a3.
   More than four bytes of size can say have no form. */
AMQP1_FUNCTION void amqp1_put_bytes(amqp1_text *text, unsigned code, const void *bytes, size_t length)
{
    if (length > UINT32_MAX) {
        text->is_bad = 1;
        return;
    }
    amqp1_put_byte(text, length < 256 ? code : code + 0x10);
    if (length < 256)
        amqp1_put_byte(text, (unsigned)length);
    else
        amqp1_put_number(text, (uint32_t)length);
    amqp1_put(text, bytes, length);
}

AMQP1_FUNCTION void amqp1_put_string(amqp1_text *text, const char *string)
{
    if (string)
        amqp1_put_bytes(text, 0xa1, string, strlen(string));
    else
        amqp1_put_null(text);
}

/* A symbol, which has to be there. */
AMQP1_FUNCTION void amqp1_put_symbol(amqp1_text *text, const char *symbol)
{
    if (symbol)
        amqp1_put_bytes(text, 0xa3, symbol, strlen(symbol));
    else
        text->is_bad = 1;
}

/* Begins a described list of so many fields; amqp1_end_list, given what this answers, sets its size. A list that is
   longer than four bytes of size can say has no form. */
AMQP1_FUNCTION size_t amqp1_begin_list(amqp1_text *text, unsigned descriptor, uint32_t fields)
{
    size_t at;
    amqp1_put_byte(text, 0x00);
    amqp1_put_byte(text, 0x53);
    amqp1_put_byte(text, descriptor);
    amqp1_put_byte(text, 0xd0);
    at = text->length;
    amqp1_put_number(text, 0);
    amqp1_put_number(text, fields);
    return at;
}

AMQP1_FUNCTION void amqp1_end_list(amqp1_text *text, size_t at)
{
    size_t size = text->length - at - 4;
    if (size > UINT32_MAX)
        text->is_bad = 1;
    else if (text->length <= text->room)
        amqp1_u32_at(text->at + at, (uint32_t)size);
}

/* What became of the text: the status and `written`, as a writer answers them. */
AMQP1_FUNCTION AMQP1_CHECKED int32_t amqp1_written(const amqp1_text *text, size_t *written)
{
    *written = text->is_bad ? 0 : text->length;
    if (text->is_bad)
        return AMQP1_BAD_ARGUMENT;
    return text->length <= text->room ? AMQP1_DONE : AMQP1_TOO_SMALL;
}

AMQP1_FUNCTION amqp1_text amqp1_text_at(uint8_t *out, size_t room)
{
    amqp1_text text;
    text.at = out;
    text.room = room;
    text.length = 0;
    text.is_bad = 0;
    return text;
}

AMQP1_FUNCTION void amqp1_put_error(amqp1_text *text, const char *condition, const char *description)
{
    size_t list = amqp1_begin_list(text, 0x1d, 2);
    amqp1_put_symbol(text, condition);
    amqp1_put_string(text, description);
    amqp1_end_list(text, list);
}

/* An error: its condition, as "amqp:internal-error", and what it says to people, or NULL (AMQP 1.0 part 2, section
   2.8.14). DONE or TOO_SMALL; BAD_ARGUMENT without a condition. */
AMQP1_FUNCTION AMQP1_CHECKED int32_t amqp1_write_error(uint8_t *out, size_t room, size_t *written,
                                                       const char *condition, const char *description)
{
    amqp1_text text = amqp1_text_at(out, room);
    amqp1_put_error(&text, condition, description);
    return amqp1_written(&text, written);
}

/* An Open: `hostname` may be NULL. Frames of up to `max_frame_size` bytes, sizes included, are taken (at least 512),
   and channels up to `channel_max`. `idle_time_out` is in milliseconds, 0 for none: the transport has to keep it. DONE
   or TOO_SMALL; BAD_ARGUMENT where `container_id` is NULL. */
AMQP1_FUNCTION AMQP1_CHECKED int32_t amqp1_write_open(uint8_t *out, size_t room, size_t *written,
                                                      const char *container_id, const char *hostname,
                                                      uint32_t max_frame_size, uint16_t channel_max,
                                                      uint32_t idle_time_out)
{
    amqp1_text text = amqp1_text_at(out, room);
    size_t list = amqp1_begin_list(&text, 0x10, idle_time_out ? 5 : 4);
    text.is_bad = !container_id;
    amqp1_put_string(&text, container_id);
    amqp1_put_string(&text, hostname);
    amqp1_put_uint(&text, max_frame_size);
    amqp1_put_ushort(&text, channel_max);
    if (idle_time_out)
        amqp1_put_uint(&text, idle_time_out);
    amqp1_end_list(&text, list);
    return amqp1_written(&text, written);
}

/* A Begin: the number of the first transfer that goes out, how many transfers may come before the engine grants more,
   how many this side sends before it waits, and the highest handle that the peer may use. DONE or TOO_SMALL. */
AMQP1_FUNCTION AMQP1_CHECKED int32_t amqp1_write_begin(uint8_t *out, size_t room, size_t *written,
                                                       uint32_t next_outgoing_id, uint32_t incoming_window,
                                                       uint32_t outgoing_window, uint32_t handle_max)
{
    amqp1_text text = amqp1_text_at(out, room);
    size_t list = amqp1_begin_list(&text, 0x11, 5);
    amqp1_put_null(&text);
    amqp1_put_uint(&text, next_outgoing_id);
    amqp1_put_uint(&text, incoming_window);
    amqp1_put_uint(&text, outgoing_window);
    amqp1_put_uint(&text, handle_max);
    amqp1_end_list(&text, list);
    return amqp1_written(&text, written);
}

/* A Flow of a link on an output handle: its delivery count (NULL where a receiver does not know it yet), its credit,
   whether the sender is to use it up (`drain`), and whether a flow is wanted in answer (`echo`). The numbers of the
   session are the engine's. DONE or TOO_SMALL. */
AMQP1_FUNCTION AMQP1_CHECKED int32_t amqp1_write_flow(uint8_t *out, size_t room, size_t *written, uint32_t handle,
                                                      const uint32_t *delivery_count, uint32_t link_credit, int drain,
                                                      int echo)
{
    amqp1_text text = amqp1_text_at(out, room);
    size_t list = amqp1_begin_list(&text, 0x13, 10);
    amqp1_put_null(&text);
    amqp1_put_uint(&text, 0);
    amqp1_put_uint(&text, 0);
    amqp1_put_uint(&text, 0);
    amqp1_put_uint(&text, handle);
    if (delivery_count)
        amqp1_put_uint(&text, *delivery_count);
    else
        amqp1_put_null(&text);
    amqp1_put_uint(&text, link_credit);
    amqp1_put_null(&text);
    amqp1_put_boolean(&text, drain);
    amqp1_put_boolean(&text, echo);
    amqp1_end_list(&text, list);
    return amqp1_written(&text, written);
}

/* A Transfer on an output handle: the delivery's tag of up to 32 bytes (NULL in a later transfer of a delivery), its
   message format, whether it is settled, and whether more transfers of the delivery follow. DONE or TOO_SMALL;
   BAD_ARGUMENT of a tag that four bytes of size cannot say. */
AMQP1_FUNCTION AMQP1_CHECKED int32_t amqp1_write_transfer(uint8_t *out, size_t room, size_t *written, uint32_t handle,
                                                          const void *tag, size_t tag_length, uint32_t message_format,
                                                          int settled, int more)
{
    amqp1_text text = amqp1_text_at(out, room);
    size_t list = amqp1_begin_list(&text, 0x14, 6);
    amqp1_put_uint(&text, handle);
    amqp1_put_null(&text);
    if (tag)
        amqp1_put_bytes(&text, 0xa0, tag, tag_length);
    else
        amqp1_put_null(&text);
    if (tag)
        amqp1_put_uint(&text, message_format);
    else
        amqp1_put_null(&text);
    amqp1_put_boolean(&text, settled);
    amqp1_put_boolean(&text, more);
    amqp1_end_list(&text, list);
    return amqp1_written(&text, written);
}

/* A state without fields (AMQP 1.0 part 3, section 3.4). For use within this header and by wrappers. */
AMQP1_FUNCTION void amqp1_put_outcome(amqp1_text *text, enum amqp1_outcome outcome)
{
    amqp1_put_byte(text, 0x00);
    amqp1_put_byte(text, 0x53);
    amqp1_put_byte(text, 0x23u + (unsigned)outcome);
    amqp1_put_byte(text, 0x45);
}

/* A Disposition of the deliveries from `first` to `last`, in which this side stands on the end `role`: whether it
   settles them, and their state: NO_STATE, ACCEPTED, REJECTED, RELEASED or MODIFIED, without fields. DONE or TOO_SMALL;
   BAD_ARGUMENT of any other state, and of a role that is none. */
AMQP1_FUNCTION AMQP1_CHECKED int32_t amqp1_write_disposition(uint8_t *out, size_t room, size_t *written,
                                                             enum amqp1_role role, uint32_t first, uint32_t last,
                                                             int settled, enum amqp1_outcome outcome)
{
    amqp1_text text = amqp1_text_at(out, room);
    size_t list = amqp1_begin_list(&text, 0x15, 5);
    text.is_bad = (unsigned)role > (unsigned)AMQP1_RECEIVER || (unsigned)outcome > (unsigned)AMQP1_MODIFIED;
    amqp1_put_boolean(&text, role == AMQP1_RECEIVER);
    amqp1_put_uint(&text, first);
    amqp1_put_uint(&text, last);
    amqp1_put_boolean(&text, settled);
    if (outcome == AMQP1_NO_STATE)
        amqp1_put_null(&text);
    else
        amqp1_put_outcome(&text, outcome);
    amqp1_end_list(&text, list);
    return amqp1_written(&text, written);
}

/* A Detach on an output handle: whether the link is closed, and why, as a condition and a description, or NULL. DONE or
   TOO_SMALL; BAD_ARGUMENT of a description without a condition. */
AMQP1_FUNCTION AMQP1_CHECKED int32_t amqp1_write_detach(uint8_t *out, size_t room, size_t *written, uint32_t handle,
                                                        int closed, const char *condition, const char *description)
{
    amqp1_text text = amqp1_text_at(out, room);
    size_t list = amqp1_begin_list(&text, 0x16, condition ? 3 : 2);
    text.is_bad = description && !condition;
    amqp1_put_uint(&text, handle);
    amqp1_put_boolean(&text, closed);
    if (condition)
        amqp1_put_error(&text, condition, description);
    amqp1_end_list(&text, list);
    return amqp1_written(&text, written);
}

/* A message whose body is these bytes: one data section (AMQP 1.0 part 3, section 3.2.6). DONE or TOO_SMALL;
   BAD_ARGUMENT of more bytes than four bytes of size can say. */
AMQP1_FUNCTION AMQP1_CHECKED int32_t amqp1_write_data(uint8_t *out, size_t room, size_t *written, const void *bytes,
                                                      size_t length)
{
    amqp1_text text = amqp1_text_at(out, room);
    amqp1_put_byte(&text, 0x00);
    amqp1_put_byte(&text, 0x53);
    amqp1_put_byte(&text, 0x75);
    amqp1_put_bytes(&text, 0xa0, bytes, length);
    return amqp1_written(&text, written);
}

/* A server's answer to a session that the peer begins (section 2.5.1), by hand: amqp1_answer_begin does it in one call.
   The engine refuses a Begin that answers none (AMQP1_KIND_BEGIN_WANTED, by AMQP1_WHY_BEGIN_WANTED). So the server
   begins a session of its own for it, and turns the two: the frame of its own Begin, which amqp1_output gave, goes out
   with the peer's channel in it, and the frame of the peer's Begin goes in by amqp1_take once more, with the channel of
   its own.

   Writes the frame of a Begin, with its size and its header, as the answer to the one on the channel `remote_channel`.
   0 where the bytes are no such frame, where the Begin answers one already, or where it is more than `room`. It gains
   at most 18 bytes. */
AMQP1_FUNCTION size_t amqp1_turn_begin(uint8_t *out, size_t room, amqp1_bytes frame, uint16_t remote_channel)
{
    amqp1_text text = amqp1_text_at(out, room);
    amqp1_bytes list, fields;
    uint64_t code;
    uint32_t count;
    size_t written, at, head = frame.length < 8 ? 0 : 4 * (size_t)frame.at[4];
    if (amqp1_frame_code(frame) != AMQP1_BEGIN_CODE || amqp1_u32_of(frame.at) != frame.length)
        return 0;
    if (!amqp1_read_described(amqp1_bytes_at(frame.at + head, frame.length - head), &code, &list)
        || !amqp1_list_of(list, &fields, &count) ||
        !count || !fields.length || fields.at[0] != 0x40)
        return 0;
    amqp1_put_number(&text, 0);
    amqp1_put(&text, "\2", 2);
    amqp1_put(&text, frame.at + 6, 2);
    at = amqp1_begin_list(&text, AMQP1_BEGIN_CODE, count);
    amqp1_put_ushort(&text, remote_channel);
    amqp1_put(&text, fields.at + 1, fields.length - 1);
    amqp1_end_list(&text, at);
    if (amqp1_written(&text, &written) != AMQP1_DONE)
        return 0;
    amqp1_u32_at(out, (uint32_t)written);
    return written;
}

#ifdef __cplusplus
}
#endif
#endif
