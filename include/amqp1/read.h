/* Readers of what records point to: the fields of performatives, and a message's sections. For amqp1.h.

   A reader looks at bytes and copies none: what it gives points into them. The performative of a record was read by the
   engine before, so it is well formed, but where the record is of AMQP1_KIND_REFUSED; a payload is what the peer sent.
   Each reader takes any bytes, and answers 0 where they are no such thing. */
#ifndef AMQP1_READ_H
#define AMQP1_READ_H

#if defined(__cplusplus) && defined(__GNUC__)
#pragma GCC system_header
#endif

#include "calls.h"

#ifdef __cplusplus
extern "C" {
#endif

/* Some bytes. */
typedef struct amqp1_bytes {
    const uint8_t *at;
    size_t length;
} amqp1_bytes;

/* Bytes from a place on. */
AMQP1_FUNCTION amqp1_bytes amqp1_bytes_at(const uint8_t *at, size_t length)
{
    amqp1_bytes bytes;
    bytes.at = at;
    bytes.length = length;
    return bytes;
}

/* The performative of a record, in the input of the call that wrote the record. */
AMQP1_FUNCTION amqp1_bytes amqp1_performative(const uint8_t *input, const amqp1_record *record)
{
    return amqp1_bytes_at(input + record->at, record->size);
}

/* The payload of a record, there too: of no bytes where it has none. */
AMQP1_FUNCTION amqp1_bytes amqp1_payload(const uint8_t *input, const amqp1_record *record)
{
    return amqp1_bytes_at(record->payload_at == AMQP1_NONE ? input : input + record->payload_at, record->payload);
}

/* The mechanism of a record of AMQP1_KIND_LOGIN_ASKED, or of AMQP1_WHY_NOT_OFFERED. */
AMQP1_FUNCTION amqp1_bytes amqp1_mechanism(const uint8_t *input, const amqp1_record *record)
{
    return amqp1_bytes_at(input + record->first, record->last);
}

/* Whether it is the one of this name. */
AMQP1_FUNCTION int amqp1_mechanism_is(const uint8_t *input, const amqp1_record *record, const char *name)
{
    size_t length = strlen(name);
    return record->last == length && !memcmp(input + record->first, name, length);
}

/* The initial response of a record of AMQP1_KIND_LOGIN_ASKED, or the response of AMQP1_KIND_RESPONDED. 0 where there is
   none. */
AMQP1_FUNCTION int amqp1_response(const uint8_t *input, const amqp1_record *record, amqp1_bytes *response)
{
    *response = amqp1_payload(input, record);
    return record->payload_at != AMQP1_NONE;
}

/* The host that the client of AMQP1_KIND_LOGIN_ASKED asks for. 0 where it asks for none. */
AMQP1_FUNCTION int amqp1_host(const uint8_t *input, const amqp1_record *record, amqp1_bytes *host)
{
    *host = amqp1_bytes_at(record->count == AMQP1_NONE ? input : input + record->count, record->credit);
    return record->count != AMQP1_NONE;
}

/* The three texts of a response of PLAIN (RFC 4616): as whom the client wants to act, which is empty where that is the
   user; the user; and the password. They may be empty, and are any bytes but 0. 0 where it is no such response: it has
   not exactly two bytes 0. */
AMQP1_FUNCTION int amqp1_plain_parts(const uint8_t *input, const amqp1_record *record, amqp1_bytes *authorization,
                                     amqp1_bytes *user, amqp1_bytes *password)
{
    amqp1_bytes all = amqp1_payload(input, record);
    const uint8_t *first, *second, *end = all.at + all.length;
    first = all.length ? (const uint8_t *)memchr(all.at, 0, all.length) : NULL;
    second = first && first + 1 < end ? (const uint8_t *)memchr(first + 1, 0, (size_t)(end - first - 1)) : NULL;
    if (!second || (second + 1 < end && memchr(second + 1, 0, (size_t)(end - second - 1))))
        return 0;
    *authorization = amqp1_bytes_at(all.at, (size_t)(first - all.at));
    *user = amqp1_bytes_at(first + 1, (size_t)(second - first - 1));
    *password = amqp1_bytes_at(second + 1, (size_t)(end - second - 1));
    return 1;
}

/* Whether a record has a flag. */
AMQP1_FUNCTION int amqp1_has(const amqp1_record *record, enum amqp1_flag flag)
{
    return (record->flags & (unsigned)flag) != 0;
}

/* The name of a record's kind, as "Transfer"; "unknown" of one that is not named here. */
AMQP1_FUNCTION const char *amqp1_kind_name(unsigned kind)
{
    static const char *const names[] = { "unknown",     "Opened",     "Begun",      "Attached",   "AttachWanted",
           "Flow",       "Transfer",
                                         "Disposition", "Detached",   "Ended",      "Closed",     "Refused",
                                                     "BeginWanted", "SaslHeader",
                                         "AmqpHeader",  "MechanismChosen", "LoginAsked", "Challenged", "Responded",
                                             "LoggedIn",   "NotOpened" };
    return kind < sizeof names / sizeof *names ? names[kind] : names[0];
}

/* How many of the bytes a value takes without its descriptor, by its code; 0 where there are too few. For use within
   this header. */
AMQP1_FUNCTION size_t amqp1_plain_length(amqp1_bytes from)
{
    static const uint8_t fixed[6] = { 0, 1, 2, 4, 8, 16 };
    unsigned kind;
    uint64_t length;
    if (!from.length)
        return 0;
    kind = from.at[0] >> 4;
    if (kind < 4)
        return 0;
    if (kind < 10)
        length = 1 + (uint64_t)fixed[kind - 4];
    else if (kind % 2 == 0)
        length = from.length < 2 ? 0 : 2 + (uint64_t)from.at[1];
    else
        length = from.length < 5 ? 0 : 5 + (uint64_t)amqp1_u32_of(from.at + 1);
    return length <= from.length ? (size_t)length : 0;
}

/* How many of the bytes the first value takes, with its descriptor if it has one; 0 where they begin with none. */
AMQP1_FUNCTION size_t amqp1_value_length(amqp1_bytes from)
{
    size_t descriptor, value;
    if (!from.length || from.at[0] != 0)
        return amqp1_plain_length(from);
    descriptor = amqp1_plain_length(amqp1_bytes_at(from.at + 1, from.length - 1));
    if (!descriptor)
        return 0;
    value = amqp1_plain_length(amqp1_bytes_at(from.at + 1 + descriptor, from.length - 1 - descriptor));
    return value ? 1 + descriptor + value : 0;
}

/* An unsigned number (ubyte, ushort, uint, ulong). */
AMQP1_FUNCTION int amqp1_read_number(amqp1_bytes value, uint64_t *number)
{
    size_t at, length = amqp1_plain_length(value);
    unsigned code = length ? value.at[0] : 0;
    if (code != 0x43 && code != 0x44 && code != 0x50 && code != 0x52 && code != 0x53 && code != 0x60 && code != 0x70
        && code != 0x80)
        return 0;
    for (at = 1, *number = 0; at < length; at++)
        *number = *number << 8 | value.at[at];
    return 1;
}

/* A boolean. */
AMQP1_FUNCTION int amqp1_read_boolean(amqp1_bytes value, int *is_true)
{
    if (value.length && (value.at[0] == 0x41 || value.at[0] == 0x42))
        *is_true = value.at[0] == 0x41;
    else if (value.length > 1 && value.at[0] == 0x56)
        *is_true = value.at[1] != 0;
    else
        return 0;
    return 1;
}

/* What a string, a symbol or a binary holds. */
AMQP1_FUNCTION int amqp1_read_bytes(amqp1_bytes value, amqp1_bytes *inside)
{
    size_t length = amqp1_plain_length(value);
    unsigned code = length ? value.at[0] : 0, skipped = code < 0xb0 ? 2 : 5;
    if (code != 0xa0 && code != 0xb0 && code != 0xa1 && code != 0xb1 && code != 0xa3 && code != 0xb3)
        return 0;
    *inside = amqp1_bytes_at(value.at + skipped, length - skipped);
    return 1;
}

/* The descriptor of a described value, as a number, and the value after it. */
AMQP1_FUNCTION int amqp1_read_described(amqp1_bytes from, uint64_t *descriptor, amqp1_bytes *value)
{
    size_t length;
    if (!from.length || from.at[0] != 0)
        return 0;
    from = amqp1_bytes_at(from.at + 1, from.length - 1);
    length = amqp1_plain_length(from);
    if (!length || !amqp1_read_number(from, descriptor))
        return 0;
    *value = amqp1_bytes_at(from.at + length, from.length - length);
    return amqp1_plain_length(*value) != 0;
}

/* The fields of a list, and how many there are. For use within this header. */
AMQP1_FUNCTION int amqp1_list_of(amqp1_bytes list, amqp1_bytes *fields, uint32_t *count)
{
    size_t length = amqp1_plain_length(list);
    unsigned code = length ? list.at[0] : 0, head = code == 0xc0 ? 3 : 9;
    if (code == 0x45) {
        *fields = amqp1_bytes_at(list.at + 1, 0);
        *count = 0;
        return 1;
    }
    if ((code != 0xc0 && code != 0xd0) || length < head)
        return 0;
    *count = code == 0xc0 ? list.at[2] : amqp1_u32_of(list.at + 5);
    *fields = amqp1_bytes_at(list.at + head, length - head);
    return 1;
}

/* The field at a place, counted from 0, of a performative or another described list. 0 where it is absent, which gives
   no bytes, or null. */
AMQP1_FUNCTION int amqp1_field(amqp1_bytes described, uint32_t place, amqp1_bytes *field)
{
    uint64_t descriptor;
    amqp1_bytes list, fields;
    uint32_t count;
    size_t length;
    *field = amqp1_bytes_at(described.at, 0);
    if (!amqp1_read_described(described, &descriptor, &list) || !amqp1_list_of(list, &fields, &count) || place >= count)
        return 0;
    for (;; place--) {
        length = amqp1_value_length(fields);
        if (!length)
            return 0;
        if (!place)
            break;
        fields = amqp1_bytes_at(fields.at + length, fields.length - length);
    }
    *field = amqp1_bytes_at(fields.at, length);
    return fields.at[0] != 0x40;
}

/* The same as a number; `absent` where there is none. */
AMQP1_FUNCTION uint64_t amqp1_number_field(amqp1_bytes described, uint32_t place, uint64_t absent)
{
    amqp1_bytes field;
    uint64_t number = 0;
    return amqp1_field(described, place, &field) && amqp1_read_number(field, &number) ? number : absent;
}

/* The same as a boolean; 0 where there is none. */
AMQP1_FUNCTION int amqp1_boolean_field(amqp1_bytes described, uint32_t place)
{
    amqp1_bytes field;
    int is_true = 0;
    return amqp1_field(described, place, &field) && amqp1_read_boolean(field, &is_true) && is_true;
}

/* The same as the bytes of a string, a symbol or a binary; of no bytes where there is none. */
AMQP1_FUNCTION amqp1_bytes amqp1_bytes_field(amqp1_bytes described, uint32_t place)
{
    amqp1_bytes field, inside;
    return amqp1_field(described, place, &field)
        && amqp1_read_bytes(field, &inside) ? inside : amqp1_bytes_at(described.at, 0);
}

/* The numbers by which performatives are described, and their fields' places (AMQP 1.0 part 2, section 2.7; part 3,
   section 3.5). */
enum amqp1_places {
    AMQP1_OPEN_CODE = 0x10,
    AMQP1_OPEN_CONTAINER_ID = 0,
    AMQP1_OPEN_HOSTNAME = 1,
    AMQP1_OPEN_MAX_FRAME_SIZE = 2,
    AMQP1_OPEN_CHANNEL_MAX = 3,
    AMQP1_OPEN_IDLE_TIME_OUT = 4,
    AMQP1_BEGIN_CODE = 0x11,
    AMQP1_BEGIN_REMOTE_CHANNEL = 0,
    AMQP1_BEGIN_HANDLE_MAX = 4,
    AMQP1_ATTACH_CODE = 0x12,
    AMQP1_ATTACH_NAME = 0,
    AMQP1_ATTACH_HANDLE = 1,
    AMQP1_ATTACH_ROLE = 2,
    AMQP1_ATTACH_SND_SETTLE_MODE = 3,
    AMQP1_ATTACH_RCV_SETTLE_MODE = 4,
    AMQP1_ATTACH_SOURCE = 5,
    AMQP1_ATTACH_TARGET = 6,
    AMQP1_ATTACH_INITIAL_DELIVERY_COUNT = 9,
    AMQP1_ATTACH_MAX_MESSAGE_SIZE = 10,
    AMQP1_TERMINUS_ADDRESS = 0,
    AMQP1_FLOW_CODE = 0x13,
    AMQP1_FLOW_HANDLE = 4,
    AMQP1_FLOW_DELIVERY_COUNT = 5,
    AMQP1_FLOW_LINK_CREDIT = 6,
    AMQP1_FLOW_AVAILABLE = 7,
    AMQP1_FLOW_DRAIN = 8,
    AMQP1_FLOW_ECHO = 9,
    AMQP1_TRANSFER_CODE = 0x14,
    AMQP1_TRANSFER_DELIVERY_ID = 1,
    AMQP1_TRANSFER_DELIVERY_TAG = 2,
    AMQP1_TRANSFER_MESSAGE_FORMAT = 3,
    AMQP1_TRANSFER_SETTLED = 4,
    AMQP1_TRANSFER_MORE = 5,
    AMQP1_TRANSFER_STATE = 7,
    AMQP1_TRANSFER_ABORTED = 9,
    AMQP1_DISPOSITION_CODE = 0x15,
    AMQP1_DISPOSITION_STATE = 4,
    AMQP1_DETACH_CODE = 0x16,
    AMQP1_DETACH_CLOSED = 1,
    AMQP1_DETACH_ERROR = 2,
    AMQP1_END_CODE = 0x17,
    AMQP1_END_ERROR = 0,
    AMQP1_CLOSE_CODE = 0x18,
    AMQP1_CLOSE_ERROR = 0,
    AMQP1_ERROR_CONDITION = 0,
    AMQP1_ERROR_DESCRIPTION = 1
};

/* The number by which the performative of a frame is described. The frame has its size and its header. 0 of an empty
   frame, and of none. */
AMQP1_FUNCTION uint64_t amqp1_frame_code(amqp1_bytes frame)
{
    uint64_t code = 0;
    amqp1_bytes value;
    size_t head = frame.length < 8 ? 0 : 4 * (size_t)frame.at[4];
    if (head < 8 || head > frame.length
        || !amqp1_read_described(amqp1_bytes_at(frame.at + head, frame.length - head), &code, &value))
        return 0;
    return code;
}

/* How many of the received bytes are whole frames, up to and with the first Begin or Attach; all of the bytes where no
   such frame stands in them. amqp1_take stops there by itself (AMQP1_AGAIN), where the program is to answer. */
AMQP1_FUNCTION size_t amqp1_up_to_wanted(const uint8_t *input, size_t length)
{
    size_t at = 0;
    while (length - at >= 8) {
        uint64_t code;
        size_t size = amqp1_u32_of(input + at);
        if (size < 8 || size > length - at)
            return length;
        code = amqp1_frame_code(amqp1_bytes_at(input + at, size));
        at += size;
        if (code == AMQP1_BEGIN_CODE || code == AMQP1_ATTACH_CODE)
            return at;
    }
    return length;
}

/* The bytes of a message's first data section (AMQP 1.0 part 3, section 3.2.6). 0 where it has none, or is no
   message. */
AMQP1_FUNCTION int amqp1_read_data(amqp1_bytes message, amqp1_bytes *data)
{
    while (message.length) {
        uint64_t descriptor;
        amqp1_bytes value;
        size_t length = amqp1_value_length(message);
        if (!length || !amqp1_read_described(message, &descriptor, &value))
            return 0;
        if (descriptor == 0x75)
            return amqp1_read_bytes(value, data);
        message = amqp1_bytes_at(message.at + length, message.length - length);
    }
    return 0;
}

#ifdef __cplusplus
}
#endif
#endif
