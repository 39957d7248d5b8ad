/* How an operation is asked by amqp1_call, for the headers beside this. */
#ifndef AMQP1_ASKING_H
#define AMQP1_ASKING_H

#if defined(__cplusplus) && defined(__GNUC__)
#pragma GCC system_header
#endif

#include "exports.h"
#include <stdlib.h>
#include <string.h>

#ifdef __cplusplus
extern "C" {
#endif

/* An input is put together on the stack up to this many bytes, and beyond that in memory from AMQP1_MALLOC, which is
   given back before the call ends. Where that memory is refused the function answers AMQP1_NO_MEMORY, and the engine
   was not called. Who wants no such memory puts the input together in a buffer of its own, and calls amqp1_call. Each
   of the three may be defined before this header is included. */
#ifndef AMQP1_ON_STACK
#define AMQP1_ON_STACK 512
#endif
#ifndef AMQP1_MALLOC
#define AMQP1_MALLOC malloc
#define AMQP1_FREE_MEMORY free
#endif

/* gcc warns of a text on a small buffer that it would be too long for the buffer where it is longer than
   AMQP1_ON_STACK. */
#if defined(__GNUC__) && !defined(__clang__) && __GNUC__ >= 11
#define AMQP1_GCC_WARNS
#pragma GCC diagnostic push
#pragma GCC diagnostic ignored "-Warray-bounds"
#pragma GCC diagnostic ignored "-Wstringop-overread"
#endif

/* An operation whose input is `head`, then `body`, then `rest`. Of what is NULL there is nothing, whatever its length
   says. For use within these headers. */
AMQP1_FUNCTION int32_t amqp1_join_and_call(amqp1 *place, uint32_t operation, const uint8_t *head, size_t head_length,
                                           const uint8_t *body, size_t body_length, const uint8_t *rest,
                                           size_t rest_length, uint8_t *output, size_t room, size_t *written)
{
    uint8_t small[AMQP1_ON_STACK], none[1] = { 0 };
    uint8_t *input = small;
    size_t length;
    int32_t status;
    small[0] = 0;
    head_length = head ? head_length : 0;
    body_length = body ? body_length : 0;
    rest_length = rest ? rest_length : 0;
    length = head_length + body_length;
    if (length < head_length || length + rest_length < length)
        return AMQP1_NO_MEMORY;
    length += rest_length;
    if (length > sizeof small && !(input = (uint8_t *)AMQP1_MALLOC(length)))
        return AMQP1_NO_MEMORY;
    if (head_length)
        memcpy(input, head, head_length);
    if (body_length)
        memcpy(input + head_length, body, body_length);
    if (rest_length)
        memcpy(input + head_length + body_length, rest, rest_length);
    status = amqp1_call(place, operation, input, length, room ? output : none, room, written);
    if (input != small)
        AMQP1_FREE_MEMORY(input);
    return status;
}

#ifdef AMQP1_GCC_WARNS
#pragma GCC diagnostic pop
#endif

/* The same where nothing is written. For use within these headers. */
AMQP1_FUNCTION int32_t amqp1_join_and_ask(amqp1 *place, uint32_t operation, const uint8_t *head, size_t head_length,
                                          const uint8_t *body, size_t body_length, const uint8_t *rest,
                                          size_t rest_length)
{
    size_t written = 0;
    return amqp1_join_and_call(place, operation, head, head_length, body, body_length, rest, rest_length, NULL, 0,
                               &written);
}

/* Writes a number in network order; the place after it. For use within these headers. */
AMQP1_FUNCTION uint8_t *amqp1_u32_at(uint8_t *at, uint32_t number)
{
    at[0] = (uint8_t)(number >> 24);
    at[1] = (uint8_t)(number >> 16);
    at[2] = (uint8_t)(number >> 8);
    at[3] = (uint8_t)number;
    return at + 4;
}

/* A number that one byte is to say: of one that it cannot say 255, which no operation takes. For use within these
   headers. */
AMQP1_FUNCTION uint8_t amqp1_u8_of(int number)
{
    return number < 0 || number > 255 ? 255 : (uint8_t)number;
}

/* Reads a number in network order. For use within these headers. */
AMQP1_FUNCTION uint32_t amqp1_u32_of(const uint8_t *at)
{
    return (uint32_t)at[0] << 24 | (uint32_t)at[1] << 16 | (uint32_t)at[2] << 8 | (uint32_t)at[3];
}

/* An operation with no input. For use within these headers. */
AMQP1_FUNCTION int32_t amqp1_ask_alone(amqp1 *place, uint32_t operation, uint8_t *output, size_t room, size_t *written)
{
    *written = 0;
    return amqp1_join_and_call(place, operation, NULL, 0, NULL, 0, NULL, 0, output, room, written);
}

/* An operation on a session. For use within these headers. */
AMQP1_FUNCTION int32_t amqp1_of_session(amqp1 *place, uint32_t operation, uint32_t session, const uint8_t *body,
                                        size_t length)
{
    uint8_t head[4];
    amqp1_u32_at(head, session);
    return amqp1_join_and_ask(place, operation, head, sizeof head, body, length, NULL, 0);
}

/* The operation's answer as a number in network order; 1 where there is one. For use within these headers. */
AMQP1_FUNCTION int32_t amqp1_ask_number(amqp1 *place, uint32_t operation, const uint8_t *input, size_t length,
                                        uint64_t *number, int *is_there)
{
    uint8_t output[8];
    size_t written = 0, at;
    int32_t status =
        amqp1_join_and_call(place, operation, input, length, NULL, 0, NULL, 0, output, sizeof output, &written);
    *is_there = status == AMQP1_DONE && written > 0;
    for (at = 0, *number = 0; *is_there && at < written && at < sizeof output; at++)
        *number = *number << 8 | output[at];
    return status;
}

#ifdef __cplusplus
}
#endif
#endif
