/* A trace: frames as lines of text, which a program may print or keep. For amqp1.h. */
#ifndef AMQP1_TRACE_H
#define AMQP1_TRACE_H

#if defined(__cplusplus) && defined(__GNUC__)
#pragma GCC system_header
#endif

#include "calls.h"

#ifdef __cplusplus
extern "C" {
#endif

/* Writes a line for each whole frame at the front of these bytes, as amqp_replay reads and prints lines: `word`, which
   is "recv" for what came and "out" for what goes, a space, the frame without its size in hexadecimal digits, and a
   line feed. Give it the bytes that amqp1_take took, or that amqp1_output gave. How many bytes the lines have; no line
   is written that does not fit, and no 0 at the end. Of the first line that does not fit nothing is written, and of
   none after it: then the answer is over `room`. */
AMQP1_FUNCTION size_t amqp1_trace(const char *word, const uint8_t *bytes, size_t length, char *text, size_t room)
{
    static const char digits[] = "0123456789abcdef";
    size_t written = 0, word_length = strlen(word);
    while (length >= 4) {
        size_t size = amqp1_u32_of(bytes), needed, at;
        if (size < 4 || size > length)
            return written;
        needed = word_length + 2 + 2 * (size - 4);
        if (needed > room - written)
            return room + 1;
        memcpy(text + written, word, word_length);
        text[written + word_length] = ' ';
        for (at = 0; at < size - 4; at++) {
            text[written + word_length + 1 + 2 * at] = digits[bytes[4 + at] >> 4];
            text[written + word_length + 2 + 2 * at] = digits[bytes[4 + at] & 15];
        }
        text[written + needed - 1] = '\n';
        written += needed;
        bytes += size;
        length -= size;
    }
    return written;
}

#ifdef __cplusplus
}
#endif
#endif
