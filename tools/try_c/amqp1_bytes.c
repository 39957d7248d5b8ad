/* Bytes as hexadecimal, a key and heads, for the tests of libamqp1. */
#include "amqp1_try.h"

const uint8_t key[16] = { 1, 2, 3 };

static unsigned digit(char it)
{
    return it <= '9' ? (unsigned)(it - '0') : (unsigned)(it - 'a' + 10);
}

/* Sets the size after which this place is. */
static void sized(uint8_t *out, size_t start, size_t length)
{
    if (start & 1)
        out[start / 2 - 1] = (uint8_t)(length - start / 2);
    else
        amqp1_u32_at(out + start / 2 - 4, (uint32_t)(length - start / 2 + 4));
}

size_t bytes_of(const char *digits, uint8_t *out, size_t room)
{
    size_t length = 0, open[16], depth = 0;
    for (; *digits && *digits != '\n' && length + 4 < room; digits++) {
        if (*digits == '[' || *digits == '(') {
            length += *digits == '[' ? 4 : 1;
            open[depth++] = length * 2 + (*digits == '(');
        } else if (*digits == ']' || *digits == ')') {
            sized(out, open[--depth], length);
        } else if (*digits != ' ') {
            out[length++] = (uint8_t)(digit(digits[0]) << 4 | digit(digits[1]));
            digits++;
        }
    }
    return length;
}

int are(const uint8_t *bytes, size_t length, const char *digits)
{
    static uint8_t wanted[1 << 16];
    size_t at, count = bytes_of(digits, wanted, sizeof wanted);
    if (count == length && !memcmp(bytes, wanted, length))
        return 1;
    printf("  wanted %s\n  is     ", digits);
    for (at = 0; at < length; at++)
        printf("%02x", (unsigned)bytes[at]);
    printf("\n");
    return 0;
}

int is(amqp1_bytes bytes, const char *digits)
{
    return are(bytes.at, bytes.length, digits);
}

amqp1_head head_of(uint32_t session, uint32_t link, uint16_t flags, uint16_t tag_size, uint32_t payload)
{
    amqp1_head head;
    head.session = session;
    head.link = link;
    head.format = 0;
    head.payload = payload;
    head.flags = flags;
    head.tag_size = tag_size;
    return head;
}
