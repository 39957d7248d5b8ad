/* For amqp1_recorded.c: the protocol headers and the login of a connection that was recorded from its first byte on. */
#ifndef AMQP1_OPENINGS_H
#define AMQP1_OPENINGS_H

#include "amqp1_try.h"

/* What a client that asks to be let in is answered. */
static enum amqp1_login_code login_code;

/* Writes a space and bytes as hexadecimal: `.` of none, and `-` where they are not there. How many characters. */
static size_t digits_of(int is_there, amqp1_bytes bytes, char *out, size_t room)
{
    size_t at, length = (size_t)snprintf(out, room, !is_there ? " -" : bytes.length ? " " : " .");
    EACH(!is_there || 2 * bytes.length + 3 < room);
    for (at = 0; is_there && at < bytes.length && length + 3 < room; at++)
        length += (size_t)snprintf(out + length, room - length, "%02x", (unsigned)bytes.at[at]);
    return length;
}

/* A client asks to be let in, and is answered: its mechanism, its response and its host. */
static size_t asked_told(amqp1 *engine, const amqp1_record *record, const uint8_t *input, char *out, size_t room)
{
    amqp1_bytes by = amqp1_mechanism(input, record), response, host;
    int is_said = amqp1_response(input, record, &response), is_asked = amqp1_host(input, record, &host);
    size_t length = (size_t)snprintf(out, room, " %.*s", (int)by.length, (const char *)by.at);
    length += digits_of(is_said, response, out + length, room - length);
    length += digits_of(is_asked, host, out + length, room - length);
    EACH(amqp1_login(engine, login_code) == AMQP1_DONE);
    return length;
}

/* A header or a frame of SASL is told as a line: what it is, and what it says of a login. How many characters. */
static size_t opening_told(amqp1 *engine, const amqp1_record *record, const uint8_t *input, char *out, size_t room)
{
    amqp1_bytes said;
    int is_said = amqp1_response(input, record, &said);
    size_t length = (size_t)snprintf(out, room, "0 %s", amqp1_kind_name(record->kind));
    if (record->kind == AMQP1_KIND_LOGIN_ASKED)
        length += asked_told(engine, record, input, out + length, room - length);
    if (record->kind == AMQP1_KIND_MECHANISM_CHOSEN)
        length += (size_t)snprintf(out + length, room - length, " %u", (unsigned)record->first);
    if (record->kind == AMQP1_KIND_MECHANISM_CHOSEN || record->kind == AMQP1_KIND_LOGGED_IN)
        length += digits_of(is_said, said, out + length, room - length);
    return length + (size_t)snprintf(out + length, room - length, "\n");
}

/* `client NAME A HOST MECHANISM RESPONSE`, the first and the last in hexadecimal: a client of SASL. */
static int32_t client_started(amqp1 *engine, const char *said, const uint8_t *open, size_t open_length, char name[128])
{
    char host[256], mechanism[64], response[256];
    uint8_t bytes[256], named[256];
    size_t length = 0;
    EACH(sscanf(said, "client %127s A %255s %63s %255s", name, host, mechanism, response) == 4);
    named[*host == '-' ? 0 : bytes_of(host, named, sizeof named - 1)] = 0;
    if (*response != '-' && *response != '.')
        length = bytes_of(response, bytes, sizeof bytes);
    return amqp1_start_by(engine, key, 0, AMQP1_NONE, *host == '-' ? NULL : (const char *)named, mechanism, *response == '-' ? NULL : bytes, length,
                          open, open_length);
}

/* The same of a client, or `server NAME B OUTCOME MECHANISM ..`: a server of SASL, which offers these, and answers so. */
static int32_t opening_started(amqp1 *engine, const char *said, const uint8_t *open, size_t open_length, char name[128])
{
    unsigned code = 9;
    int at = 0;
    if (!strncmp(said, "client ", 7))
        return client_started(engine, said, open, open_length, name);
    EACH(sscanf(said, "server %127s B %u %n", name, &code, &at) == 2);
    login_code = (enum amqp1_login_code)code;
    return amqp1_start_server(engine, key, 0, AMQP1_NONE, said + at, open, open_length);
}

#endif
