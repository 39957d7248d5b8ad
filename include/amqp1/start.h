/* Making an engine, and the calls of SASL (AMQP 1.0 part 5, section 5.3). For amqp1.h. */
#ifndef AMQP1_START_H
#define AMQP1_START_H

#if defined(__cplusplus) && defined(__GNUC__)
#pragma GCC system_header
#endif

#include "asking.h"

#ifdef __cplusplus
extern "C" {
#endif

/* What amqp1_new takes, of a stream without a host. For use within this header. */
AMQP1_FUNCTION amqp1_how amqp1_how_of(const uint8_t key[16], uint64_t now, uint32_t limit, enum amqp1_side side)
{
    amqp1_how how;
    memcpy(how.key, key, sizeof how.key);
    how.time = now;
    how.limit = limit;
    how.side = (uint32_t)side;
    how.host = AMQP1_NONE;
    how.reserved = 0;
    return how;
}

/* Makes an engine of either side, without SASL: amqp1_new with 16 bytes of key, which the peer cannot guess (getrandom,
   /dev/urandom), and PERF of this side's Open. Its time begins at 0, and the opening has no limit. A key of which all
   bytes are zero is BAD_ARGUMENT. */
AMQP1_FUNCTION int32_t amqp1_start(amqp1 *place, const uint8_t key[16], const uint8_t *open, size_t open_length)
{
    amqp1_how how = amqp1_how_of(key, 0, AMQP1_NONE, AMQP1_WITHOUT_SASL);
    amqp1_login_head head = { 0, AMQP1_NONE };
    uint8_t none[1] = { 0 };
    return amqp1_new(place, &how, open, open_length, &head, 0, none, 0);
}

/* How many bytes a SASL frame has at most (part 5, section 5.3.1), and so what stands in it. */
#define AMQP1_SASL_FRAME 512

/* Makes an engine of a client of SASL with one login: by this mechanism, with this initial response, or with none,
   which NULL says. `now` is the time in milliseconds, `limit` how many of them headers, SASL and both Opens may take
   (AMQP1_NONE: no limit), and `host` the name of the host that it asks for, or NULL. TOO_LARGE where all these do not
   fit a SASL frame. Who has several logins calls amqp1_new. */
AMQP1_FUNCTION int32_t amqp1_start_by(amqp1 *place, const uint8_t key[16], uint64_t now, uint32_t limit,
                                      const char *host, const char *mechanism, const uint8_t *response,
                                      size_t response_length, const uint8_t *open, size_t open_length)
{
    uint8_t bytes[AMQP1_SASL_FRAME];
    amqp1_how how = amqp1_how_of(key, now, limit, AMQP1_SASL_CLIENT);
    amqp1_login_head head;
    size_t host_length = host ? strlen(host) : 0, length = strlen(mechanism);
    response_length = response ? response_length : 0;
    if (host_length > sizeof bytes || length > sizeof bytes - host_length ||
        response_length > sizeof bytes - host_length - length)
        return AMQP1_TOO_LARGE;
    bytes[0] = 0;
    if (host) {
        how.host = (uint32_t)host_length;
        memcpy(bytes, host, host_length);
    }
    memcpy(bytes + host_length, mechanism, length);
    if (response_length)
        memcpy(bytes + host_length + length, response, response_length);
    head.mechanism = (uint32_t)length;
    head.response = response ? (uint32_t)response_length : AMQP1_NONE;
    return amqp1_new(place, &how, open, open_length, &head, 1, bytes, host_length + length + response_length);
}

/* The same for a client that logs in by PLAIN (RFC 4616), as this user with this password, or by ANONYMOUS (RFC 4505),
   where the user is NULL. */
AMQP1_FUNCTION int32_t amqp1_start_client(amqp1 *place, const uint8_t key[16], uint64_t now, uint32_t limit,
                                          const char *host, const char *user, const char *password, const uint8_t *open,
                                          size_t open_length)
{
    uint8_t response[AMQP1_SASL_FRAME] = { 0 };
    size_t user_length = user ? strlen(user) : 0, length = user && password ? strlen(password) : 0;
    if (!user)
        return amqp1_start_by(place, key, now, limit, host, "ANONYMOUS", response, 0, open, open_length);
    if (user_length > sizeof response - 2 || length > sizeof response - 2 - user_length)
        return AMQP1_TOO_LARGE;
    memcpy(response + 1, user, user_length);
    if (length)
        memcpy(response + 2 + user_length, password, length);
    return amqp1_start_by(place, key, now, limit, host, "PLAIN", response, 2 + user_length + length, open, open_length);
}

/* The same for a client that logs in by EXTERNAL (RFC 4422, appendix A), to act as this identity: "" where it is the
   one that is known by other means, as by a certificate. */
AMQP1_FUNCTION int32_t amqp1_start_external(amqp1 *place, const uint8_t key[16], uint64_t now, uint32_t limit,
                                            const char *host, const char *identity, const uint8_t *open,
                                            size_t open_length)
{
    return amqp1_start_by(place, key, now, limit, host, "EXTERNAL", (const uint8_t *)identity, strlen(identity), open,
                          open_length);
}

/* Makes an engine of a server of SASL that offers these mechanisms: their names, with one space between, as "PLAIN
   ANONYMOUS". Each client that asks to be let in has a record of AMQP1_KIND_LOGIN_ASKED: answer it by amqp1_login or
   amqp1_challenge. TOO_LARGE where they do not fit a SASL frame. */
AMQP1_FUNCTION int32_t amqp1_start_server(amqp1 *place, const uint8_t key[16], uint64_t now, uint32_t limit,
                                          const char *mechanisms, const uint8_t *open, size_t open_length)
{
    uint8_t bytes[AMQP1_SASL_FRAME];
    amqp1_login_head heads[AMQP1_SASL_FRAME / 2];
    amqp1_how how = amqp1_how_of(key, now, limit, AMQP1_SASL_SERVER);
    size_t count = 0, length = 0;
    bytes[0] = 0;
    while (*mechanisms) {
        size_t name = strcspn(mechanisms, " ");
        if (count == sizeof heads / sizeof *heads || name > sizeof bytes - length)
            return AMQP1_TOO_LARGE;
        memcpy(bytes + length, mechanisms, name);
        length += name;
        heads[count].mechanism = (uint32_t)name;
        heads[count++].response = AMQP1_NONE;
        mechanisms += name + (mechanisms[name] ? 1 : 0);
    }
    return amqp1_new(place, &how, open, open_length, heads, count, bytes, length);
}

/* A server's answer to a client that asks to be let in, with additional data of the mechanism, or with none, which NULL
   says. AMQP1_LOGIN_OK lets it in, and nothing else does; after another code the connection is over. The outcome waits
   to be sent. REFUSED (`WrongTime`) where no login is asked, or the connection is over, and (`TooLarge`) where the SASL
   frame would have more than 512 bytes. */
AMQP1_FUNCTION int32_t amqp1_login_with(amqp1 *place, enum amqp1_login_code code, const uint8_t *additional,
                                        size_t length)
{
    uint8_t head[2];
    head[0] = amqp1_u8_of((int)code);
    head[1] = additional ? 1 : 0;
    return amqp1_join_and_ask(place, AMQP1_LOGIN, head, sizeof head, additional, additional ? length : 0, NULL, 0);
}

/* The same with no additional data. */
AMQP1_FUNCTION int32_t amqp1_login(amqp1 *place, enum amqp1_login_code code)
{
    return amqp1_login_with(place, code, NULL, 0);
}

/* A server's challenge to a client that asks to be let in: one response is awaited then. REFUSED as amqp1_login is. */
AMQP1_FUNCTION int32_t amqp1_challenge(amqp1 *place, const uint8_t *challenge, size_t length)
{
    return amqp1_join_and_ask(place, AMQP1_CHALLENGE, challenge, length, NULL, 0, NULL, 0);
}

/* A client's response to a challenge. REFUSED (`WrongTime`) where there was none, and on as amqp1_login is. */
AMQP1_FUNCTION int32_t amqp1_respond(amqp1 *place, const uint8_t *response, size_t length)
{
    return amqp1_join_and_ask(place, AMQP1_RESPOND, response, length, NULL, 0, NULL, 0);
}

#ifdef __cplusplus
}
#endif
#endif
