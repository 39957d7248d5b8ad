// AMQP 1.0's connection for C++17 and later, over amqp1.h: an engine that frees itself, links as small values, and
// views of the caller's bytes. Nothing is copied, and no memory is asked for but the engine's own. No AMQP is in these
// files: each member is one call of the C header, whose comments say what it does.
//
//     auto open = amqp::write_open("me", "host");
//     amqp::engine engine = amqp::engine::client(key, {now, 20000}, "host", "me", "secret", open);
//     engine.open();
//     amqp::record records[64];
//     std::uint8_t room[4096];
//     for (auto it = engine.output(room); !it.text.empty(); it = engine.output(room)) ..write it.text to the socket..
//     auto took = engine.take(now, came, records);                       // of what came took.taken bytes were taken
//     for (const amqp::record &record : took.of(records)) {
//         amqp::event event = engine.link_follow(record);
//         if (record.kind == AMQP1_KIND_BEGUN) link = engine.sender(0, "out", "queue");
//         if (event.kind == AMQP1_EVENT_PART) ..record.payload(came).., engine.link_accept(event);
//     }
//
// The namespace is `amqp`, since `amqp1` is a type of the C header. Constants are those of C: AMQP1_KIND_TRANSFER.
//
// That a call is not done is told in one of two ways, by the type of the engine:
// - of an amqp::engine it throws an amqp::error: its status, the refusal's name, and a text;
// - of an amqp::nothrow::engine it answers an amqp::result: the status, and the value. No exceptions are needed: with
//   -fno-exceptions there is this one alone.
// `take`, `output`, `send` and `link_send` throw in neither: what they answer holds also where they stop.
#ifndef AMQP1_HPP
#define AMQP1_HPP

#include "amqp1.h"
#include "amqp1/views.hpp"
#include "amqp1/writers.hpp"
#include "amqp1/errors.hpp"
#include "amqp1/engine.hpp"
#include "amqp1/links.hpp"

#endif
