// Tests of amqp1.hpp: links with credit, and frames by the calls that know nothing of it. See cpp_try.hpp.
#include "cpp_try.hpp"

namespace
{

// The server takes the other end of a link that the client has attached: a receiver renews its credit so.
template <class Engine>
amqp::link answered(faces<Engine> &both, const heard &it, amqp1_role role, std::uint32_t low, std::uint32_t high)
{
    CHECK(it.record.kind == AMQP1_KIND_ATTACH_WANTED);
    std::uint32_t handle = got(both.server.allot_on(there, it.record.input, role, AMQP1_FIRST, "l"));
    amqp::link link = got(both.server.link_attach(there, amqp::write_attach("l", handle, role, "q", "q"), low, high));
    CHECK((link == amqp::link{there, handle}));
    amqp::event event = got(both.server.link_wanted(it.record, link));
    CHECK(event.kind == AMQP1_EVENT_ATTACHED && event.detail == AMQP1_LIFE_ATTACHED && event.of() == link);
    CHECK(STATUS(both.server.link_respond(event)) == (high ? AMQP1_DONE : AMQP1_NOTHING));
    return link;
}

template <class Engine>
void try_sender()
{
    faces<Engine> both;
    amqp::sender out = got(both.client.sender(here, "l", "q"));
    CHECK((out == amqp::link{here, 0}) && (out != amqp::link{here, 1}));
    heard wanted = both.go().at(0);
    CHECK(amqp::bytes_field(wanted.record.performative(wanted.came), AMQP1_ATTACH_NAME).text() == "l");
    amqp::receiver in = {answered(both, wanted, AMQP1_RECEIVER, 1, 2)};
    std::vector<heard> came = both.back();
    CHECK(came.at(0).event.kind == AMQP1_EVENT_ATTACHED && came.at(1).event.kind == AMQP1_EVENT_FLOW &&
          came.at(1).event.credit == 2);
    CHECK(got(both.client.link_credit(out)) == 2);

    amqp::told told = both.client.link_send(out, 1, "thello", 70);
    CHECK(told && told.number == 0 && !told.refusal);
    told = both.client.link_send({here, out.handle, 0, 5, AMQP1_FLAG_TAGGED | AMQP1_FLAG_SETTLED, 1}, "uagain", 71);
    CHECK(told && told.number == 1);
    told = both.client.link_send(out, 1, "vthird");
    CHECK(!told && told.status == AMQP1_REFUSED && told.refusal == AMQP1_WHY_LINK_NO_CREDIT);
    came = both.go();
    CHECK(came.at(0).event.kind == AMQP1_EVENT_PART && came.at(0).event.has(AMQP1_EVENT_LAST) &&
          !came.at(0).event.has(AMQP1_EVENT_PRESETTLED));
    CHECK(came.at(0).record.payload(came.at(0).came).text() == "hello" &&
          came.at(0).record.delivery_tag().text() == "t");
    CHECK(came.at(1).event.has(AMQP1_EVENT_PRESETTLED) && came.at(1).event.size == 5 && came.at(1).event.of() == in);
    DONE(both.server.link_accept(came.at(0).event));
    CHECK(STATUS(both.server.link_settled(there, AMQP1_RECEIVER, 0, 0)) != AMQP1_BAD_ARGUMENT);
    came = both.back();
    CHECK(came.at(1).event.kind == AMQP1_EVENT_SETTLED && came.at(1).record.outcome == AMQP1_ACCEPTED);
    std::optional<amqp::unsettled> settled = found(both.client.link_settled_of(came.at(1).event));
    CHECK(settled && settled->given == 70 && settled->number == 0 && settled->link == out.handle);
    CHECK(!found(both.client.link_settled_of(came.at(1).event)));
}

// Links between termini that say more than an address.
template <class Engine>
void try_termini()
{
    faces<Engine> both;
    amqp::terminus to("q"), from("q");
    to.durable = AMQP1_DURABLE_CONFIGURATION;
    from.distribution_mode = "copy";
    CHECK((got(both.client.sender(here, "l", to)) == amqp::link{here, 0}));
    heard wanted = both.go().at(0);
    auto target = *amqp::field(wanted.record.performative(wanted.came), AMQP1_ATTACH_TARGET);
    CHECK(amqp::bytes_field(target, AMQP1_TERMINUS_ADDRESS).text() == "q" && amqp::number_field(target, 1) == 1);
    CHECK((got(both.client.receiver(here, "m", from, 0)) == amqp::link{here, 1}));
    wanted = both.go().at(0);
    auto source = *amqp::field(wanted.record.performative(wanted.came), AMQP1_ATTACH_SOURCE);
    CHECK(amqp::bytes_field(source, AMQP1_TERMINUS_ADDRESS).text() == "q" && amqp::bytes_field(source, 6).text() == "copy");
    to.durable = 3;
    CHECK(STATUS(both.client.sender(here, "n", to)) == AMQP1_BAD_ARGUMENT);
}

template <class Engine>
void try_receiver()
{
    faces<Engine> both;
    amqp::receiver in = got(both.client.receiver(here, "l", "q", 0));
    amqp::sender out = {answered(both, both.go().at(0), AMQP1_SENDER, 0, 0)};
    both.back();
    DONE(both.client.grant(in, 3));
    CHECK(both.go().at(0).event.credit == 3);
    CHECK(both.server.link_send(out, 1, "tone", 80) && both.server.link_send(out, 1, "utwo", 81));
    std::vector<heard> came = faces<Engine>::pass(both.server, both.client, false);
    for (const heard &it : came)
        CHECK(got(both.client.link_event(it.record, 90 + it.record.first)).kind == AMQP1_EVENT_PART);
    DONE(both.client.drain(in));
    came = both.go();
    CHECK(came.at(0).record.has(AMQP1_FLAG_DRAIN) && came.at(0).event.kind == AMQP1_EVENT_FLOW);
    CHECK(both.back().at(0).event.detail == 1 && got(both.client.link_credit(in)) == 0);
    CHECK(STATUS(both.client.link_flow(in, AMQP1_WISH_ANSWER, 0)) == AMQP1_NOTHING);
    DONE(both.client.link_flow(in, AMQP1_WISH_GRANT, 1));

    DONE(both.client.link_settle(here, AMQP1_RECEIVER, 0, 0, true, AMQP1_RELEASED));
    CHECK(found(both.client.link_settled(here, AMQP1_RECEIVER, 0, 0))->given == 90);
    CHECK(STATUS(both.client.link_settle(here, AMQP1_RECEIVER, 0, 0, true, AMQP1_REJECTED)) == AMQP1_BAD_ARGUMENT);
    came = both.go();
    CHECK(came.back().record.outcome == AMQP1_RELEASED &&
          found(both.server.link_settled_of(came.back().event))->given == 80);
}

template <class Engine>
void try_ends()
{
    faces<Engine> both;
    amqp::sender out = got(both.client.sender(here, "l", "q"));
    amqp::link in = answered(both, both.go().at(0), AMQP1_RECEIVER, 1, 5);
    both.back();
    CHECK(both.client.link_send(out, 1, "tone", 70) && both.client.link_send(out, 1, "utwo", 71));
    both.go();
    CHECK(STATUS(both.server.link_remove(in)) == AMQP1_NOT_DETACHED && !found(both.server.link_left(in)));
    DONE(both.server.link_detach(in, true, amqp::write_error("amqp:not-found", "gone")));
    CHECK(STATUS(both.server.link_detach(in)) == AMQP1_NOTHING);
    heard ended = both.back().at(0);
    CHECK(ended.event.kind == AMQP1_EVENT_ENDED && ended.event.has(AMQP1_EVENT_FOR_GOOD) &&
          ended.event.detail == AMQP1_END_BY_PEER);
    CHECK(STATUS(both.client.link_remove(out)) == AMQP1_UNSETTLED);
    CHECK(found(both.client.link_left(out))->given == 70 && found(both.client.link_left(out))->number == 1 &&
          !found(both.client.link_left(out)));
    DONE(both.client.link_remove(out));
    CHECK(STATUS(both.client.link_remove(out)) == AMQP1_NO_LINK);
    both.go();
    CHECK(found(both.server.link_left_of(there, AMQP1_RECEIVER))->number == 0 &&
          !found(both.server.link_left_of(there, AMQP1_SENDER)));
    DONE(both.server.link_forget(there));
    CHECK(STATUS(both.server.link_forget(there)) == AMQP1_NOTHING);
    CHECK(both.client.link_send(out, 1, "tone").refusal == AMQP1_WHY_LINK_NO_SENDER);
}

// A link by the calls that know nothing of credit: the client's, on its handle 0.
template <class Engine>
void attach_plainly(faces<Engine> &both)
{
    CHECK(got(both.client.allot(here, AMQP1_SENDER, AMQP1_FIRST, "l")) == 0);
    DONE(both.client.attach(here, amqp::write_attach("l", 0, AMQP1_SENDER, "q", "q", {0, AMQP1_SECOND, 4})));
    heard wanted = faces<Engine>::pass(both.client, both.server, false).at(0);
    CHECK(wanted.record.count == 4 && wanted.record.credit == 0 && wanted.record.available == 1 &&
          wanted.record.outcome == 3);
    CHECK(got(both.server.allot_on(there, wanted.record.input, AMQP1_RECEIVER, AMQP1_FIRST, "l")) == 0);
    DONE(both.server.attach(there, amqp::write_attach("l", 0, AMQP1_RECEIVER, "q", "q")));
    DONE(both.server.flow(there, amqp::write_flow(0, 4, 10, false, true)));
    std::vector<heard> came = faces<Engine>::pass(both.server, both.client, false);
    CHECK(came.at(1).record.count == 4 && came.at(1).record.credit == 10 && came.at(1).record.has(AMQP1_FLAG_ECHO));
}

template <class Engine>
void try_frames()
{
    faces<Engine> both;
    attach_plainly(both);
    auto transfer = amqp::write_transfer(0, amqp::bytes("t"), 0, false, false);
    CHECK(found(both.client.payload_room(transfer)) > 900u &&
          STATUS(both.client.payload_room(amqp::bytes())) == AMQP1_BAD_ARGUMENT);
    DONE(both.client.transfer(here, true, transfer, "hello"));
    amqp::head heads[2] = {{here, 0, 0, 3, AMQP1_FLAG_NUMBERED | AMQP1_FLAG_TAGGED, 1},
                           {here, 5, 0, 3, AMQP1_FLAG_NUMBERED | AMQP1_FLAG_TAGGED, 1}};
    amqp::sent sent[2];
    amqp::went went = both.client.send(heads, "uoneutwo", sent);
    CHECK(went.taken == 2 && went.used == 8 && went.status == AMQP1_DONE && sent[0].number == 1 &&
          sent[1].refusal == AMQP1_WHY_SESSION_UNATTACHED_HANDLE);
    std::vector<heard> came = faces<Engine>::pass(both.client, both.server, false);
    CHECK(came.at(0).record.payload(came.at(0).came).text() == "hello" &&
          came.at(1).record.payload(came.at(1).came).text() == "one");
    DONE(both.server.dispose(there, AMQP1_RECEIVER, 0, 0, true, AMQP1_ACCEPTED));
    DONE(both.server.disposition(there, amqp::write_disposition(AMQP1_RECEIVER, 1, 1, false, AMQP1_RELEASED)));
    came = faces<Engine>::pass(both.server, both.client, false);
    CHECK(came.at(0).record.has(AMQP1_FLAG_SETTLED) && came.at(1).record.first == 1 &&
          came.at(1).record.outcome == AMQP1_RELEASED);
    DONE(both.client.settle(here, AMQP1_SENDER, 1, 1));
    DONE(both.client.detach(here, true, amqp::write_detach(0, true, "amqp:not-found", "gone")));
    heard detached = faces<Engine>::pass(both.client, both.server, false).back();
    CHECK(detached.record.has(AMQP1_FLAG_FOR_GOOD) && detached.record.has(AMQP1_FLAG_ERROR));
}

// A delivery that is longer than a frame goes in parts.
template <class Engine>
void try_cut()
{
    faces<Engine> both;
    amqp::sender out = got(both.client.sender(here, "l", "q"));
    answered(both, both.go().at(0), AMQP1_RECEIVER, 1, 5);
    both.back();
    std::vector<std::uint8_t> bytes(2501, 'x');
    amqp::head head = {here, out.handle, 0, 2500, AMQP1_FLAG_NUMBERED | AMQP1_FLAG_TAGGED, 1};
    amqp::bytes left = bytes;
    int parts = 0;
    for (bool more = true; more; parts++) {
        amqp::parts cut = got(both.client.cut(head, left));
        CHECK(both.client.link_send(cut.part, left));
        left = left.from(cut.part.payload + cut.part.tag_size);
        head = cut.rest;
        more = cut.more != 0;
    }
    CHECK(parts == 3 && left.empty());
    std::vector<heard> came = both.go();
    CHECK(came.size() == 3 && came.at(2).event.size == 2500 && came.at(2).event.has(AMQP1_EVENT_LAST));
}

// The server takes two transfers at a time: a third one is held back, and so is the Detach, until it is out.
template <class Engine>
void try_due()
{
    faces<Engine> both;
    constexpr std::uint32_t mine = here + 1, its = there + 1;
    DONE(both.client.begin(mine, amqp::write_begin()));
    heard begun = both.pass(both.client, both.server, false).at(0);
    DONE(both.server.answer_begin(begun.record, begun.came, its, amqp::write_begin(2)));
    both.back();
    amqp::sender out = got(both.client.sender(mine, "l", "q"));
    heard wanted = both.pass(both.client, both.server, false).at(0);
    // under a marked name
    std::uint32_t handle = got(both.server.allot_on(its, wanted.record.input, AMQP1_RECEIVER, AMQP1_FIRST, "marked l"));
    auto attach = amqp::write_attach("l", handle, AMQP1_RECEIVER, "q", "q");
    CHECK(STATUS(both.server.link_attach(its, attach, 1, 9)) == AMQP1_NO_LINK);
    amqp::link in = got(both.server.link_attach(its, attach, 1, 9, "marked l"));
    DONE(both.server.link_respond(got(both.server.link_wanted(wanted.record, in))));
    both.back();
    for (const char *it : {"tone", "utwo", "vthree"})
        CHECK(both.client.link_send(out, 1, it));
    CHECK(STATUS(both.client.link_detach(out)) == AMQP1_HELD_BACK && !found(both.client.link_due(mine)));
    CHECK(both.go().size() == 2);
    both.pass(both.server, both.client, false);
    std::optional<amqp::event> due = found(both.client.link_due(mine));
    CHECK(due && due->kind == AMQP1_EVENT_DUE && due->of() == out && !found(both.client.link_due(mine)));
    CHECK(STATUS(both.client.link_respond(*due)) == AMQP1_NOTHING);
    DONE(both.client.link_pay(mine));
    DONE(both.client.link_detach(out));
    std::vector<heard> came = both.go();
    CHECK(came.at(0).record.payload(came.at(0).came).text() == "three" && came.at(1).event.kind == AMQP1_EVENT_ENDED);
}

// A disposition with a state that has fields: deliveries are rejected with an error.
template <class Engine>
void try_dispose()
{
    faces<Engine> both;
    amqp::sender out = got(both.client.sender(here, "l", "q"));
    answered(both, both.go().at(0), AMQP1_RECEIVER, 1, 5);
    both.back();
    CHECK(both.client.link_send(out, 1, "tone", 70));
    both.go();
    DONE(both.server.link_dispose(there, amqp::write_disposition(AMQP1_RECEIVER, 0, 0, true, AMQP1_REJECTED)));
    CHECK(STATUS(both.server.link_dispose(there, amqp::write_begin())) == AMQP1_BAD_ARGUMENT);
    heard settled = both.back().back();
    CHECK(settled.record.outcome == AMQP1_REJECTED && settled.event.has(AMQP1_EVENT_BY_PEER));
    CHECK(found(both.client.link_settled_of(settled.event))->given == 70);
}

} // namespace

template <class Engine>
void try_links()
{
    try_sender<Engine>();
    try_termini<Engine>();
    try_receiver<Engine>();
    try_ends<Engine>();
    try_frames<Engine>();
    try_cut<Engine>();
    try_due<Engine>();
    try_dispose<Engine>();
}

template void try_links<amqp::nothrow::engine>();
#if AMQP1_HAS_EXCEPTIONS
template void try_links<amqp::engine>();
#endif
