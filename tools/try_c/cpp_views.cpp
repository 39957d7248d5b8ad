// Tests of amqp1.hpp: views of bytes, writers and readers. See cpp_try.hpp.
#include "cpp_try.hpp"

namespace
{

void try_bytes()
{
    std::vector<std::uint8_t> vector = {'a', 'b'};
    std::array<std::byte, 2> array = {std::byte{'a'}, std::byte{'b'}};
    std::uint8_t plain[] = {'a', 'b'};
    std::string string = "ab";
    for (amqp::bytes it :
         {amqp::bytes(vector), amqp::bytes(array), amqp::bytes(plain), amqp::bytes(string), amqp::bytes("ab"),
          amqp::bytes(std::string_view("ab")), amqp::bytes(amqp1_bytes_at(plain, 2)), amqp::bytes(plain, 2)})
        CHECK(it.size() == 2 && it[1] == 'b' && it.text() == "ab" && it == amqp::bytes("ab") &&
              it.end() - it.begin() == 2);
    CHECK(amqp::bytes(vector).data() == vector.data() && amqp::bytes(string).in_c().at == amqp::bytes(string).data());
    CHECK(amqp::bytes().empty() && amqp::bytes().data() && amqp::bytes(nullptr, 5).empty() &&
          amqp::bytes(vector).from(1).text() == "b");
    CHECK(amqp::bytes("ab") != amqp::bytes("ac") && amqp::bytes(nullptr).empty() && amqp::bytes(nullptr).data());
    amqp::span<std::uint8_t> span = vector;
    amqp::span<const std::uint8_t> same(plain);
    span[0] = 'c';
    CHECK(span.size() == 2 && span.data() == vector.data() && vector[0] == 'c' && same.end() - same.begin() == 2);
    CHECK(!amqp::cstring(nullptr).c_str() && !std::strcmp(amqp::cstring(string).c_str(), "ab"));
}

void try_readers()
{
    auto open = amqp::write_open("me", "host", 4096, 9, 500);
    CHECK(open && open.status() == AMQP1_DONE && open.size() == amqp::value_length(open) && open.data()[2] == 0x10);
    CHECK(amqp::bytes_field(open, AMQP1_OPEN_HOSTNAME).text() == "host" &&
          amqp::number_field(open, AMQP1_OPEN_IDLE_TIME_OUT) == 500);
    CHECK(amqp::number_field(open, 9, 77) == 77 && !amqp::field(open, 9) &&
          amqp::read_number(*amqp::field(open, 2)) == 4096u);
    CHECK(amqp::read_bytes(*amqp::field(open, 0))->text() == "me" &&
          amqp::read_described(open)->descriptor == AMQP1_OPEN_CODE);
    auto flow = amqp::write_flow(3, std::nullopt, 10, true, false);
    CHECK(amqp::boolean_field(flow, AMQP1_FLOW_DRAIN) && !amqp::boolean_field(flow, AMQP1_FLOW_ECHO));
    CHECK(amqp::read_boolean(*amqp::field(flow, AMQP1_FLOW_DRAIN)) == true &&
          !amqp::field(flow, AMQP1_FLOW_DELIVERY_COUNT));
    CHECK(!amqp::read_number("") && !amqp::read_bytes("") && !amqp::read_described("") && !amqp::read_boolean(""));
    CHECK(amqp::frame_code(std::vector<std::uint8_t>{0, 0, 0, 12, 2, 0, 0, 0, 0, 0x53, 0x18, 0x45}) ==
          AMQP1_CLOSE_CODE);
    // what does not fit, and what has no form, has no bytes
    auto small = amqp::write_open<10>("me");
    auto none = amqp::write_error(nullptr, "why");
    CHECK(!small && small.status() == AMQP1_TOO_SMALL && !small.size() && none.status() == AMQP1_BAD_ARGUMENT &&
          amqp::bytes(none).empty());
    CHECK(amqp::number_field(amqp::write_begin(1, 2, 3, 4), AMQP1_BEGIN_HANDLE_MAX) == 3 &&
          amqp::number_field(amqp::write_begin(1, 2, 3, 4), 1) == 4);
    CHECK(amqp::bytes_field(amqp::write_transfer(0, amqp::bytes("tag"), 5), AMQP1_TRANSFER_DELIVERY_TAG).text() ==
          "tag");
    CHECK(!amqp::field(amqp::write_transfer(0, std::nullopt), AMQP1_TRANSFER_DELIVERY_TAG));
    CHECK(amqp::read_described(*amqp::field(amqp::write_disposition(AMQP1_SENDER, 1, 2, true, AMQP1_ACCEPTED), 4))
              ->descriptor == 0x24);
    CHECK(amqp::boolean_field(amqp::write_detach(1, true), AMQP1_DETACH_CLOSED) &&
          amqp::number_field(amqp::write_attach("l", 8, AMQP1_SENDER, "a", "b"), 1) == 8);
    amqp::terminus durable("q");
    durable.durable = AMQP1_DURABLE_UNSETTLED;
    auto attach = amqp::write_attach("l", 8, AMQP1_SENDER, amqp::terminus("l"), durable, {0, AMQP1_SECOND, 4});
    CHECK(amqp::bytes_field(*amqp::field(attach, AMQP1_ATTACH_TARGET), AMQP1_TERMINUS_ADDRESS).text() == "q" &&
          amqp::number_field(*amqp::field(attach, AMQP1_ATTACH_TARGET), 1) == 2);
    CHECK(!amqp::field(*amqp::field(attach, AMQP1_ATTACH_SOURCE), 1) &&
          amqp::number_field(attach, AMQP1_ATTACH_INITIAL_DELIVERY_COUNT) == 4);
}

void try_messages()
{
    std::uint8_t room[200];
    amqp::written it = amqp::write_data(room, "hello");
    CHECK(it && it.text.data() == room && amqp::read_data(it.text)->text() == "hello" &&
          !amqp::read_properties(it.text).to);
    CHECK(amqp::write_data({room, 5}, "hello").status == AMQP1_TOO_SMALL &&
          amqp::write_data({room, 5}, "hello").text.empty());
    amqp::properties says = {amqp::bytes("id"), amqp::bytes("q"), std::nullopt, amqp::bytes("back"), amqp::bytes("")};
    it = amqp::write_message(room, says, "body");
    amqp::properties read = amqp::read_properties(it.text);
    CHECK(it && amqp::read_data(it.text)->text() == "body" && read.message_id->text() == "id" &&
          read.to->text() == "q");
    CHECK(!read.subject && read.reply_to->text() == "back" && read.correlation_id && read.correlation_id->empty());
    CHECK(!amqp::read_section(it.text, 0x70) && amqp::read_section(it.text, 0x75)->size() == 3 + 2 + 4 &&
          !amqp::read_section("x", 0x75));
    CHECK(amqp::write_message({room, 20}, says, "body").status == AMQP1_TOO_SMALL);
    static const std::uint8_t close[] = {0, 0, 0, 12, 2, 0, 0, 0, 0, 0x53, 0x18, 0x45};
    CHECK(amqp::trace("out", close, room).text.text() == "out 0200000000531845\n");
    CHECK(amqp::trace("out", close, {room, 4}).status == AMQP1_TOO_SMALL);
}

} // namespace

void try_views()
{
    try_bytes();
    try_readers();
    try_messages();
}
