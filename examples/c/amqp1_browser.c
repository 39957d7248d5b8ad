/* Shows messages that wait at an address of a server, leaves them there, and closes: as copies, if the server knows the
   distribution-mode `copy` (AMQP 1.0 part 3, section 3.5.7), and else by giving each back.

       amqp1_browser HOST PORT ADDRESS [COUNT [USER PASSWORD | CA [CERTIFICATE KEY]]]

   Build it by `cc amqp1_browser.c amqp1_socket.c $(pkg-config --cflags --libs amqp1)`. */
#include "amqp1_socket.h"

static uint32_t link_from, shown;

static void attach(void)
{
    amqp1_terminus from = amqp1_terminus_at(the_address);
    from.distribution_mode = "copy";
    must("a receiver", amqp1_receiver_from(&engine, 0, "browser", &from, 0, &link_from));
}

void take_record(const amqp1_record *record, const uint8_t *input)
{
    amqp1_event event = go_on(record, input);
    amqp1_bytes data;
    if (record->kind == AMQP1_KIND_BEGUN)
        attach();
    if (event.kind == AMQP1_EVENT_ATTACHED)
        must("credit", amqp1_grant(&engine, 0, link_from, messages));
    if (event.kind == AMQP1_EVENT_PART) {
        if (amqp1_read_data(amqp1_payload(input, record), &data))
            printf("%.*s\n", (int)data.length, (const char *)data.at);
        must("a release", amqp1_link_settle(&engine, 0, AMQP1_RECEIVER, event.first, event.last, 1, AMQP1_RELEASED));
        shown++;
    }
}

int main(int words_count, char **words)
{
    run_client(words_count, words, "amqp1_browser", &shown);
    return 0;
}
