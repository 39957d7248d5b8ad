/* Messages of one data section, with the properties by which a request finds its reply: for amqp1_requester.c and
   amqp1_replier.c, beside amqp1_socket.h. */
#ifndef AMQP1_MESSAGE_H
#define AMQP1_MESSAGE_H

#include "amqp1_socket.h"

/* Each of no bytes where it is not there (AMQP 1.0 part 3, section 3.2.4). What is read points into the payload. */
typedef struct message {
    amqp1_bytes id, to, reply_to, correlation_id, body;
} message;

amqp1_bytes text_of(const char *string);

/* Sends a message on a link of the session 0, with the number as its tag: whether there is the link, and was credit. */
int send_message(uint32_t link, uint32_t number, const message *it);

/* Ends the program where its body is not "reply to request N", and N its correlation-id. */
void expect_reply(const message *it);

/* How many deliveries an event settles: each is given back by this. */
uint32_t settled_by(const amqp1_event *event);

/* Reads one; a program ends where it is no message of one data section. */
message read_message(amqp1_bytes payload);

#endif
