/* A blocking socket to one peer, with TLS or without, for amqp1_sender.c, amqp1_receiver.c, amqp1_send.c and
   amqp1_server.c: connecting, listening, the bytes of an engine in and out, the time, and randomness; and what each
   client does alike. amqp1_serving.c has how a server answers.

   With -DAMQP1_TLS amqp1_socket.c speaks TLS by OpenSSL (-lssl -lcrypto). Where the environment names a file by
   AMQP1_RECORD, each read and each write is a line of it, `A HEX` of the side that connects and `B HEX` of the side
   that listens, as it is without TLS: a password of PLAIN stands there too. */
#ifndef AMQP1_SOCKET_H
#define AMQP1_SOCKET_H

#include <amqp1.h>
#include <stdio.h>

/* So long may headers, SASL and both Opens take, and so long may the peer be silent while something is awaited, in
   milliseconds. */
enum { LIMIT = 20000 };

extern amqp1 engine;

/* What the program does with a record; the frame stands in the input. */
void take_record(const amqp1_record *record, const uint8_t *input);

/* Ends the program, and says why; the same where a call was not done, with the name of its refusal; and of a record
   that the program does not expect. A call that comes too late is passed over: the peer may close behind what is looked
   at, and run() tells that. */
void fail(const char *what);
void must(const char *what, int32_t status);
void unexpected(const amqp1_record *record, const uint8_t *input);

/* Whether bytes are these; and a string of them, as far as there is room. */
int is_text(amqp1_bytes bytes, const char *text, size_t length);
void string_of(amqp1_bytes bytes, char *string, size_t room);

/* The time, in milliseconds. */
uint64_t now(void);

/* What the words of a client name beside the server: an address there, and how many messages. And for how many a
   receiver gives credit: 100, or what AMQP1_WINDOW says in the environment. */
extern const char *the_address;
extern uint32_t messages, window;

/* Runs a client of this name by the words of its program:

       HOST PORT ADDRESS [COUNT [USER PASSWORD | CA [CERTIFICATE KEY]]]

   5 messages where no COUNT is there. It connects, and logs in by PLAIN as USER; by EXTERNAL over TLS, with a
   certificate of its own; or by ANONYMOUS, over TLS where there is a CA alone. The server's certificate has to be for
   the host, and of the authority CA. Other words end the program, which says how it is used. Once as many messages are
   counted it closes, and takes no record any more. The program ends where the peer does not close too, or before. */
void run_client(int words_count, char **words, const char *name, const uint32_t *counted);

/* What a client does with each record: at the server's Open the session 0 begins; a refusal, an error, a Detach or an
   End ends the program. What the record is to the links of the session; what they owe for it is asked for. */
amqp1_event go_on(const amqp1_record *record, const uint8_t *input);

/* Writes a delivery of this number: its tag, of four bytes, and a message with one data section. How many bytes the
   message has. */
uint32_t message_of(uint32_t number, uint8_t bytes[64]);

/* Listens on a port of the loopback, for TLS where there is a certificate; and the next client that connects there is
   the peer. */
int listen_on(const char *port, const char *certificate, const char *key);
void accept_on(int listening, uint8_t key[16]);

/* Takes the other end of a link that a client attaches, by the same name and with the same addresses: its handle. Where
   this side receives it gives credit for so many messages, and renews it. */
uint32_t answer_link(const amqp1_record *record, const uint8_t *input, uint32_t credit);

/* Answers a client's Begin, End or Close, and lets a link go that is over, where the record is that to the links. Of
   another record nothing is done, but that one that was refused ends the program. */
void answer(const amqp1_record *record, const uint8_t *input, const amqp1_event *event);

/* What a server does with each record: it lets a client in by ANONYMOUS, or by PLAIN as this user, takes the other end
   of each link, and answers as above. What the record is to the links; of a link that the client attaches,
   AMQP1_EVENT_ATTACHED. */
amqp1_event serve_on(const amqp1_record *record, const uint8_t *input, const char *user, const char *password);

/* Serves the next client that connects, up to its end. Whether both sides have closed. */
int serve_next(int listening, const char *name);

/* Writes what waits, and takes what comes, until the connection is over, and frees the engine. Whether both sides have
   closed. */
int run(void);

#endif
