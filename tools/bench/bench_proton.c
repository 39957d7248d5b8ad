/* What qpid-proton does of the work that tools/bench/bench.py and tools/bench/bench_engine.py count of ours.

   bench_proton decode N FILE BATCH     decodes the one body that FILE holds, N times
   bench_proton receive N FILE BATCH    takes N transfers that the peer sends in FILE; each is read, accepted and settled
   bench_proton send N FILE BATCH       sends N transfers of 64 bytes, settled
   bench_proton unsettled N FILE BATCH  sends N transfers unsettled; each is settled when the peer has
   bench_proton open N FILE BATCH       sends N transfers unsettled, and then takes what the peer settles, until FILE ends
   bench_proton keep N FILE BATCH       takes the transfers of FILE, and leaves each unsettled until the peer settles it

   FILE holds pieces, each after its length in four bytes: what the peer says first, and then what it says for each BATCH. The last
   line of the output is what was done. */

#include <proton/codec.h>
#include <proton/connection.h>
#include <proton/delivery.h>
#include <proton/event.h>
#include <proton/link.h>
#include <proton/session.h>
#include <proton/transport.h>
#include <stdio.h>
#include <stdlib.h>
#include <string.h>

enum { PAYLOAD = 64 };

static char *bytes, *end;
static long done;
static int keeps;

static void load(const char *name) {
  FILE *file = fopen(name, "rb");
  if (!file || fseek(file, 0, SEEK_END)) exit(3);
  long size = ftell(file);
  rewind(file);
  bytes = malloc(size);
  if (!bytes || fread(bytes, 1, size, file) != (size_t)size) exit(3);
  end = bytes + size;
  fclose(file);
}

/* The next piece of the file. */
static char *piece(size_t *size) {
  if (bytes >= end) exit(4);
  unsigned char *at = (unsigned char *)bytes;
  *size = (size_t)at[0] << 24 | at[1] << 16 | at[2] << 8 | at[3];
  bytes += 4 + *size;
  return (char *)at + 4;
}

static void decode(long count) {
  size_t size;
  char *body = piece(&size);
  pn_data_t *data = pn_data(64);
  for (long i = 0; i < count; i++) {
    pn_data_clear(data);
    done += pn_data_decode(data, body, size) == (ssize_t)size;
  }
  pn_data_free(data);
}

typedef struct {
  pn_connection_t *connection;
  pn_transport_t *transport;
  pn_collector_t *collector;
} end_t;

/* What goes out goes nowhere. */
static void put_out(end_t *e) {
  for (ssize_t n; (n = pn_transport_pending(e->transport)) > 0;) pn_transport_pop(e->transport, n);
}

static void hear(end_t *e) {
  size_t size;
  char *from = piece(&size);
  while (size) {
    ssize_t room = pn_transport_capacity(e->transport);
    if (room <= 0) exit(5);
    size_t some = (size_t)room < size ? (size_t)room : size;
    memcpy(pn_transport_tail(e->transport), from, some);
    if (pn_transport_process(e->transport, some)) exit(6);
    from += some;
    size -= some;
  }
}

static void take(pn_delivery_t *delivery) {
  char payload[PAYLOAD];
  if (!pn_delivery_readable(delivery) || pn_delivery_partial(delivery)) return;
  done += pn_link_recv(pn_delivery_link(delivery), payload, PAYLOAD) == PAYLOAD;
  pn_delivery_update(delivery, PN_ACCEPTED);
  pn_delivery_settle(delivery);
}

/* One that has come is read and stays open; one that the peer has settled is let go. */
static void keep(pn_delivery_t *delivery) {
  char payload[PAYLOAD];
  if (pn_delivery_settled(delivery)) {
    pn_delivery_settle(delivery);
    done++;
  } else if (pn_delivery_readable(delivery) && !pn_delivery_partial(delivery)) {
    done += pn_link_recv(pn_delivery_link(delivery), payload, PAYLOAD) == PAYLOAD;
    pn_link_advance(pn_delivery_link(delivery));
  }
}

static void settle(pn_delivery_t *delivery) {
  if (!pn_delivery_updated(delivery)) return;
  done += pn_delivery_remote_state(delivery) == PN_ACCEPTED;
  pn_delivery_settle(delivery);
}

static void answer(end_t *e) {
  for (pn_event_t *event; (event = pn_collector_peek(e->collector)); pn_collector_pop(e->collector)) {
    if (pn_event_type(event) != PN_DELIVERY) continue;
    pn_delivery_t *delivery = pn_event_delivery(event);
    if (keeps) keep(delivery);
    else if (pn_link_is_receiver(pn_delivery_link(delivery))) take(delivery);
    else settle(delivery);
  }
}

static void send_from(pn_link_t *link, long first, long count, int is_settled) {
  char payload[PAYLOAD];
  memset(payload, 'x', PAYLOAD);
  for (long i = first; i < first + count; i++) {
    unsigned char tag[4] = {i >> 24, i >> 16, i >> 8, i};
    pn_delivery_t *delivery = pn_delivery(link, pn_dtag((char *)tag, 4));
    if (!delivery || pn_link_send(link, payload, PAYLOAD) != PAYLOAD) exit(7);
    pn_link_advance(link);
    if (is_settled) pn_delivery_settle(delivery);
    done += is_settled;
  }
}

static void exchange(const char *mode, long count, long batch) {
  end_t e = {pn_connection(), pn_transport(), pn_collector()};
  keeps = !strcmp(mode, "keep");
  int receives = keeps || !strcmp(mode, "receive"), is_settled = !strcmp(mode, "send");
  pn_connection_collect(e.connection, e.collector);
  pn_connection_set_container(e.connection, "bench");
  pn_transport_bind(e.transport, e.connection);
  pn_connection_open(e.connection);
  pn_session_t *session = pn_session(e.connection);
  pn_session_open(session);
  pn_link_t *link = receives ? pn_receiver(session, "link") : pn_sender(session, "link");
  pn_link_open(link);
  if (receives) pn_link_flow(link, 1 << 30);
  put_out(&e);
  hear(&e);
  answer(&e);
  int sends_first = !strcmp(mode, "open"), to_the_end = keeps || sends_first;
  if (sends_first) send_from(link, 0, count, 0);
  put_out(&e);
  for (long i = 0; to_the_end ? bytes < end : i < count; i += batch) {
    if (!receives && !sends_first) send_from(link, i, batch, is_settled);
    put_out(&e);
    if (!is_settled) hear(&e);
    answer(&e);
    put_out(&e);
  }
  pn_transport_unbind(e.transport);
  pn_transport_free(e.transport);
  pn_connection_free(e.connection);
  pn_collector_free(e.collector);
}

int main(int argc, char **argv) {
  if (argc != 5) return 2;
  load(argv[3]);
  if (!strcmp(argv[1], "decode")) decode(atol(argv[2]));
  else exchange(argv[1], atol(argv[2]), atol(argv[4]));
  printf("done=%ld\n", done);
  return 0;
}
