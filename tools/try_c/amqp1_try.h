/* What the tests of libamqp1 share: checks that count, bytes as hexadecimal, and a peer that is a script. They are C and C++. See try_c.sh. */
#ifndef AMQP1_TRY_H
#define AMQP1_TRY_H

#include <amqp1.h>
#include <stdio.h>

extern int tried, wrong;

/* Counts a check, and tells one that is wrong. */
void check(int holds, const char *said, const char *file, int line);
#define CHECK(x) check((x) ? 1 : 0, #x, __FILE__, __LINE__)

/* The same of one among thousands: it counts where it is wrong. */
#define EACH(x) ((x) ? (void)0 : check(0, #x, __FILE__, __LINE__))

/* The bytes that hexadecimal digits spell; spaces are passed over. `[` and `]` stand around a frame, whose size is put before it, and `(` and `)`
   around what has a size of one byte before it. How many there are. */
size_t bytes_of(const char *digits, uint8_t *out, size_t room);

/* Whether these bytes are those that the digits spell; where not, both are printed. */
int are(const uint8_t *bytes, size_t length, const char *digits);
int is(amqp1_bytes bytes, const char *digits);

/* The header of AMQP goes out, and the peer's comes in (AMQP 1.0 part 2, section 2.2): frames follow. Whether both are as they have to be. */
static inline int exchanges_headers(amqp1 *engine)
{
    static const uint8_t header[8] = { 'A', 'M', 'Q', 'P', 0, 1, 0, 0 };
    uint8_t out[8] = { 0 };
    amqp1_record record;
    amqp1_took took;
    size_t written = 0;
    int32_t status = amqp1_output(engine, out, sizeof out, &written);
    if (status != AMQP1_DONE || written != sizeof out || memcmp(out, header, sizeof out))
        return 0;
    status = amqp1_take(engine, 0, header, sizeof header, &record, 1, &took);
    return status == AMQP1_AGAIN && took.taken == 8 && took.written == 1 && record.kind == AMQP1_KIND_AMQP_HEADER;
}

/* 16 bytes that are not all zero. */
extern const uint8_t key[16];

/* An engine whose Open is the one that OPEN_OUT spells; both headers have passed. */
amqp1 made(void);
#define OPEN_OUT "[02000000 005310 c0(04 a1(6d65) 40 7000010000 6000ff)]"

/* Whether the bytes that wait to be sent are these; they are taken off. */
int sends(amqp1 *engine, const char *digits);

/* Hands over the peer's frames, all of which are taken: how many records came of them. What comes behind one that is to be answered is given again
   at once. Records and bytes stay until the next call. */
size_t hears(amqp1 *engine, const char *digits);
extern amqp1_record heard[64];
extern uint8_t heard_bytes[4096];

/* The same of one frame: whether its record has this kind. */
int hears_one(amqp1 *engine, const char *digits, enum amqp1_kind kind);

/* Whether it is refused, by this number. */
int hears_refused(amqp1 *engine, const char *digits, enum amqp1_why why);

/* What the peer opens with: its name, no host, frames of 1024 bytes. */
#define PEERS_OPEN "005310 c0(03 a1(70656572) 40 7000000400)"

/* An engine whose connection is open; with one session, 7, on channel 0, to which the peer's channel 3 leads. */
amqp1 opened(void);
amqp1 begun(void);

/* The same, where the peer opens with this, and with a link on which this side sends: output handle 0, input handle 5. The peer's window is ten
   transfers. */
amqp1 sending(const char *peers_open);

/* Whether the last refusal has this name and this condition. */
int refused_as(amqp1 *engine, const char *name, const char *condition);

/* A link of the session 7 by this name is allotted, and its Attach goes out, which is not looked at. Its output handle. */
uint32_t attaches(amqp1 *engine, const char *name, enum amqp1_role role, enum amqp1_rcv_settle_mode mode);

/* A head of a delivery in one transfer. */
amqp1_head head_of(uint32_t session, uint32_t link, uint16_t flags, uint16_t tag_size, uint32_t payload);

uint32_t state_of(amqp1 *engine);
uint32_t session_state_of(amqp1 *engine, uint32_t session);

void try_records(void);
void try_places(void);
void try_inputs(void);
void try_connection(void);
void try_numbers(void);
void try_takes(void);
void try_links(void);
void try_sends(void);
void try_refused_sends(void);
void try_cuts(void);
void try_writers(void);
void try_peers(void);
void try_sessions(void);
void try_pairs(void);
void try_streams(void);
void try_credit(void);
void try_endings(void);
void try_waiting(void);
void try_faults(void);
void try_many(void);
void try_apart(void);
/* The exchanges in the file of this name: what goes out, and what is refused; and recordings: records, and what is refused; and then those of them
   that are from the first byte on, cut once at each place of what comes. */
void try_exchanges(const char *path);
void try_recorded(const char *path);
void try_each_cut(const char *path);

#endif
