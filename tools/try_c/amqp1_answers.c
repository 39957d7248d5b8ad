/* A server's answers by libamqp1, for amqp1_try.sh to run with each request for memory refused in turn (refuse_nth.c). What changed nothing is asked
   again, and what was done in part is gone on with, as its status says; where a connection cannot go on, another one begins. So all that goes out is
   as it is when nothing is refused. It is printed; after ~ stands how often a call was asked again. */
#include "amqp1_try.h"

static amqp1 one;
static char printed[1 << 14];
static size_t length;
static long again;

/* Whether the last refusal is for want of memory. */
static int is_for_memory(void)
{
    uint8_t said[256];
    size_t written = 0;
    if (amqp1_refusal(&one, said, sizeof said, &written) == AMQP1_NO_MEMORY)
        amqp1_refusal(&one, said, sizeof said, &written);
    return written > 11 && !memcmp(said, "OutOfMemory\n", 12);
}

/* Whether a call is to be asked again: nothing changed for want of memory. */
static int asks_again(int32_t status)
{
    int is_so = status == AMQP1_NO_MEMORY || (status == AMQP1_REFUSED && is_for_memory());
    again += is_so;
    return is_so;
}

static void wants(const char *what, int32_t status, int32_t wanted)
{
    if (status != wanted)
        printf("%s: %s\n", what, amqp1_status_name(status));
}

#define ASK(call)                                       \
    do {                                                \
        int32_t status_is;                              \
        while (status_is = (call), asks_again(status_is)) { \
        }                                               \
        wants(#call, status_is, AMQP1_DONE);            \
    } while (0)

/* Keeps what goes out. */
static void tell(void)
{
    uint8_t out[512];
    size_t written, at;
    int waits;
    do {
        int32_t status = amqp1_output(&one, out, sizeof out, &written);
        for (at = 0; at < written && length + 4 < sizeof printed; at++)
            length += (size_t)sprintf(printed + length, "%02x", (unsigned)out[at]);
        waits = written > 0 || status == AMQP1_NO_MEMORY;
        again += status == AMQP1_NO_MEMORY;
    } while (waits);
}

/* Whether a frame was refused for want of memory: no other refusal comes here than that of a link that is not attached. */
static int is_gone(const amqp1_record *record)
{
    return record->kind == AMQP1_KIND_REFUSED && record->refusal != AMQP1_WHY_SESSION_UNATTACHED_HANDLE;
}

/* Hands over one frame, also where it is gone for want of memory; its record is heard[0], and its bytes are heard_bytes. */
static void hear(const char *digits)
{
    size_t size = bytes_of(digits, heard_bytes, sizeof heard_bytes);
    amqp1_took took = { 0, 0, 0 };
    while (amqp1_take(&one, 0, heard_bytes, size, heard, 1, &took), !took.written || is_gone(heard))
        again++;
}

static int32_t answers(void)
{
    return amqp1_answer(&one, heard, heard_bytes, sizeof heard_bytes, AMQP1_ANSWER_ALL, heard->channel);
}

/* Goes on with a session that memory did not let go. Whether it has gone. */
static int32_t lets_go(int32_t status, uint32_t session)
{
    while (status == AMQP1_NOT_RELEASED && is_for_memory()) {
        again++;
        status = amqp1_let_go(&one, session);
    }
    while (status == AMQP1_NOT_FORGOTTEN && is_for_memory()) {
        again++;
        status = amqp1_forget(&one, session);
    }
    return status;
}

/* The peer's session is answered. 0 where the connection cannot go on as it would. */
static int begins(const char *frame, uint32_t session)
{
    int32_t status;
    hear(frame);
    while (status = answers(), asks_again(status)) {
    }
    if (status == AMQP1_LOST && session_state_of(&one, session) != AMQP1_SESSION_BEGIN_SENT)
        printf("a session that is lost is not begun\n");
    if (status == AMQP1_LOST || status == AMQP1_BROKEN)
        return 0;
    wants("a begin", status, AMQP1_DONE);
    tell();
    return 1;
}

/* The peer's End is answered, and its session has gone. */
static void ends(const char *frame, uint32_t session)
{
    int32_t status;
    hear(frame);
    while (status = answers(), asks_again(status)) {
    }
    wants("an end", lets_go(status, session), AMQP1_DONE);
    if (session_state_of(&one, session) != 99)
        printf("a session that is let go is there\n");
    tell();
}

/* A connection. 0 where it cannot go on. */
static int goes(void)
{
    uint8_t text[64], error[64];
    size_t size, error_size;
    length = 0;
    wants("an open's text", amqp1_write_open(text, sizeof text, &size, "me", NULL, 65536, 255, 0), AMQP1_DONE);
    ASK(amqp1_start(&one, key, text, size));
    tell();
    hear("414d5150 00010000");
    ASK(amqp1_open(&one));
    hear("[02000000 " PEERS_OPEN "]");
    tell();
    if (!begins("[02000005 005311 c0(04 40 43 5264 5264)]", 5) || !begins("[02000006 005311 c0(04 40 43 5264 5264)]", 6))
        return 0;
    ends("[02000005 00531745]", 5);
    hear("[02000006 005313 c0(05 43 5210 43 5210 5209)]");
    ASK(answers());
    tell();
    ends("[02000006 00531745]", 6);
    if (!begins("[02000007 005311 c0(04 40 43 5264 5264)]", 7))
        return 0;
    hear("[02000007 00531745]");
    wants("an error's text", amqp1_write_error(error, sizeof error, &error_size, "amqp:internal-error", NULL), AMQP1_DONE);
    ASK(lets_go(amqp1_answer_end(&one, 7, error, error_size), 7));
    tell();
    hear("[02000000 00531845]");
    ASK(answers());
    tell();
    return 1;
}

int tried, wrong;
amqp1_record heard[64];
uint8_t heard_bytes[4096];

void check(int holds, const char *said, const char *file, int line)
{
    if (!holds)
        printf("%s:%d: %s\n", file, line, said);
}

uint32_t session_state_of(amqp1 *engine, uint32_t session)
{
    uint32_t state = 99;
    int is_there = 0;
    CHECK(amqp1_session_state(engine, session, &state, &is_there) == AMQP1_DONE);
    return is_there ? state : 99;
}

int main(void)
{
    static char buffer[1 << 16];
    setvbuf(stdout, buffer, _IOFBF, sizeof buffer);
    while (!goes()) {
        again++;
        amqp1_free(&one);
    }
    amqp1_free(&one);
    printf("%s\n~ %ld\n", printed, again);
    return 0;
}
