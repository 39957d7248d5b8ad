/* Tests of libamqp1, over the functions of amqp1.h. try_c.sh builds and runs them; the last line is 'N passed, M failed'. */
#include "amqp1_try.h"

int tried, wrong;

amqp1_record heard[64];
uint8_t heard_bytes[4096];

void check(int holds, const char *said, const char *file, int line)
{
    tried++;
    if (holds)
        return;
    wrong++;
    printf("%s:%d: %s\n", file, line, said);
}

amqp1 made(void)
{
    amqp1 engine = AMQP1_EMPTY;
    uint8_t open[64];
    size_t length;
    CHECK(amqp1_write_open(open, sizeof open, &length, "me", NULL, 65536, 255, 0) == AMQP1_DONE);
    CHECK(amqp1_start(&engine, key, open, length) == AMQP1_DONE && exchanges_headers(&engine));
    return engine;
}

int sends(amqp1 *engine, const char *digits)
{
    static uint8_t out[1 << 16];
    size_t written = 0;
    if (amqp1_output(engine, out, sizeof out, &written) != AMQP1_DONE)
        return 0;
    return are(out, written, digits);
}

size_t hears(amqp1 *engine, const char *digits)
{
    amqp1_took took = { 9, 9, 9 };
    size_t length = bytes_of(digits, heard_bytes, sizeof heard_bytes), at = 0, count = 0, n;
    int32_t status;
    do {
        status = amqp1_take(engine, 0, heard_bytes + at, length - at, heard + count, sizeof heard / sizeof *heard - count, &took);
        for (n = count; n < count + took.written; n++) {
            heard[n].at += (uint32_t)at;
            heard[n].payload_at += (uint32_t)at;
        }
        at += took.taken;
        count += took.written;
    } while (status == AMQP1_AGAIN);
    CHECK(at == length && (status == AMQP1_DONE ? took.wanted == 4 : status == AMQP1_OVER));
    return count;
}

int hears_one(amqp1 *engine, const char *digits, enum amqp1_kind kind)
{
    size_t count = hears(engine, digits);
    if (count == 1 && heard[0].kind == (unsigned)kind)
        return 1;
    printf("  %s, refusal %u, and not %s\n", count ? amqp1_kind_name(heard[0].kind) : "nothing", (unsigned)heard[0].refusal,
           amqp1_kind_name((unsigned)kind));
    return 0;
}

int hears_refused(amqp1 *engine, const char *digits, enum amqp1_why why)
{
    size_t count = hears(engine, digits);
    int is_so = count == 1 && (heard[0].kind == AMQP1_KIND_REFUSED || heard[0].kind == AMQP1_KIND_ATTACH_WANTED || heard[0].kind == AMQP1_KIND_BEGIN_WANTED) && heard[0].refusal == (unsigned)why;
    if (!is_so)
        printf("  %s, refusal %u, and not %u\n", amqp1_kind_name(heard[0].kind), (unsigned)heard[0].refusal, (unsigned)why);
    return is_so;
}

static amqp1 opened_by(const char *peers_open)
{
    char frame[128];
    amqp1 engine = made();
    CHECK(amqp1_open(&engine) == AMQP1_DONE && sends(&engine, OPEN_OUT));
    snprintf(frame, sizeof frame, "[02000000 %s]", peers_open);
    CHECK(hears_one(&engine, frame, AMQP1_KIND_OPENED));
    return engine;
}

amqp1 opened(void)
{
    return opened_by(PEERS_OPEN);
}

static amqp1 begun_by(const char *peers_open)
{
    amqp1 engine = opened_by(peers_open);
    uint8_t begin[64];
    size_t length;
    CHECK(amqp1_write_begin(begin, sizeof begin, &length, 0, 64, 64, 255) == AMQP1_DONE);
    CHECK(amqp1_begin(&engine, 7, begin, length) == AMQP1_DONE);
    CHECK(sends(&engine, "[02000000 005311 c0(05 40 43 5240 5240 52ff)]"));
    CHECK(hears_one(&engine, "[02000003 005311 c0(04 600000 43 520a 520a)]", AMQP1_KIND_BEGUN) && heard[0].session == 7 && heard[0].channel == 3);
    return engine;
}

amqp1 begun(void)
{
    return begun_by(PEERS_OPEN);
}

amqp1 sending(const char *peers_open)
{
    amqp1 engine = begun_by(peers_open);
    CHECK(attaches(&engine, "out", AMQP1_SENDER, AMQP1_FIRST) == 0);
    CHECK(hears_one(&engine, "[02000003 005312 c0(03 a1(6f7574) 5205 41)]", AMQP1_KIND_ATTACHED));
    return engine;
}

int refused_as(amqp1 *engine, const char *name, const char *condition)
{
    uint8_t said[256];
    size_t written = 0, length = strlen(name), rest = strlen(condition);
    if (amqp1_refusal(engine, said, sizeof said, &written) != AMQP1_DONE)
        return 0;
    if (written >= length + 1 + rest && !memcmp(said, name, length) && said[length] == '\n' && !memcmp(said + length + 1, condition, rest) &&
        (written == length + 1 + rest || said[length + 1 + rest] == '\n'))
        return 1;
    printf("  wanted %s %s\n  is     %.*s\n", name, condition, (int)written, (const char *)said);
    return 0;
}

uint32_t attaches(amqp1 *engine, const char *name, enum amqp1_role role, enum amqp1_rcv_settle_mode mode)
{
    uint8_t text[256], out[256];
    uint32_t handle = 99;
    size_t length, written;
    CHECK(amqp1_link(engine, 7, role, mode, name, &handle) == AMQP1_DONE);
    CHECK(amqp1_write_attach(text, sizeof text, &length, name, handle, role, 2, mode, "q", "q", 0) == AMQP1_DONE);
    CHECK(amqp1_attach(engine, 7, text, length) == AMQP1_DONE);
    CHECK(amqp1_output(engine, out, sizeof out, &written) == AMQP1_DONE && written > 0);
    return handle;
}

uint32_t state_of(amqp1 *engine)
{
    uint32_t state = 99;
    CHECK(amqp1_state(engine, &state) == AMQP1_DONE);
    return state;
}

uint32_t session_state_of(amqp1 *engine, uint32_t session)
{
    uint32_t state = 99;
    int is_there = 0;
    CHECK(amqp1_session_state(engine, session, &state, &is_there) == AMQP1_DONE);
    return is_there ? state : 99;
}

int main(int count, char **words)
{
    try_records();
    try_places();
    try_inputs();
    try_connection();
    try_numbers();
    try_takes();
    try_links();
    try_sends();
    try_refused_sends();
    try_cuts();
    try_writers();
    try_peers();
    try_sessions();
    try_pairs();
    try_streams();
    try_credit();
    try_endings();
    try_waiting();
    try_faults();
    try_many();
    try_apart();
    if (count > 1)
        try_exchanges(words[1]);
    if (count > 2)
        try_recorded(words[2]);
    if (count > 3)
        try_each_cut(words[2]);
    printf("%d passed, %d failed\n", tried - wrong, wrong);
    return wrong != 0;
}
