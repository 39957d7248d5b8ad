/* Tests of libamqp1: recorded connections, as amqp1_recorded.py and try_c_recorded.py write them. What is received comes in chunks of several
   sizes, and records are taken a few at a time: what is refused, what goes out, and each record are the same for all. A connection that was recorded
   from its first byte on is also cut once, at each place. */
#include "amqp1_openings.h"

enum { MOST = 1 << 20, FRAMES = 4096, RECORDS = 1 << 15 };

/* Bytes that grow, up to MOST. */
typedef struct text {
    uint8_t at[MOST];
    size_t length;
} text;

/* What came of a connection and what was wanted: the frames with their sizes, and what was refused, a line each. What came from the peer and was
   not yet handed over; and all of it so far. */
static text sent, wanted_sent, told, wanted_told, waiting;

/* Of each frame of the peer's that waits: where it ends, and its place in the recording. */
static struct { size_t end; unsigned place; } frames[FRAMES];
static size_t frame_count;

/* The records of the first size of chunks, with places counted from the connection's begin; how many there are, and how many came this time. */
static amqp1_record first_records[RECORDS];
static size_t first_count, count_now, heard_before;

static char line[1 << 18];
static char name[128];
static amqp1 engine;
static size_t chunk;
static int is_plain;

/* Where alone what comes is cut, or 0. */
static size_t cut;

static void add(text *to, const void *bytes, size_t length)
{
    EACH(length <= MOST - to->length);
    if (length <= MOST - to->length) {
        memcpy(to->at + to->length, bytes, length);
        to->length += length;
    }
}

/* Tells a refusal: of a recording with its place, of an exchange by its name alone. */
static void tell(unsigned place, const char *refusal, size_t length)
{
    char said[128];
    int count = is_plain ? snprintf(said, sizeof said, "%.*s\n", (int)length, refusal) :
                           snprintf(said, sizeof said, "%u %.*s\n", place, (int)length, refusal);
    add(&told, said, (size_t)count);
}

static void take_sent(void)
{
    uint8_t out[100];
    size_t written;
    while (amqp1_output(&engine, out, sizeof out, &written) == AMQP1_DONE && written)
        add(&sent, out, written);
}

/* What became of a request. */
static void settle_up(unsigned place, int32_t status)
{
    uint8_t said[256];
    size_t written = 0, length;
    if (status == AMQP1_REFUSED) {
        EACH(amqp1_refusal(&engine, said, sizeof said, &written) == AMQP1_DONE);
        for (length = 0; length < written && said[length] != '\n'; length++) {
        }
        tell(place, (const char *)said, length);
    } else if (status == AMQP1_BAD_ARGUMENT) {
        tell(place, "bad line", 8);
    } else {
        EACH(status == AMQP1_DONE);
    }
    take_sent();
}

/* Whether an End or a Close of the peer's is told: it names an error, or is the first one, since this side has not sent its own. */
static int is_told_ending(const amqp1_record *record)
{
    if (amqp1_has(record, AMQP1_FLAG_ERROR))
        return record->kind == AMQP1_KIND_ENDED || record->kind == AMQP1_KIND_CLOSED;
    if (record->kind == AMQP1_KIND_ENDED)
        return session_state_of(&engine, record->session) == AMQP1_SESSION_END_RECEIVED;
    return record->kind == AMQP1_KIND_CLOSED && state_of(&engine) == AMQP1_STATE_CLOSE_RECEIVED;
}

/* A record's refusal, by its name; an End and a Close tell how the peer ended. */
static void tell_record(unsigned place, const amqp1_record *record)
{
    static const char *const ended[2][2] = { { "RemoteEnded", "RemoteEndedWithError" }, { "RemoteClosed", "RemoteClosedWithError" } };
    uint8_t said[128];
    size_t written = 0, length;
    if (is_told_ending(record)) {
        const char *how = ended[record->kind == AMQP1_KIND_CLOSED][amqp1_has(record, AMQP1_FLAG_ERROR)];
        tell(place, how, strlen(how));
    } else if (record->refusal) {
        EACH(record->kind == AMQP1_KIND_REFUSED || record->kind == AMQP1_KIND_ATTACH_WANTED || record->kind == AMQP1_KIND_BEGIN_WANTED);
        EACH(amqp1_refusal_text(&engine, record->refusal, said, sizeof said, &written) == AMQP1_DONE && written > 0);
        for (length = 0; length < written && said[length] != '\n'; length++) {
        }
        tell(place, (const char *)said, length);
    }
}

/* Where a record stands, in the input that begins at `from`: the frame of `place`, whose performative and payload are all of it. */
static unsigned place_of(const amqp1_record *record, size_t from, size_t end_of_input)
{
    size_t begin = from + record->at - 8, end = from + record->payload_at + record->payload, n;
    EACH(record->at + record->size == record->payload_at && end <= end_of_input);
    EACH(amqp1_u32_of(waiting.at + begin) == end - begin);
    for (n = 0; n < frame_count && frames[n].end < end; n++) {
    }
    EACH(n < frame_count && frames[n].end == end);
    return n < frame_count ? frames[n].place : 0;
}

/* Whether the record is that of the first size of chunks, but for its places. */
static void compare(amqp1_record record, size_t from)
{
    /* the bytes of one header or frame of SASL are taken alone: its places begin with it */
    if (record.kind < AMQP1_KIND_SASL_HEADER) {
        record.at += (uint32_t)(heard_before + from);
        record.payload_at += (uint32_t)(heard_before + from);
    }
    if (chunk == 1 && first_count < RECORDS)
        first_records[first_count++] = record;
    if (count_now < first_count)
        EACH(!memcmp(&record, first_records + count_now, sizeof record));
    EACH(count_now++ < first_count);
}

/* A detach that the peer began is answered by one. */
static void answer(const amqp1_record *record)
{
    uint8_t detach[64];
    size_t length;
    if (record->kind != AMQP1_KIND_DETACHED || record->output == AMQP1_NONE)
        return;
    EACH(amqp1_write_detach(detach, sizeof detach, &length, record->output, amqp1_has(record, AMQP1_FLAG_FOR_GOOD),
                            NULL, NULL) == AMQP1_DONE);
    EACH(amqp1_detach(&engine, record->session, 0, detach, length) == AMQP1_DONE);
}

/* How much of what came is known next, where so much was. */
static size_t known_after(size_t known)
{
    if (cut > heard_before + known && cut < heard_before + waiting.length)
        return cut - heard_before;
    return waiting.length - known < chunk ? waiting.length : known + chunk;
}

/* Hands over what came, in chunks; what was not taken is given again with the next chunk. */
static void hand_over(void)
{
    amqp1_record records[3];
    amqp1_took took;
    char said[1024];
    size_t at = 0, known = 0, n;
    while (at < waiting.length) {
        int32_t status;
        known = known_after(known);
        do {
            status = amqp1_take(&engine, 0, waiting.at + at, known - at, records, 1 + chunk % 3, &took);
            EACH(status == AMQP1_DONE || status == AMQP1_FULL || status == AMQP1_AGAIN || status == AMQP1_OVER);
            for (n = 0; n < took.written; n++) {
                if (records[n].kind < AMQP1_KIND_SASL_HEADER)
                    tell_record(place_of(records + n, at, known), records + n);
                else
                    add(&told, said, opening_told(&engine, records + n, waiting.at + at, said, sizeof said));
                compare(records[n], at);
                answer(records + n);
            }
            at += took.taken;
        } while (status == AMQP1_FULL || status == AMQP1_AGAIN);
        if (status == AMQP1_OVER) {
            /* what comes behind both Closes is not taken: the recordings have it as it is refused */
            for (n = 0; n < frame_count; n++)
                if (frames[n].end > at)
                    tell(frames[n].place, "IllegalState", 12);
            break;
        }
        EACH(at == known || (status == AMQP1_DONE && took.wanted > known - at));
        if (known == waiting.length && at < known) {
            EACH(0);
            break;
        }
    }
    heard_before += waiting.length;
    waiting.length = frame_count = 0;
    take_sent();
}

/* A frame of the peer's. A detach is handed over at once, since it is answered before the next frame comes. */
static void receive(unsigned place, const char *digits)
{
    size_t from = waiting.length;
    static uint8_t frame[1 << 17];
    add(&waiting, frame, bytes_of(digits, frame, sizeof frame));
    if (frame_count < FRAMES) {
        frames[frame_count].end = waiting.length;
        frames[frame_count++].place = place;
    }
    if (amqp1_frame_code(amqp1_bytes_at(waiting.at + from, waiting.length - from)) == AMQP1_DETACH_CODE)
        hand_over();
}

/* `OPERATION INPUT`. */
static void call(unsigned place, const char *said)
{
    static uint8_t input[1 << 17];
    uint8_t out[16];
    const char *digits = strchr(said, ' ') + 1;
    size_t written, length = *digits == '-' ? 0 : bytes_of(digits, input, sizeof input);
    settle_up(place, amqp1_call(&engine, (uint32_t)atoi(said), input, length, out, sizeof out, &written));
}

/* `SESSION FIRST PERF PAYLOAD`: a transfer. */
static void transfer(unsigned place, const char *said)
{
    static uint8_t perf[1 << 16], payload[1 << 17];
    uint32_t session = 0, first = 0;
    const char *digits = said;
    size_t n, length, payload_length;
    EACH(sscanf(said, "%u %u", &session, &first) == 2);
    for (n = 0; n < 2; n++)
        digits = strchr(digits, ' ') + 1;
    length = (size_t)(strchr(digits, ' ') - digits) / 2;
    EACH(bytes_of(digits, perf, sizeof perf) >= length);
    digits = strchr(digits, ' ') + 1;
    payload_length = *digits == '-' ? 0 : bytes_of(digits, payload, sizeof payload);
    settle_up(place, amqp1_transfer(&engine, session, (int)first, perf, length, payload, payload_length));
}

/* The Open of all: container "replay", frames of 262144 bytes, 255 channels. */
static uint8_t our_open[64];
static size_t our_length;

static void begin(void)
{
    EACH(amqp1_write_open(our_open, sizeof our_open, &our_length, "replay", NULL, 262144, 255, 0) == AMQP1_DONE);
    sent.length = wanted_sent.length = told.length = wanted_told.length = waiting.length = 0;
    frame_count = heard_before = 0;
}

static void end(void)
{
    /* of a recording, what goes out before its frames is wanted */
    int is_sent = is_plain ? sent.length == wanted_sent.length : sent.length >= wanted_sent.length;
    int is_told = told.length == wanted_told.length && !memcmp(told.at, wanted_told.at, told.length);
    is_sent = is_sent && !memcmp(sent.at, wanted_sent.at, wanted_sent.length);
    if (!is_sent || !is_told)
        printf("  %s in chunks of %u: sent %u of %u bytes, told\n%.*swanted\n%.*s", name, (unsigned)chunk, (unsigned)sent.length,
               (unsigned)wanted_sent.length, (int)told.length, (const char *)told.at, (int)wanted_told.length, (const char *)wanted_told.at);
    EACH(is_sent);
    EACH(is_told);
    tried += 2;
    amqp1_free(&engine);
}

static int is_beginning(void)
{
    return !strncmp(line, "exchange ", 9) || !strncmp(line, "client ", 7) || !strncmp(line, "server ", 7);
}

/* A line: a word, in a recording its frame's place, and the rest. */
static void do_line(void)
{
    static uint8_t frame[1 << 17];
    char *rest = strchr(line, ' ');
    unsigned place = 0;
    rest = rest ? rest + 1 : line + strlen(line);
    if (strncmp(line, "recv ", 5) && waiting.length)
        hand_over();
    if (!is_plain && !is_beginning() && strncmp(line, "out ", 4) && *rest) {
        place = (unsigned)atoi(rest);
        rest = strchr(rest, ' ');
        rest = rest ? rest + 1 : line + strlen(line);
    }
    if (!strncmp(line, "exchange ", 9)) {
        begin();
        CHECK(amqp1_start(&engine, key, our_open, our_length) == AMQP1_DONE && exchanges_headers(&engine));
        snprintf(name, sizeof name, "%s", rest);
    } else if (is_beginning()) {
        begin();
        EACH(opening_started(&engine, line, our_open, our_length, name) == AMQP1_DONE);
        take_sent();
    } else if (!strncmp(line, "call ", 5)) {
        call(place, rest);
    } else if (!strncmp(line, "send ", 5)) {
        transfer(place, rest);
    } else if (!strncmp(line, "recv ", 5)) {
        receive(place, rest);
    } else if (!strncmp(line, "bad ", 4)) {
        tell(place, "bad line", 8);
    } else if (!strncmp(line, "out ", 4)) {
        add(&wanted_sent, frame, bytes_of(rest, frame, sizeof frame));
    } else if (!strncmp(line, "err ", 4)) {
        add(&wanted_told, line + 4, strlen(line + 4));
        add(&wanted_told, "\n", 1);
    } else {
        end();
    }
}

/* The next line of the file, if there is one. */
static int read_line(FILE *file)
{
    if (!fgets(line, sizeof line, file))
        return 0;
    line[strcspn(line, "\n")] = 0;
    return 1;
}

static void try_file(const char *path)
{
    static const size_t chunks[] = { 1, 7, 4096, MOST };
    size_t at, lines = 0;
    for (at = 0; at < sizeof chunks / sizeof *chunks; at++) {
        FILE *file = fopen(path, "r");
        chunk = chunks[at];
        count_now = 0;
        first_count = at ? first_count : 0;
        CHECK(file != NULL);
        for (lines = 0; file && read_line(file); lines++)
            do_line();
        CHECK(lines > 0 && count_now == first_count);
        if (file)
            fclose(file);
    }
}

/* The connection that begins in the line that was read: what comes is cut at this place alone. How many bytes came. */
static size_t do_cut(FILE *file, size_t place)
{
    cut = place;
    do
        do_line();
    while (strcmp(line, "end") && read_line(file));
    cut = 0;
    return heard_before;
}

void try_each_cut(const char *path)
{
    FILE *file = fopen(path, "r");
    size_t before = 0, place, length;
    long begins = 0;
    CHECK(file != NULL);
    is_plain = 0;
    chunk = MOST;
    for (count_now = 0; file && read_line(file); before = count_now, begins = ftell(file)) {
        int is_cut = strncmp(line, "exchange ", 9) != 0;
        length = do_cut(file, 0);
        for (place = 1; is_cut && place < length; place++) {
            count_now = before;
            CHECK(!fseek(file, begins, SEEK_SET) && read_line(file) && do_cut(file, place) == length);
        }
    }
    CHECK(count_now == first_count);
    if (file)
        fclose(file);
}

void try_exchanges(const char *path)
{
    is_plain = 1;
    try_file(path);
}

void try_recorded(const char *path)
{
    is_plain = 0;
    try_file(path);
}
