/* About the least C that does the checked work of some rows of tools/bench/bench.py and tools/bench/bench_engine.py, for tools/bench/cheapest.py.

   cheapest decode COUNT FRAME       decodes the frame, in hexadecimal and without its size, COUNT times
   cheapest receive COUNT FRAME      COUNT times 100 such frames come, each goes to its link, and one disposition accepts all
   cheapest keep COUNT [idle]        the same of frames that are made here; each is kept by number and tag, and the disposition settles them
   cheapest send COUNT [idle]        COUNT times 100 transfers of 64 bytes go into one buffer, settled

   `idle` only makes what the work is given. Each field that comes is checked against its type (AMQP 1.0 part 2, section 2.7.5), each list against its bounds.
   Left out is what the rows do not ask for: all other performatives, states of a connection and of a session, transfers that wait for the window, deliveries
   that are settled in another order than they came in, memory that grows, channels and handles past a table. */

#include <stdbool.h>
#include <stdint.h>
#include <stdio.h>
#include <stdlib.h>
#include <string.h>

enum { BATCH = 100, PAYLOAD = 64, CHANNELS = 256, HANDLES = 64, KEPT = 1024, TAG = 32, WINDOW = 5000, ROOM = 1 << 16, DEEPEST = 64, NONE = 0x40 };
/* The fields of a transfer that may be absent, as bits, and the one that may not. */
enum { HAS_NUMBER = 1, HAS_FORMAT = 2, HAS_SETTLED = 4, HAS_MODE = 8, HAS_HANDLE = 16 };
#define APART __attribute__((noinline))
#define WITHIN static inline __attribute__((always_inline))
/* A field is read, where the list has another one. */
#define NEXT(read) do { if (!l.left) goto end; if (!(read)) return false; } while (0)

typedef struct {
  uint32_t handle, number, format, tag_size, state_size, payload_size;
  const uint8_t *tag, *state, *payload;
  uint8_t has, mode;
  bool settled, more, resume, aborted, batchable;
} transfer;

/* ---- what comes */

typedef struct {
  const uint8_t *at, *end;
  uint32_t left;
} list;

WITHIN uint32_t big(const uint8_t *at) {
  uint32_t value;
  memcpy(&value, at, 4);
  return __builtin_bswap32(value);
}

WITHIN bool has(const list *l, size_t count) { return (size_t)(l->end - l->at) >= count; }

/* The code of the next field, or one that no type has where the list is cut off. */
WITHIN int code(list *l) {
  l->left--;
  return l->at < l->end ? *l->at++ : -1;
}

/* Each reads a field. False: it is of another type. */
WITHIN bool read_uint(list *l, uint32_t *value, unsigned *said, unsigned bit) {
  switch (code(l)) {
    case NONE: return true;
    case 0x43: *value = 0; break;
    case 0x52: if (!has(l, 1)) return false; *value = *l->at++; break;
    case 0x70: if (!has(l, 4)) return false; *value = big(l->at); l->at += 4; break;
    default: return false;
  }
  *said |= bit;
  return true;
}

WITHIN bool read_flag(list *l, bool *value, unsigned *said, unsigned bit) {
  switch (code(l)) {
    case NONE: return true;
    case 0x41: *value = true; break;
    case 0x42: *value = false; break;
    case 0x56: if (!has(l, 1) || *l->at > 1) return false; *value = *l->at++; break;
    default: return false;
  }
  *said |= bit;
  return true;
}

WITHIN bool read_tag(list *l, transfer *t) {
  switch (code(l)) {
    case NONE: return true;
    case 0xa0: if (!has(l, 1)) return false; t->tag_size = *l->at++; break;
    case 0xb0: if (!has(l, 4)) return false; t->tag_size = big(l->at); l->at += 4; break;
    default: return false;
  }
  if (t->tag_size > TAG || !has(l, t->tag_size)) return false;
  t->tag = l->at;
  l->at += t->tag_size;
  return true;
}

WITHIN bool read_mode(list *l, transfer *t, unsigned *said) {
  int its = code(l);
  if (its == NONE) return true;
  if (its != 0x50 || !has(l, 1) || *l->at > 1) return false;
  t->mode = *l->at++;
  *said |= HAS_MODE;
  return true;
}

/* Reads the size of a value, of one byte or of four, and ends the list where the value ends. */
WITHIN bool enter(list *l, bool is_wide) {
  if (!has(l, is_wide ? 4 : 1)) return false;
  uint32_t size = is_wide ? big(l->at) : *l->at;
  l->at += is_wide ? 4 : 1;
  if (!has(l, size)) return false;
  l->end = l->at + size;
  return true;
}

/* The same, and how many items it has. */
WITHIN bool enter_list(list *l, bool is_wide) {
  if (!enter(l, is_wide) || !has(l, is_wide ? 4 : 1)) return false;
  l->left = is_wide ? big(l->at) : *l->at;
  l->at += is_wide ? 4 : 1;
  return true;
}

/* Where a value of any type ends, or null. Its codes and bounds are looked at, of an array the bounds alone. */
APART static const uint8_t *after(const uint8_t *at, const uint8_t *end, int depth) {
  if (at == end || !depth) return NULL;
  unsigned kind = *at++, width = kind >> 4;
  list l = {at, end, 1};
  if (!kind) return (at = after(at, end, depth - 1)) ? after(at, end, depth - 1) : NULL;
  if (width < 4 || (width == 4 && kind > 0x45)) return NULL;
  if (width < 0xa) return has(&l, 1u << width >> 5) ? at + (1u << width >> 5) : NULL;
  if (width != 0xc && width != 0xd) return enter(&l, width & 1) ? l.end : NULL;
  if (!enter_list(&l, width & 1)) return NULL;
  while (l.left--) {
    if (!(l.at = after(l.at, l.end, depth - 1))) return NULL;
  }
  return l.at == l.end ? l.end : NULL;
}

WITHIN bool read_state(list *l, transfer *t) {
  if (code(l) == NONE) return true;
  t->state = l->at - 1;
  if (t->state >= l->end || !(l->at = after(t->state, l->end, DEEPEST))) return false;
  t->state_size = (uint32_t)(l->at - t->state);
  return true;
}

/* The transfer of a frame without its size, and its channel. */
APART static bool decode(const uint8_t *at, size_t size, transfer *t, uint16_t *channel) {
  list l = {at, at + size, 0};
  unsigned said = 0;
  if (!has(&l, 10) || at[0] != 2 || at[1] || at[4] || at[5] != 0x53 || at[6] != 0x14) return false;
  *channel = (uint16_t)(at[2] << 8 | at[3]);
  memset(t, 0, sizeof *t);
  l.at = at + 8;
  if ((at[7] != 0xc0 && at[7] != 0xd0) || !enter_list(&l, at[7] == 0xd0)) return false;
  t->payload = l.end;
  t->payload_size = (uint32_t)(at + size - l.end);
  NEXT(read_uint(&l, &t->handle, &said, HAS_HANDLE));
  NEXT(read_uint(&l, &t->number, &said, HAS_NUMBER));
  NEXT(read_tag(&l, t));
  NEXT(read_uint(&l, &t->format, &said, HAS_FORMAT));
  NEXT(read_flag(&l, &t->settled, &said, HAS_SETTLED));
  NEXT(read_flag(&l, &t->more, &said, 0));
  NEXT(read_mode(&l, t, &said));
  NEXT(read_state(&l, t));
  NEXT(read_flag(&l, &t->resume, &said, 0));
  NEXT(read_flag(&l, &t->aborted, &said, 0));
  NEXT(read_flag(&l, &t->batchable, &said, 0));
end:
  t->has = (uint8_t)said;
  return said & HAS_HANDLE && l.at == l.end && !l.left;
}

/* ---- a session */

typedef struct link {
  bool (*relay)(struct link *, const transfer *);
  uint64_t sum;
} link;

typedef struct {
  uint32_t number, tag_size;
  uint8_t tag[TAG];
} kept;

typedef struct {
  uint32_t next_in, room_in, next_out, room_out, next_number, first, count;
  link *links[HANDLES];
  kept open[KEPT];
} session;

typedef struct {
  session *routes[CHANNELS];
  uint8_t *out;
  size_t used;
  uint32_t most;
} engine;

APART static bool take(link *l, const transfer *t) {
  l->sum += t->payload_size;
  return false;
}

APART static bool name(link *l, const transfer *t) {
  l->sum += t->payload_size;
  return t->tag && t->has & HAS_NUMBER;
}

WITHIN uint8_t *put_uint(uint8_t *at, uint32_t value) {
  if (!value) {
    *at++ = 0x43;
  } else if (value < 256) {
    *at++ = 0x52;
    *at++ = (uint8_t)value;
  } else {
    *at++ = 0x70;
    value = __builtin_bswap32(value);
    memcpy(at, &value, 4);
    at += 4;
  }
  return at;
}

WITHIN uint8_t *put_flag(uint8_t *at, bool is_there, bool value) {
  *at = (uint8_t)(!is_there ? NONE : value ? 0x41 : 0x42);
  return at + 1;
}

/* The head of a frame that begins in the buffer, up to the descriptor of its performative; the list's size and count come later. */
WITHIN uint8_t *begin(const engine *e, uint16_t channel, uint8_t descriptor) {
  const uint8_t head[8] = {2, 0, (uint8_t)(channel >> 8), (uint8_t)channel, 0, 0x53, descriptor, 0xc0};
  return (uint8_t *)memcpy(e->out + e->used + 4, head, 8) + 8;
}

/* The frame that ends here goes out. */
WITHIN void end(engine *e, uint8_t *at) {
  uint32_t size = __builtin_bswap32((uint32_t)(at - e->out - e->used));
  memcpy(e->out + e->used, &size, 4);
  e->used = (size_t)(at - e->out);
}

APART static void put_flow(engine *e, uint16_t channel, const session *s) {
  uint8_t *fields = begin(e, channel, 0x13), *at = fields + 2;
  at = put_uint(put_uint(put_uint(put_uint(at, s->next_in), s->room_in), s->next_out), WINDOW);
  fields[0] = (uint8_t)(at - fields - 1);
  fields[1] = 4;
  end(e, at);
}

APART static bool receive(engine *e, const uint8_t *frame, size_t size) {
  transfer t;
  uint16_t channel;
  if (!decode(frame, size, &t, &channel)) return false;
  session *s = channel < CHANNELS ? e->routes[channel] : NULL;
  link *l = s && t.handle < HANDLES ? s->links[t.handle] : NULL;
  if (!l || !s->room_in) return false;
  s->next_in++;
  s->room_in--;
  if (l->relay(l, &t)) {
    if (s->count == KEPT) return false;
    kept *its = &s->open[(s->first + s->count++) % KEPT];
    its->number = t.number;
    its->tag_size = t.tag_size;
    memcpy(its->tag, t.tag, t.tag_size);
  }
  if (s->room_in == WINDOW / 2) {
    s->room_in = WINDOW;
    put_flow(e, channel, s);
  }
  return true;
}

/* This side accepts and settles the deliveries of these numbers, which are the oldest that are kept. */
APART static bool settle(engine *e, uint16_t channel, uint32_t first, uint32_t last) {
  session *s = e->routes[channel];
  if (!s || ROOM - e->used < 64) return false;
  uint8_t *fields = begin(e, channel, 0x15), *at = fields + 2;
  *at++ = 0x41;
  at = put_uint(put_uint(at, first), last);
  memcpy(at, "\x41\0\x53\x24\x45", 5);
  at += 5;
  fields[0] = (uint8_t)(at - fields - 1);
  fields[1] = 5;
  end(e, at);
  while (s->count && s->open[s->first % KEPT].number - first <= last - first) {
    s->first++;
    s->count--;
  }
  return true;
}

/* How many fields are written: those that are absent or default are left out at the end. */
WITHIN uint8_t fields_of(const transfer *t) {
  return t->batchable ? 11 : t->aborted ? 10 : t->resume ? 9 : t->state ? 8 : t->has & HAS_MODE ? 7 : t->more ? 6 : t->has & HAS_SETTLED ? 5 : t->has & HAS_FORMAT ? 4 : 3;
}

APART static bool send(engine *e, uint16_t channel, const transfer *t) {
  session *s = e->routes[channel];
  if (!s || !s->room_out || !t->tag || t->tag_size > TAG) return false;
  if (ROOM - e->used < 64 + (size_t)t->tag_size + t->state_size + t->payload_size || t->state_size > 128) return false;
  uint8_t *fields = begin(e, channel, 0x14), *at = fields + 2, count = fields_of(t);
  at = put_uint(put_uint(at, t->handle), s->next_number);
  *at++ = 0xa0;
  *at++ = (uint8_t)t->tag_size;
  memcpy(at, t->tag, t->tag_size);
  at += t->tag_size;
  if (count > 3) at = t->has & HAS_FORMAT ? put_uint(at, t->format) : put_flag(at, false, false);
  if (count > 4) at = put_flag(at, t->has & HAS_SETTLED, t->settled);
  if (count > 5) at = put_flag(at, t->more, true);
  if (count > 6) {
    if (t->has & HAS_MODE) *at++ = 0x50;
    *at++ = t->has & HAS_MODE ? t->mode : NONE;
  }
  if (count > 7) {
    if (!t->state) *at++ = NONE;
    memcpy(at, t->state, t->state_size);
    at += t->state_size;
  }
  if (count > 8) at = put_flag(at, t->resume, true);
  if (count > 9) at = put_flag(at, t->aborted, true);
  if (count > 10) at = put_flag(at, true, true);
  fields[0] = (uint8_t)(at - fields - 1);
  fields[1] = count;
  if ((size_t)(at - e->out) - e->used + t->payload_size > e->most) return false;
  memcpy(at, t->payload, t->payload_size);
  end(e, at + t->payload_size);
  s->next_out++;
  s->room_out--;
  s->next_number++;
  return true;
}

/* ---- the rows */

static void refused(void) {
  puts("refused");
  exit(1);
}

/* The peer's transfer of this number, as crates/bench_engine makes it. */
APART static size_t made(uint8_t *frame, uint32_t number) {
  static const uint8_t HEAD[24] = {2, 0, 0, 0, 0, 0x53, 0x14, 0xc0, 15, 5, 0x43, 0x70, 0, 0, 0, 0, 0xa0, 4, 0, 0, 0, 0, 0x43, 0x42};
  uint32_t its = __builtin_bswap32(number);
  memcpy(frame, HEAD, 24);
  memcpy(frame + 12, &its, 4);
  memcpy(frame + 18, &its, 4);
  memset(frame + 24, 'x', PAYLOAD);
  return 24 + PAYLOAD;
}

APART static void ask(transfer *t, const uint8_t *payload) {
  memset(t, 0, sizeof *t);
  t->has = HAS_FORMAT | HAS_SETTLED;
  t->settled = true;
  t->tag = (const uint8_t *)"00000001";
  t->tag_size = 8;
  t->payload = payload;
  t->payload_size = PAYLOAD;
}

static void batch(engine *e, char mode, const uint8_t *frame, size_t size, bool is_idle) {
  static uint8_t of[BATCH][24 + PAYLOAD], payload[PAYLOAD];
  static transfer asked[BATCH];
  static uint32_t next;
  uint32_t first = next;
  for (int i = 0; i < BATCH; i++) {
    if (mode == 'k') size = made(of[i], next++);
    if (mode == 's') ask(&asked[i], payload);
  }
  for (int i = 0; i < BATCH && !is_idle; i++) {
    if (!(mode == 's' ? send(e, 0, &asked[i]) : receive(e, mode == 'k' ? of[i] : frame, size))) refused();
  }
  if (mode != 's' && !is_idle && !settle(e, 0, first, mode == 'k' ? next - 1 : BATCH)) refused();
}

int main(int words, char **word) {
  static uint8_t out[ROOM], frame[512];
  static session s = {.room_in = WINDOW, .room_out = UINT32_MAX};
  engine e = {.routes = {&s}, .out = out, .most = 65536};
  if (words < 3) return 2;
  char mode = word[1][0];
  long count = atol(word[2]);
  bool is_idle = words > 3 && !strcmp(word[3], "idle");
  size_t size = words > 3 && !is_idle ? strlen(word[3]) / 2 : 0;
  link l = {mode == 'k' ? name : take, 0};
  s.links[0] = &l;
  uint64_t sum = 0;
  for (size_t i = 0; i < size && i < sizeof frame; i++) sscanf(word[3] + 2 * i, "%2hhx", &frame[i]);
  for (long i = 0; i < count; i++) {
    if (mode == 'd') {
      transfer t;
      uint16_t channel;
      if (!decode(frame, size, &t, &channel)) refused();
      sum += t.number + channel;
    } else {
      batch(&e, mode, frame, size, is_idle);
      sum += e.used;
      e.used = 0;
    }
  }
  printf("sum=%llu relayed=%llu kept=%u\n", (unsigned long long)sum, (unsigned long long)l.sum, s.count);
  return 0;
}
