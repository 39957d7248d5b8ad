// What the frames come to, one after the other: windows, credit, what is unsettled, and bytes (AMQP 1.0 part 2). charts.js draws it.

const ROUND = 2 ** 32, OTHER = { A: "B", B: "A" };
const BINS = 200;
const places = placesOf();
const isTimed = rows.length > 0 && rows.some((row) => row[TIME] !== null) && places[rows.length - 1] > places[0];
if (!isTimed) places.forEach((_, index) => { places[index] = index; });

/** Where each row stands on the axis, in seconds. Time that goes back stands still. */
function placesOf() {
  const found = new Float64Array(rows.length);
  let last = 0;
  rows.forEach((row, index) => {
    if (row[TIME] !== null) last = index ? Math.max(last, row[TIME]) : row[TIME];
    found[index] = last;
  });
  return found;
}

/** A curve: its points as places on the axis, values, and the rows that they come from. */
function curve(name) {
  return { name, xs: [], values: [], rows: [] };
}

/** The value after a row; of one row the last counts. */
function put(it, index, value) {
  const last = it.rows.length - 1;
  if (last >= 0 && it.rows[last] === index) it.values[last] = value;
  else if (last < 0 || it.values[last] !== value) add(it, places[index], value, index);
}

function add(it, x, value, index) {
  it.xs.push(x);
  it.values.push(value);
  it.rows.push(index);
}

const nameAt = new Map(data.names.map((name, index) => [name, index]));

function wordIn(row, name) {
  const fields = row[FIELDS], wanted = nameAt.get(name);
  for (let at = 0; at < fields.length; at += 2) if (fields[at] === wanted) return fields[at + 1];
  return null;
}

/** A number of 32 bits; `null` where there is none. */
function numberIn(row, name) {
  const text = wordIn(row, name);
  return text !== null && /^\d{1,10}$/.test(text) && Number(text) < ROUND ? Number(text) : null;
}

function isTrue(row, name) {
  return wordIn(row, name) === "true";
}

// ---- deliveries that are unsettled

/** Which of these numbers are in: a tree of counts, so that a range goes out in time by what was in it. */
class Numbers {
  constructor(found) {
    this.sorted = Uint32Array.from(found).sort();
    this.half = 1;
    while (this.half < this.sorted.length) this.half *= 2;
    this.tree = new Uint32Array(2 * this.half);
  }

  get count() {
    return this.tree[1];
  }

  put(number) {
    let node = this.half + firstFrom(this.sorted, number);
    if (!this.tree[node]) for (; node; node >>= 1) this.tree[node] += 1;
  }

  /** Takes out those from `first` to `last`, which may be past 2^32. */
  take(first, last) {
    if (((last - first) | 0) < 0) return;
    if (last < first) this.take(first, ROUND - 1);
    this.empty(firstFrom(this.sorted, last < first ? 0 : first), firstFrom(this.sorted, last + 1), 1, 0, this.half);
  }

  empty(low, high, node, from, size) {
    if (!this.tree[node] || high <= from || low >= from + size) return;
    if (size === 1) {
      this.tree[node] = 0;
      return;
    }
    this.empty(low, high, 2 * node, from, size / 2);
    this.empty(low, high, 2 * node + 1, from + size / 2, size / 2);
    this.tree[node] = this.tree[2 * node] + this.tree[2 * node + 1];
  }
}

/** The first place in what is sorted whose number is not below this one. */
function firstFrom(sorted, number) {
  let low = 0, high = sorted.length;
  while (low < high) {
    const middle = (low + high) >> 1;
    if (sorted[middle] < number) low = middle + 1;
    else high = middle;
  }
  return low;
}

// ---- sessions

/** What one side sends in a session: transfers count from 0; `limit` is how many it may send, `got` how many have come, as the other side last said. */
function half(side) {
  const who = FROM[side];
  return {
    first: 0, sent: 0, limit: null, got: 0, handles: new Map(), unsettled: null,
    left: curve("left to the " + who), way: curve("on the way from the " + who), open: curve("from the " + who),
  };
}

/** The rows of each session, by its number. */
function rowsOfSessions() {
  const found = new Map();
  rows.forEach((row, index) => {
    if (row[SESSION] && !found.has(row[SESSION])) found.set(row[SESSION], []);
    if (row[SESSION]) found.get(row[SESSION]).push(index);
  });
  return found;
}

const STEPS = { Begin: onBegin, Attach: onAttach, Flow: onFlow, Transfer: onTransfer, Disposition: onDisposition, Detach: onDetach };

/** A session with its curves, from its rows. */
function sessionOf(number, indices) {
  const it = { number, from: indices[0], to: indices.at(-1), halves: { A: half("A"), B: half("B") }, links: [], byName: new Map(), linkAt: new Map() };
  numberDeliveries(it, indices);
  for (const index of indices) {
    if (Object.hasOwn(STEPS, rows[index][KIND])) STEPS[rows[index][KIND]](it, rows[index], index);
    for (const side of "AB") note(it.halves[side], index);
  }
  return it;
}

function numberDeliveries(it, indices) {
  const ids = { A: [], B: [] };
  for (const index of indices) {
    const row = rows[index], id = row[KIND] === "Transfer" ? numberIn(row, "delivery-id") : null;
    if (id !== null) ids[row[SIDE]].push(id);
  }
  for (const side of "AB") it.halves[side].unsettled = new Numbers(ids[side]);
}

function note(mine, index) {
  if (mine.limit !== null) put(mine.left, index, mine.limit - mine.sent);
  put(mine.way, index, mine.sent - mine.got);
  put(mine.open, index, mine.unsettled.count);
}

function onBegin(it, row) {
  it.halves[row[SIDE]].first = numberIn(row, "next-outgoing-id") ?? 0;
  it.halves[OTHER[row[SIDE]]].limit = numberIn(row, "incoming-window");
}

/** The window counts from the transfer that it names, from the first where it names none (section 2.5.6). */
function onFlow(it, row, index) {
  const across = it.halves[OTHER[row[SIDE]]], id = numberIn(row, "next-incoming-id");
  const window = numberIn(row, "incoming-window");
  across.got = id === null ? 0 : across.sent + ((id - across.first - across.sent) | 0);
  if (window !== null) across.limit = across.got + window;
  const link = linkOf(it, row, index);
  if (link) onLinkFlow(link, row, index);
}

// ---- links

/** The link of a row that has a handle of its side; the row is noted as one of it. */
function linkOf(it, row, index) {
  const link = it.halves[row[SIDE]].handles.get(numberIn(row, "handle"));
  if (link) it.linkAt.set(index, link);
  return link;
}

/** A link whose deliveries go out from this side. `is` says of each side whether it has it attached, once it had. */
function newLink(it, name, from) {
  const made = { name, from, is: {}, first: 0, count: 0, seen: 0, credit: null, isGoing: false, delivery: null };
  Object.assign(made, { given: curve("credit"), used: curve("used of it") });
  it.links.push(made);
  it.byName.set(from + name, made);
  return made;
}

/** An Attach joins the link of its name that the other side alone has attached; else it is of a new one. */
function onAttach(it, row, index) {
  const side = row[SIDE], isSender = wordIn(row, "role") === "sender", from = isSender ? side : OTHER[side], name = wordIn(row, "name") ?? "";
  const known = it.byName.get(from + name);
  const link = known && known.is[side] === undefined && known.is[OTHER[side]] ? known : newLink(it, name, from);
  link.is[side] = true;
  if (isSender) link.first = link.count = link.seen = numberIn(row, "initial-delivery-count") ?? 0;
  it.halves[side].handles.set(numberIn(row, "handle"), link);
  it.linkAt.set(index, link);
}

function onDetach(it, row, index) {
  const link = linkOf(it, row, index);
  if (!link) return;
  link.is[row[SIDE]] = false;
  it.halves[row[SIDE]].handles.delete(numberIn(row, "handle"));
}

/** A link's credit counts from the delivery-count that the receiver names (section 2.6.7). */
function onLinkFlow(link, row, index) {
  const count = numberIn(row, "delivery-count");
  if (row[SIDE] === link.from) link.count = count ?? link.count;
  else {
    link.seen = count ?? link.first;
    link.credit = numberIn(row, "link-credit") ?? link.credit;
  }
  noteLink(link, index);
}

function noteLink(link, index) {
  if (link.credit === null) return;
  put(link.given, index, link.credit);
  put(link.used, index, (link.count - link.seen) | 0);
}

function onTransfer(it, row, index) {
  const mine = it.halves[row[SIDE]], link = linkOf(it, row, index);
  mine.sent += 1;
  if (!link || link.from !== row[SIDE]) return;
  const isOver = isTrue(row, "settled") || isTrue(row, "aborted");
  if (!link.isGoing) beginDelivery(mine, link, numberIn(row, "delivery-id"));
  if (isOver && link.delivery !== null) mine.unsettled.take(link.delivery, link.delivery);
  link.isGoing = isTrue(row, "more") && !isTrue(row, "aborted");
  noteLink(link, index);
}

function beginDelivery(mine, link, id) {
  link.count = (link.count + 1) % ROUND;
  link.delivery = id;
  if (id !== null) mine.unsettled.put(id);
}

/** What either side settles is settled. */
function onDisposition(it, row) {
  const first = numberIn(row, "first"), sender = wordIn(row, "role") === "sender" ? row[SIDE] : OTHER[row[SIDE]];
  if (first !== null && isTrue(row, "settled")) it.halves[sender].unsettled.take(first, numberIn(row, "last") ?? first);
}

// ---- bytes

/** The bytes of a second of both sides, or of a frame where no time is known: the axis is cut into equal parts, each with its mean. */
function bytesOf() {
  const from = places[0] ?? 0, to = (places[rows.length - 1] ?? 0) + (isTimed ? 0 : 1);
  const wide = isTimed ? (to - from) / BINS : Math.max(1, Math.ceil((to - from) / BINS));
  const count = Math.max(1, Math.ceil((to - from) / wide)), sums = { A: new Float64Array(count), B: new Float64Array(count) };
  const begins = new Array(count).fill(null);
  rows.forEach((row, index) => {
    const bin = Math.min(count - 1, Math.floor((places[index] - from) / wide));
    sums[row[SIDE]][bin] += row[SIZE];
    begins[bin] ??= index;
  });
  for (let bin = count - 2; bin >= 0; bin -= 1) begins[bin] ??= begins[bin + 1];
  return ["A", "B"].map((side) => binned(curve("from the " + FROM[side]), sums[side], begins, from, wide));
}

function binned(made, sums, begins, from, wide) {
  sums.forEach((sum, bin) => add(made, from + bin * wide, Math.round(sum / wide), begins[bin]));
  return made;
}
