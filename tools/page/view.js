// Draws the rows that are in view, and the chosen one in the panel. Every text of a frame goes in by textContent.

// The height of a row, as page.css has it, and how many are drawn above and below what is in view
const ROW = 28, MARGIN = 15;
const SESSION_COLOURS = 8;
const at = (id) => document.getElementById(id);
const scroller = at("scroll"), table = at("table"), body = at("rows"), panel = at("panel");
const above = space(), below = space();
// The rows that are drawn, by their places in the recording
const drawn = new Map();

function make(tag, kind, text) {
  const made = document.createElement(tag);
  if (kind) made.className = kind;
  if (text !== undefined) made.textContent = text;
  return made;
}

function space() {
  const row = make("tr", "space"), cell = make("td");
  row.setAttribute("role", "presentation");
  row.setAttribute("aria-hidden", "true");
  row.append(cell);
  return row;
}

// ---- the rows

function draw() {
  const count = state.shown.length;
  const first = Math.max(0, Math.min(count, Math.floor(scroller.scrollTop / ROW)) - MARGIN);
  const last = Math.min(count, first + Math.ceil(scroller.clientHeight / ROW) + 2 * MARGIN);
  above.firstChild.style.height = first * ROW + "px";
  below.firstChild.style.height = (count - last) * ROW + "px";
  const wanted = state.shown.slice(first, last), stay = new Set(wanted);
  for (const [index, row] of drawn) {
    if (stay.has(index)) continue;
    row.remove();
    drawn.delete(index);
  }
  let before = above;
  wanted.forEach((index, turn) => {
    const row = drawn.get(index) || rowOf(index);
    setTo(row, "aria-rowindex", first + turn + 2);
    setTo(row, "aria-selected", index === state.chosen);
    if (before.nextSibling !== row) before.after(row);
    drawn.set(index, row);
    before = row;
  });
}

/** A screen reader looks again at each attribute that is set, and at each row that comes and goes: so what stays is left alone. */
function setTo(row, attribute, value) {
  if (row.getAttribute(attribute) !== String(value)) row.setAttribute(attribute, value);
}

let isAsked = false;
function drawSoon() {
  if (isAsked) return;
  isAsked = true;
  requestAnimationFrame(() => {
    isAsked = false;
    draw();
  });
}

function rowOf(index) {
  const row = rows[index], made = make("tr", row[SIDE]);
  if (row[SESSION]) made.classList.add("s" + ((row[SESSION] - 1) % SESSION_COLOURS));
  if (isBreach(row)) made.classList.add("refused");
  else if (row[FOUND].length) made.classList.add("noted");
  made.id = "row-" + index;
  made.dataset.index = index;
  made.setAttribute("role", "row");
  made.append(numberOf(index), make("td", "time", timeOf(row)), whereOf(row), drawingOf(row), foundOf(row));
  return made;
}

function numberOf(index) {
  const cell = make("td", "number"), link = make("a", "", rows[index][NUMBER] || "SASL");
  link.href = "#" + nameOf(index);
  link.tabIndex = -1;
  cell.append(link);
  return cell;
}

function timeOf(row) {
  return row[TIME] === null ? "" : row[TIME].toFixed(3) + " s";
}

function whereOf(row) {
  const cell = make("td", "where");
  if (row[SESSION]) cell.append(make("b", "", "session " + row[SESSION]), " ");
  if (row[CHANNEL] >= 0) cell.append(...spelled("ch " + row[CHANNEL], "channel " + row[CHANNEL]));
  return cell;
}

function drawingOf(row) {
  const cell = make("td", "draw"), arrow = make("span", "arrow");
  arrow.setAttribute("aria-hidden", "true");
  cell.append(make("span", "unseen", WAYS[row[SIDE]] + ": "), make("span", "label", onArrow(row)), arrow);
  return cell;
}

function foundOf(row) {
  const cell = make("td", "found");
  row[FOUND].forEach((it, turn) => {
    cell.append(turn ? ", " : "", ...spelled(it[BREACH] ? "✗ " : "• ", it[BREACH] ? "refused: " : "told: "), it[NAME]);
  });
  return cell;
}

/** A short text for the eye, and a plain one for a screen reader. */
function spelled(short, plain) {
  const seen = make("span", "", short);
  seen.setAttribute("aria-hidden", "true");
  return [seen, make("span", "unseen", plain)];
}

// ---- the panel

function fill() {
  if (state.chosen < 0) return;
  const row = rows[state.chosen];
  panel.setAttribute("aria-label", "The chosen frame. " + titleOf(row));
  panel.replaceChildren(make("h2", "", titleOf(row)), ...row[FOUND].map(verdictOf), placeTable(row), ...fieldParts(row), ...payloadParts(row));
  panel.scrollTop = 0;
}

function titleOf(row) {
  return row[NUMBER] ? "Frame " + row[NUMBER] + ": " + row[KIND] : row[KIND];
}

function verdictOf(found) {
  const [section, sentence] = Object.hasOwn(data.meanings, found[NAME]) ? data.meanings[found[NAME]] : [null, ""];
  const made = make("div", found[BREACH] ? "breach" : "note");
  made.append(make("strong", "", found[BREACH] ? "Refused: " : "Told: "), make("span", "", found[SAID]));
  if (sentence) made.append(make("div", "", sentence));
  made.append(make("div", "", (section ? "AMQP 1.0 " + section + ". " : "") + "Told by " + found[BY] + "."));
  return made;
}

function pairs(list, name) {
  const made = make("table"), inside = make("tbody");
  made.setAttribute("aria-label", name);
  for (const [name, text] of list) {
    const row = make("tr"), head = make("th", "", name);
    head.scope = "row";
    row.append(head, make("td", "", text));
    inside.append(row);
  }
  made.append(inside);
  return made;
}

function placeTable(row) {
  const list = [["way", WAYS[row[SIDE]]]];
  if (row[TIME] !== null) list.push(["time", timeOf(row) + " after the first frame"]);
  if (row[CHANNEL] >= 0) list.push(["channel", row[CHANNEL]]);
  if (row[SESSION]) list.push(["session", row[SESSION] + " of this page"]);
  if (row[SIZE]) list.push(["size", row[SIZE].toLocaleString("en") + " bytes"]);
  return pairs(list, "Where it stands");
}

function fieldParts(row) {
  const fields = fieldsOf(row);
  return [make("h3", "", "Fields"), fields.length ? pairs(fields, "Fields") : make("p", "", "none")];
}

function payloadParts(row) {
  if (!row[PAYLOAD]) return [];
  const shown = row[FRONT].length / 2;
  const said = row[SECTIONS].flatMap(sectionParts);
  const title = "Payload: " + row[PAYLOAD].toLocaleString("en") + " bytes" + (shown < row[PAYLOAD] ? ", the first " + shown : "");
  return [...said, make("h3", "", title), dumpOf(row[FRONT], "Bytes of the payload")];
}

/** A section of a message: its fields or entries, and the first bytes of data. */
function sectionParts(it) {
  const list = pairsIn(it[PAIRS]);
  return [make("h3", "", "Message: " + it[TITLE]), ...(list.length ? [pairs(list, "Message: " + it[TITLE])] : []), ...(it[DATA] ? [dumpOf(it[DATA], "Bytes of " + it[TITLE])] : [])];
}

/** Where it is too wide it scrolls, and then the focus can go there: so it has a name. */
function dumpOf(hex, name) {
  const made = make("pre", "", dump(hex));
  made.setAttribute("role", "group");
  made.setAttribute("aria-label", name);
  return made;
}

function dump(hex) {
  const lines = [];
  for (let from = 0; from < hex.length; from += 32) {
    const part = hex.slice(from, from + 32);
    lines.push((from / 2).toString(16).padStart(4, "0") + "  " + part.replace(/../g, "$& ").padEnd(50) + letters(part));
  }
  return lines.join("\n");
}

// ---- what is chosen

function choose(index, comes = true) {
  if (index < 0) return;
  state.chosen = index;
  if (state.shown[placeOf(index)] !== index) {
    clearFilters();
    refresh();
  }
  if (comes) comeTo(placeOf(index));
  draw();
  fill();
  table.setAttribute("aria-activedescendant", "row-" + index);
  keepHash();
  mark();
  tellOf(index);
}

/** Has a screen reader say which frame is chosen, where the focus is on nothing that says so itself: the table has its row, a chart its text. */
function tellOf(index) {
  if (document.activeElement.closest("#table, #charts svg")) return say("");
  const row = rows[index], found = row[FOUND].map((it) => ", " + (it[BREACH] ? "refused: " : "told: ") + it[NAME]);
  say(titleOf(row) + ", " + WAYS[row[SIDE]] + (row[CHANNEL] >= 0 ? ", channel " + row[CHANNEL] : "") + found.join(""));
}

function say(text) {
  if (document.documentElement.dataset.ready) at("said").textContent = text;
}

/** Chooses the next breach after the chosen row, or before it, and says so where there is none. */
function toBreach(step) {
  const found = nextBreach(step);
  if (found < 0) say("No frame that is shown was refused.");
  choose(found);
}

/** Scrolls so far that the row is in view. */
function comeTo(place) {
  const top = place * ROW, room = scroller.clientHeight - 2 * ROW;
  if (top < scroller.scrollTop) scroller.scrollTop = top;
  else if (top > scroller.scrollTop + room) scroller.scrollTop = top - room / 2;
}

function move(step) {
  if (!state.shown.length) return;
  let place = state.chosen < 0 ? -1 : placeOf(state.chosen);
  if (place < 0) place = step > 0 ? 0 : state.shown.length - 1;
  else place = Math.max(0, Math.min(state.shown.length - 1, place + step));
  choose(state.shown[place]);
}

function keepHash() {
  history.replaceState(null, "", hashOf());
}

// ---- the filters

function refresh() {
  at("side").value = state.side;
  at("channel").value = state.channel;
  at("name").value = state.link;
  at("kind").value = state.kind;
  at("refused").checked = state.refused;
  if (at("search").value !== state.q) at("search").value = state.q;
  sift();
  table.setAttribute("aria-rowcount", state.shown.length + 1);
  at("count").textContent = state.shown.length.toLocaleString("en") + " of " + rows.length.toLocaleString("en") + " shown";
  draw();
}

function filtered() {
  state.side = at("side").value;
  state.channel = at("channel").value;
  state.link = at("name").value;
  state.kind = at("kind").value;
  state.refused = at("refused").checked;
  state.q = at("search").value;
  scroller.scrollTop = 0;
  refresh();
  keepHash();
}

function options(id, values) {
  for (const value of values) {
    const made = make("option", "", value);
    made.value = value;
    at(id).append(made);
  }
}

function onKey(event) {
  if (event.ctrlKey || event.altKey || event.metaKey) return;
  if (event.key === "Escape") return table.focus();
  if (event.target.closest("input[type=search], select")) return;
  const page = Math.max(1, Math.floor(scroller.clientHeight / ROW) - 2);
  const acts = {
    ArrowDown: () => move(1), j: () => move(1), ArrowUp: () => move(-1), k: () => move(-1),
    PageDown: () => move(page), PageUp: () => move(-page), Home: () => move(-rows.length), End: () => move(rows.length),
    n: () => toBreach(1), N: () => toBreach(-1), "/": () => at("search").focus(),
    c: turnCurves,
  };
  if (event.target === table) acts.Enter = () => panel.focus();
  if (!Object.hasOwn(acts, event.key) || (panel.contains(event.target) && !/^[a-zA-Z/]$/.test(event.key))) return;
  event.preventDefault();
  acts[event.key]();
}

function onClick(event) {
  const row = event.target.closest("tr[data-index]");
  if (!row) return;
  event.preventDefault();
  choose(Number(row.dataset.index), false);
  table.focus({ preventScroll: true });
}

function follow() {
  const chosen = readHash();
  refresh();
  if (chosen >= 0) choose(chosen);
  at("curves").open = state.curves;
  mark();
}

function head() {
  document.title = data.title;
  at("title").textContent = data.title;
  const count = data.count.toLocaleString("en");
  at("summary").textContent = count + " frames, " + data.refused.toLocaleString("en") + " refused. Judged by " + data.judged + ".";
  for (const note of data.notes) at("cut").append(make("span", "", note + ". "));
  if (rows.length < data.count) {
    at("cut").append("Only the first " + rows.length.toLocaleString("en") + " stand in this page: it has a limit. Of those that are left out, "
      + data.cutRefused.toLocaleString("en") + " are refused.");
  }
  at("cut").hidden = !at("cut").hasChildNodes();
}

function begin() {
  head();
  table.classList.toggle("untimed", rows.every((row) => row[TIME] === null));
  const channels = new Set(), kinds = new Set();
  for (const row of rows) {
    if (row[CHANNEL] >= 0) channels.add(row[CHANNEL]);
    kinds.add(row[KIND]);
  }
  options("channel", [...channels].sort((a, b) => a - b).slice(0, 1000));
  nameLinks();
  options("name", [...new Set(links)].filter((it) => it !== undefined).slice(0, 1000));
  options("kind", [...kinds].sort());
  let waits = 0;
  at("search").addEventListener("input", () => {
    clearTimeout(waits);
    waits = setTimeout(filtered, 150);
  });
  for (const id of ["side", "channel", "name", "kind", "refused"]) at(id).addEventListener("change", filtered);
  at("next").addEventListener("click", () => toBreach(1));
  at("clear").addEventListener("click", () => { clearFilters(); refresh(); keepHash(); });
  scroller.addEventListener("scroll", drawSoon, { passive: true });
  body.addEventListener("click", onClick);
  addEventListener("resize", drawSoon);
  addEventListener("keydown", onKey);
  addEventListener("hashchange", follow);
  prepareCurves();
  body.replaceChildren(above, below);
  follow();
  table.focus({ preventScroll: true });
  document.documentElement.dataset.ready = Math.round(performance.now());
}

begin();
