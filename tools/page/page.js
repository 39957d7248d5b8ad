// The rows as data: which of them are shown, and what a search finds in them. view.js draws them.
"use strict";

const data = JSON.parse(document.getElementById("data").textContent);
const rows = data.rows;
// The places of a row's parts, as rows.py and make.py write them
const NUMBER = 0, TIME = 1, SIDE = 2, KIND = 3, CHANNEL = 4, SESSION = 5, SIZE = 6, FIELDS = 7, PAYLOAD = 8, FRONT = 9, SECTIONS = 10, FOUND = 11;
// The places of the parts of a message's section
const TITLE = 0, PAIRS = 1, DATA = 2;
// The places of the parts of what was found
const NAME = 0, SAID = 1, BY = 2, BREACH = 3;
const WAYS = { A: "client to server", B: "server to client" };
const FROM = { A: "client", B: "server" };
// The fields that stand on a frame's arrow
const ON_ARROW = {
  Open: ["container-id"],
  Begin: ["remote-channel"],
  Attach: ["name", "handle", "role"],
  Flow: ["handle", "link-credit", "incoming-window"],
  Transfer: ["handle", "delivery-id", "more"],
  Disposition: ["role", "first", "last", "state"],
  Detach: ["handle", "closed", "error: condition"],
  End: ["error: condition"],
  Close: ["error: condition"],
  "SASL mechanisms": ["sasl-server-mechanisms"],
  "SASL init": ["mechanism"],
  "SASL outcome": ["code"],
};

const state = { side: "", channel: "", link: "", kind: "", refused: false, q: "", chosen: -1, shown: [], curves: false };
const texts = new Array(rows.length);
// The name of each row's link, where it is of one
const links = new Array(rows.length);

/** What a link to the row says: its number, or, of a frame of SASL, its place. */
function nameOf(index) {
  const number = rows[index][NUMBER];
  return number ? "frame-" + number : "sasl-" + (index + 1);
}

function isBreach(row) {
  return row[FOUND].some((it) => it[BREACH]);
}

/** The fields of a row, as pairs of a name and a text. */
function fieldsOf(row) {
  return pairsIn(row[FIELDS]).map(([name, text]) => [data.names[name], text]);
}

function pairsIn(flat) {
  const found = [];
  for (let at = 0; at < flat.length; at += 2) found.push([flat[at], flat[at + 1]]);
  return found;
}

function onArrow(row) {
  const wanted = ON_ARROW[row[KIND]] || [];
  const words = fieldsOf(row).filter(([name]) => wanted.includes(name)).map(([name, text]) => name + "=" + short(text));
  return [row[KIND], ...words].join(" ");
}

function short(text) {
  return text.length > 60 ? text.slice(0, 60) + "…" : text;
}

/** The bytes that hexadecimal says, as letters; a dot for what is none. */
function letters(hex) {
  let found = "";
  for (let at = 0; at < hex.length; at += 2) {
    const byte = parseInt(hex.slice(at, at + 2), 16);
    found += byte >= 32 && byte < 127 ? String.fromCharCode(byte) : ".";
  }
  return found;
}

/** All that a search looks at, made once. */
function textOf(index) {
  if (texts[index] === undefined) {
    const row = rows[index];
    const fields = fieldsOf(row).map(([name, text]) => name + "=" + text);
    const found = row[FOUND].map((it) => it[SAID]);
    for (const it of row[SECTIONS]) found.push(it[TITLE], ...pairsIn(it[PAIRS]).map(([name, text]) => name + "=" + text), letters(it[DATA]));
    texts[index] = [nameOf(index), row[KIND], FROM[row[SIDE]], ...fields, ...found, letters(row[FRONT]), row[FRONT]].join(" ").toLowerCase();
  }
  return texts[index];
}

/** Notes the link of each row that has a handle: the last one that its side attached there in its session, also where it was detached. */
function nameLinks() {
  const attached = new Map();
  rows.forEach((row, index) => {
    const handle = row[SESSION] ? wordIn(row, "handle") : null;
    if (handle === null) return;
    const key = row[SIDE] + row[SESSION] + " " + handle;
    if (row[KIND] === "Attach") attached.set(key, wordIn(row, "name") || undefined);
    links[index] = attached.get(key);
  });
}

function isShown(index, words) {
  const row = rows[index];
  if (state.side && row[SIDE] !== state.side) return false;
  if (state.channel !== "" && row[CHANNEL] !== Number(state.channel)) return false;
  if (state.link && links[index] !== state.link) return false;
  if (state.kind && row[KIND] !== state.kind) return false;
  if (state.refused && !isBreach(row)) return false;
  return !words || textOf(index).includes(words);
}

function sift() {
  const words = state.q.trim().toLowerCase();
  state.shown = [];
  for (let index = 0; index < rows.length; index += 1) {
    if (isShown(index, words)) state.shown.push(index);
  }
}

function clearFilters() {
  Object.assign(state, { side: "", channel: "", link: "", kind: "", refused: false, q: "" });
}

/** The place among the shown rows of the first one that is not before this row. */
function placeOf(index) {
  let low = 0, high = state.shown.length;
  while (low < high) {
    const middle = (low + high) >> 1;
    if (state.shown[middle] < index) low = middle + 1;
    else high = middle;
  }
  return low;
}

/** The next shown breach after the chosen row, or before it; round the end where there is no more. */
function nextBreach(step) {
  const count = state.shown.length;
  const begun = state.chosen < 0 ? (step > 0 ? -1 : count) : placeOf(state.chosen) - (step > 0 && state.shown[placeOf(state.chosen)] !== state.chosen ? 1 : 0);
  for (let far = 1; far <= count; far += 1) {
    const place = (((begun + step * far) % count) + count) % count;
    if (isBreach(rows[state.shown[place]])) return state.shown[place];
  }
  return -1;
}

/** What the address says after its #: a frame, filters, and whether the curves are shown. */
function readHash() {
  clearFilters();
  state.curves = false;
  let name = "";
  for (const part of location.hash.slice(1).split("&")) {
    const at = part.indexOf("=");
    const key = at < 0 ? part : part.slice(0, at);
    if (/^(frame|sasl)-\d+$/.test(key)) name = key;
    else if (key === "refused" || key === "curves") state[key] = true;
    else if (at > 0 && ["q", "side", "channel", "link", "kind"].includes(key)) state[key] = plainText(part.slice(at + 1));
  }
  return name ? rows.findIndex((_, index) => nameOf(index) === name) : -1;
}

function plainText(spelled) {
  try {
    return decodeURIComponent(spelled);
  } catch {
    return spelled;
  }
}

function hashOf() {
  const parts = state.chosen < 0 ? [] : [nameOf(state.chosen)];
  if (state.refused) parts.push("refused");
  if (state.curves) parts.push("curves");
  for (const key of ["side", "channel", "link", "kind", "q"]) {
    if (state[key] !== "") parts.push(key + "=" + encodeURIComponent(state[key]));
  }
  return "#" + parts.join("&");
}
