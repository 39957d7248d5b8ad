// Draws the curves of the session and the link that are looked at. A point leads to its frame, and the chosen frame is marked.

const WIDE = 300, HIGH = 110, TOP = 14, FOOT = 92;
// So many sessions, and links of a session, can be chosen; a frame leads to each other one
const MOST_CHOICES = 1000;
// What is looked at: the rows of all sessions, those of them whose curves were made, and the charts that are drawn
const looked = { sessions: null, made: new Map(), session: null, link: null, charts: [], bytes: [] };

function shape(tag, words, text) {
  const made = document.createElementNS(at("bytes").querySelector("svg").namespaceURI, tag);
  for (const [name, value] of Object.entries(words)) made.setAttribute(name, value);
  if (text !== undefined) made.textContent = text;
  return made;
}

function placed(x) {
  return isTimed ? x.toFixed(3) + " s" : "frame " + (rows[x][NUMBER] || "of SASL");
}

// ---- a chart

/** A chart in its figure: curves over a stretch of the axis. What is far apart in size stands on a logarithmic scale. */
function chart(id, title, curves, from, to) {
  const kept = curves.filter((it) => it.values.length), ends = kept.map(endsOf);
  const most = Math.max(1, ...ends.map((it) => it.most)), least = Math.min(0, ...ends.map((it) => it.least));
  const bend = most > 10000 ? (value) => Math.sign(value) * Math.log10(1 + Math.abs(value)) : (value) => value;
  const low = bend(least), room = bend(most) - low;
  const x = (place) => (to > from ? ((place - from) / (to - from)) * WIDE : 0);
  const y = (value) => FOOT - ((bend(value) - low) / room) * (FOOT - TOP);
  return { id, title: title + (most > 10000 ? ", logarithmic" : ""), curves: kept, ends, most, from, to, x, y };
}

/** The least and the greatest value, with its row, and the last one. */
function endsOf(it) {
  let least = 0, most = 0;
  it.values.forEach((value, place) => {
    if (value < it.values[least]) least = place;
    if (value > it.values[most]) most = place;
  });
  return { least: it.values[least], most: it.values[most], leastRow: it.rows[least], mostRow: it.rows[most], last: it.values.at(-1) };
}

/** The points that are drawn, found once: of those in one column of the picture the first, the least, the greatest and the last. */
function thinned(it, x) {
  if (it.kept) return it.kept;
  it.kept = [];
  for (let from = 0, to = 0; from < it.xs.length; from = to) {
    const column = Math.floor(x(it.xs[from]));
    let least = from, most = from;
    for (to = from; to < it.xs.length && Math.floor(x(it.xs[to])) === column; to += 1) {
      if (it.values[to] < it.values[least]) least = to;
      if (it.values[to] > it.values[most]) most = to;
    }
    it.kept.push(...new Set([from, Math.min(least, most), Math.max(least, most), to - 1]));
  }
  return it.kept;
}

/** The curve as steps: a value holds until the next. */
function pathOf(it, { x, y, to }) {
  const steps = thinned(it, x).map((place, turn) => {
    const [across, up] = [x(it.xs[place]).toFixed(1), y(it.values[place]).toFixed(1)];
    return turn ? "H" + across + "V" + up : "M" + across + " " + up;
  });
  return steps.join("") + "H" + x(to).toFixed(1);
}

function paint(it) {
  const figure = at(it.id), svg = figure.querySelector("svg");
  const lines = it.curves.map((of, turn) => shape("path", { class: "curve c" + turn, d: pathOf(of, it) }));
  const words = [[0, TOP - 4, "start", it.most.toLocaleString("en")], [0, HIGH - 4, "start", placed(it.from)], [WIDE, HIGH - 4, "end", placed(it.to)]];
  const texts = words.map(([x, y, anchor, text]) => shape("text", { x, y, "text-anchor": anchor }, text));
  svg.replaceChildren(shape("path", { class: "axis", d: "M0 " + FOOT + "H" + WIDE }), ...texts, ...lines, shape("g", { class: "mark" }));
  svg.setAttribute("aria-label", it.title + ". Left and Right go from point to point.");
  const keys = it.curves.map((of, turn) => keyOf(of, it.ends[turn], turn));
  figure.querySelector("figcaption").replaceChildren(Object.assign(make("strong", "", it.title), { id: it.id + "-name" }), ...(keys.length ? keys : [make("span", "", "nothing to draw")]));
}

/** What the curve is, and what it comes to, as text. */
function keyOf(of, { least, most, leastRow, mostRow, last }, turn) {
  const said = (value, row) => value.toLocaleString("en") + " at " + labelOf(row);
  const made = make("span", "key c" + turn, of.name);
  made.append(make("span", "unseen", ": at least " + said(least, leastRow) + ", at most " + said(most, mostRow) + ", at the end " + last.toLocaleString("en") + ". "));
  return made;
}

function labelOf(index) {
  return nameOf(index).replace("-", " ");
}

// ---- the mark of the chosen frame

/** The place of the last point that is not after the row; -1 where there is none. */
function pointAt(it, index) {
  return firstFrom(it.rows, index + 1) - 1;
}

function mark() {
  if (!at("curves").open || !rows.length) return;
  lookAt(state.chosen);
  looked.charts.forEach(markIn);
}

function markIn(it) {
  const figure = at(it.id), svg = figure.querySelector("svg"), index = state.chosen;
  const found = it.curves.map((of) => [of, index < 0 ? -1 : pointAt(of, index)]).filter(([, place]) => place >= 0);
  const isIn = index >= 0 && places[index] >= it.from && places[index] <= it.to && found.length > 0;
  const x = isIn ? it.x(places[index]).toFixed(1) : 0;
  const dots = found.map(([of, place]) => shape("circle", { class: "c" + it.curves.indexOf(of), cx: x, cy: it.y(of.values[place]).toFixed(1), r: 3 }));
  svg.querySelector(".mark").replaceChildren(...(isIn ? [shape("path", { d: "M" + x + " " + TOP + "V" + FOOT }), ...dots] : []));
  const text = isIn ? found.map(([of, place]) => of.name + " " + of.values[place].toLocaleString("en")).join(", ") : "The chosen frame is not on it.";
  tell(figure, svg, isIn ? index : -1, text);
}

/** The values at the chosen frame, under the picture and for a screen reader. */
function tell(figure, svg, index, text) {
  const link = make("a", "", index < 0 ? "" : labelOf(index));
  if (index >= 0) link.href = "#" + nameOf(index);
  figure.querySelector("p").replaceChildren(...(index < 0 ? [] : [link, ": "]), text);
  svg.setAttribute("aria-valuemin", 1);
  svg.setAttribute("aria-valuemax", rows.length);
  svg.setAttribute("aria-valuenow", state.chosen + 1);
  svg.setAttribute("aria-valuetext", (index < 0 ? "" : labelOf(index) + ": ") + text);
}

// ---- which session and link are looked at

/** Turns to the session and the link of the chosen row; at first to the first ones. */
function lookAt(index) {
  if (!looked.sessions) beginCurves();
  const number = (index < 0 ? 0 : rows[index][SESSION]) || (looked.session ? 0 : [...looked.sessions.keys()][0]);
  if (!number) return looked.charts.length || paintAll();
  const it = madeSession(number), link = it.linkAt.get(index) ?? (it === looked.session ? looked.link : it.links[0]);
  if (it !== looked.session || link !== looked.link) look(it, link);
}

function beginCurves() {
  looked.sessions = rowsOfSessions();
  looked.bytes = bytesOf();
  at("axis").textContent = isTimed ? "The axis is time, in seconds." : "No time is known: the axis is the frame's number.";
  for (const number of [...looked.sessions.keys()].slice(0, MOST_CHOICES)) choice("session", number, number);
}

function madeSession(number) {
  if (!looked.made.has(number)) looked.made.set(number, sessionOf(number, looked.sessions.get(number)));
  return looked.made.get(number);
}

function look(it, link) {
  if (it !== looked.session) {
    at("link").replaceChildren();
    it.links.slice(0, MOST_CHOICES).forEach((of, index) => choice("link", index, of.name));
  }
  Object.assign(looked, { session: it, link });
  choice("session", it.number, it.number);
  if (link) choice("link", it.links.indexOf(link), link.name);
  paintAll();
}

function paintAll() {
  const it = looked.session, link = looked.link, [from, to] = it ? [places[it.from], places[it.to]] : [0, 0];
  const of = (name) => (it ? ["A", "B"].map((side) => it.halves[side][name]) : []);
  const which = it ? "Session " + it.number : "No session";
  looked.charts = [
    chart("bytes", isTimed ? "Bytes a second" : "Bytes a frame", looked.bytes, places[0], places[rows.length - 1]),
    chart("windows", which + ": windows, in transfers", [...of("left"), ...of("way")], from, to),
    chart("unsettled", which + ": unsettled deliveries", of("open"), from, to),
    chart("credit", link ? "Link from the " + FROM[link.from] + ": credit" : "No link", link ? [link.given, link.used] : [], from, to),
  ];
  looked.charts.forEach(paint);
}

/** Chooses an option by its value, and makes it where it is not there. */
function choice(id, value, text) {
  let made = at(id).querySelector('option[value="' + value + '"]');
  if (!made) {
    made = make("option", "", text);
    made.value = value;
    at(id).append(made);
  }
  at(id).value = value;
}

// ---- from a point to its frame

/** The row of the point that is nearest to a click. */
function nearest(it, x, y) {
  const found = it.curves.flatMap((of) => {
    const place = firstFrom(of.xs, it.from + (x / WIDE) * (it.to - it.from));
    return [place - 1, place].filter((at) => of.rows[at] !== undefined).map((at) => [Math.abs(it.x(of.xs[at]) - x), Math.abs(it.y(of.values[at]) - y), of.rows[at]]);
  });
  return found.sort((one, other) => one[0] - other[0] || one[1] - other[1])[0]?.[2] ?? -1;
}

function onChartClick(event) {
  const it = looked.charts.find((of) => of.id === event.currentTarget.parentNode.id), room = event.currentTarget.getBoundingClientRect();
  if (it) choose(nearest(it, ((event.clientX - room.left) / room.width) * WIDE, ((event.clientY - room.top) / room.height) * HIGH));
}

/** The next row of a point after the chosen row, or before it. */
function besides(it, step) {
  const found = it.curves.map((of) => of.rows[step > 0 ? firstFrom(of.rows, state.chosen + 1) : firstFrom(of.rows, state.chosen) - 1]);
  const rest = found.filter((row) => row !== undefined);
  return rest.length ? (step > 0 ? Math.min(...rest) : Math.max(...rest)) : -1;
}

function onChartKey(event) {
  const it = looked.charts.find((of) => of.id === event.currentTarget.parentNode.id), step = { ArrowRight: 1, ArrowLeft: -1 }[event.key];
  if (!it || !step || event.ctrlKey || event.altKey || event.metaKey) return;
  event.preventDefault();
  choose(besides(it, step));
}

/** Shows the curves, or puts them away. */
function turnCurves() {
  at("curves").open = !at("curves").open;
  say(at("curves").open ? "Curves are shown." : "Curves are put away.");
}

function onCurves() {
  state.curves = at("curves").open;
  mark();
  draw();
  keepHash();
}

function prepareCurves() {
  at("curves").addEventListener("toggle", onCurves);
  at("session").addEventListener("change", () => {
    const it = madeSession(Number(at("session").value));
    look(it, it.links[0]);
    looked.charts.forEach(markIn);
  });
  at("link").addEventListener("change", () => {
    look(looked.session, looked.session.links[Number(at("link").value)]);
    looked.charts.forEach(markIn);
  });
  for (const svg of document.querySelectorAll("#charts svg")) {
    svg.addEventListener("click", onChartClick);
    svg.addEventListener("keydown", onChartKey);
  }
}
