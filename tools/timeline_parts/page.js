"use strict";
// Draws a trace in lanes. Only what is in sight is drawn: the bars of a track stand in order of their starts, so the first one in
// sight is found by halving.
const data = JSON.parse(document.getElementById("data").textContent);
const canvas = document.getElementById("lanes");
const pen = canvas.getContext("2d");
const tip = document.getElementById("tip");
const LEFT = 190, TOP = 40, OVERVIEW = 26, HEADING = 22, FONT = '12px system-ui, "DejaVu Sans", sans-serif';
const actions = new Map(data.actions.map((action) => [action.number, action]));
const view = { first: 0, scale: 1, down: 0, width: 0, height: 0 };
const state = { selected: -1, hover: -1, matches: [], matching: null, at: -1, query: "" };
const readers = new Map();
let asked = false;

function shortType(action) {
  const name = data.types[action.type];
  return name.slice(name.lastIndexOf(":") + 1);
}

function prepare() {
  for (const action of data.actions) {
    for (const [reference, kind, source, other] of action.links || []) {
      if (!readers.has(source)) readers.set(source, []);
      readers.get(source).push([action.number, reference, kind, other]);
    }
  }
  let top = 0, group = "";
  for (const row of data.rows) {
    if (row.group !== group) {
      group = row.group;
      row.heading = top;
      top += HEADING;
    }
    row.lane = row.group === "Lanes";
    row.track = row.lane ? 38 : 24;
    row.top = top;
    row.height = row.track * row.tracks.length + 6;
    top += row.height;
  }
  view.rows = top;
}

// ---- Places ----

function xOf(step) { return LEFT + (step - view.first) * view.scale; }
function stepAt(x) { return view.first + (x - LEFT) / view.scale; }
function yOf(row) { return TOP + row.top - view.down; }
function fitScale() { return Math.max(1e-6, (view.width - LEFT - 12) / data.steps); }

function bound() {
  view.scale = Math.min(Math.max(view.scale, Math.min(fitScale(), 60)), 600);
  const seen = (view.width - LEFT) / view.scale;
  view.first = Math.min(Math.max(view.first, 0), Math.max(0, data.steps - seen + 12 / view.scale));
  view.down = Math.min(Math.max(view.down, 0), Math.max(0, view.rows - (view.height - TOP - OVERVIEW)));
}

function fit() {
  view.scale = Math.min(fitScale(), 140);
  view.first = 0;
  view.down = 0;
  ask();
}

function zoom(factor, x) {
  const at = x === undefined ? (LEFT + view.width) / 2 : x;
  const step = stepAt(at);
  view.scale *= factor;
  view.scale = Math.min(Math.max(view.scale, Math.min(fitScale(), 60)), 600);
  view.first = step - (at - LEFT) / view.scale;
  ask();
}

function pan(pixels) {
  view.first += pixels / view.scale;
  ask();
}

// Where the bar of an action stands, in pixels of the canvas.
function rectangleOf(action) {
  const row = data.rows[action.lane];
  const left = xOf(action.start);
  return { x: left + 1, y: yOf(row) + 3, width: Math.max(1, (action.stop - action.start) * view.scale - 2), height: row.track - 6 };
}

// The number of the first bar of a track that ends behind a step.
function firstBehind(track, step) {
  let low = 0, high = track.length;
  while (low < high) {
    const middle = (low + high) >> 1;
    if (track[middle][1] > step) high = middle; else low = middle + 1;
  }
  return low;
}

function barsIn(track, from, to) {
  const found = [];
  for (let at = firstBehind(track, from); at < track.length && track[at][0] < to; at++) found.push(track[at]);
  return found;
}

// ---- Drawing ----

function ask() {
  if (asked) return;
  asked = true;
  requestAnimationFrame(() => { asked = false; draw(); });
}

function sized() {
  const ratio = window.devicePixelRatio || 1, box = canvas.getBoundingClientRect();
  const width = Math.max(1, Math.round(box.width * ratio)), height = Math.max(1, Math.round(box.height * ratio));
  if (canvas.width !== width || canvas.height !== height) {
    canvas.width = width;
    canvas.height = height;
  }
  view.width = width / ratio;
  view.height = height / ratio;
  pen.setTransform(ratio, 0, 0, ratio, 0, 0);
}

function tickSize() {
  let size = 1;
  for (let at = 0; size * view.scale < 44; at++) size *= at % 3 === 1 ? 2.5 : 2;
  return Math.round(size);
}

function drawGrid() {
  const size = tickSize(), last = Math.min(data.steps, stepAt(view.width));
  pen.strokeStyle = "#e4e9ee";
  pen.lineWidth = 1;
  pen.beginPath();
  for (let step = Math.max(0, Math.floor(view.first / size) * size); step <= last; step += size) {
    const x = Math.round(xOf(step)) + 0.5;
    pen.moveTo(x, TOP);
    pen.lineTo(x, view.height - OVERVIEW);
  }
  pen.stroke();
}

function drawAxis() {
  const size = tickSize(), last = Math.min(data.steps, stepAt(view.width));
  pen.fillStyle = "#f6f8fa";
  pen.fillRect(0, 0, view.width, TOP);
  pen.fillStyle = "#57606a";
  pen.textAlign = "left";
  pen.font = FONT;
  pen.fillText("steps: lines of starts and ends of the trace, counted from 0; no time", LEFT + 4, 15);
  pen.textAlign = "center";
  for (let step = Math.max(0, Math.floor(view.first / size) * size); step <= last; step += size) {
    const x = xOf(step);
    if (x < LEFT) continue;
    pen.fillRect(Math.round(x), TOP - 6, 1, 6);
    if (x + 14 < view.width) pen.fillText(String(step), x, TOP - 10);
  }
  pen.fillStyle = "#c9d1d9";
  pen.fillRect(0, TOP - 1, view.width, 1);
}

function fillOf(number) {
  const action = actions.get(number);
  return action ? data.colours[action.type % data.colours.length] : "#e4e9ee";
}

function isDim(number) { return state.matching !== null && !state.matching.has(number); }

function drawBar(bar, y, height, lane) {
  const number = bar[2], x = xOf(bar[0]), width = (bar[1] - bar[0]) * view.scale;
  const action = actions.get(number), gap = width > 5 ? 1 : 0;
  pen.globalAlpha = isDim(number) ? 0.22 : 1;
  pen.fillStyle = fillOf(number);
  pen.fillRect(x + gap, y, Math.max(width - 2 * gap, 1), height);
  if (width > 4) {
    pen.strokeStyle = "#3d4852";
    pen.lineWidth = 1;
    pen.setLineDash(lane && action && action.inferred ? [5, 3] : []);
    pen.strokeRect(x + gap + 0.5, y + 0.5, Math.max(width - 2 * gap - 1, 1), height - 1);
    pen.setLineDash([]);
  }
  if (state.matching !== null && !isDim(number)) outline(x, y, width, height, "#1c2733", 1.5);
  if (number >= 0 && number === state.selected) outline(x, y, width, height, "#000", 3);
  if (lane && number === data.broken) drawFault(x, y, width, height);
  pen.globalAlpha = 1;
}

function outline(x, y, width, height, colour, thickness) {
  pen.strokeStyle = colour;
  pen.lineWidth = thickness;
  pen.strokeRect(x, y, Math.max(width, 2), height);
}

function drawFault(x, y, width, height) {
  outline(x, y, width, height, data.fault, 3);
  const right = x + width - 12, middle = y + height / 2;
  pen.beginPath();
  pen.moveTo(right - 6, middle - 6);
  pen.lineTo(right + 6, middle + 6);
  pen.moveTo(right + 6, middle - 6);
  pen.lineTo(right - 6, middle + 6);
  pen.stroke();
}

function drawLabel(bar, y, height) {
  const x = Math.max(xOf(bar[0]), LEFT) + 5, room = xOf(bar[1]) - x - 3;
  if (room < 12) return;
  const action = actions.get(bar[2]);
  let text = bar[3] !== undefined ? bar[3] : bar[2] + " " + shortType(action);
  const wide = pen.measureText(text).width;
  if (wide > room) {
    const letters = Math.floor((text.length * room) / wide);
    if (bar[3] === undefined && letters < String(bar[2]).length + 3) text = String(bar[2]);
    else text = text.slice(0, Math.max(letters - 1, 1)) + "\u2026";
    if (pen.measureText(text).width > room + 6) return;
  }
  pen.globalAlpha = isDim(bar[2]) ? 0.35 : 1;
  pen.strokeStyle = "rgba(255,255,255,0.9)";
  pen.lineWidth = 3;
  pen.lineJoin = "round";
  pen.strokeText(text, x, y + height / 2 + 4);
  pen.fillStyle = "#10181f";
  pen.fillText(text, x, y + height / 2 + 4);
  pen.globalAlpha = 1;
}

function drawArrow(source, target, kind, strong) {
  const a = rectangleOf(source), b = rectangleOf(target), atOnce = kind === "stream" || source.stop > target.start;
  const x1 = atOnce ? a.x + Math.min(10, a.width / 2) : a.x + a.width, y1 = a.y + a.height / 2;
  const x2 = atOnce ? b.x + Math.min(10, b.width / 2) : b.x, y2 = b.y + b.height / 2;
  const level = Math.abs(y1 - y2) < 2 && x2 - x1 > 20, below = level ? a.height / 2 + 12 : 0;
  const bend = level ? Math.min(30, (x2 - x1) / 3) : Math.max(14, Math.min(80, Math.abs(x2 - x1) / 2));
  pen.strokeStyle = pen.fillStyle = data.arrows[kind] || "#444";
  pen.lineWidth = strong ? 2.5 : 1.2;
  pen.setLineDash(kind === "stream" ? [2, 3] : kind === "previous" ? [7, 3] : []);
  pen.beginPath();
  pen.moveTo(x1, y1);
  pen.bezierCurveTo(x1 + bend, y1 + below, x2 - bend, y2 + below, x2, y2);
  pen.stroke();
  pen.setLineDash([]);
  const lean = level ? 0.55 : 0;
  pen.beginPath();
  pen.moveTo(x2, y2);
  pen.lineTo(x2 - 8, y2 - 4 + 8 * lean);
  pen.lineTo(x2 - 8, y2 + 4 + 8 * lean);
  pen.fill();
}

// The arrows of the actions in sight; where there are many, only those of the action that is selected or pointed at.
function drawArrows(seen) {
  const shown = seen.length <= 250 ? seen.slice() : [];
  for (const number of [state.selected, state.hover]) if (actions.has(number)) shown.push(number);
  const drawn = new Set();
  for (const number of shown) {
    const action = actions.get(number), strong = number === state.selected || number === state.hover;
    const pairs = (action.links || []).map(([reference, kind, source]) => [source, number, kind, reference])
      .concat((readers.get(number) || []).map(([target, reference, kind]) => [number, target, kind, reference]));
    for (const [source, target, kind, reference] of pairs) {
      const key = source + ":" + target + ":" + reference + (strong ? "!" : "");
      if (drawn.has(key) || !actions.has(source) || !actions.has(target)) continue;
      drawn.add(key);
      drawArrow(actions.get(source), actions.get(target), kind, strong);
    }
  }
}

function drawRow(row, bars, seen) {
  const from = view.first, to = stepAt(view.width);
  row.tracks.forEach((track, at) => {
    const y = yOf(row) + 3 + at * row.track, height = row.track - 6;
    let last = -1;
    for (const bar of barsIn(track, from, to)) {
      const right = xOf(bar[1]);
      if (right - last < 0.5 && right - xOf(bar[0]) < 0.5 && bar[2] !== state.selected) continue;
      last = right;
      drawBar(bar, y, height, row.lane);
      if (right - xOf(bar[0]) > 16) bars.push([bar, y, height]);
      if (row.lane && seen.length <= 250) seen.push(bar[2]);
    }
  });
}

function drawNames() {
  pen.fillStyle = "#fbfcfd";
  pen.fillRect(0, TOP, LEFT, view.height - TOP - OVERVIEW);
  pen.textAlign = "left";
  for (const row of data.rows) {
    if (row.heading !== undefined && TOP + row.heading - view.down < view.height) {
      const y = TOP + row.heading - view.down;
      pen.fillStyle = "#eef2f6";
      pen.fillRect(0, y, view.width, HEADING);
      pen.fillStyle = "#57606a";
      pen.font = "600 " + FONT;
      pen.fillText(row.group, 8, y + 15);
    }
    if (yOf(row) + row.height < TOP || yOf(row) > view.height) continue;
    pen.font = FONT;
    pen.fillStyle = "#1c2733";
    if (row.shown === undefined) {
      row.shown = row.name;
      while (pen.measureText(row.shown).width > LEFT - 16) row.shown = "\u2026" + row.shown.slice(2);
    }
    pen.fillText(row.shown, 8, yOf(row) + row.height / 2 + 4);
    pen.fillStyle = "#e4e9ee";
    pen.fillRect(0, yOf(row) + row.height - 1, view.width, 1);
  }
  pen.fillStyle = "#c9d1d9";
  pen.fillRect(LEFT - 1, 0, 1, view.height);
}

// The whole trace in a strip: matches, the selected action, and what is in sight.
function drawOverview() {
  const top = view.height - OVERVIEW, wide = view.width - LEFT - 12, of = (step) => LEFT + (step / data.steps) * wide;
  pen.fillStyle = "#eef2f6";
  pen.fillRect(0, top, view.width, OVERVIEW);
  pen.fillStyle = "#57606a";
  pen.fillText("whole trace, " + data.steps + " steps", 8, top + 17);
  pen.fillStyle = "#b9c6d2";
  pen.fillRect(LEFT, top + 9, wide, 8);
  pen.fillStyle = "#e69f00";
  for (const number of state.matches) pen.fillRect(of(actions.get(number).start), top + 5, 1.5, 16);
  if (actions.has(data.broken)) {
    pen.fillStyle = data.fault;
    pen.fillRect(of(data.steps) - 4, top + 3, 4, 20);
  }
  if (actions.has(state.selected)) {
    pen.fillStyle = "#000";
    pen.fillRect(of(actions.get(state.selected).start) - 1, top + 3, 3, 20);
  }
  const left = of(Math.max(view.first, 0)), right = of(Math.min(stepAt(view.width), data.steps));
  outline(left, top + 3, Math.max(right - left, 3), OVERVIEW - 6, "#0550ae", 1.5);
}

function draw() {
  sized();
  bound();
  pen.clearRect(0, 0, view.width, view.height);
  pen.font = FONT;
  pen.textAlign = "left";
  drawGrid();
  const bars = [], seen = [];
  for (const row of data.rows) {
    const y = yOf(row);
    if (y + row.height > TOP && y < view.height - OVERVIEW) drawRow(row, bars, seen);
  }
  drawArrows(seen);
  pen.font = FONT;
  pen.textAlign = "left";
  for (const [bar, y, height] of bars) drawLabel(bar, y, height);
  drawNames();
  drawAxis();
  pen.textAlign = "left";
  drawOverview();
  view.drawn = (view.drawn || 0) + 1;
}

// ---- What a click and a search show ----

function element(kind, text, parent) {
  const made = document.createElement(kind);
  if (text !== undefined) made.textContent = text;
  if (parent) parent.append(made);
  return made;
}

function linked(number, parent) {
  const action = actions.get(number);
  if (!action) return element("span", "action " + number, parent);
  const link = element("a", number + " " + shortType(action), parent);
  link.onclick = () => { select(number); show(number); };
  return link;
}

function table(title, rows, parent) {
  if (!rows.length) return;
  element("h3", title, parent);
  const made = element("table", undefined, parent);
  for (const [name, value] of rows) {
    const line = element("tr", undefined, made);
    element("td", name, line);
    const cell = element("td", undefined, line);
    if (typeof value === "function") value(cell); else cell.textContent = value;
  }
}

function sourceOf(action, parent) {
  if (!action.place) return;
  const [file, line, column] = action.place, text = (data.sources[file] || [])[line - 1];
  element("h3", file + ":" + line + ":" + column + (action.inferred ? " (its type; no statement names it)" : ""), parent);
  if (text === undefined) return;
  const block = element("pre", text.slice(0, column - 1).trimStart(), parent);
  block.className = "source";
  const stop = text.slice(column - 1).search(/[;{]/);
  element("mark", stop < 0 ? text.slice(column - 1) : text.slice(column - 1, column + stop), block);
  block.append(stop < 0 ? "" : text.slice(column + stop));
}

function linkRow([reference, kind, source, other]) {
  const said = { previous: reference + " replaces", stream: reference + " (stream) with" }[kind] || reference + " reads";
  return [said, (cell) => {
    if (source < 0) { cell.textContent = "the pool's first object"; return; }
    cell.append(other + " of ");
    linked(source, cell);
  }];
}

function times(action) {
  const [header, start, end] = action.lines;
  const ended = action.ended ? "ends in step " + (action.stop - 1) : action.number === data.broken ? data.word : "hasn't ended";
  return [
    ["instance", action.instance],
    ["lane", String(action.lane)],
    ["steps", "starts in step " + action.start + ", " + ended],
    ["lines", "of the trace: " + header + ", " + start + (end ? ", " + end : "")],
    ["comes from", action.inferred ? "inferred" : "the activity"],
  ];
}

function showDetails() {
  const panel = document.getElementById("details"), action = actions.get(state.selected);
  panel.textContent = "";
  if (!action) {
    element("h2", data.scenario[0] + " actions, " + data.scenario[1] + " inferred, " + data.steps + " steps", panel);
    element("p", "Click an action to see its values, claims, links and what it waited for.", panel);
    return;
  }
  element("h2", action.number + " " + data.types[action.type], panel);
  if (action.number === data.broken) element("p", faultText(), panel).style.color = data.fault;
  table("", times(action).concat(action.handle ? [["handle", action.handle]] : []), panel);
  sourceOf(action, panel);
  table("fields", action.fields || [], panel);
  table("outputs", (action.outputs || []).map(([name, text]) => [name, text || "written"]), panel);
  table("claims", (action.claims || []).map(([name, pool, text]) => [name, pool + " " + text]), panel);
  table("objects", (action.links || []).map(linkRow), panel);
  table("waited until", (action.waited || []).map(([why, before, what]) => [why, (cell) => {
    linked(before, cell);
    const last = actions.get(before);
    cell.append((what ? " (" + what + ")" : "") + (last ? ", until step " + last.stop : ""));
  }]), panel);
  table("read or replaced by", (readers.get(action.number) || []).map(([target, reference]) => [reference + " of", (cell) => linked(target, cell)]), panel);
  table("within", (action.parents || []).map((index) => {
    const [type, instance, fields] = data.compounds[index];
    return [type, instance + " " + fields.map((pair) => pair.join("=")).join(" ")];
  }), panel);
}

function faultText() {
  const [lane, action, what] = data.numbers;
  if (data.word === "fault") return "fault: on lane " + lane + " call " + what + " of action " + action + " failed";
  return "trap: on lane " + lane + " the body of action " + action + " trapped by kind " + what;
}

function showLegend() {
  const panel = document.getElementById("legend");
  element("h3", "legend", panel);
  data.types.forEach((type, at) => {
    const line = element("p", undefined, panel), box = element("span", undefined, line);
    box.className = "swatch";
    box.style.background = data.colours[at % data.colours.length];
    line.append(type);
  });
  for (const [name, text] of [["swatch inferred", "dashed: inferred, no statement asks for it"], ["swatch fault", "red: the fault or trap that ended the run"]]) {
    const line = element("p", undefined, panel);
    element("span", undefined, line).className = name;
    line.append(text);
  }
  const arrows = [["buffer", "solid", "a buffer is written, then read"], ["state", "solid", "a state is written, then read"],
    ["previous", "dashed", "a state is written, then replaced"], ["stream", "dotted", "a stream; both ends start together"]];
  for (const [kind, dash, text] of arrows) {
    const line = element("p", undefined, panel), stroke = element("span", undefined, line);
    stroke.className = "stroke";
    stroke.style.borderTop = "2px " + dash + " " + data.arrows[kind];
    line.append(text);
  }
  const help = element("p", undefined, panel);
  help.innerHTML = "<kbd>Ctrl</kbd>+wheel, <kbd>+</kbd> <kbd>-</kbd> zoom; drag, wheel, <kbd>&larr;</kbd> <kbd>&rarr;</kbd> move; " +
    "<kbd>f</kbd> all; <kbd>/</kbd> search; double click: zoom to an action; the strip below jumps";
}

function select(number) {
  state.selected = number;
  showDetails();
  ask();
}

// Brings an action into sight.
function show(number) {
  const action = actions.get(number), row = data.rows[action.lane];
  const left = xOf(action.start), right = xOf(action.stop);
  if (view.scale * (action.stop - action.start) < 24) view.scale = 40 / Math.max(1, action.stop - action.start) + 10;
  if (left < LEFT + 20 || right > view.width - 20 || right - left < 24) {
    view.first = (action.start + action.stop) / 2 - (view.width - LEFT) / view.scale / 2;
  }
  if (yOf(row) < TOP || yOf(row) + row.height > view.height - OVERVIEW) view.down = row.top - 30;
  ask();
}

function textOf(action) {
  if (action.text === undefined) {
    const pairs = (list) => (list || []).map((it) => it.join("=")).join(" ");
    const outputs = (action.outputs || []).map(([name, text]) => text.split(" ").map((it) => name + "." + it).join(" ")).join(" ");
    action.text = [action.number, data.types[action.type], action.instance, action.inferred ? "inferred" : "leaf", action.handle || "",
      pairs(action.fields), outputs, (action.claims || []).map((it) => it.join(" ")).join(" ")].join(" ").toLowerCase();
  }
  return action.text;
}

// A number alone finds the action of that number; else each word must stand in what is known of an action.
function search(query) {
  state.query = query.trim().toLowerCase();
  const words = state.query.split(/\s+/).filter((word) => word);
  const byNumber = words.length === 1 && /^[0-9]+$/.test(words[0]);
  const fits = (action) => byNumber ? String(action.number) === words[0] : words.every((word) => textOf(action).includes(word));
  state.matches = words.length ? data.actions.filter(fits).sort((a, b) => a.start - b.start).map((action) => action.number) : [];
  state.matching = words.length ? new Set(state.matches) : null;
  state.at = -1;
  told();
  ask();
}

function told() {
  const place = state.at < 0 ? "" : state.at + 1 + " of ";
  document.getElementById("found").textContent = state.matching === null ? "" : place + state.matches.length + " found";
}

function step(by) {
  if (!state.matches.length) return;
  state.at = (state.at + by + (state.at < 0 && by < 0 ? 1 : 0) + state.matches.length) % state.matches.length;
  told();
  select(state.matches[state.at]);
  show(state.selected);
}

// ---- The mouse and the keyboard ----

// The action under a point; -1 where there is none.
function numberAt(x, y) {
  if (x < LEFT || y < TOP || y > view.height - OVERVIEW) return -1;
  const row = data.rows.find((it) => y >= yOf(it) && y < yOf(it) + it.height);
  const track = row && row.tracks[Math.floor((y - yOf(row) - 3) / row.track)];
  if (!track) return -1;
  const bar = track[firstBehind(track, stepAt(x))];
  return bar && bar[0] <= stepAt(x) ? bar[2] : -1;
}

function overviewTo(x) {
  const step = ((x - LEFT) / (view.width - LEFT - 12)) * data.steps;
  view.first = step - (view.width - LEFT) / view.scale / 2;
  ask();
}

function pointed(event) {
  const number = numberAt(event.offsetX, event.offsetY), action = actions.get(number);
  if (number !== state.hover) {
    state.hover = number;
    ask();
  }
  tip.style.display = action ? "block" : "none";
  if (!action) return;
  tip.textContent = number + " " + data.types[action.type] + (action.inferred ? " (inferred)" : "") + "\n" + action.instance +
    (action.fields || []).map((pair) => "\n" + pair.join(" = ")).join("");
  tip.style.left = Math.min(event.clientX + 14, window.innerWidth - tip.offsetWidth - 4) + "px";
  tip.style.top = Math.min(event.clientY + 16, window.innerHeight - tip.offsetHeight - 4) + "px";
}

let held = null;
canvas.addEventListener("mousedown", (event) => {
  held = { x: event.clientX, y: event.clientY, moved: false, strip: event.offsetY > view.height - OVERVIEW };
  if (held.strip) overviewTo(event.offsetX);
});
window.addEventListener("mousemove", (event) => {
  if (!held) {
    if (event.target === canvas) pointed(event); else tip.style.display = "none";
    return;
  }
  if (held.strip) {
    overviewTo(event.clientX - canvas.getBoundingClientRect().left);
    return;
  }
  const across = held.x - event.clientX, down = held.y - event.clientY;
  if (!held.moved && Math.abs(across) + Math.abs(down) < 4) return;
  held = { x: event.clientX, y: event.clientY, moved: true, strip: false };
  canvas.classList.add("moving");
  view.down += down;
  pan(across);
});
window.addEventListener("mouseup", (event) => {
  if (held && !held.moved && !held.strip && event.target === canvas) select(numberAt(event.offsetX, event.offsetY));
  held = null;
  canvas.classList.remove("moving");
});
canvas.addEventListener("dblclick", (event) => {
  const action = actions.get(numberAt(event.offsetX, event.offsetY));
  if (!action) return;
  view.scale = (view.width - LEFT) / (3 * (action.stop - action.start));
  view.first = action.start - (action.stop - action.start);
  ask();
});
canvas.addEventListener("wheel", (event) => {
  event.preventDefault();
  if (event.ctrlKey || event.metaKey) zoom(Math.exp(-event.deltaY / 300), event.offsetX);
  else if (event.shiftKey || Math.abs(event.deltaX) > Math.abs(event.deltaY)) pan(event.deltaX || event.deltaY);
  else if (view.rows > view.height - TOP - OVERVIEW) { view.down += event.deltaY; ask(); }
  else pan(event.deltaY);
}, { passive: false });

const KEYS = {
  "+": () => zoom(1.5), "=": () => zoom(1.5), w: () => zoom(1.5), "-": () => zoom(1 / 1.5), s: () => zoom(1 / 1.5), f: fit,
  a: () => pan(-120), d: () => pan(120), ArrowLeft: () => pan(-120), ArrowRight: () => pan(120),
  ArrowUp: () => { view.down -= 40; ask(); }, ArrowDown: () => { view.down += 40; ask(); },
  Home: () => { view.first = 0; ask(); }, End: () => { view.first = data.steps; ask(); },
  n: () => step(1), N: () => step(-1), Escape: () => select(-1), "/": () => document.getElementById("search").focus(),
};
window.addEventListener("keydown", (event) => {
  const box = document.getElementById("search");
  if (event.target === box) {
    if (event.key === "Enter") step(event.shiftKey ? -1 : 1);
    if (event.key === "Escape") { box.value = ""; search(""); box.blur(); }
    return;
  }
  if (event.ctrlKey || event.metaKey || event.altKey || !KEYS[event.key]) return;
  event.preventDefault();
  KEYS[event.key]();
});
document.getElementById("search").addEventListener("input", (event) => search(event.target.value));
document.getElementById("next").onclick = () => step(1);
document.getElementById("previous").onclick = () => step(-1);
document.getElementById("in").onclick = () => zoom(1.5);
document.getElementById("out").onclick = () => zoom(1 / 1.5);
document.getElementById("fit").onclick = fit;
new ResizeObserver(draw).observe(canvas);

function begin() {
  const outcome = document.getElementById("outcome");
  document.getElementById("name").textContent = data.name;
  outcome.textContent = data.word === "done" ? "done: all " + data.numbers[0] + " actions ended" : faultText();
  outcome.className = data.word === "done" ? "" : "fault";
  prepare();
  showDetails();
  showLegend();
  sized();
  fit();
  draw();
  if (actions.has(data.broken)) { select(data.broken); show(data.broken); draw(); }
  view.opened = performance.now();
}
begin();
// For tests, and for whoever tries things in the console.
window.timeline = { data, view, state, rectangleOf, numberAt, zoom, pan, fit, search, step, select, show, draw, actions };
