"use strict";
// Draws the data of a trace on one canvas: only what is in view, and at most one box for each row and pixel.
const data = JSON.parse(document.getElementById("data").textContent);
const LEFT = 150, TOP = 22, HIGH = 14, STEP = 24, MOST_ARROWS = 3000;
// of each kind of span its colour, and how far it reaches above and below its events
const SPANS = {
  request: ["rgba(90,147,103,0.30)", 5],
  pin: ["rgba(138,95,160,0.40)", 3],
  round: ["rgba(208,127,160,0.35)", 5],
};
const element = (id) => document.getElementById(id);
const canvas = element("canvas"), scroll = element("scroll"), pen = canvas.getContext("2d");
const count = data.events.length;
const kindOf = data.words.map((word) => word[1]);
const hidden = new Set();
let from = 0, scale = 1, process = 0, kept = -1, width = 0, height = 0;
let rows = [], placeOf = [];

function groupOf(row) {
  return data.groups[data.rows[row][1]][0];
}

// The rows that the chosen process leaves: its own and the cores.
function chooseRows() {
  const isOne = (row) => !process || groupOf(row) === 0 || groupOf(row) === process;
  rows = data.rows.map((_, row) => row).filter(isOne);
  placeOf = data.rows.map(() => -1);
  rows.forEach((row, place) => { placeOf[row] = place; });
  element("spacer").style.height = Math.max(TOP + rows.length * STEP + 10 - height, 0) + "px";
}

function isShown(event) {
  if (placeOf[event[1]] < 0 || hidden.has(kindOf[event[0]])) return false;
  return !process || groupOf(event[1]) !== 0 || event[2] === process;
}

function threadName(thread) {
  const guest = data.guests[thread - 1];
  return guest ? `thread ${thread} (${guest})` : `thread ${thread}`;
}

function lineOf(place) {
  const event = data.events[place];
  return [data.words[event[0]][0], ...event.slice(3)].join(" ");
}

// What stands in a wide box: on a core the word and the thread, else the line.
function labelOf(place) {
  const event = data.events[place], names = data.words[event[0]][2];
  if (groupOf(event[1]) !== 0) return lineOf(place);
  return `${data.words[event[0]][0]} ${threadName(event[3 + names.indexOf("thread")])}`;
}

// What is told of an event: its line, its numbers by name, its row, what its call came to, and the spans round it.
function told(place) {
  const event = data.events[place], names = data.words[event[0]][2];
  const numbers = event.slice(3).map((n, k) => (names[k] === "thread" ? threadName(n) : `${names[k]} ${n}`));
  const group = data.groups[data.rows[event[1]][1]][1];
  const parts = [`line ${data.line + place}: ${lineOf(place)}`, numbers.join(", "), data.rows[event[1]][0]];
  if (event[2] && groupOf(event[1]) !== 0) parts.push(group);
  if (data.calls[place]) parts.push(data.calls[place]);
  for (const [kind, row, first, last, ended, a, b] of data.spans) {
    if (first > place) break;
    if (last >= place && groupOf(row) === event[2]) {
      parts.push(`within a ${kind} of ${data.rows[row][0]}, lines ${a} to ${b}${ended ? "" : ", which doesn't end"}`);
    }
  }
  return parts.join(" \u00b7 ");
}

function xOf(place) {
  return LEFT + (place - from) * scale;
}

function yOf(row) {
  return TOP + placeOf[row] * STEP - scroll.scrollTop + (STEP - HIGH) / 2;
}

function inView(y) {
  return y > TOP - STEP && y < height;
}

function drawRows() {
  pen.strokeStyle = "#e4e4e4";
  for (const row of rows) {
    const y = yOf(row) + HIGH / 2;
    if (inView(y)) {
      pen.beginPath();
      pen.moveTo(LEFT, y);
      pen.lineTo(width, y);
      pen.stroke();
    }
  }
}

function drawSpans(first, last) {
  const drawn = new Map();
  for (const span of data.spans) {
    const [kind, row, a, b] = span;
    if (a > last) break;
    if (b < first || placeOf[row] < 0) continue;
    const x = Math.max(xOf(a), LEFT), end = Math.min(xOf(b + 1), width), y = yOf(row);
    const pixel = Math.floor(end), key = row + kind;
    if (!inView(y) || drawn.get(key) === pixel) continue;
    drawn.set(key, pixel);
    pen.fillStyle = SPANS[kind][0];
    pen.fillRect(x, y - SPANS[kind][1], Math.max(end - x, 1), HIGH + 2 * SPANS[kind][1]);
  }
}

function drawEvents(first, last) {
  const drawn = new Int32Array(data.rows.length).fill(-1);
  const wide = Math.max(scale - (scale > 4 ? 1 : 0), 1);
  let boxes = 0;
  pen.font = "11px sans-serif";
  for (let place = first; place <= last; place++) {
    const event = data.events[place], row = event[1];
    if (!isShown(event)) continue;
    const x = xOf(place), pixel = Math.floor(x);
    if (scale < 1 && drawn[row] === pixel) continue;
    drawn[row] = pixel;
    const y = yOf(row);
    if (!inView(y)) continue;
    pen.fillStyle = data.kinds[kindOf[event[0]]][1];
    pen.fillRect(x, y, wide, HIGH);
    boxes++;
    if (place === kept) {
      pen.strokeStyle = "#000";
      pen.strokeRect(x - 0.5, y - 1.5, wide + 1, HIGH + 3);
    }
    if (scale >= 46) {
      pen.fillStyle = "#fff";
      pen.fillText(labelOf(place), x + 3, y + HIGH - 3, wide - 4);
    }
  }
  return boxes;
}

function drawArrows(first, last) {
  const isSeen = ([, a, b]) => b >= first && a <= last && isShown(data.events[a]) && isShown(data.events[b]);
  const seen = data.arrows.filter(isSeen);
  if (seen.length > MOST_ARROWS) return `${seen.length} arrows are left out: zoom in to see them`;
  pen.strokeStyle = pen.fillStyle = "rgba(200,30,30,0.7)";
  for (const [, a, b] of seen) {
    const x1 = xOf(a + 0.5), y1 = yOf(data.events[a][1]) + HIGH / 2;
    const x2 = xOf(b + 0.5), y2 = yOf(data.events[b][1]) + HIGH / 2;
    const turn = Math.atan2(y2 - y1, x2 - x1);
    pen.beginPath();
    pen.moveTo(x1, y1);
    pen.lineTo(x2, y2);
    pen.stroke();
    if (scale > 3) {
      pen.beginPath();
      pen.moveTo(x2, y2);
      pen.lineTo(x2 - 7 * Math.cos(turn - 0.4), y2 - 7 * Math.sin(turn - 0.4));
      pen.lineTo(x2 - 7 * Math.cos(turn + 0.4), y2 - 7 * Math.sin(turn + 0.4));
      pen.fill();
    }
  }
  return "";
}

// The names of the rows and the numbers of the lines stand still.
function drawEdges(first, last) {
  pen.fillStyle = "#fff";
  pen.fillRect(0, 0, LEFT - 1, height);
  pen.fillRect(0, 0, width, TOP);
  pen.fillStyle = "#222";
  pen.font = "11px sans-serif";
  for (const row of rows) {
    const y = yOf(row);
    if (y > TOP - 8 && y < height) pen.fillText(data.rows[row][0], 8, y + HIGH - 3, LEFT - 14);
  }
  let step = 1;
  while (step * scale < 70) step *= String(step)[0] === "2" ? 2.5 : 2;
  for (let line = Math.ceil((data.line + first) / step) * step; line <= data.line + last; line += step) {
    const x = xOf(line - data.line);
    if (x >= LEFT) pen.fillText(String(line), x, 14);
  }
}

function draw() {
  const begun = performance.now();
  const ratio = window.devicePixelRatio || 1;
  width = scroll.clientWidth;
  height = scroll.clientHeight;
  if (canvas.width !== Math.round(width * ratio) || canvas.height !== Math.round(height * ratio)) {
    canvas.width = Math.round(width * ratio);
    canvas.height = Math.round(height * ratio);
    canvas.style.width = width + "px";
    canvas.style.height = height + "px";
    chooseRows();
  }
  pen.setTransform(ratio, 0, 0, ratio, 0, 0);
  pen.clearRect(0, 0, width, height);
  const last = Math.min(Math.ceil(from + (width - LEFT) / scale), count - 1), first = Math.max(Math.floor(from), 0);
  pen.save();
  pen.beginPath();
  pen.rect(LEFT, TOP, Math.max(width - LEFT, 0), Math.max(height - TOP, 0));
  pen.clip();
  drawRows();
  drawSpans(first, last);
  const boxes = drawEvents(first, last);
  const note = drawArrows(first, last);
  pen.restore();
  drawEdges(first, last);
  pen.fillText(note, LEFT + 4, height - 6);
  for (const [id, line] of [["first", data.line + first], ["last", data.line + last]]) {
    if (document.activeElement !== element(id)) element(id).value = line;
  }
  const ms = (performance.now() - begun).toFixed(1), shown = `${data.line + first}..${data.line + last}`;
  Object.assign(document.body.dataset, { events: count, boxes, rows: rows.length, window: shown, ms });
}

let waiting = false;
function later() {
  if (!waiting) {
    waiting = true;
    requestAnimationFrame(() => { waiting = false; draw(); });
  }
}

function move(to, by) {
  const wide = scroll.clientWidth - LEFT;
  scale = Math.min(Math.max(by, Math.min(wide / Math.max(count, 1), 1)), 200);
  from = Math.min(Math.max(to, 0), Math.max(count - wide / scale, 0));
  later();
}

function zoom(factor, x) {
  const at = from + (x - LEFT) / scale, by = Math.min(Math.max(scale * factor, 1e-6), 200);
  move(at - (x - LEFT) / by, by);
}

function showLines(first, last) {
  const a = Math.max(first - data.line, 0), b = Math.min(Math.max(last - data.line, a), count - 1);
  move(a, (scroll.clientWidth - LEFT) / Math.max(b + 1 - a, 1));
}

function placeAt(x) {
  const place = Math.floor(from + (x - LEFT) / scale);
  return x >= LEFT && place >= 0 && place < count ? place : -1;
}

function choose(group) {
  process = group;
  element("process").value = String(group);
  chooseRows();
  later();
}

// The page's address may end in #A..B, for the lines, and in &process=P.
function readAddress() {
  const lines = /(\d+)\.\.(\d+)/.exec(location.hash), chosen = /process=(\d+)/.exec(location.hash);
  if (chosen) choose(Number(chosen[1]));
  if (lines) showLines(Number(lines[1]), Number(lines[2]));
  else showLines(data.line, data.line + count - 1);
}

function begin() {
  const counts = data.kinds.map(() => 0);
  for (const event of data.events) counts[kindOf[event[0]]]++;
  data.kinds.forEach(([kind, colour], number) => {
    const [label, box, patch] = ["label", "input", "i"].map((name) => document.createElement(name));
    box.type = "checkbox";
    box.checked = true;
    box.style.width = "auto";
    patch.style.background = colour;
    box.onchange = () => { hidden[box.checked ? "delete" : "add"](number); later(); };
    label.title = data.words.filter((word) => word[1] === number).map((word) => word[0]).join(", ");
    label.append(box, patch, `${kind} ${counts[number]}`);
    element("legend").append(label);
  });
  for (const [kind, [colour]] of Object.entries(SPANS)) {
    const label = document.createElement("label"), patch = document.createElement("i");
    patch.style.background = colour;
    label.append(patch, `span: ${kind}`);
    element("legend").append(label);
  }
  const all = [[0, "all"], ...data.groups.filter(([group]) => group > 0)];
  for (const [group, name] of all) element("process").append(new Option(name, String(group)));
  element("process").onchange = () => choose(Number(element("process").value));
  element("show").onclick = () => showLines(Number(element("first").value), Number(element("last").value));
  element("in").onclick = () => zoom(1.6, (width + LEFT) / 2);
  element("out").onclick = () => zoom(1 / 1.6, (width + LEFT) / 2);
  element("all").onclick = () => showLines(data.line, data.line + count - 1);
  scroll.onscroll = later;
  window.onresize = later;
  window.onhashchange = readAddress;
  canvas.addEventListener("wheel", (event) => {
    if (event.ctrlKey) zoom(event.deltaY < 0 ? 1.25 : 0.8, event.offsetX);
    else if (event.deltaX || event.shiftKey) move(from + (event.deltaX || event.deltaY) / scale, scale);
    else return;
    event.preventDefault();
  }, { passive: false });
  let held = null;
  canvas.onpointerdown = (event) => {
    held = [event.clientX, event.clientY, from, scroll.scrollTop];
    canvas.setPointerCapture(event.pointerId);
  };
  canvas.onpointerup = (event) => {
    if (held && Math.abs(event.clientX - held[0]) < 3) {
      kept = placeAt(event.offsetX) === kept ? -1 : placeAt(event.offsetX);
      if (kept >= 0) element("told").textContent = told(kept);
      later();
    }
    held = null;
  };
  canvas.onpointermove = (event) => {
    if (held) {
      move(held[2] - (event.clientX - held[0]) / scale, scale);
      scroll.scrollTop = held[3] - (event.clientY - held[1]);
    } else if (kept < 0 && placeAt(event.offsetX) >= 0) element("told").textContent = told(placeAt(event.offsetX));
  };
  canvas.onkeydown = (event) => {
    const part = (width - LEFT) / scale / 4, middle = (width + LEFT) / 2;
    const keys = {
      "+": () => zoom(1.6, middle),
      "=": () => zoom(1.6, middle),
      "-": () => zoom(1 / 1.6, middle),
      ArrowLeft: () => move(from - part, scale),
      ArrowRight: () => move(from + part, scale),
      Home: () => move(0, scale),
      End: () => move(count, scale),
    };
    if (keys[event.key]) { keys[event.key](); event.preventDefault(); }
  };
  draw();
  readAddress();
}

begin();
