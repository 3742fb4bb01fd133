// The timeline: bars on a canvas, as far as they are seen, and the steps through them.

const data = JSON.parse(document.getElementById("data").textContent);
const GUTTER = 170, AXIS = 22, LANE = 16, GAP = 5, TALLEST = 130;
const count = data.begin.length;
const total = Math.max(data.total, 1);
const lines = data.lines.split("\n");
const heavy = new Uint8Array(count);
for (const k of data.heavy) heavy[k] = 1;
const end = (k) => data.begin[k] + data.weight[k];
const number = new Intl.NumberFormat("en").format;
const find = (id) => document.getElementById(id);
const box = find("rows"), canvas = find("canvas"), mark = find("chosen"), slider = find("slider");
const pen = canvas.getContext("2d");

// ---- rows and their lanes, each with its bars in order

let below = AXIS;
const rows = data.rows.map(([name, lanes]) => {
  const height = Math.min(lanes * LANE, TALLEST);
  const row = { name, top: below, height, lane: height / lanes, lanes: Array.from({ length: lanes }, () => []), heavy: new Set() };
  below += height + GAP;
  return row;
});
for (let k = 0; k < count; k++) rows[data.row[k]].lanes[data.lane[k]].push(k);
for (const k of data.heavy) rows[data.row[k]].heavy.add(data.lane[k]);
find("whole").style.height = `${below}px`;

// The first of a lane's bars for which this holds; it holds for all behind it.
function firstOf(lane, holds) {
  let low = 0, high = lane.length;
  while (low < high) {
    const middle = (low + high) >> 1;
    if (holds(lane[middle])) high = middle;
    else low = middle + 1;
  }
  return low;
}

// ---- what is seen

let chosen = 0, begin = 0, zoom = 0;
const MOST_ZOOM = Math.ceil(Math.log2(total));
const span = () => total / 2 ** zoom;
// The pixels that the bars have; asked of the page once for each frame, since it is slow to tell.
let room = 0;
const measure = () => (room = Math.max(box.clientWidth - GUTTER - 8, 1));
const scale = () => room / span();
const placed = (weight) => GUTTER + (weight - begin) * scale();

function moveTo(from) {
  begin = Math.max(0, Math.min(from, total - span()));
}

function show(k) {
  const seen = span();
  if (data.weight[k] >= seen) {
    if (end(k) <= begin || data.begin[k] >= begin + seen) moveTo(data.begin[k]);
  } else if (data.begin[k] < begin || end(k) > begin + seen) {
    moveTo(data.begin[k] - (seen - data.weight[k]) / 3);
  }
  const { top, height } = rows[data.row[k]];
  if (top - AXIS < box.scrollTop) box.scrollTop = top - AXIS;
  if (top + height > box.scrollTop + box.clientHeight) box.scrollTop = top + height + GAP - box.clientHeight;
}

function boundsOf(k) {
  const row = rows[data.row[k]];
  const left = placed(data.begin[k]);
  return { left, top: row.top + data.lane[k] * row.lane - box.scrollTop, width: Math.max(data.weight[k] * scale(), 2), height: row.lane };
}

// ---- drawing

function colours() {
  const style = getComputedStyle(document.documentElement);
  const colour = (name) => style.getPropertyValue(`--${name}`).trim();
  const kinds = data.kinds.map(colour);
  // Off the chain a colour is faint: its six digits have two more for how much of it is seen.
  return { kinds, faint: kinds.map((kind) => `${kind}73`), ink: colour("ink"), dim: colour("dim"), line: colour("line"), paper: colour("paper"), lit: colour("lit") };
}

function drawLane(lane, top, height, paint) {
  const right = GUTTER + room;
  const until = begin + span();
  let drawn = 0, drawnHeavy = 0;
  for (let at = firstOf(lane, (k) => end(k) >= begin); at < lane.length && data.begin[lane[at]] <= until; at++) {
    const k = lane[at];
    const from = Math.max(placed(data.begin[k]), GUTTER);
    const to = Math.min(Math.max(placed(end(k)), from + 1), right);
    // Of bars in one pixel one is drawn, and one of the chain.
    if (to - (heavy[k] ? drawnHeavy : drawn) < 1) continue;
    drawBar(k, from, to, top, height, paint);
    drawn = Math.max(drawn, to);
    if (heavy[k]) drawnHeavy = to;
  }
}

function drawBar(k, from, to, top, height, paint) {
  const gap = to - from > 3 ? 0.5 : 0;
  pen.fillStyle = (heavy[k] ? paint.kinds : paint.faint)[data.kind[k]];
  pen.fillRect(from + gap, top, to - from - 2 * gap, Math.max(height - 1, 1));
  if (heavy[k]) {
    pen.fillStyle = paint.lit;
    pen.fillRect(from, top + height - 3, to - from, 3);
  }
  if (to - from < 40 || height < 12) return;
  const word = lines[k].slice(lines[k].lastIndexOf(" ") + 1);
  if (pen.measureText(word).width > to - from - 6) return;
  pen.fillStyle = heavy[k] ? paint.paper : paint.ink;
  pen.fillText(word, from + 3, top + height / 2 - 1);
}

function drawAxis(paint) {
  pen.fillStyle = paint.paper;
  pen.fillRect(0, 0, canvas.clientWidth, AXIS);
  pen.fillStyle = paint.dim;
  const rough = span() / Math.max(room / 110, 1);
  const power = 10 ** Math.floor(Math.log10(rough));
  const step = Math.max(1, power * [1, 2, 5, 10].find((times) => times * power >= rough));
  for (let tick = Math.ceil(begin / step) * step; tick <= begin + span(); tick += step) {
    pen.fillRect(placed(tick), AXIS - 5, 1, 5);
    pen.fillText(number(tick), placed(tick) + 3, AXIS - 11);
  }
}

function drawRows(paint) {
  const from = box.scrollTop + AXIS - GAP, to = box.scrollTop + box.clientHeight;
  for (let n = firstOf(rows, (row) => row.top + row.height >= from); n < rows.length && rows[n].top < to; n++) {
    const row = rows[n];
    const top = row.top - box.scrollTop;
    pen.fillStyle = paint.line;
    pen.fillRect(0, top + row.height + GAP / 2, canvas.clientWidth, 0.5);
    pen.fillStyle = n === data.row[chosen] ? paint.ink : paint.dim;
    pen.fillText(row.name, row.name.startsWith(" ") ? 14 : 2, top + Math.min(row.height, LANE) / 2, GUTTER - 18);
    drawLanes(row, top, paint);
  }
}

function drawLanes(row, top, paint) {
  let drawn = -1;
  row.lanes.forEach((lane, at) => {
    const from = at * row.lane;
    // Of lanes in one row of pixels one is drawn, and each that the chain is in.
    if (drawn >= 0 && from - drawn < 1 && !row.heavy.has(at)) return;
    drawn = from;
    drawLane(lane, top + from, row.lane, paint);
  });
}

function drawChosen() {
  const place = boundsOf(chosen), right = GUTTER + room;
  const from = Math.max(GUTTER, Math.min(place.left, right - 2)), to = Math.min(place.left + place.width, right);
  const beside = place.left > right || place.left + place.width < GUTTER;
  mark.hidden = beside || place.top < AXIS - GAP || place.top > box.clientHeight;
  mark.style.cssText = `left:${from}px;top:${place.top}px;width:${Math.max(to - from, 2)}px;height:${place.height}px`;
}

function draw() {
  measure();
  const sharp = devicePixelRatio || 1;
  const [wide, high] = [box.clientWidth, box.clientHeight];
  canvas.width = wide * sharp;
  canvas.height = high * sharp;
  canvas.style.width = `${wide}px`;
  canvas.style.height = `${high}px`;
  pen.setTransform(sharp, 0, 0, sharp, 0, 0);
  pen.font = "11px system-ui, sans-serif";
  pen.textBaseline = "middle";
  const paint = colours();
  drawRows(paint);
  drawAxis(paint);
  drawChosen();
}

function tell() {
  const chain = heavy[chosen] ? " It is on the heaviest chain." : "";
  const row = rows[data.row[chosen]].name.trim();
  find("number").textContent = `${number(chosen + 1)} of ${number(count)}`;
  find("event").textContent = lines[chosen];
  find("says").textContent = `${row}, ${data.words[data.kind[chosen]]}: begins at ${number(data.begin[chosen])}, ` +
    `weighs ${number(data.weight[chosen])}, ends at ${number(end(chosen))}.${chain}`;
  slider.value = chosen + 1;
  find("at").textContent = number(chosen + 1);
}

let waiting = false;
function drawSoon() {
  if (waiting) return;
  waiting = true;
  // However fast the steps come, each frame is drawn once.
  requestAnimationFrame(() => {
    waiting = false;
    draw();
  });
}

// ---- steps

function go(k) {
  chosen = Math.max(0, Math.min(k, count - 1));
  show(chosen);
  tell();
  drawSoon();
}

// The next event, or the one before, for which this holds.
function seek(step, holds) {
  for (let k = chosen + step; k >= 0 && k < count; k += step) {
    if (holds(k)) return go(k);
  }
}

// The moment under the pointer stays where it is, else the chosen event, as far as all of it can be in view.
function zoomBy(step, around) {
  const old = span();
  const middle = around ?? Math.max(begin, Math.min(data.begin[chosen] + data.weight[chosen] / 2, begin + old));
  const share = (middle - begin) / old;
  zoom = Math.max(0, Math.min(zoom + step, MOST_ZOOM));
  moveTo(middle - share * span());
  if (around === undefined) show(chosen);
  drawSoon();
}

// The first event that begins a window later, or the last one that begins a window earlier.
function goWindow(step) {
  const wanted = data.begin[chosen] + step * span();
  const every = data.begin;
  let low = 0, high = count;
  while (low < high) {
    const middle = (low + high) >> 1;
    if (every[middle] >= wanted) high = middle;
    else low = middle + 1;
  }
  go(low);
}

function pressed(key, back) {
  const step = back ? -1 : 1;
  const here = data.row[chosen];
  const actions = {
    ArrowLeft: () => go(chosen - 1),
    ArrowRight: () => go(chosen + 1),
    PageUp: () => goWindow(-1),
    PageDown: () => goWindow(1),
    Home: () => go(0),
    End: () => go(count - 1),
    "+": () => zoomBy(1),
    "=": () => zoomBy(1),
    "-": () => zoomBy(-1),
    h: () => seek(step, (k) => heavy[k]),
    l: () => seek(step, (k) => data.kinds[data.kind[k]] === "leaf"),
    n: () => seek(step, (k) => data.row[k] === here),
  };
  const action = actions[key.length === 1 ? key.toLowerCase() : key];
  if (action) action();
  return Boolean(action);
}

document.addEventListener("keydown", (event) => {
  if (event.ctrlKey || event.altKey || event.metaKey) return;
  if (event.target instanceof HTMLButtonElement && (event.key === " " || event.key === "Enter")) return;
  if (pressed(event.key, event.shiftKey)) event.preventDefault();
});
slider.addEventListener("input", () => go(slider.value - 1));
const BUTTONS = { home: "Home", back: "ArrowLeft", on: "ArrowRight", end: "End", less: "-", more: "+" };
for (const [id, key] of Object.entries(BUTTONS)) {
  find(id).addEventListener("click", () => pressed(key, false));
}

// ---- the pointer

function spotOf(event) {
  const place = canvas.getBoundingClientRect();
  return { weight: begin + (event.clientX - place.left - GUTTER) / scale(), top: event.clientY - place.top + box.scrollTop };
}

function choose({ weight, top }) {
  const row = rows.find(({ top: from, height }) => from <= top && top < from + height);
  const lane = row && row.lanes[Math.min(Math.floor((top - row.top) / row.lane), row.lanes.length - 1)];
  const k = lane && lane[firstOf(lane, (bar) => end(bar) > weight)];
  if (k !== undefined && data.begin[k] <= weight + 3 / scale()) go(k);
}

let grip, moved;
canvas.addEventListener("pointerdown", (event) => {
  grip = spotOf(event);
  moved = false;
});
addEventListener("pointermove", (event) => {
  if (!grip || !event.buttons) return;
  const spot = spotOf(event);
  moved ||= Math.abs(spot.weight - grip.weight) * scale() > 4;
  if (!moved) return;
  moveTo(begin + grip.weight - spot.weight);
  drawSoon();
});
addEventListener("pointerup", (event) => {
  if (grip && !moved) choose(spotOf(event));
  grip = undefined;
});
box.addEventListener("wheel", (event) => {
  if (event.ctrlKey) zoomBy(event.deltaY < 0 ? 1 : -1, spotOf(event).weight);
  else if (event.shiftKey || event.deltaX) moveTo(begin + (event.deltaX || event.deltaY) / scale());
  else return;
  event.preventDefault();
  drawSoon();
}, { passive: false });
box.addEventListener("scroll", drawSoon);
addEventListener("resize", drawSoon);
matchMedia("(prefers-color-scheme: dark)").addEventListener("change", drawSoon);

// page.html#7 opens at event 7.
const begun = parseInt(location.hash.slice(1), 10);
if (begun > 0) chosen = Math.min(begun, count) - 1;
box.style.height = `${Math.min(below + 2, Math.max(innerHeight * 0.6, 200))}px`;
measure();
show(chosen);
tell();
draw();
document.documentElement.dataset.ready = "yes";
