// Draws a run round its chosen event: the memories, the lanes of the window, what was carried, the trace.

// ---- the chosen event: bars

function drawBars(run, k) {
  const parts = touched(run, k);
  const lit = new Set(parts.map((part) => part.stay));
  let shown = inOrder;
  if (shown.length > MOST_BARS) {
    const busy = new Set(parts.map((part) => part.stay && part.stay.node));
    const kept = shown.filter((node) => busy.has(node) || inUse(run, node, k).length);
    shown = kept.slice(0, MOST_BARS);
    run.more = kept.length - shown.length;
  }
  const widest = data.nodes.map((level) => Math.max(...level.map((node) => node[1])));
  run.bars.replaceChildren(
    ...shown.map((node) => barOf(run, nodes[node], parts, lit, k, widest[nodes[node].level])),
    ...(run.more > 0 ? [element("p", { class: "more" }, `and ${number(run.more)} more memories in use`)] : []),
  );
}

const marksOf = nodes.map(() => null);
function marks(node) {
  const fits = ([level, offset, size]) => level === node.level && offset + size <= node.capacity;
  marksOf[node.number] ??= [...new Set(data.places.filter(fits).map((place) => place[1]))];
  return marksOf[node.number].length > 40 ? [] : marksOf[node.number];
}

// The longest text for what is there that fits into so many pixels.
function boxText(stay, room) {
  const block = blockName(stay), name = placeName(stay), array = name.split(" ").pop();
  const texts = block ? [`${array} = ${block}`, block, array] : [name, array];
  return texts.find((text) => text.length * 7 + 8 <= room) ?? array;
}

function barOf(run, node, parts, lit, k, widest) {
  const wide = (run.bars.clientWidth - 150) * (widest ? node.capacity / widest : 0);
  const share = (count) => `${node.capacity ? (100 * count) / node.capacity : 0}%`;
  const track = element("div", { class: "track" });
  for (const at of marks(node)) if (at) track.append(element("span", { class: "mark", style: `left:${share(at)}` }));
  for (const stay of inUse(run, node.number, k)) {
    const box = element("span", {
      class: `buffer ${NAMES[stay.how]}${lit.has(stay) ? " lit" : ""}`,
      style: `left:${share(stay.at)};width:${share(stay.size)}`,
      title: stayWords(stay),
    }, boxText(stay, node.capacity ? (wide * stay.size) / node.capacity : 0));
    track.append(box);
  }
  for (const part of parts) {
    if (part.use === "leaf" || part.node !== node.number) continue;
    track.append(element("span", {
      class: `touched ${part.use}`,
      style: `left:${share(part.at)};width:${share(part.size)}`,
      title: `${part.use}: ${spotText(part)}`,
    }));
  }
  const bar = element("div", { class: "bar", style: `width:${widest ? (100 * node.capacity) / widest : 0}%` }, track);
  const state = { class: "node", "data-node": `${node.level}.${node.index}` };
  return element("div", state, element("b", {}, node.name), element("div", {}, bar));
}

function stayWords(stay) {
  const place = `${placeName(stay)} at bytes ${number(stay.at)} to ${number(stay.at + stay.size - 1)}`;
  if (stay.how === 0) return `${place}: an array of the entry, for the whole run`;
  const way = stay.how === 1 ? "from" : stay.combined ? "combined into" : "goes to";
  const block = stay.block ? `, ${way} ${stay.block}` : "";
  return `${place}${block}: touched between events ${stay.first + 1} and ${stay.last + 1}`;
}

function drawWords(run, k) {
  const list = [];
  for (const node of inOrder) {
    for (const stay of inUse(run, node, k)) {
      if (list.length < MOST_WORDS) list.push(element("li", {}, `${nodes[node].name}: ${stayWords(stay)}`));
    }
  }
  run.words.replaceChildren(...list);
}

// ---- lanes

const STEPS = [3, 5, 8, 12, 17, 24, 34];
const USUAL = 4;

// Pixels for an event. At first a run that fits is seen whole, as wide as it can be.
function pixels() {
  if (zoom === undefined) {
    const width = Math.min(...runs.map((run) => run.lanes.clientWidth)) - GUTTER - 10;
    const fitting = STEPS.filter((step) => most * step <= width);
    zoom = Math.max(USUAL, fitting.length - 1);
  }
  return STEPS[zoom];
}

function windowOf(run, k) {
  const width = Math.max(run.lanes.clientWidth, 320);
  const count = Math.max(4, Math.floor((width - GUTTER - 10) / pixels()));
  let begin = run.begin ?? 0;
  // The window moves by a half of itself, so that a step leaves most of the picture where it is.
  if (k < begin + 1 || k >= begin + count - 1) begin = k - Math.floor(count / 2);
  run.begin = Math.max(0, Math.min(begin, run.events.count - count));
  return { begin: run.begin, end: Math.min(run.events.count, run.begin + count), width };
}

function lanesOf(run, seen) {
  let shown = inOrder;
  if (shown.length > 24) {
    const busy = new Set();
    for (let k = seen.begin; k < seen.end; k++) {
      busy.add(run.events.to[k]);
      if (run.events.from[k] >= 0) busy.add(run.events.from[k]);
    }
    shown = inOrder.filter((node) => busy.has(node)).slice(0, MOST_LANES);
  }
  let top = 18;
  const lanes = new Map();
  for (const node of shown) {
    const stays = run.stays[node].filter((stay) => stay.how !== 0 && stay.first < seen.end && stay.last >= seen.begin);
    const offsets = [...new Set(stays.map((stay) => stay.at))].sort((a, b) => a - b).slice(0, MOST_ROWS);
    lanes.set(node, { top, stays, rows: new Map(offsets.map((at, row) => [at, row])) });
    top += LANE + ROW * offsets.length + 5;
  }
  return { lanes, height: top };
}

function drawLanes(run, k) {
  const seen = windowOf(run, k);
  const { lanes, height } = lanesOf(run, seen);
  const step = pixels();
  const x = (event) => GUTTER + (event - seen.begin + 0.5) * step;
  const svg = picture(seen.width, height, "Lanes of the events in view");
  svg.append(shape("rect", { class: "chosen", x: x(k) - step / 2, y: 0, width: step, height }));
  drawScale(svg, seen, x, step, height);
  const lit = new Set(touched(run, k).map((part) => part.stay));
  const texts = [];
  for (const [node, lane] of lanes) texts.push(...drawLane(svg, run, node, lane, seen, x, step, lit, k));
  for (let event = seen.begin; event < seen.end; event++) {
    if (event !== k) drawEvent(svg, run, event, lanes, x(event), step, false);
  }
  drawEvent(svg, run, k, lanes, x(k), step, true);
  // Names stand over the strokes of copies that pass them.
  svg.append(...texts);
  svg.addEventListener("click", (click) => {
    const at = click.clientX - svg.getBoundingClientRect().left;
    if (at > GUTTER) go(seen.begin + Math.floor((at - GUTTER) / step));
  });
  run.lanes.replaceChildren(svg);
  run.seen = seen;
}

function drawScale(svg, seen, x, step, height) {
  const every = [1, 2, 5, 10, 20, 50, 100].find((count) => count * step >= 40) || 200;
  for (let event = seen.begin; event < seen.end; event++) {
    if ((event + 1) % every) continue;
    svg.append(shape("text", { class: "scale", x: x(event), y: 11 }, String(event + 1)));
    svg.append(shape("line", { class: "rail dotted", x1: x(event), x2: x(event), y1: 14, y2: height }));
  }
}

function drawLane(svg, run, node, lane, seen, x, step, lit, k) {
  const { name, level } = nodes[node];
  const rail = lane.top + LANE / 2;
  const touches = run.events.to[k] === node || run.events.from[k] === node;
  svg.append(shape("line", { class: "rail", x1: GUTTER, x2: seen.width, y1: rail, y2: rail }));
  svg.append(shape("text", { class: `lane${touches ? " lit" : ""}`, x: 4 + level * 8, y: rail + 4 }, name));
  for (const [at, row] of lane.rows) {
    const stay = lane.stays.find((other) => other.at === at);
    const where = { class: "row", x: GUTTER - 5, y: lane.top + LANE + row * ROW + 10 };
    if (stay) svg.append(shape("text", where, placeName(stay)));
  }
  const texts = [];
  for (const stay of lane.stays) {
    const row = lane.rows.get(stay.at);
    if (row === undefined) continue;
    const left = Math.max(x(stay.first) - step / 2 + 0.5, GUTTER);
    const right = Math.min(x(stay.last) + step / 2 - 0.5, seen.width);
    const top = lane.top + LANE + row * ROW;
    const block = blockName(stay);
    const group = shape("g", { class: `stay ${NAMES[stay.how]}${lit.has(stay) ? " lit" : ""}` },
      shape("title", {}, stayWords(stay)),
      shape("rect", { x: left, y: top, width: Math.max(right - left, 1), height: ROW - 2 }));
    svg.append(group);
    const fits = block.length * 5.9 < right - left;
    if (block && fits) texts.push(shape("text", { class: "block", x: left + 3, y: top + 9.5 }, block));
  }
  return texts;
}

function drawEvent(svg, run, event, lanes, at, step, chosen) {
  const { events } = run;
  const to = lanes.get(events.to[event]);
  if (!to) return;
  const kind = KINDS[events.kind[event]][0];
  const size = Math.max(2.5, Math.min(step * 0.42, 7));
  const y = to.top + LANE / 2;
  const title = shape("title", {}, `event ${event + 1}: ${events.line(event)}`);
  const group = shape("g", { class: chosen ? "at" : "" }, title);
  const source = events.from[event] >= 0 && lanes.get(events.from[event]);
  if (source && source !== to) {
    const from = source.top + LANE / 2;
    group.append(shape("line", { class: `k-${kind}`, x1: at, x2: at, y1: from, y2: y }));
    group.append(shape("circle", { class: `k-${kind}`, cx: at, cy: from, r: Math.min(2.2, size / 2) }));
  }
  group.append(...symbol(kind, at, y, size));
  svg.append(group);
}

// The sign of a kind, of the half width r.
function symbol(kind, x, y, r) {
  const path = (name, d) => shape("path", { class: `k-${name}`, d });
  switch (kind) {
    case "down": return [path("down", `M${x - r} ${y - r} H${x + r} L${x} ${y + r} Z`)];
    case "up": return [path("up", `M${x - r} ${y + r} H${x + r} L${x} ${y - r} Z`)];
    case "within": return [path("within", `M${x - r} ${y - r} L${x + r} ${y} L${x - r} ${y + r} Z`)];
    case "fill": return [path("fill", `M${x} ${y - r} L${x + r} ${y} L${x} ${y + r} L${x - r} ${y} Z`)];
    case "acc": return [
      shape("circle", { class: "k-acc", cx: x, cy: y, r }),
      path("plus", `M${x} ${y - r * 0.6} V${y + r * 0.6} M${x - r * 0.6} ${y} H${x + r * 0.6}`),
    ];
    default: return [shape("rect", { class: "k-leaf", x: x - r, y: y - r, width: 2 * r, height: 2 * r })];
  }
}

// ---- all events: how many of each kind in each stretch

function countKinds(run) {
  const columns = Math.min(run.events.count, 240);
  const counts = KINDS.map(() => new Float64Array(columns));
  for (let k = 0; k < run.events.count; k++) {
    counts[run.events.kind[k]][Math.floor((k * columns) / run.events.count)]++;
  }
  return { columns, counts };
}

function drawOverview(run) {
  const { columns, counts } = countKinds(run);
  const kinds = KINDS.map((kind, index) => [kind, counts[index]]).filter(([, row]) => row.some((count) => count));
  const width = Math.max(run.overview.clientWidth, 320), left = GUTTER, tall = 15, height = kinds.length * tall + 4;
  const svg = picture(width, height, "All events: how many of each kind in each stretch of the run");
  kinds.forEach(([[name, words], row], line) => {
    svg.append(shape("text", { x: 4, y: line * tall + 12 }, words));
    const most = Math.max(...row);
    const scale = (width - left) / columns;
    let path = "";
    row.forEach((count, column) => {
      if (!count) return;
      const tallness = Math.max(1.5, ((tall - 2) * count) / most);
      const [x, up, wide] = [left + column * scale, tallness, Math.max(scale * 0.85, 0.8)].map((n) => n.toFixed(2));
      path += `M${x} ${(line + 1) * tall}v-${up}h${wide}v${up}z`;
    });
    svg.append(shape("path", { class: `k-${name}`, d: path, "stroke-width": 0.3 }));
  });
  run.view = shape("rect", { class: "seen", y: 0.5, height: height - 1 });
  run.needle = shape("line", { class: "needle", y1: 0, y2: height });
  svg.append(run.view, run.needle);
  run.overviewX = (k) => left + ((width - left) * k) / Math.max(run.events.count, 1);
  svg.addEventListener("click", (click) => {
    const box = svg.getBoundingClientRect();
    const at = ((click.clientX - box.left) / box.width) * width;
    if (at > left) go(Math.floor(((at - left) / (width - left)) * run.events.count));
  });
  run.overview.replaceChildren(svg);
}

function moveView(run, k) {
  const begin = run.overviewX(run.seen.begin);
  run.view.setAttribute("x", begin);
  run.view.setAttribute("width", Math.max(run.overviewX(run.seen.end) - begin, 2));
  for (const end of ["x1", "x2"]) run.needle.setAttribute(end, run.overviewX(k + 0.5));
}

// ---- what was carried, and the trace

function drawCarried(run, k) {
  const rows = data.edges.map(([upper, lower, down, up], edge) => {
    const so = run.traffic[edge];
    const cell = (now, all) => element("td", {}, `${number(now)} of ${number(all)} `,
      element("meter", { min: 0, max: Math.max(all, 1), value: now }));
    const name = element("th", {}, `${upper} \u2194 ${lower}`);
    return element("tr", {}, name, cell(so.down[k] ?? 0, down), cell(so.up[k] ?? 0, up));
  });
  const head = element("tr", {}, ...["edge", "bytes down", "bytes up"].map((text) => element("th", {}, text)));
  run.carried.replaceChildren(...(rows.length ? [head, ...rows] : []));
}

function drawTrace(run, k) {
  const begin = Math.max(0, Math.min(k - 4, run.events.count - 9));
  const shown = [];
  for (let event = begin; event < Math.min(begin + 9, run.events.count); event++) {
    const state = event === k ? { class: "lit", "aria-current": "true" } : {};
    shown.push(element("li", state, run.events.line(event)));
  }
  run.trace.start = begin + 1;
  run.trace.replaceChildren(...shown);
}

function drawTrapped(run) {
  if (!run.trap) return;
  const links = run.trapped.map((k) => {
    const button = element("button", {}, `event ${k + 1}: ${run.events.line(k)}`);
    button.addEventListener("click", () => go(k));
    return button;
  });
  let told = "The trace doesn't tell which leaf call trapped.";
  if (links.length === 1) told = "It trapped in this leaf call: ";
  if (links.length > 1) told = "Leaf calls that trapped; the line is that of the one of the least path: ";
  run.trappedBox.replaceChildren(element("code", {}, run.trap), element("br"), told, ...links);
}
