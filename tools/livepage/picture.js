// The page of tools/picture for what stands in the texts here: its frame, style and scripts are those of tools/pictures,
// its parts are what page.py writes. A plan is drawn from its plan file, which names the buffers of each event.

const BOX = 112, TALL = 58, BETWEEN = 30, BESIDE = 200, WIDEST = 1250;
const MOST_ROWS_DRAWN = 12, MOST_BARS_DRAWN = 16;
const count = new Intl.NumberFormat("en").format;
const plural = (many, word, several = `${word}s`) => `${count(many)} ${many === 1 ? word : several}`;
const SIGNS = { "&": "&amp;", "<": "&lt;", ">": "&gt;", '"': "&quot;", "'": "&#x27;" };
const safe = (text) => String(text).replace(/[&<>"']/g, (sign) => SIGNS[sign]);
const share = (part, whole) => `${(whole ? (100 * part) / whole : 0).toFixed(3)}%`;

// ---- reports

// The lines of a report: levels with their nodes, the notes at loops, edges, and leaf calls.
function readReport(text) {
  const report = { levels: [], notes: [], edges: [], leaves: 0 };
  for (const words of text.trim().split("\n").map((line) => line.split(" "))) {
    const [kind, ...rest] = words;
    if (kind === "level") {
      const [name, , nodes, , , , need, , used] = rest;
      report.levels.push({ name, nodes: +nodes, need: +need, used: +used, own: [] });
    } else if (kind === "node") report.levels.at(-1).own.push({ name: rest[0], need: +rest[4] });
    else if (kind === "hoist" || kind === "overlap") {
      report.notes.push({ line: +rest[0].split(":")[0], instance: rest[1], param: rest[2] });
    } else if (kind === "edge") report.edges.push({ upper: rest[0], lower: rest[1], down: +rest[3], up: +rest[5] });
    else if (kind === "leaves") report.leaves = +rest[0];
  }
  return report;
}

// The report of a plan file, whose levels and nodes have numbers alone.
function reportOf(planned, scopes) {
  const levels = planned.memories.map((nodes, level) => {
    const needs = nodes.map(({ index }) => scopes.needs[planned.first[level] + index]);
    const own = planned.even ? [] : nodes.map(({ index }, n) => ({ name: `node ${level}.${index}`, need: needs[n] }));
    const used = Math.max(0, ...scopes.layouts[level].map((layout) => layout.end));
    return { name: `level ${level}`, nodes: nodes.length, need: Math.max(...needs), used, own, numbered: true };
  });
  const edges = planned.carried().map(([down, up], n) => ({ upper: levels[n].name, lower: levels[n + 1].name, down, up }));
  return { levels, notes: [], edges, leaves: planned.plan.events.filter((event) => event.kind === "run").length };
}

// ---- what is drawn

// A picture of a plan file, with the report of the program that it was compiled from, where it was.
class Drawing {
  constructor({ title, told, planned, report, source, heading, tasks, rows, runs }) {
    Object.assign(this, { title, told, planned, source, heading, tasks, rows, runs });
    this.scopes = planned.scopes();
    this.report = report ?? reportOf(planned, this.scopes);
    for (const run of runs) run.steps = new Steps(planned, run.lines);
  }

  named(level) {
    return this.report.levels[level].own.length > 0;
  }

  nodeName(node) {
    const { name, nodes, own, numbered } = this.report.levels[node.level];
    if (own.length) return own[node.index].name;
    if (numbered) return `node ${node.level}.${node.index}`;
    return nodes === 1 ? name : `${name} ${node.index}`;
  }

  need(node) {
    const { need, own } = this.report.levels[node.level];
    return own.length ? own[node.index].need : need;
  }
}

// ---- the tree

// The cell of a node. From level `folded` on, the nodes of one parent are one cell, or two where they differ.
function cellOf(drawing, node, folded) {
  const below = node.level + 1 < folded ? node.below.map((child) => cellOf(drawing, child, folded)) : fold(drawing, node.below, folded);
  return { nodes: [node], below, more: 0 };
}

function fold(drawing, nodes, folded) {
  if (!nodes.length) return [];
  const first = cellOf(drawing, nodes[0], folded);
  const alike = !drawing.named(nodes[0].level) && new Set(nodes.map((node) => node.capacity)).size === 1;
  if (alike) return [{ nodes, below: first.below, more: 0 }];
  return nodes.length > 1 ? [first, { nodes: [], below: [], more: nodes.length - 1 }] : [first];
}

const inner = (cell, gap) =>
  cell.below.reduce((sum, below) => sum + widthOf(below, gap), 0) + gap * Math.max(cell.below.length - 1, 0);
const widthOf = (cell, gap) => Math.max(BOX, inner(cell, gap));

// The middles of cells, level by level. A cell stands above the middle of those below it.
function placeCell(cell, gap, left, level, placed) {
  const width = widthOf(cell, gap), middles = [];
  let at = left + Math.floor((width - inner(cell, gap)) / 2);
  for (const below of cell.below) {
    middles.push(placeCell(below, gap, at, level + 1, placed));
    at += widthOf(below, gap) + gap;
  }
  const middle = left + Math.floor(width / 2);
  placed[level].push({ cell, middle, middles });
  return middle;
}

// As few cells are folded as fit the room; the widest gap that fits is taken.
function placedTree(drawing) {
  const { memories } = drawing.planned;
  let root, gap;
  search: for (let folded = memories.length; folded >= 0; folded--) {
    root = cellOf(drawing, memories[0][0], folded);
    for (gap of [40, 20, 10]) if (widthOf(root, gap) <= WIDEST) break search;
  }
  const placed = memories.map(() => []);
  placeCell(root, gap, 0, 0, placed);
  return { placed, width: widthOf(root, gap) };
}

function treeBox(drawing, { cell, middle }, level) {
  const left = middle - BOX / 2, top = level * (TALL + BETWEEN);
  if (cell.more) return `<text class="more" x="${middle}" y="${top + TALL / 2}">and ${cell.more} more</text>`;
  const [node] = cell.nodes, need = drawing.need(node), alone = cell.nodes.length === 1;
  const name = alone ? drawing.nodeName(node) : `${cell.nodes.length} x ${drawing.report.levels[level].name}`;
  const gauge = BOX - 12, filled = node.capacity ? Math.min(gauge, Math.floor((gauge * need) / node.capacity)) : 0;
  return `<g class="memory" data-node="${alone ? `${level}.${node.index}` : ""}"><title>${safe(name)}: `
    + `${plural(node.capacity, "byte")}${alone ? "" : " each"}, need ${count(need)}</title>`
    + `<rect class="box" x="${left}" y="${top}" width="${BOX}" height="${TALL}" rx="3"/>`
    + `<text class="name" x="${middle}" y="${top + 15}">${safe(name)}</text>`
    + `<text x="${middle}" y="${top + 30}">${count(need)} of ${count(node.capacity)}</text>`
    + `<rect class="gauge" x="${left + 6}" y="${top + 36}" width="${gauge}" height="6"/>`
    + `<rect class="need" x="${left + 6}" y="${top + 36}" width="${filled}" height="6"/>`
    + `<text class="now" x="${middle}" y="${top + 54}"></text></g>`;
}

// What stands beside a level: its name, and what its nodes need and use together.
function levelText(told, top) {
  const need = told.own.length ? "" : `need ${count(told.need)}, `;
  const lines = [plural(told.nodes, "memory", "memories"), `${need}used up to ${count(told.used)}`];
  const spans = lines.map((line) => `<tspan x="-${BESIDE}" dy="15">${line}</tspan>`).join("");
  return `<text class="level" x="-${BESIDE}" y="${top + 15}"><tspan class="name">${safe(told.name)}</tspan>${spans}</text>`;
}

function tree(drawing) {
  const { placed, width } = placedTree(drawing), parts = [];
  placed.forEach((row, level) => {
    const top = level * (TALL + BETWEEN);
    parts.push(levelText(drawing.report.levels[level], top));
    for (const one of row) {
      for (const other of one.middles) {
        parts.push(`<line class="edge" x1="${one.middle}" y1="${top + TALL}" x2="${other}" y2="${top + TALL + BETWEEN}"/>`);
      }
      parts.push(treeBox(drawing, one, level));
    }
  });
  const height = placed.length * (TALL + BETWEEN) - BETWEEN, wide = BESIDE + width + 4;
  return `<svg class="tree" style="width:${wide}px" viewBox="-${BESIDE} -4 ${wide} ${height + 8}" role="img" `
    + `aria-label="The tree of memories">${parts.join("")}</svg>`;
}

// ---- bars of the plan

function bufferBox(buffer, reach, calls) {
  const several = calls > 1 ? `, of ${calls} calls` : "", { offset, size, instance, array } = buffer;
  const told = `${instance} ${array}: bytes ${count(offset)} to ${count(offset + size - 1)}${several}`;
  return `<span class="buffer" style="left:${share(offset, reach)};width:${share(size, reach)}" title="${safe(told)}" `
    + `data-offset="${offset}" data-size="${size}"><b>${safe(instance)} ${safe(array)}</b> ${count(size)}</span>`;
}

// Of the numbers below a bar those with room beside one another, the first and the last among them.
function thinned(marks, reach) {
  const kept = [], room = reach * 0.07;
  for (const mark of marks) {
    const free = !kept.length || (mark - kept.at(-1) >= room && reach - mark >= room);
    if (mark === reach || free) kept.push(mark);
  }
  return kept;
}

// A row for each layout of buffers that a scope has at the node.
function planBar(node, layouts, name, widest) {
  const reach = node.capacity, fitting = layouts.filter((layout) => layout.end <= reach);
  const shown = fitting.slice(0, MOST_ROWS_DRAWN);
  const rows = shown.map(({ buffers, calls }) =>
    `<div class="track">${buffers.map((buffer) => bufferBox(buffer, reach, calls)).join("")}</div>`);
  const marks = new Set([0, reach, ...shown.flatMap(({ buffers }) => buffers.map((buffer) => buffer.offset))]);
  const kept = thinned([...marks].sort((a, b) => a - b), reach);
  const ticks = kept.map((at) => `<span style="left:${share(at, reach)}">${count(at)}</span>`).join("");
  const rest = fitting.length - shown.length, more = rest > 0 ? `<p class="more">and ${plural(rest, "more row")}</p>` : "";
  return `<div class="node"><b>${safe(name)}</b><div><div class="bar" style="width:${share(reach, widest)}">`
    + `${rows.join("") || '<div class="track"></div>'}<div class="ticks">${ticks}</div></div>${more}</div></div>`;
}

function planBars(drawing) {
  return drawing.planned.memories.map((nodes, level) => {
    const { name, numbered } = drawing.report.levels[level], named = drawing.named(level) || (numbered && !drawing.planned.even);
    const shown = named ? nodes.slice(0, MOST_BARS_DRAWN) : nodes.slice(0, 1);
    const widest = Math.max(...nodes.map((node) => node.capacity));
    const alike = named || nodes.length === 1 ? "" : `, each of ${count(nodes.length)}`;
    const bars = shown.map((node) =>
      planBar(node, drawing.scopes.layouts[level], named ? drawing.nodeName(node) : name + alike, widest));
    const rest = named ? nodes.length - shown.length : 0;
    return bars.join("") + (rest ? `<p class="more">and ${plural(rest, "more memory", "more memories")}</p>` : "");
  }).join("");
}

// ---- the program beside it

function sourceLines(drawing) {
  const notes = new Map();
  for (const { line, instance, param } of drawing.report.notes) {
    const told = param
      ? `hoisted: the transfers for ${param} stand outside this loop, in instance ${instance}`
      : `overlapped: transfers of the next iteration beside the calls of this one, in instance ${instance}`;
    const note = `<span class="note ${param ? "hoist" : "overlap"}"><span aria-hidden="true">${param ? "&#8613;" : "&#8649;"}`
      + `</span> ${safe(told)}</span>`;
    notes.set(line, new Set([...(notes.get(line) ?? []), note]));
  }
  const lines = drawing.source.replace(/\n$/, "").split("\n");
  return `<ol class="source">${lines.map((line, n) =>
    `<li id="line-${n + 1}"><code>${safe(line) || " "}</code>${[...(notes.get(n + 1) ?? [])].join("")}</li>`).join("")}</ol>`;
}

// ---- what the script draws from

// The stays in the order of their first events, column by column, as traces.js reads them.
function stayColumns(run, blocks, numbers) {
  const columns = { names: [], node: [], first: [], last: [], how: [], block: [], leaves: [], parts: {} };
  let before = 0;
  for (const stay of run.steps.stays) {
    if (!blocks.has(stay.block)) blocks.set(stay.block, blocks.size);
    columns.names.push(stay.place);
    columns.node.push(numbers.get(stay.node.join(".")));
    columns.first.push(stay.first - before);
    columns.last.push(stay.last - stay.first);
    columns.how.push(stay.how + 3 * stay.combined);
    columns.block.push(blocks.get(stay.block));
    columns.leaves.push(stay.leaves.length > 1 ? stay.leaves : stay.leaves.length ? stay.leaves[0] - stay.first : -1);
    before = stay.first;
  }
  return columns;
}

function modeOf(planned, place) {
  return planned.arrays.get(planned.order[place])?.mode ?? "";
}

function dataOf(drawing) {
  const { planned, report, runs } = drawing, blocks = new Map();
  const numbers = new Map(planned.memories.flat().map((node, n) => [`${node.level}.${node.index}`, n]));
  const told = runs.map((run) => ({
    name: run.name, count: run.lines.length, trace: run.lines.map((line) => `${line}\n`).join(""),
    stays: stayColumns(run, blocks, numbers), trap: run.trap, trapped: run.trap ? run.steps.trapped(run.trap) : [],
    ...(drawing.rows ? { rows: run.steps.events.map((event) => event.place.line) } : {}),
  }));
  return {
    levels: report.levels.map((level) => level.name),
    nodes: planned.memories.map((nodes) =>
      nodes.map((node) => [drawing.nodeName(node), node.capacity, node.below.map((below) => below.index)])),
    places: planned.places.map((p, n) => [p.level, p.offset, p.size, p.instance, p.array, modeOf(planned, n)]),
    shapes: planned.plan.arrays.map((array) => [WIDTHS[array.elem], array.extents]),
    edges: report.edges.map(({ upper, lower, down, up }) => [upper, lower, down, up]),
    instances: drawing.tasks, blocks: [...blocks.keys()], runs: told,
  };
}

// ---- the page

function trafficTable({ report }) {
  const rows = report.edges.map(({ upper, lower, down, up }) =>
    `<tr><th>${safe(upper)} &#8596; ${safe(lower)}</th><td>${count(down)}</td><td>${count(up)}</td></tr>`).join("");
  const head = "<tr><th>edge</th><th>bytes down</th><th>bytes up</th></tr>";
  return (rows ? `<table>${head}${rows}</table>` : "<p>One level: nothing goes from one to another.</p>")
    + `<p>${plural(report.leaves, "leaf call")} in a run that doesn't trap.</p>`;
}

// Whether what the run carries is what the plan says.
function agreement(drawing, run) {
  if (run.trap) return "The run trapped, so it carries no more than a part of what the plan says.";
  const { planned, report } = drawing, found = planned.carried();
  const same = report.edges.every(({ down, up }, n) => found[n][0] === down && found[n][1] === up);
  const leaves = run.lines.filter((line) => line.startsWith("leaf ")).length === report.leaves;
  const all = run.lines.length === planned.lines.length;
  return same && leaves && all
    ? "All its transfers together carry what the plan says, and it has as many leaf calls."
    : "This trace is not of a whole run of this plan: it carries other sums, or has another number of leaf calls.";
}

function runParts(drawing) {
  const parts = drawing.runs.map((run, n) =>
    `<article class="run" data-run="${n}" aria-label="${safe(run.name)}">`
    + `<h2>${safe(run.name)} <small>${plural(run.lines.length, "event")}</small></h2>`
    + '<p class="line" aria-live="polite"><b class="number"></b> <code class="event"></code></p><p class="says"></p>'
    + '<div class="trapped"></div>'
    + '<h3>The memories at this event</h3><div class="bars"></div>'
    + '<h3>All events</h3><div class="overview"></div>'
    + '<h3>Lanes, one a memory</h3><div class="lanes"></div>'
    + `<h3>Carried so far</h3><table class="carried"></table><p class="agreement">${agreement(drawing, run)}</p>`
    + '<details class="words"><summary>In words</summary><ul></ul></details>'
    + '<h3>The trace here</h3><ol class="trace"></ol></article>');
  return `<div class="runs of-${drawing.runs.length}">${parts.join("")}</div>`;
}

// The parts of tools/pictures that stand as they are: `frame` has the marks, `controls` the count of events.
function pictureOf(drawing, { frame, style, script, controls, legend }) {
  const most = Math.max(0, ...drawing.runs.map((run) => run.lines.length));
  const owner = drawing.rows ? "scope" : "call";
  const body = [
    `<header><h1>${safe(drawing.title)}</h1><p>${safe(drawing.told)}</p></header>`,
    '<section id="memories"><h2>The memories</h2>',
    `<p>Each box is one memory: the bytes that it needs, of the bytes that it has.</p>${tree(drawing)}</section>`,
    '<div class="two"><div><section id="plan"><h2>Where buffers lie</h2>',
    `<p>Each bar is the bytes of one memory, from byte 0 to its capacity. A row has the buffers of one ${owner}; those of `,
    `${owner}s at different times may lie over one another.</p>${planBars(drawing)}`,
    `</section><section id="traffic"><h2>What the edges carry</h2>${trafficTable(drawing)}</section></div>`,
    `<section id="program"><h2>${safe(drawing.heading)}</h2>${sourceLines(drawing)}</section></div>`,
    drawing.runs.length ? controls.replaceAll("{{most}}", count(most)).replaceAll("{{max}}", Math.max(most, 1)) : "",
    drawing.runs.length ? runParts(drawing) + legend : "",
  ].join("");
  const data = drawing.runs.length ? JSON.stringify(dataOf(drawing)).replace(/</g, "\\u003c").replace(/&/g, "\\u0026") : "null";
  const parts = { title: safe(drawing.title), style, body, data, script: drawing.runs.length ? script : "" };
  return frame.replace(/\{\{(\w+)\}\}/g, (_, name) => parts[name]);
}
