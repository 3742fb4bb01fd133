// What the page draws from: elements, memories, traces, and what stands where from when to when.

const data = JSON.parse(document.getElementById("data").textContent);
// How a stay began, which is what stands in a buffer from one event to another.
const NAMES = ["entry", "copy", "fill"];
const SVG = "http://www.w3.org/2000/svg";
const MOST_LANES = 40, MOST_BARS = 24, MOST_ROWS = 10, MOST_WORDS = 60;
const GUTTER = 118, LANE = 22, ROW = 14;
const [DOWN, UP, WITHIN, FILL, SUM, LEAF] = [0, 1, 2, 3, 4, 5];
const KINDS = [
  ["down", "copies down"], ["up", "copies up"], ["within", "copies within"], ["fill", "fills"], ["acc", "sums"],
  ["leaf", "leaf calls"],
];

// ---- elements

function element(name, attributes, ...children) {
  const made = document.createElement(name);
  for (const [key, value] of Object.entries(attributes || {})) made.setAttribute(key, value);
  made.append(...children);
  return made;
}

function shape(name, attributes, ...children) {
  const made = document.createElementNS(SVG, name);
  for (const key in attributes) made.setAttribute(key, attributes[key]);
  made.append(...children);
  return made;
}

function picture(width, height, label) {
  return shape("svg", { width, height, viewBox: `0 0 ${width} ${height}`, role: "img", "aria-label": label });
}

const number = new Intl.NumberFormat("en").format;
const bytes = (count) => `${number(count)} byte${count === 1 ? "" : "s"}`;

// ---- nodes: numbered level by level

const first = [];
const nodes = [];
data.nodes.forEach((level, depth) => {
  first.push(nodes.length);
  for (const [index, [name, capacity]] of level.entries()) {
    nodes.push({ name, capacity, level: depth, index, number: nodes.length });
  }
});
// Each node before those below it, so that arrows are short.
const inOrder = [];
(function walk(level, index) {
  inOrder.push(first[level] + index);
  data.nodes[level][index][2].forEach((below) => walk(level + 1, below));
})(0, 0);
const orderOf = [];
inOrder.forEach((node, place) => (orderOf[node] = place));

function nodeOf(word) {
  const [level, index] = word.split(".");
  return first[+level] + +index;
}

// ---- traces

// Reads a trace's lines one behind another; the text is ASCII, and was read before.
class TraceReader {
  constructor(text) {
    this.text = text;
    this.at = 0;
  }

  number() {
    let value = 0;
    for (;;) {
      const digit = this.text.charCodeAt(this.at) - 48;
      if (!(digit >= 0 && digit <= 9)) return value;
      value = value * 10 + digit;
      this.at++;
    }
  }

  // Behind a number stands one sign.
  part() {
    const value = this.number();
    this.at++;
    return value;
  }

  node() {
    return first[this.part()] + this.part();
  }

  word() {
    const begin = this.at;
    while (this.at < this.text.length && this.text.charCodeAt(this.at) > 32) this.at++;
    return this.text.slice(begin, this.at++);
  }
}

function readTrace(run) {
  const text = run.trace;
  const count = run.count;
  const events = {
    count, kind: new Uint8Array(count), from: new Int32Array(count).fill(-1), fromAt: new Float64Array(count),
    to: new Int32Array(count), toAt: new Float64Array(count), size: new Float64Array(count), word: new Map(),
    begin: new Uint32Array(count + 1),
    line: (k) => text.slice(events.begin[k], events.begin[k + 1] - 1),
  };
  const reader = new TraceReader(text);
  for (let k = 0; k < count; k++) {
    events.begin[k] = reader.at;
    readEvent(reader, events, k);
  }
  events.begin[count] = reader.at;
  return events;
}

function readEvent(reader, events, k) {
  const kind = reader.word();
  if (kind === "leaf") {
    events.kind[k] = LEAF;
    events.to[k] = reader.node();
    events.word.set(k, reader.word());
    return;
  }
  if (kind === "acc") events.word.set(k, reader.word());
  if (kind !== "fill") {
    events.from[k] = reader.node();
    events.fromAt[k] = reader.part();
  }
  events.to[k] = reader.node();
  events.toAt[k] = reader.part();
  events.size[k] = reader.part();
  const down = kind === "copy" ? nodes[events.to[k]].level - nodes[events.from[k]].level : 0;
  events.kind[k] = kind === "fill" ? FILL : kind === "acc" ? SUM : down > 0 ? DOWN : down < 0 ? UP : WITHIN;
}

// What was carried over each edge, down and up, up to and with each event.
function readTraffic(events) {
  return data.edges.map((_, edge) => {
    const down = new Float64Array(events.count), up = new Float64Array(events.count);
    let carriedDown = 0, carriedUp = 0;
    for (let k = 0; k < events.count; k++) {
      if (events.from[k] >= 0) {
        const source = nodes[events.from[k]].level, to = nodes[events.to[k]].level;
        if (source === edge && to === edge + 1) carriedDown += events.size[k];
        if (to === edge && source === edge + 1) carriedUp += events.size[k];
      }
      down[k] = carriedDown;
      up[k] = carriedUp;
    }
    return { down, up };
  });
}

// The columns of the stays, in the order of their first events.
function readStays(run) {
  const byNode = nodes.map(() => []);
  const { names, node, first: begins, last, how, block, leaves, parts } = run.stays;
  let begin = 0;
  for (let n = 0; n < names.length; n++) {
    begin += begins[n];
    const stay = {
      names: Array.isArray(names[n]) ? names[n] : [names[n]], node: node[n], first: begin, last: begin + last[n],
      how: how[n] % 3, combined: how[n] >= 3, block: data.blocks[block[n]], leaves: leaves[n],
    };
    const place = data.places[stay.names[0]];
    [stay.at, stay.size] = parts[n] || [place[1], place[2]];
    byNode[stay.node].push(stay);
  }
  return byNode;
}

// Whether event k is a leaf call that the stay was brought in for.
function isForLeaf(stay, k) {
  return Array.isArray(stay.leaves) ? stay.leaves.includes(k) : stay.leaves >= 0 && stay.first + stay.leaves === k;
}
