// Plan files: their lines with places, the events of their terms in order, and what stands in which buffer from when to
// when. It is what tools/pictures/plans.py and planned.py do; nothing is judged here, since sq was asked before.

const WIDTHS = { byte: 1, int: 4, long: 8 };
const LIST = String.raw`\[([^\]]*)\]`, SLOT = String.raw`(\d+)\s*\+\s*(\d+)`, ELEM = "(byte|int|long)";
const form = (text) => new RegExp(text + String.raw`\s*`, "y");
const HEADS = {
  plan: form(String.raw`\s*plan\s+1\s*;`),
  node: form(String.raw`node\s+(\d+)\s+(\d+)\s+(\d+)\s+(\d+)\s*;`),
  buffer: form(String.raw`buffer\s+(\d+)\s+(\d+)\s+(\d+)\s+(\w+)\s+(\w+)\s*;`),
  leaf: form(String.raw`leaf\s+(\w+)\s*\(([^)]*)\)\s*(?:void\s+)?task\s+(\w+)\s*::\s*leaf\s*\([^)]*\)`),
  array: form(String.raw`array\s+(in|out|inout)\s+${ELEM}\s+(\w+)\s*${LIST}\s*(\d+)\s*;`),
};
const TERMS = {
  close: form(String.raw`\}`),
  part: form(String.raw`(seq|par)\s*\{`),
  at: form(String.raw`at\s+(\d+)\s*${LIST}\s*\{`),
  copy: form(String.raw`copy\s+${SLOT}\s+${SLOT}\s+(\d+)\s*;`),
  fill: form(String.raw`fill\s+${SLOT}\s*${ELEM}\s+(\d+)\s*-?\s*(?:\d+|lowest)\s*;`),
  acc: form(String.raw`acc\s*(\+|\*|\bmin\b|\bmax\b|&|\||\^)\s*${ELEM}\s+${SLOT}\s+${SLOT}\s+(\d+)\s*;`),
  run: form(String.raw`run\s+(\d+)\s*\(([^)]*)\)\s*${LIST}\s*;`),
};
const VIEW = form(String.raw`\s*${SLOT}\s*${ELEM}\s*${LIST}\s*${LIST}\s*(?:,|$)`);

class NoPlan extends Error {}

const numbersOf = (text) => (text.trim() ? text.split(",").map(Number) : []);
const withoutComments = (text) =>
  text.replace(/\/\/[^\n]*|\/\*[^]*?\*\//g, (comment) => comment.replace(/[^\n]/g, " "));

class PlanReader {
  constructor(text) {
    this.text = withoutComments(text);
    this.at = 0;
    this.counted = 0;
    this.line = 1;
    this.plan = { nodes: [], buffers: [], leaves: [], arrays: [], parts: [], events: [] };
    this.views = new Map();
  }

  take(pattern) {
    pattern.lastIndex = this.at;
    const found = pattern.exec(this.text);
    if (found) this.at = pattern.lastIndex;
    return found;
  }

  need(pattern) {
    const found = this.take(pattern);
    if (!found) throw new NoPlan(`no plan file from byte ${this.at} on`);
    return found;
  }

  // The line and the index in the text of what comes next.
  place() {
    for (let next; (next = this.text.indexOf("\n", this.counted)) >= 0 && next < this.at; this.counted = next + 1) this.line++;
    return { line: this.line, index: this.at };
  }

  read() {
    const { plan } = this;
    this.need(HEADS.plan);
    this.each(HEADS.node, (place, [, level, capacity, first, children]) =>
      plan.nodes.push({ place, level: +level, capacity: +capacity, first: +first, children: +children }));
    this.each(HEADS.buffer, (place, [, level, offset, size, instance, array]) =>
      plan.buffers.push({ place, level: +level, offset: +offset, size: +size, instance, array }));
    this.each(HEADS.leaf, (place, [, instance, , task]) =>
      plan.leaves.push({ place, instance, task: `${task}::leaf`, last: this.passBody() }));
    this.each(HEADS.array, (place, [, mode, elem, name, extents, buffer]) =>
      plan.arrays.push({ place, mode, elem, name, extents: numbersOf(extents), buffer: +buffer }));
    this.term();
    return plan;
  }

  each(pattern, add) {
    for (;;) {
      const place = this.place();
      const found = this.take(pattern);
      if (!found) return;
      add(place, found);
    }
  }

  // Passes the body of a leaf's task; the line on which it ends.
  passBody() {
    for (let depth = 0; ;) {
      const { line } = this.place();
      const [word] = this.need(/[{}]\s*|[^{}]+/y);
      depth += word[0] === "{" ? 1 : word[0] === "}" ? -1 : 0;
      if (depth <= 0) return line;
    }
  }

  // One term; brackets that are open stand in a list, since they may be a thousand.
  term() {
    const open = [];
    do {
      const within = open.at(-1), place = this.place();
      if (this.take(TERMS.close)) {
        if (!open.pop()) throw new NoPlan("a bracket closes nothing");
        continue;
      }
      const part = this.part(place, within);
      if (part) {
        this.plan.parts.push(part);
        open.push(part);
      } else this.plan.events.push(this.event(place, within));
    } while (open.length);
  }

  part(place, within) {
    const nodes = within ? within.nodes : [0];
    let found = this.take(TERMS.part);
    if (found) return { kind: found[1], place, within, nodes, buffers: [] };
    found = this.take(TERMS.at);
    if (!found) return null;
    const node = +found[1], same = node === nodes.at(-1);
    return { kind: "at", place, within, nodes: same ? nodes : [...nodes, node], buffers: numbersOf(found[2]) };
  }

  event(place, within) {
    const nodes = within ? within.nodes : [0];
    const slot = (buffer, at) => ({ buffer: +buffer, at: +at });
    let found = this.take(TERMS.copy);
    if (found) {
      const [, from, at, to, toAt, size] = found;
      return { kind: "copy", place, within, nodes, source: slot(from, at), to: slot(to, toAt), bytes: +size };
    }
    found = this.take(TERMS.fill);
    if (found) {
      const [, to, at, elem, size] = found;
      return { kind: "fill", place, within, nodes, to: slot(to, at), bytes: size * WIDTHS[elem] };
    }
    found = this.take(TERMS.acc);
    if (found) {
      const [, op, elem, from, at, to, toAt, size] = found;
      const slots = { source: slot(from, at), to: slot(to, toAt) };
      return { kind: "acc", place, within, nodes, op, ...slots, bytes: size * WIDTHS[elem] };
    }
    const [, leaf, views, path] = this.need(TERMS.run);
    return { kind: "run", place, within, nodes, leaf: +leaf, views: this.viewsOf(views.trim()), path: numbersOf(path) };
  }

  // The buffers that a leaf call uses; calls of one form have the same.
  viewsOf(text) {
    if (!this.views.has(text)) {
      const found = [];
      for (VIEW.lastIndex = 0; VIEW.lastIndex < text.length;) {
        const view = VIEW.exec(text);
        if (!view) throw new NoPlan("no view");
        found.push(+view[1]);
      }
      this.views.set(text, [...new Set(found)]);
    }
    return this.views.get(text);
  }
}

const readPlan = (text) => new PlanReader(text).read();

// A plan file for a picture: its memories, where its buffers lie, and its events with what they touch.
class Planned {
  constructor(text) {
    const plan = (this.plan = readPlan(text));
    this.arrays = new Map(plan.arrays.map((array) => [array.buffer, array]));
    this.levels = 1 + Math.max(...plan.nodes.map((node) => node.level));
    this.first = Array.from({ length: this.levels }, (_, level) => plan.nodes.findIndex((node) => node.level === level));
    this.labels = plan.nodes.map((node, n) => `${node.level}.${n - this.first[node.level]}`);
    // The buffers of the entry's arrays come first, as in a report.
    const others = plan.buffers.map((_, n) => n).filter((n) => !this.arrays.has(n));
    this.order = [...this.arrays.keys(), ...others];
    this.number = new Map(this.order.map((buffer, n) => [buffer, n]));
    this.places = this.order.map((n) => plan.buffers[n]);
    this.live = new Map([[undefined, [...this.arrays.keys()]]]);
    this.owners = new Map();
    this.lines = plan.events.map((event) => this.lineOf(event));
    this.memories = this.memoriesOf();
    const alike = (nodes) => new Set(nodes.map((node) => `${node.capacity} ${node.below.length}`)).size === 1;
    this.even = this.memories.every(alike);
  }

  memoriesOf() {
    const { nodes } = this.plan;
    const made = nodes.map((node, n) => ({
      level: node.level, index: n - this.first[node.level], capacity: node.capacity, below: [],
    }));
    nodes.forEach((node, n) => (made[n].below = made.slice(node.first, node.first + node.children)));
    return this.first.map((_, level) => made.filter((memory) => memory.level === level));
  }

  // The buffers that scopes name at the node of an `at`, this one and those round it.
  liveIn(part) {
    while (part && part.kind !== "at") part = part.within;
    if (!this.live.has(part)) {
      let outer = part.within;
      while (outer && (outer.kind !== "at" || outer.nodes.at(-1) !== part.nodes.at(-1))) outer = outer.within;
      const round = outer || part.nodes.at(-1) === 0 ? this.liveIn(outer) : [];
      this.live.set(part, [...new Set([...round, ...part.buffers])]);
    }
    return this.live.get(part);
  }

  // What each node needs, and for each level the buffers of scopes that stand side by side, with how many have them.
  scopes() {
    const { plan } = this;
    const needs = plan.nodes.map(() => 0), named = this.first.map(() => new Map());
    const scopes = plan.parts.filter((part) => part.kind === "at").map((part) => [part.nodes.at(-1), this.liveIn(part)]);
    for (const [node, buffers] of [[0, this.live.get(undefined)], ...scopes]) {
      needs[node] = Math.max(needs[node], buffers.reduce((sum, buffer) => sum + plan.buffers[buffer].size, 0));
      const key = [...buffers].sort((a, b) => a - b).join(), level = named[plan.nodes[node].level];
      if (buffers.length) level.set(key, { buffers, calls: (level.get(key)?.calls ?? 0) + 1 });
    }
    return { needs, layouts: named.map((level) => this.layoutsOf([...level.values()])) };
  }

  // Those of scopes that aren't a part of another one's.
  layoutsOf(found) {
    const sets = found.map(({ buffers }) => new Set(buffers));
    const inside = (set, other) => set.size < other.size && [...set].every((buffer) => other.has(buffer));
    return found.filter((_, n) => !sets.some((other) => inside(sets[n], other))).map(({ buffers, calls }) => {
      const end = ({ offset, size }) => offset + size;
      const inOrder = buffers.map((n) => this.plan.buffers[n]).sort((a, b) => a.offset - b.offset || end(a) - end(b));
      return { buffers: inOrder, calls, end: end(inOrder.at(-1)) };
    });
  }

  // What each edge carries, down and up.
  carried() {
    const found = this.first.slice(1).map(() => [0, 0]);
    for (const event of this.plan.events) {
      if (!event.source) continue;
      const [upper, lower] = [event.source, event.to].map((slot) => this.plan.buffers[slot.buffer].level);
      if (Math.abs(upper - lower) === 1) found[Math.min(upper, lower)][lower < upper ? 1 : 0] += event.bytes;
    }
    return found;
  }

  // ---- events

  spot(event, slot) {
    const buffer = this.plan.buffers[slot.buffer];
    return `${this.labels[event.nodes[buffer.level]]}:${buffer.offset + slot.at}`;
  }

  // The event's line as in a trace.
  lineOf(event) {
    if (event.kind === "run") return `leaf ${this.labels[event.nodes.at(-1)]} ${this.plan.leaves[event.leaf].instance}`;
    const op = event.op ? ` ${event.op}` : "", source = event.source ? ` ${this.spot(event, event.source)}` : "";
    return `${event.kind}${op}${source} ${this.spot(event, event.to)} ${event.bytes}`;
  }

  // The plan's event of each line of a trace: of events with one line the first that is left.
  eventsOf(lines) {
    const left = new Map();
    this.lines.forEach((line, n) => (left.has(line) ? left.get(line).push(n) : left.set(line, [n])));
    const begun = new Map();
    return lines.map((line) => {
      const at = begun.get(line) ?? 0;
      begun.set(line, at + 1);
      return this.plan.events[left.get(line)[at]];
    });
  }

  // The scope round a part that names a buffer; none, if an array has it.
  owner(part, buffer) {
    if (this.arrays.has(buffer)) return undefined;
    let known = this.owners.get(part);
    if (!known) this.owners.set(part, (known = new Map()));
    if (!known.has(buffer)) {
      let found = part;
      while (found && !found.buffers.includes(buffer)) found = found.within;
      known.set(buffer, found);
    }
    return known.get(buffer);
  }
}

const [BY_ENTRY, BY_COPY, BY_FILL] = [0, 1, 2];
const MOST_CELLS = 1 << 18;

// What stands in which buffer from when to when in a run: a stay is a buffer of a scope, from the first event that touches
// it to the last one.
class Steps {
  constructor(planned, lines) {
    this.planned = planned;
    this.events = planned.eventsOf(lines);
    this.found = new Map();
    for (const buffer of this.events.length ? planned.arrays.keys() : []) {
      const stay = this.begin(undefined, buffer, 0, BY_ENTRY, [0, 0]);
      stay.last = this.events.length - 1;
    }
    this.events.forEach((event, number) => this.perform(number, event));
    this.stays = [...this.found.values()].flatMap((stays) => [...stays.values()]);
    for (const stay of this.stays) stay.block = this.blockOf(stay);
    this.stays.sort((a, b) => a.first - b.first);
  }

  begin(owner, buffer, first, how, node) {
    const place = this.planned.number.get(buffer), { offset, size } = this.planned.places[place];
    const stay = { place, node, at: offset, size, first, last: first, how, leaves: [], combined: false, moved: [] };
    if (!this.found.has(owner)) this.found.set(owner, new Map());
    this.found.get(owner).set(buffer, stay);
    return stay;
  }

  perform(number, event) {
    if (event.kind === "run") {
      for (const buffer of event.views) this.touch(number, event, buffer).leaves.push(number);
      return;
    }
    const slots = [event.source, event.to].filter(Boolean);
    const stays = slots.map((slot) => this.touch(number, event, slot.buffer));
    if (stays.length < 2) return;
    this.move(event, event.source, stays[1], slots[1]);
    this.move(event, event.to, stays[0], slots[0]);
  }

  // A row of a buffer comes from an array, or goes to one.
  move(event, slot, other, otherSlot) {
    const { arrays } = this.planned;
    if (!arrays.has(slot.buffer) || arrays.has(otherSlot.buffer)) return;
    other.moved.push([slot, event.bytes]);
    other.combined ||= event.kind === "acc" && slot === event.to;
  }

  // Goes on with the stay of a buffer, or begins it.
  touch(number, event, buffer) {
    const { planned } = this, owner = planned.owner(event.within, buffer);
    let stay = this.found.get(owner)?.get(buffer);
    if (!stay) {
      const { level } = planned.plan.buffers[buffer], node = [level, event.nodes[level] - planned.first[level]];
      stay = this.begin(owner, buffer, number, event.kind === "copy" ? BY_COPY : BY_FILL, node);
    }
    stay.last = Math.max(stay.last, number);
    return stay;
  }

  // The elements of the one array that its rows came from or went to, where they are a block of it.
  blockOf(stay) {
    const buffers = new Set(stay.moved.map(([slot]) => slot.buffer));
    if (stay.how === BY_ENTRY || buffers.size !== 1) return "";
    const array = this.planned.arrays.get([...buffers][0]), width = WIDTHS[array.elem], cells = new Set();
    if (stay.moved.reduce((sum, [, size]) => sum + size / width, 0) > MOST_CELLS) return "";
    for (const [slot, size] of stay.moved) {
      for (let cell = Math.floor(slot.at / width); cell < (slot.at + size) / width; cell++) cells.add(cell);
    }
    const ranges = array.extents.map(() => [Infinity, -1]);
    for (const cell of cells) {
      coordinatesOf(array.extents, cell).forEach((at, dimension) => {
        const range = ranges[dimension];
        ranges[dimension] = [Math.min(range[0], at), Math.max(range[1], at)];
      });
    }
    const count = ranges.reduce((product, [low, high]) => product * (high - low + 1), 1);
    return cells.size && count === cells.size ? array.name + ranges.map(([low, high]) => `[${low}..${high + 1}]`).join("") : "";
  }

  // The leaf call of a trap's path.
  trapped(trap) {
    const path = trap.split(" ")[4].replace(/\//g, ",").replace("-", "");
    const found = this.events.findLastIndex((event) => event.kind === "run" && event.path.join() === path);
    return found < 0 ? [] : [found];
  }
}

function coordinatesOf(extents, cell) {
  const found = [];
  for (const extent of [...extents].reverse()) {
    found.unshift(cell % extent);
    cell = Math.floor(cell / extent);
  }
  return found;
}
