// The page: texts, a command, its answer as one types, faults underlined at their places, and the drawing.

const tables = JSON.parse(document.getElementById("data").textContent);
const find = (id) => document.getElementById(id);
const [exampleBox, commandBox, orderBox] = ["example", "command", "order"].map(find);
const [seedBox, besideBox, drawnBox] = ["seed", "beside", "drawn"].map(find);
const TYPING = 150, SLOW = 1000, MOST_SHOWN = 1 << 20;

// The texts, in the order in which they stand, and the names by which words call them.
const NAMES_OF = {
  program: "program.sq", mapping: "mapping.map", machine: "machine.mach", plan: "file.plan", data: "data.txt",
  cost: "costs.cost", order: "order.txt",
};
const THREE = ["program", "mapping", "machine"];
const COMMANDS = {
  run: { takes: [...THREE, "data"], runs: true, draws: true, told: "runs it on the memories of the machine" },
  plan: { takes: THREE, draws: true, told: "the report of its plan" },
  eval: { takes: [...THREE, "data"], told: "what it means, on one flat memory" },
  check: { takes: ["program"], told: "whether the program is accepted" },
  fmt: { takes: ["program"], told: "its canonical text" },
  compile: { takes: THREE, draws: true, told: "its plan as a file" },
  exec: { takes: ["plan", "data"], runs: true, draws: true, told: "checks a plan file and runs it" },
  tune: { takes: THREE, told: "the choices of the mapping" },
  span: { takes: [...THREE, "cost"], told: "the heaviest chain of the plan" },
};

function element(name, attributes, ...children) {
  const made = document.createElement(name);
  for (const [key, value] of Object.entries(attributes ?? {})) made.setAttribute(key, value);
  made.append(...children);
  return made;
}

// ---- the worker

// Calls go to it one after another. Those of texts that have changed are let go, and the worker with the one that runs.
class Asker {
  constructor(module) {
    this.module = module;
    this.source = URL.createObjectURL(new Blob([find("worker").textContent], { type: "text/javascript" }));
    this.waiting = [];
    this.start();
  }

  start() {
    this.worker = new Worker(this.source);
    this.worker.postMessage({ module: this.module });
    this.worker.onmessage = ({ data }) => this.end(data);
    this.worker.onerror = (fault) => this.end({ status: 6, out: "", err: `${fault.message}\n`, milliseconds: 0 });
  }

  // A text that is nested too deep for the worker's stack is tried in the page, which has more.
  end(said) {
    const { resolve, asked } = this.waiting.shift();
    resolve(said.deep ? answered(this.module, asked) : said);
    this.next();
  }

  next() {
    if (this.waiting.length) this.worker.postMessage(this.waiting[0].asked);
  }

  ask(words, files) {
    return new Promise((resolve) => {
      this.waiting.push({ resolve, asked: { words, files } });
      if (this.waiting.length === 1) this.next();
    });
  }

  // What waits gets no answer.
  drop() {
    const dropped = this.waiting;
    this.waiting = [];
    if (!dropped.length) return;
    this.worker.terminate();
    this.start();
    for (const { resolve } of dropped) resolve(undefined);
  }
}

// ---- the texts

class Text {
  constructor(role) {
    this.role = role;
    this.numbers = element("pre", { class: "numbers", "aria-hidden": "true" });
    this.under = element("pre", { class: "under", "aria-hidden": "true" });
    const id = `text-${role}`, told = `told-${role}`;
    this.box = element("textarea", { id, spellcheck: "false", wrap: "off", autocapitalize: "off", "aria-describedby": told });
    this.told = element("p", { class: "told", id: told });
    const area = element("div", { class: "area" }, this.under, this.box);
    this.name = element("label", { for: id }, NAMES_OF[role]);
    this.gutter = element("div", { class: "gutter" }, this.numbers);
    this.section = element("section", { class: "text", "data-role": role }, element("h2", {}, this.name),
      element("div", { class: "field" }, this.gutter, area), this.told);
    this.box.addEventListener("scroll", () => this.follow());
    this.box.addEventListener("input", () => {
      this.mark([]);
      changed(TYPING);
    });
  }

  get value() {
    return this.box.value;
  }

  set(text) {
    this.box.value = text;
    this.box.rows = Math.min(Math.max(text.split("\n").length, 3), 26);
    this.box.scrollTop = 0;
    this.mark([]);
  }

  follow() {
    this.under.scrollTop = this.numbers.scrollTop = this.box.scrollTop;
    this.under.scrollLeft = this.box.scrollLeft;
  }

  // Underlines these places, of which the first is the fault's own.
  mark(spots) {
    this.spots = spots;
    const text = this.value, parts = [];
    let at = 0;
    const inOrder = spots.map((spot, n) => ({ ...spot, kind: n ? "beside" : "main" })).sort((a, b) => a.index - b.index);
    for (const { index, end, kind } of inOrder) {
      if (index < at) continue;
      parts.push(text.slice(at, index), element("mark", { class: kind }, end > index ? text.slice(index, end) : " "));
      at = Math.max(end, index);
    }
    this.under.replaceChildren(...parts, text.slice(at), "\n ");
    this.told.replaceChildren(...spots.flatMap(({ index, label }, n) => {
      if (!label) return [];
      const row = text.slice(0, index).split("\n").length;
      return [element("span", { class: n ? "beside" : "main" }, n ? " " : "", ...coded(`line ${row}: ${label}.`))];
    }));
    this.section.classList.toggle("faulty", spots.length > 0);
    this.count(spots.map(({ index }) => text.slice(0, index).split("\n").length));
    this.follow();
  }

  count(faulty) {
    const lines = this.value.split("\n").length, parts = [];
    for (let n = 1; n <= lines; n++) parts.push(faulty.includes(n) ? element("b", {}, `${n}`) : `${n}`, "\n");
    this.numbers.replaceChildren(...parts);
    this.gutter.style.width = `calc(${`${lines}`.length}ch + 1rem)`;
  }

  go() {
    if (!this.spots.length) return false;
    const [{ index, end }] = this.spots, lineOf = (at) => this.value.slice(0, at).split("\n").length;
    this.box.focus();
    this.box.setSelectionRange(index, Math.max(end, index));
    this.box.scrollTop = ((lineOf(index) - 4) * this.box.scrollHeight) / lineOf(this.value.length);
    return true;
  }
}

const texts = Object.fromEntries(Object.keys(NAMES_OF).map((role) => [role, new Text(role)]));
find("texts").append(...Object.values(texts).map((text) => text.section));
const valuesNow = () => Object.fromEntries(Object.entries(texts).map(([role, text]) => [role, text.value]));
const named = (values) => Object.fromEntries(Object.entries(values).map(([role, text]) => [NAMES_OF[role], text]));

// ---- what is asked

function orderWord() {
  const { value } = orderBox;
  return value === "seed" ? `order=seed:${seedBox.value.trim()}` : value === "list" ? "order=list:order.txt" : `order=${value}`;
}

function wordsOf(command, order = orderWord()) {
  const { takes, runs } = COMMANDS[command];
  return [command, ...takes.map((role) => NAMES_OF[role]), ...(runs ? [order, "trace=yes"] : [])];
}

const lastLine = (text) => text.trimEnd().split("\n").at(-1);
const traceOf = ({ err, status }) => {
  const lines = err.split("\n").filter(Boolean);
  return status === 2 ? lines.slice(0, -1) : status === 0 ? lines : [];
};

let asker, generation = 0, timer;

function changed(wait = 0) {
  clearTimeout(timer);
  generation++;
  document.documentElement.dataset.state = "busy";
  timer = setTimeout(perform, wait);
}

// Asks, and shows what is said: first the answer, then what takes longer.
async function perform() {
  if (!asker) return;
  const mine = generation, command = commandBox.value, words = wordsOf(command), values = valuesNow();
  asker.drop();
  find("words").textContent = `sq ${words.join(" ")}`;
  const slow = setTimeout(showBusy, SLOW);
  const said = await asker.ask(words, named(values));
  clearTimeout(slow);
  if (mine !== generation || !said) return;
  show(said, command, values);
  const fault = said.status === 1 || said.status === 2 ? faultOf(lastLine(said.err), command) : null;
  const more = fault && await moreOf(fault, values, words, command);
  if (mine !== generation) return;
  if (more) showFault(fault, more, values);
  await draw(said, command, values, () => mine !== generation);
  if (mine === generation) document.documentElement.dataset.state = "settled";
}

// What further calls tell of a fault: what may stand there, or what a memory lacks its bytes for.
async function moreOf(fault, values, words, command) {
  const grammar = fault.code === "Syntax" && fault.role && fault.role !== "data" && fault.role !== "order";
  if (grammar) return expected(fault, values, tables, (others) => faultAgain(words, others, command));
  return fault.code === "Capacity" ? room(fault, values, (others) => asker.ask(wordsOf("plan"), named(others))) : undefined;
}

// The fault of other texts: null where there is none, and nothing where the answer came too late.
async function faultAgain(words, values, command) {
  const said = await asker.ask(words, named(values));
  return said && (said.status === 1 ? faultOf(lastLine(said.err), command) : null);
}

// ---- what is shown

const STATES = ["done", "refused", "trapped", "usage", "fault", "fault", "lacking", "absent"];

function showBusy() {
  const stop = element("button", { type: "button" }, "Stop");
  stop.addEventListener("click", () => {
    generation++;
    asker.drop();
    find("verdict").replaceChildren(element("p", {}, "Stopped."));
    document.documentElement.dataset.state = "settled";
  });
  find("verdict").className = "busy";
  find("verdict").replaceChildren(element("p", {}, "It takes longer. ", stop));
}

function show(said, command, values) {
  const answer = find("answer"), line = lastLine(said.err), state = STATES[said.status] ?? "fault";
  Object.assign(answer.dataset, { status: said.status, line: said.status ? line : "" });
  find("took").textContent = `${said.milliseconds.toFixed(1)} ms`;
  find("verdict").className = state;
  for (const text of Object.values(texts)) text.mark([]);
  const fault = said.status === 1 || said.status === 2 ? faultOf(line, command) : null;
  if (fault) showFault(fault, toldOf(fault, values, tables, command), values);
  else showPlain(said, command, line);
  showTexts(said, command);
}

function showPlain({ status, out }, command, line) {
  const told = status === 0
    ? { check: "It is accepted.", fmt: "Its canonical text:", tune: "The choices:", span: "A heaviest chain:" }[command]
      ?? (out ? "" : "There is nothing to write.")
    : line;
  find("verdict").replaceChildren(element("p", {}, told || (COMMANDS[command].runs ? "It ran to its end." : "Done.")));
}

// A text whose parts between backquotes are code.
const coded = (text) => text.split("`").map((part, n) => (n % 2 ? element("code", {}, part) : part));

function showFault(fault, told, values) {
  const parts = [element("p", { class: "line" }, element("code", {}, find("answer").dataset.line))];
  const beside = (told.beside ?? []).map(({ label }) => label);
  for (const note of [told.label, ...beside, ...told.notes]) if (note) parts.push(element("p", {}, ...coded(note)));
  const known = tables.faults[`${fault.phase} ${fault.code}`] ?? tables.faults[fault.code];
  for (const [word, paragraphs] of [["Cause", known?.causes], ["Cure", known?.cures]]) {
    for (const text of paragraphs ?? []) parts.push(element("p", {}, element("b", {}, `${word}: `), ...coded(text)));
  }
  find("verdict").replaceChildren(...parts);
  if (!fault.role) return;
  const text = values[fault.role], index = told.index ?? (fault.place ? indexOf(text, fault.place) : undefined);
  if (index === undefined) return;
  const spot = (one) => ({ ...one, end: endOf(text, one.index, fault.role) });
  texts[fault.role].mark([spot({ index, label: told.label || `${fault.code} ${fault.args.join(" ")}`.trim() }), ...(told.beside ?? []).map(spot)]);
}

function shownText(text, kind) {
  const shown = text.length > MOST_SHOWN ? `${text.slice(0, MOST_SHOWN)}\n..` : text;
  return element("pre", { class: kind, tabindex: "0" }, shown);
}

// The output, what one may go on with, and the trace.
function showTexts(said, command) {
  const parts = [], trace = COMMANDS[command].runs ? traceOf(said) : [];
  if (said.out) parts.push(shownText(said.out, "out"));
  if (said.status === 0 && command === "fmt") parts.push(goOn("Put it into the program's place", "program", said.out));
  if (said.status === 0 && command === "compile") parts.push(goOn("Go on with this plan file", "plan", said.out, "exec"));
  if (trace.length) {
    const summary = element("summary", {}, `The trace: ${trace.length} event${trace.length === 1 ? "" : "s"}`);
    parts.push(element("details", {}, summary, shownText(trace.map((line) => `${line}\n`).join(""), "trace-text")));
  }
  find("given").replaceChildren(...parts);
}

function goOn(told, role, text, command) {
  const button = element("button", { type: "button" }, told);
  button.addEventListener("click", () => {
    texts[role].set(text);
    if (command) commandBox.value = command;
    arrange();
    changed();
  });
  return button;
}

// ---- the drawing

const drawing = find("drawing");

async function draw(said, command, values, isLate) {
  const wanted = drawnBox.checked && COMMANDS[command].draws && (said.status === 0 || said.status === 2);
  if (!wanted) {
    drawing.hidden = true;
    drawing.replaceChildren();
    return;
  }
  const found = await pictured(said, command, values);
  if (isLate() || !found) return;
  const shown = found.page ? frameOf(found.page) : element("p", {}, found.told);
  drawing.replaceChildren(element("h2", {}, "The drawing"), shown);
  drawing.hidden = false;
  if (found.page) await new Promise((done) => shown.addEventListener("load", done, { once: true }));
}

function frameOf(page) {
  const frame = element("iframe", { title: "The memories, the plan and the run" });
  frame.srcdoc = page;
  return frame;
}

// The page of what was said, or why there is none; nothing where an answer came too late.
async function pictured(said, command, values) {
  const files = named(values), filed = command === "exec";
  const compiled = filed ? { status: 0, out: values.plan } : command === "compile" ? said : await asker.ask(wordsOf("compile"), files);
  if (!compiled) return undefined;
  if (compiled.status !== 0) return { told: `No drawing: ${lastLine(compiled.err)}` };
  const reported = filed ? null : command === "plan" ? said : await asker.ask(wordsOf("plan"), files);
  const runs = await runsOf(said, command, files);
  if (reported === undefined || !runs) return undefined;
  const planned = new Planned(compiled.out);
  if (!runs.length) runs.push({ name: "in the order of the plan file", lines: planned.lines });
  const chosen = { title: filed ? "plan file" : "program and machine", planned, runs, report: reported && readReport(reported.out) };
  const shown = filed
    ? { source: values.plan, heading: "The plan file", rows: true, tasks: tasksOfPlan(planned.plan) }
    : { source: values.program, heading: "The program", tasks: tasksOf(values.program, values.mapping) };
  const told = "The memories of the machine, what the plan needs of them and where its buffers lie, and what happens when.";
  return { page: pictureOf(new Drawing({ ...chosen, ...shown, told }), tables.parts) };
}

async function runsOf(said, command, files) {
  if (!COMMANDS[command].runs) return [];
  const orders = [[orderWord(), said]];
  if (besideBox.checked && orderBox.value !== "first") {
    orders.unshift(["order=first", await asker.ask(wordsOf(command, "order=first"), files)]);
  }
  if (orders.some(([, one]) => !one)) return undefined;
  return orders.map(([name, one]) => ({ name, lines: traceOf(one), trap: one.status === 2 ? lastLine(one.err) : null }));
}

// For each instance its variant, and the lines on which that begins and ends.
function tasksOf(program, mapping) {
  const text = withoutComments(program), variants = new Map(), found = {};
  const lineAt = (index) => text.slice(0, index).split("\n").length;
  for (const head of text.matchAll(/\btask\s+(\w+)\s*::\s*(inner|leaf)\b/g)) {
    const name = `${head[1]}::${head[2]}`;
    if (!variants.has(name)) variants.set(name, [name, lineAt(head.index), lineAt(closeOf(text, text.indexOf("{", head.index)))]);
  }
  for (const [, name, task, kind] of withoutComments(mapping).matchAll(/\binstance\s+(\w+)\s*=\s*(\w+)\s*::\s*(\w+)/g)) {
    const variant = variants.get(`${task}::${kind}`);
    if (variant) found[name] = variant;
  }
  return found;
}

// Where the bracket closes that stands there.
function closeOf(text, open) {
  let depth = 0;
  for (let at = open; at < text.length; at++) {
    depth += text[at] === "{" ? 1 : text[at] === "}" ? -1 : 0;
    if (depth === 0) return at;
  }
  return open;
}

const tasksOfPlan = (plan) =>
  Object.fromEntries([...plan.leaves].reverse().map((leaf) => [leaf.instance, [leaf.task, leaf.place.line, leaf.last]]));

// ---- choosing

// Shows the texts that the command takes, and the order where it has one.
function arrange() {
  const { takes, runs } = COMMANDS[commandBox.value];
  const listed = runs && orderBox.value === "list";
  for (const [role, text] of Object.entries(texts)) text.section.hidden = !takes.includes(role) && !(listed && role === "order");
  for (const box of document.querySelectorAll(".of-run")) box.hidden = !runs;
  if (runs) document.querySelector(".of-seed").hidden = orderBox.value !== "seed";
}

function choose(number) {
  const { command, order, texts: given } = tables.examples[number];
  for (const [role, text] of Object.entries(texts)) text.set(given[role] === undefined ? "" : tables.files[given[role]]);
  commandBox.value = command;
  orderBox.value = order ?? "first";
  location.hash = tables.examples[number].name.replace(/ /g, "-");
  arrange();
  changed();
}

function fillBoxes() {
  const groups = new Map();
  tables.examples.forEach(({ group, name }, number) => {
    if (!groups.has(group)) groups.set(group, element("optgroup", { label: group }));
    groups.get(group).append(element("option", { value: number }, name));
  });
  exampleBox.append(...groups.values());
  for (const [name, { told }] of Object.entries(COMMANDS)) commandBox.append(element("option", { value: name }, `${name}: ${told}`));
}

function goToFault() {
  return Object.values(texts).some((text) => !text.section.hidden && text.go());
}

const KEYS = {
  F8: goToFault,
  F9: () => exampleBox.focus(),
  F10: () => drawing.querySelector("iframe")?.contentWindow.focus(),
};
document.addEventListener("keydown", (event) => {
  if (!KEYS[event.key] || event.ctrlKey || event.altKey || event.metaKey) return;
  event.preventDefault();
  KEYS[event.key]();
});
find("choices").addEventListener("submit", (event) => event.preventDefault());
exampleBox.addEventListener("change", () => choose(+exampleBox.value));
for (const box of [commandBox, orderBox, seedBox, besideBox, drawnBox]) {
  box.addEventListener("change", () => {
    arrange();
    changed();
  });
}

// ---- the beginning

// The module stands in the page packed and as text.
async function unpacked() {
  const packed = Uint8Array.from(atob(find("module").textContent.trim()), (sign) => sign.charCodeAt(0));
  const stream = new Blob([packed]).stream().pipeThrough(new DecompressionStream("gzip"));
  return WebAssembly.compile(await new Response(stream).arrayBuffer());
}

fillBoxes();
const begun = tables.examples.findIndex(({ name }) => `#${name.replace(/ /g, "-")}` === location.hash);
exampleBox.value = Math.max(begun, 0);
choose(Math.max(begun, 0));
unpacked().then((module) => {
  asker = new Asker(module);
  document.documentElement.dataset.ready = "yes";
  changed();
}, (fault) => {
  find("verdict").className = "fault";
  find("verdict").replaceChildren(element("p", {}, `This browser doesn't run it: ${fault.message}`));
  document.documentElement.dataset.ready = "no";
});
