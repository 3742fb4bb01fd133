// What is said of a refusal or a trap: where it stands, and why. Causes and cures are those of docs/FAULTS.md, and labels
// those of tools/say, as far as the line of sq and the texts at hand tell them.

const TRAP = /^trapped (\w+) (\d+):(\d+) path (\S+)$/;
const REFUSAL = /^refused (\w+) (\w+)(?: (\d+):(\d+))?((?: \S+)*)$/;
// The text in which the places of a phase are.
const ROLES = {
  program: "program", types: "program", resolve: "program", race: "program", mapping: "mapping", machine: "machine",
  capacity: "machine", cost: "cost", order: "order", data: "data", plan: "plan",
};

function faultOf(line, command) {
  const trap = TRAP.exec(line);
  if (trap) {
    const place = { line: +trap[2], column: +trap[3] };
    return { phase: "trap", code: trap[1], place, args: [trap[4]], role: command === "exec" ? "plan" : "program" };
  }
  const found = REFUSAL.exec(line);
  if (!found) return null;
  const [, phase, code, row, column, args] = found;
  const place = row ? { line: +row, column: +column } : null;
  const role = phase === "plan" && command !== "exec" ? null : ROLES[phase];
  return { phase, code, place, args: args.trim() ? args.trim().split(" ") : [], role };
}

// ---- places

// The index in a text of a line and a column, which counts bytes.
function indexOf(text, { line, column }) {
  let begin = 0;
  for (let n = 1; n < line; n++) begin = text.indexOf("\n", begin) + 1;
  let index = begin;
  for (let left = column - 1; left > 0 && index < text.length;) {
    const sign = String.fromCodePoint(text.codePointAt(index));
    left -= new TextEncoder().encode(sign).length;
    index += sign.length;
  }
  return index;
}

const TOKEN = /[A-Za-z_]\w*|\d+|\/\*|::|<=|>=|==|!=|<<|>>|&&|\|\||\+\+|\+=|-=|\*=|->|\S/y;
const WORD = /\S+/y;

// Where the token ends that begins there; of texts of words, the word.
function endOf(text, index, role) {
  const pattern = role === "data" || role === "order" ? WORD : TOKEN;
  pattern.lastIndex = index;
  return pattern.test(text) ? pattern.lastIndex : index;
}

// ---- labels

const blockOf = (text) => text.slice(1, -1).split("][").map((part) => part.split("..").map(Number));
const DIMENSIONS = [[], ["element"], ["row", "column"], ["plane", "row", "column"]];

// As people count: from the first one to the last one.
const rangesText = (block) => block.map(([begin, end], n) => {
  const name = DIMENSIONS[block.length][n];
  return end - begin === 1 ? `${name} ${begin}` : `${name}s ${begin} to ${end - 1}`;
}).join(", ");

function race({ place, args }) {
  const [array, first, firstBlock, second, secondBlock] = args;
  const blocks = [blockOf(firstBlock), blockOf(secondBlock)];
  const shared = blocks[0].map(([begin, end], n) => [Math.max(begin, blocks[1][n][0]), Math.min(end, blocks[1][n][1])]);
  const has = firstBlock === secondBlock ? ""
    : ` (${first} has ${rangesText(blocks[0])}, and ${second} has ${rangesText(blocks[1])})`;
  return {
    label: `iterations ${first} and ${second} clash`,
    notes: [`iterations ${first} and ${second} of the map at ${place.line}:${place.column} both use `
      + `${rangesText(shared)} of ${array}${has}, and one of them writes`],
  };
}

// The capacity of a level or a node in the machine's text.
function capacitySpot(text, name) {
  const found = new RegExp(String.raw`\b(?:level|node)\s+${name}\s*\{\s*capacity\s+`).exec(withoutComments(text));
  return found ? found.index + found[0].length : -1;
}

function capacity({ args: [name, need, has] }, texts, sum = "") {
  const lacks = need - has, at = capacitySpot(texts.machine, name);
  return {
    label: `${need} bytes are needed`, index: at < 0 ? undefined : at,
    notes: [`${name} lacks ${lacks} byte${lacks > 1 ? "s" : ""}: ${sum}${need} of ${has}`],
  };
}

// The report of the plan that a program has where its memories have the bytes that they lack; nothing where it has none, or
// an answer came too late.
const MOST_LACKING = 64;
async function planWithRoom(fault, texts, answer) {
  let { machine } = texts, lacking = fault;
  for (let n = 0; n < MOST_LACKING && lacking?.code === "Capacity"; n++) {
    const [name, need] = lacking.args, at = capacitySpot(machine, name);
    if (at < 0) return undefined;
    machine = machine.slice(0, at) + machine.slice(at).replace(/^\d+/, need);
    const said = await answer({ ...texts, machine });
    if (!said || said.status === 0) return said?.out;
    lacking = faultOf(said.err.trimEnd(), "plan");
  }
  return undefined;
}

// The buffers of a report that stand on one another up to this byte at a level or a node, the uppermost first; none where
// they leave gaps.
function stackOf(report, name, need) {
  const lines = report.split("\n").map((line) => line.split(" "));
  const at = lines.findIndex(([kind, own]) => (kind === "level" || kind === "node") && own === name);
  const level = lines.slice(0, at + 1).findLast(([kind]) => kind === "level")[1];
  const buffers = lines.filter(([kind, own]) => kind === "buffer" && own === level)
    .map(([, , offset, size, ...names]) => ({ offset: +offset, end: +offset + +size, size: +size, name: names.join(" ") }));
  const found = [];
  for (let top = need; top > 0; top = buffers[found.at(-1)].offset) {
    const below = buffers.flatMap(({ end, size }, n) => (end === top && size > 0 ? [n] : []));
    if (!below.length) return [];
    found.push(below.findLast((n) => !found.length || n < found.at(-1)) ?? below.at(-1));
  }
  return found.map((n) => buffers[n]);
}

// What a memory that is too small lacks its bytes for.
async function room(fault, texts, answer) {
  const report = await planWithRoom(fault, texts, answer);
  const stack = report ? stackOf(report, fault.args[0], +fault.args[1]).reverse().sort((a, b) => b.size - a.size) : [];
  const sum = stack.map(({ name, size }) => `${name} ${size}`).join(", ");
  return capacity(fault, texts, sum ? `${sum} = ` : "");
}

// Two events that clash, or buffers that lack room, in a plan file.
function twoOfPlan({ code, args }, texts) {
  const plan = readPlan(texts.plan), numbers = args.map(Number);
  if (code === "Clash") {
    const [first, second] = numbers.map((n) => ({ index: plan.events[n].place.index, label: `event ${n}` }));
    return { ...first, beside: [second], notes: [] };
  }
  const [node, ...buffers] = numbers, { capacity: bytes, place } = plan.nodes[node];
  const beside = [...new Set(buffers)].map((n) => {
    const { offset, size } = plan.buffers[n];
    return { index: plan.buffers[n].place.index, label: `buffer ${n} has bytes ${offset}..${offset + size}` };
  });
  return { index: place.index, label: `node ${node} has bytes 0..${bytes}`, beside, notes: [] };
}

// The array that is wanted, as it has to stand in the data, or nothing where the texts don't tell it.
function wantedArray(name, texts, command) {
  if (command === "exec") {
    const array = readPlan(texts.plan).arrays.find((one) => one.name === name);
    return array && `array ${name} ${array.elem} ${array.extents.map((extent) => `[${extent}]`).join("")}`;
  }
  const mapping = withoutComments(texts.mapping), program = withoutComments(texts.program);
  const entry = /\bentry\s+(\w+)\s*\(([^)]*)\)/.exec(mapping);
  const [, task, kind] = new RegExp(String.raw`\binstance\s+${entry[1]}\s*=\s*(\w+)\s*::\s*(\w+)`).exec(mapping);
  const [, params] = new RegExp(String.raw`\btask\s+${task}\s*::\s*${kind}\s*\(([^)]*)\)`).exec(program);
  const [, elem, extents] = new RegExp(String.raw`\b(byte|int|long)\s+${name}\s*((?:\[[^\]]*\]\s*)+)`).exec(params);
  const sizes = Object.fromEntries(entry[2].split(",").map((part) => part.split("=").map((word) => word.trim())));
  return `array ${name} ${elem} ${extents.replace(/\s/g, "").replace(/\w+/g, (word) => sizes[word] ?? word)}`;
}

const RANGES = { byte: "0 to 255", int: "-2147483648 to 2147483647", long: "-2^63 to 2^63 - 1" };

function data({ code, args: [name], place }, texts, command) {
  if (!name) return { label: "the entry has no array that is read; the data are empty", notes: [] };
  const wanted = wantedArray(name, texts, command);
  if (!wanted) return { label: "", notes: [] };
  const [, , elem, extents] = wanted.split(" ");
  const many = extents.slice(1, -1).split("][").reduce((product, extent) => product * extent, 1);
  const labels = {
    Name: `\`${name}\` has to stand here`,
    Shape: `\`${elem}\` and then \`${extents}\` have to stand behind the name`,
    Syntax: "no number of digits, with `-` or without",
    Range: `values of ${elem} are ${RANGES[elem]}`,
    Extra: many === 1 ? `${name} has its value` : `${name} has its ${many} values`,
  };
  const found = code === "Short" || code === "Syntax" ? valuesBefore(texts.data, place, name) : -1;
  return { label: labels[code] ?? "", notes: [`wanted: ${wanted}`, ...(found < 0 ? [] : [`${name} has ${found} of ${many} values`])] };
}

// How many words stand between the head of an array and this place; -1 where its head doesn't stand before it.
function valuesBefore(text, place, name) {
  const words = text.slice(0, indexOf(text, place)).split(/\s+/).filter(Boolean);
  const head = words.findLastIndex((word, n) => word === "array" && words[n + 1] === name);
  return head < 0 ? -1 : Math.max(words.length - head - 4, 0);
}

// The first place of a name that stands a second time where it may stand once.
const AGAIN = { DupName: ["declared again", "first declared here"], DupTask: ["a second variant of this kind", "the first one"] };
const FIRSTS = { DupLevel: "level", DupNode: "node", DupInstance: "instance" };
function again({ code, place, args: [name], role }, texts) {
  const text = withoutComments(texts[role]), index = indexOf(text, place);
  const from = code === "DupName" ? Math.max(text.lastIndexOf("task", index), 0) : 0;
  const head = FIRSTS[code] ? String.raw`\b${FIRSTS[code]}\s+` : code === "DupTask" ? String.raw`\btask\s+` : "";
  const kind = code === "DupTask" ? String.raw`(?=\s*::\s*${/^\w+\s*::\s*(\w+)/.exec(text.slice(index))[1]}\b)` : "";
  const found = new RegExp(String.raw`(${head})\b${name}\b${kind}`).exec(text.slice(from, index));
  const [label, first] = AGAIN[code] ?? ["named again", "the first one"];
  const beside = found ? [{ index: from + found.index + found[1].length, label: first }] : [];
  return { label, beside, notes: [] };
}

const ORDER_LABELS = { Syntax: "no number of digits alone", Range: "at most 4294967295" };

// What the fault's line and the texts tell beside its cause.
function toldOf(fault, texts, tables, command) {
  const { phase, code, place } = fault;
  const text = texts[fault.role];
  try {
    if (code === "Race") return race(fault);
    if (code === "Capacity") return capacity(fault, texts);
    if (code === "Clash" || code === "Space") return twoOfPlan(fault, texts);
    if (code.startsWith("Dup") && code !== "DupItem") return again(fault, texts);
    const named = namesTold(fault, texts, tables);
    if (named) return named;
    if (phase === "data") return data(fault, texts, command);
    if (phase === "order") return { label: ORDER_LABELS[code] ?? "", notes: [] };
    if (code === "BadByte" && place) {
      const hint = badByte(text, indexOf(text, place), tables.bytes);
      return { label: "", notes: hint ? [`hint: ${hint}`] : [] };
    }
  } catch {
    // The texts don't read as they should: there is nothing to add.
  }
  return { label: tables.labels[code] ?? "", notes: [] };
}

function badByte(text, index, known) {
  const byte = text.codePointAt(index);
  if (byte === 0xfeff && index === 0) return "a byte order mark: save the file as UTF-8 without one";
  if (byte >= 128) return "letters of other alphabets stand in comments alone";
  return known[byte] ?? (byte > 32 ? `'${text[index]}': no token begins with it` : `a byte ${byte}: no token begins with it`);
}

// ---- what may stand at the place of a Syntax

// The candidates are tried: the text up to the place, with a blank and each of them behind it. Where the fault moves on, it
// may stand there. Gives what is told of it, or nothing where an answer came too late.
async function expected(fault, texts, tables, answer) {
  const text = texts[fault.role], index = indexOf(text, fault.place), front = text.slice(0, index), found = [];
  for (const [told, token] of tables.candidates[fault.role] ?? []) {
    const said = await answer({ ...texts, [fault.role]: `${front} ${token}` });
    if (said === undefined) return undefined;
    const stays = said && said.phase === fault.phase && said.code === "Syntax" && said.place.line === fault.place.line
      && said.place.column === fault.place.column + 1;
    if (!stays) found.push(told);
  }
  const able = found.includes("a number") ? found.filter((told) => !/^`\d`$/.test(told)) : found;
  const shown = shortened(able, tables.operators), others = shown.slice(0, -1).join(", ");
  const slip = new Slip(fault.role, text, index, new Set([...able, ...shown])), hint = slip.hint(tables);
  return {
    label: shown.length ? `here may stand ${others ? `${others} or ` : ""}${shown.at(-1)}` : "",
    notes: hint ? [`hint: ${hint}`] : [], beside: slip.beside(),
  };
}

// Operators go by one name where those may stand that need an operand before them.
function shortened(found, operators) {
  const binary = found.includes("`%`");
  return binary ? [...found.filter((told) => !operators.includes(told)), "an operator"] : found;
}

// A fault of Syntax with the tokens round it, as tools/saying/syntax.py has it.
class Slip {
  constructor(role, text, index, wanted) {
    const clear = withoutComments(text), end = endOf(clear, index, role);
    this.role = role;
    this.wanted = wanted;
    this.tokens = [...clear.slice(0, end).matchAll(new RegExp(TOKEN.source, "g"))].map((it) => ({ text: it[0], index: it.index }));
    const last = this.tokens.at(-1);
    if (last?.index !== index) this.tokens.push({ text: "", index });
    this.token = this.tokens.at(-1);
    this.before = this.tokens.at(-2);
    this.lines = (one) => clear.slice(0, one.index).split("\n").length;
    const heads = this.tokens.slice(0, -1).flatMap(({ text: sign }, n) => (sign === "::" ? [this.tokens[n + 1].text] : []));
    this.kind = role === "program" ? heads.at(-1) : undefined;
  }

  wants(told) {
    return this.wanted.has(told);
  }

  // Places beside the fault's own: where something is missing, or open.
  beside() {
    if (this.before && this.wants("`;`") && this.lines(this.before) < this.lines(this.token)) {
      return [{ index: this.before.index, label: "`;` is missing behind this" }];
    }
    const open = [];
    for (const one of this.tokens) {
      if ("([{".includes(one.text) && one.text) open.push(one);
      else if (")]}".includes(one.text) && one.text) open.pop();
    }
    return !this.token.text && open.length ? [{ index: open.at(-1).index, label: "this is not closed" }] : [];
  }

  hint(tables) {
    const { role, kind, token, before, tokens } = this, behind = tokens.at(-3)?.text;
    if (tokens.length === 1 && tables.first_words[token.text]) return `this text is ${tables.first_words[token.text]}`;
    const number = this.numberForm();
    if (number) return number;
    if (role === "program") {
      if (token.text === "[" && before?.text === "]" && behind !== "[") return "an array has at most three dimensions";
      const behindList = token.text === "," && before?.text === "]" && behind === "[";
      const inRow = token.text === "[" && this.wants("`,`") && this.wants("`;`");
      if (kind === "inner" && (behindList || inRow)) {
        return "each list has a `tunable` of its own: `tunable int S[];`, then `tunable int E[];`";
      }
    }
    if (role === "mapping" && before?.text === "int" && /^[A-Za-z_]/.test(token.text)) {
      return "the mapping gives tunables without a type: `tunable U = 4;`";
    }
    for (const [phase, own, wanted, signs, hint] of tables.slips) {
      const fits = phase === role && (own === null || own === kind) && this.wants(wanted);
      if (fits && (signs === null || signs.includes(token.text))) return hint;
    }
    if (kind === "inner" && tables.operators.includes(`\`${token.text}\``) && this.wants("an operator")) {
      return "sizes, bounds and indices of an inner variant have the operators `+ - * / %` alone";
    }
    const reserved = role === "program" && this.wants("a name") && tables.words.includes(token.text);
    return reserved ? `\`${token.text}\` is a word of the language, and no name` : "";
  }

  // `64K` and `0x200`.
  numberForm() {
    const { token, before } = this;
    if (!before || !/^\d+$/.test(before.text) || !/^[A-Za-z_]/.test(token.text)) return "";
    if (before.index + before.text.length !== token.index) return "";
    const text = before.text + token.text, power = { k: 10, m: 20, g: 30 }[/^([kmg])(i?b)?$/i.exec(token.text)?.[1].toLowerCase()];
    if (/^0[xX][0-9a-fA-F]+$/.test(text)) return `numbers are decimal: ${text} is ${BigInt(text)}`;
    if (power) return `numbers are digits alone: ${text} is ${BigInt(before.text) << BigInt(power)}`;
    return `numbers are decimal digits alone, not ${text}`;
  }
}
