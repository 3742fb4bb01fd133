// What is told of faults of names, of mappings and of limits, as tools/saying/names.py tells it: the texts were read by sq up
// to the fault, so that a look for their heads is enough.

const listed = (names) => [...new Set(names)].map((name) => `\`${name}\``).join(", ") || "none";
const counted = (many, word) => `${many} ${word}${many === 1 ? "" : "s"}`;

// ---- what stands in the texts

function variantsOf(program, words) {
  const text = withoutComments(program);
  return [...text.matchAll(/\btask\s+((\w+)\s*::\s*(inner|leaf))\s*\(([^)]*)\)\s*\{/g)].map((head) => {
    const [whole, named, task, kind, list] = head, open = head.index + whole.length - 1, end = closeOf(text, open);
    const params = paramsOf(list, open - whole.length + 1 + whole.indexOf("(") + 1), body = text.slice(open, end);
    const found = (pattern, told) => [...body.matchAll(pattern)].map((it) => told(it, open + it.index));
    const tunables = found(/\btunable\s+int\s+(\w+)\s*(\[)?/g, (it, at) =>
      ({ name: it[1], index: at + it[0].indexOf(it[1], 11), isList: Boolean(it[2]), told: `a tunable ${it[2] ? "list" : "number"}` }));
    const locals = found(/\blocal\s+(?:byte|int|long)\s+(\w+)((?:\s*\[[^\]]*\])*)/g, (it, at) =>
      ({ name: it[1], index: at, told: `a local array of ${counted((it[2].match(/\[/g) ?? []).length, "dimension")}` }));
    const sets = found(/\bblkset\s+(\w+)\s*=\s*\w+\s*\(\s*(\w+)/g, (it, at) =>
      ({ name: it[1], index: at, array: it[2], told: `a block set of \`${it[2]}\`` }));
    const variables = found(/\bint\s+(\w+)\s*=/g, (it, at) => ({ name: it[1], index: at, told: "a variable" }));
    const calls = kind === "leaf" ? [] : found(/\b(\w+)\s*\(/g, (it) => it[1]).filter((name) => !words.includes(name));
    const own = params.flatMap((param) => [param, ...param.extents.map((name) => ({ name, told: "a size" }))]);
    const index = head.index + whole.indexOf(named);
    const declared = [...own, ...[...tunables, ...locals, ...sets, ...variables].sort((a, b) => a.index - b.index)];
    return { name: `${task}::${kind}`, task, kind, index, end, params, tunables, locals, sets, calls, declared };
  });
}

function paramsOf(list, begin) {
  return [...list.matchAll(/\b(in|out|inout)\s+(?:byte|int|long)\s+(\w+)((?:\s*\[[^\]]*\])*)/g)].map((it) => {
    const all = [...it[3].matchAll(/\[\s*(\w+)\s*\]/g)].map(([, name]) => name);
    const told = `an \`${it[1]}\` array of ${counted(all.length, "dimension")}`;
    return { mode: it[1], name: it[2], extents: all.filter((name) => !/^\d/.test(name)), index: begin + it.index, told };
  });
}

function instancesOf(mapping) {
  const form = /\binstance\s+(\w+)\s*=\s*(\w+)\s*::\s*(inner|leaf)\s*@\s*(\w+)\s*\{[^}]*\}/g;
  return [...withoutComments(mapping).matchAll(form)].map((it) =>
    ({ name: it[1], task: it[2], kind: it[3], level: it[4], index: it.index, end: it.index + it[0].length }));
}

function levelsOf(machine) {
  const text = withoutComments(machine), named = /\blevels\s+([^;]*);/.exec(text);
  return named ? named[1].split(",").map((name) => name.trim()) : [...text.matchAll(/\blevel\s+(\w+)/g)].map(([, name]) => name);
}

// ---- names that are near

// How alike two names are, from 0 to 1: by the longest parts that they have in common, as Python's difflib has it.
function alike(one, other) {
  return one || other ? (2 * common(one, other)) / (one.length + other.length) : 1;
}

function common(one, other) {
  let best = 0, at = 0, to = 0;
  for (let i = 0; i < one.length; i++) {
    for (let j = 0; j < other.length; j++) {
      let size = 0;
      while (i + size < one.length && j + size < other.length && one[i + size] === other[j + size]) size++;
      if (size > best) [best, at, to] = [size, i, j];
    }
  }
  if (!best) return 0;
  return best + common(one.slice(0, at), other.slice(0, to)) + common(one.slice(at + best), other.slice(to + best));
}

function meant(name, known) {
  const same = known.find((one) => one !== name && one.toLowerCase() === name.toLowerCase());
  const near = known.map((one) => [alike(one, name), one]).filter(([ratio]) => ratio >= 0.6);
  const best = same ?? near.sort(([a, one], [b, other]) => b - a || (one < other ? 1 : -1))[0]?.[1];
  return best ? `is \`${best}\` meant?` : "";
}

// ---- what is told

class Named {
  constructor(fault, texts, tables) {
    this.fault = fault;
    this.name = fault.args[0];
    this.variants = variantsOf(texts.program, tables.words);
    this.instances = instancesOf(texts.mapping);
    this.levels = levelsOf(texts.machine);
    this.text = withoutComments(texts[fault.role] ?? "");
    this.index = fault.place ? indexOf(this.text, fault.place) : 0;
    const around = (all) => all.find(({ index, end }) => index <= this.index && this.index <= end);
    this.variant = fault.role === "program" ? around(this.variants) : undefined;
    this.instance = fault.role === "mapping" ? around(this.instances) : undefined;
    this.entry = this.instances.find(({ name }) => name === /\bentry\s+(\w+)/.exec(withoutComments(texts.mapping))?.[1]);
  }

  variantOf(instance) {
    return this.variants.find(({ task, kind }) => task === instance.task && kind === instance.kind);
  }

  UnknownName() {
    const isTask = /^\w+\s*\(/.test(this.text.slice(this.index));
    const known = isTask ? this.variants.map(({ task }) => task) : this.variant.declared.map(({ name }) => name);
    const told = isTask ? "tasks" : `names of ${this.variant.name}`;
    if (known.includes(this.name)) return { label: "known in the body of its map or loop alone", notes: [] };
    return { label: meant(this.name, known) || "not known here", notes: [`${told}: ${listed(known)}`] };
  }

  WriteIn() {
    const own = this.variant.sets.find(({ name }) => name === this.name);
    const param = this.variant.params.find(({ name }) => name === (own ? own.array : this.name));
    const beside = [{ index: param.index, label: `\`${param.name}\` is \`in\`, and only read` }];
    return { label: "written here", beside, notes: own ? [`\`${this.name}\` is ${own.told}`] : [] };
  }

  LimitArrays() {
    const { name, params, locals } = this.variant;
    const many = `${counted(params.length, "parameter")} and ${counted(locals.length, "local")}`;
    return { label: "", notes: [`${name} has ${many}: 32 may be together`] };
  }

  tunables(label) {
    const { tunables, name } = this.variantOf(this.instance);
    const told = listed(tunables.map((one) => `${one.name}${one.isList ? "[]" : ""}`));
    const having = this.variants.filter((one) => one.tunables.some((it) => it.name === this.name)).map((one) => one.name);
    const unknown = this.fault.code === "TunableUnknown" && having.length;
    const notes = unknown ? [`the tunable \`${this.name}\` stands in ${having.join(", ")}`] : [];
    return { label: label(tunables), notes: [`tunables of ${name}: ${told}`, ...notes] };
  }

  TunableMissing() {
    return this.tunables(() => `no value for \`${this.name}\``);
  }

  TunableUnknown() {
    return this.tunables((all) => meant(this.name, all.map(({ name }) => name)));
  }

  TunableKind() {
    return this.tunables((all) => all.find(({ name }) => name === this.name)?.isList
      ? "a number, and this tunable is a list" : "a list, and this tunable is a number");
  }

  CallMissing() {
    const { calls, name } = this.variantOf(this.instance);
    const label = this.fault.code === "CallMissing" ? `no \`call ${this.name} -> ..;\`` : meant(this.name, calls);
    return { label, notes: [`tasks that ${name} calls: ${listed(calls)}`] };
  }

  CallUnknown() {
    return this.CallMissing();
  }

  SizeMissing() {
    const { params, name } = this.variantOf(this.entry), found = params.flatMap(({ extents }) => extents);
    const label = this.fault.code === "SizeMissing" ? `no value for \`${this.name}\`` : meant(this.name, found);
    return { label, notes: [`size names of ${name}: ${listed(found)}`] };
  }

  SizeUnknown() {
    return this.SizeMissing();
  }

  NoInstance() {
    const found = this.instances.map(({ name }) => name);
    return { label: meant(this.name, found), notes: [`instances: ${listed(found)}`] };
  }

  NoTask() {
    return { label: meant(this.name, this.variants.map(({ task }) => task)), notes: [this.variantsTold()] };
  }

  NoVariant() {
    const { kind } = this.variants.find(({ task }) => task === this.name);
    return { label: `of \`${this.name}\` there is \`${kind}\` alone`, notes: [this.variantsTold()] };
  }

  variantsTold() {
    return `variants of the program: ${listed(this.variants.map(({ name }) => name))}`;
  }

  levelsTold(label) {
    return { label, notes: [`levels of the machine, from the root: ${listed(this.levels)}`] };
  }

  NoLevel() {
    return this.levelsTold(meant(this.name, this.levels));
  }

  NodeDepth() {
    return this.levelsTold(`deeper than \`${this.levels.at(-1)}\``);
  }

  LimitLevels() {
    return { label: `${this.levels.length} levels, and 8 may be`, notes: [] };
  }
}

// What a fault's own argument tells.
const BY_ARGUMENT = {
  LimitCost: () => "at most 1000000",
  LimitFan: (many) => `${many} children: each node has 1 to 64`,
};

function namesTold(fault, texts, tables) {
  if (BY_ARGUMENT[fault.code] && fault.args.length) {
    if (fault.code === "LimitFan" && /^\s*machine\s+2/.test(withoutComments(texts.machine))) return null;
    return { label: BY_ARGUMENT[fault.code](...fault.args), notes: [] };
  }
  return Object.hasOwn(Named.prototype, fault.code) ? new Named(fault, texts, tables)[fault.code]() : null;
}
