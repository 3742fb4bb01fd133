// What is said of an event, and of what it touches.

// ---- names

function placeName(stay) {
  const names = new Set(stay.names.map((place) => `${data.places[place][3]} ${data.places[place][4]}`));
  return [...names].join(" or ");
}

function blockName(stay) {
  return stay.how === 0 || !stay.block ? "" : (stay.combined ? "+" : "") + stay.block;
}

// The elements of a row of an entry's array, as A[2][0..4].
function rowName(stay, at, size) {
  const shaped = data.shapes[stay.names[0]];
  const array = data.places[stay.names[0]][4];
  if (!shaped) return array;
  const [width, extents] = shaped;
  const begin = coordinates(extents, Math.floor((at - stay.at) / width));
  const end = coordinates(extents, Math.floor((at - stay.at + size) / width) - 1);
  const same = begin.slice(0, -1).every((number, dimension) => number === end[dimension]);
  if (!same) return array;
  return array + begin.slice(0, -1).map((number) => `[${number}]`).join("") + `[${begin.at(-1)}..${end.at(-1) + 1}]`;
}

function coordinates(extents, count) {
  const found = [];
  for (let dimension = extents.length - 1; dimension >= 0; dimension--) {
    found.unshift(count % extents[dimension]);
    count = Math.floor(count / extents[dimension]);
  }
  return found;
}

// ---- what an event touches

function holding(run, node, at, k) {
  return inUse(run, node, k).find((stay) => stay.at <= at && at < stay.at + stay.size);
}

function inUse(run, node, k) {
  return run.stays[node].filter((stay) => stay.first <= k && k <= stay.last);
}

// The stays that event k touches, with the bytes and whether it reads or writes them.
function touched(run, k) {
  const { events } = run;
  const found = [];
  if (events.kind[k] === LEAF) {
    for (const stay of run.stays[events.to[k]]) {
      if (isForLeaf(stay, k)) found.push({ stay, at: stay.at, size: stay.size, use: "leaf" });
    }
    return found;
  }
  const add = (node, at, use) => found.push({ stay: holding(run, node, at, k), node, at, size: events.size[k], use });
  if (events.from[k] >= 0) add(events.from[k], events.fromAt[k], "read");
  add(events.to[k], events.toAt[k], "written");
  return found;
}

function rangeText(at, size) {
  return size === 1 ? `byte ${number(at)}` : `bytes ${number(at)} to ${number(at + size - 1)}`;
}

function spotText(part) {
  const where = nodes[part.node].name;
  const range = rangeText(part.at, part.size);
  if (!part.stay) return `${range} of ${where}`;
  const name = part.stay.how === 0 ? rowName(part.stay, part.at, part.size) : placeName(part.stay);
  return `${name} of ${where} (${range})`;
}

function says(run, k) {
  const { events } = run;
  const parts = touched(run, k);
  const size = bytes(events.size[k]);
  const [from, to] = parts.map((part) => part.node === undefined ? "" : spotText(part));
  switch (events.kind[k]) {
    case DOWN: return `${size} go down, from ${from} into ${to}.${ofBlock(parts[1].stay)}`;
    case UP: return `${size} go back up, from ${from} into ${to}.${ofBlock(parts[0].stay)}`;
    case WITHIN: return `${size} are copied within ${nodes[events.to[k]].name}, from ${from} into ${to}.`;
    case FILL: return `${size} of ${from} are filled with ${identity(parts[0].stay)}.${ofBlock(parts[0].stay)}`;
    case SUM: return `${size} are combined by ${events.word.get(k)}, from ${from} into ${to}.`;
    default: return leafSays(run, k, parts);
  }
}

function ofBlock(stay) {
  if (!stay || stay.how === 0 || !stay.block) return "";
  const rows = stay.first === stay.last ? "" : `, touched from event ${stay.first + 1} to ${stay.last + 1}`;
  return ` ${placeName(stay)} is ${stay.combined ? "combined into " : ""}${stay.block}${rows}.`;
}

function identity(stay) {
  const mode = stay ? data.places[stay.names[0]][5] : "";
  if (mode === "inout") return "the identity of the reduction";
  return mode === "out" || mode === "local" ? "zeros" : "zeros or an identity";
}

function leafSays(run, k, parts) {
  const word = run.events.word.get(k);
  const variant = data.instances[word];
  const where = nodes[run.events.to[k]].name;
  const lines = variant ? `${variant[0]} of lines ${variant[1]} to ${variant[2]}, ` : "";
  const has = parts.map(({ stay }) => placeName(stay).split(" ").pop() + (stay.block ? ` = ${blockName(stay)}` : ""));
  const none = "; it has no buffer of its own, and the trace doesn't tell what it uses in place.";
  const on = has.length ? `, on ${has.join(", ")}.` : none;
  return `${lines}instance ${word}, runs at ${where}${on}`;
}
