// The runs of the page, and the steps through them.

// ---- the page

const slider = document.getElementById("slider");
const at = document.getElementById("at");
let zoom, chosen = 0;

const runs = data.runs.map((run, index) => {
  const box = document.querySelector(`.run[data-run="${index}"]`);
  const find = (name) => box.querySelector(name);
  const events = readTrace(run);
  const stays = readStays(run);
  return {
    events, stays, traffic: readTraffic(events), trap: run.trap, trapped: run.trapped,
    number: find(".number"), line: find(".event"), says: find(".says"), trappedBox: find("div.trapped"),
    bars: find(".bars"), overview: find(".overview"), lanes: find(".lanes"),
    carried: find(".carried"), words: find(".words ul"), trace: find(".trace"),
  };
});
const most = Math.max(...runs.map((run) => run.events.count));

function drawRun(run) {
  const k = Math.min(chosen, run.events.count - 1);
  if (k < 0) return run.says.replaceChildren("This run has no events.");
  run.number.textContent = `${number(k + 1)} of ${number(run.events.count)}`;
  run.line.textContent = run.events.line(k);
  run.says.textContent = says(run, k);
  drawBars(run, k);
  drawLanes(run, k);
  moveView(run, k);
  drawCarried(run, k);
  drawWords(run, k);
  drawTrace(run, k);
}

// The tree tells what is in use in the first run, where a node is a box of its own.
const boxes = [...document.querySelectorAll(".tree .memory")].filter((box) => box.dataset.node);
function drawTree() {
  const run = runs[0];
  const k = Math.min(chosen, run.events.count - 1);
  for (const box of boxes) {
    const node = nodeOf(box.dataset.node);
    const used = inUse(run, node, k).reduce((sum, stay) => sum + stay.size, 0);
    box.querySelector(".now").textContent = used ? `holds ${number(used)} now` : "";
    box.classList.toggle("lit", run.events.to[k] === node || run.events.from[k] === node);
  }
}

// The variants of the program whose leaf calls the chosen events are, and of a plan file the lines of the events.
function drawProgram() {
  for (const line of document.querySelectorAll(".source li.lit")) line.classList.remove("lit");
  for (const [n, run] of runs.entries()) {
    const k = Math.min(chosen, run.events.count - 1);
    document.querySelector(`#program #line-${data.runs[n].rows?.[k]}`)?.classList.add("lit");
    const variant = k >= 0 && run.events.kind[k] === LEAF && data.instances[run.events.word.get(k)];
    for (let line = variant ? variant[1] : 1; variant && line <= variant[2]; line++) {
      document.querySelector(`#program #line-${line}`)?.classList.add("lit");
    }
  }
}

let waiting = false;
function go(k) {
  chosen = Math.max(0, Math.min(k, most - 1));
  slider.value = chosen + 1;
  at.textContent = number(chosen + 1);
  if (waiting) return;
  waiting = true;
  // However fast the steps come, each frame is drawn once.
  requestAnimationFrame(() => {
    waiting = false;
    draw();
  });
}

function draw() {
  runs.forEach(drawRun);
  drawTree();
  drawProgram();
}

// The next event, or the one before, for which this holds in the first run.
function seek(step, holds) {
  for (let k = chosen + step; k >= 0 && k < runs[0].events.count; k += step) {
    if (holds(runs[0].events, k)) return go(k);
  }
}

function zoomBy(step) {
  zoom = Math.max(0, Math.min(zoom + step, STEPS.length - 1));
  for (const run of runs) run.begin = undefined;
  draw();
}

function pressed(key, back) {
  const page = runs[0].seen ? Math.max(1, runs[0].seen.end - runs[0].seen.begin - 2) : 10;
  const here = Math.min(chosen, runs[0].events.count - 1);
  const actions = {
    ArrowLeft: () => go(chosen - 1),
    ArrowRight: () => go(chosen + 1),
    PageUp: () => go(chosen - page),
    PageDown: () => go(chosen + page),
    Home: () => go(0),
    End: () => go(most - 1),
    "+": () => zoomBy(1),
    "=": () => zoomBy(1),
    "-": () => zoomBy(-1),
    l: () => seek(back ? -1 : 1, (events, k) => events.kind[k] === LEAF),
    n: () => seek(back ? -1 : 1, (events, k) => events.to[k] === events.to[here] || events.from[k] === events.to[here]),
  };
  const action = actions[key.length === 1 ? key.toLowerCase() : key];
  if (action) action();
  return Boolean(action);
}

document.addEventListener("keydown", (event) => {
  if (event.ctrlKey || event.altKey || event.metaKey) return;
  if (event.target instanceof HTMLButtonElement && (event.key === " " || event.key === "Enter")) return;
  if (pressed(event.key, event.shiftKey)) event.preventDefault();
});
slider.addEventListener("input", () => go(slider.value - 1));
const BUTTONS = { home: "Home", back: "ArrowLeft", on: "ArrowRight", end: "End", less: "-", more: "+" };
for (const [id, key] of Object.entries(BUTTONS)) {
  document.getElementById(id).addEventListener("click", () => pressed(key, false));
}
addEventListener("resize", () => {
  runs.filter((run) => run.events.count).forEach(drawOverview);
  draw();
});
// page.html#7 opens at event 7.
const begun = parseInt(location.hash.slice(1), 10);
if (begun > 0) chosen = Math.min(begun, most) - 1;
runs.forEach((run) => {
  if (run.events.count) drawOverview(run);
  drawTrapped(run);
});
slider.value = chosen + 1;
at.textContent = number(chosen + 1);
draw();
document.documentElement.dataset.ready = "yes";
