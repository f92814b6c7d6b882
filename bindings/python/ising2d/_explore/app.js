// The state of the page, and what is done to it.

const LOOPS_UP_TO = 2048, COSTS_UP_TO = 2048, MOST_UNDO = 200;
const KINDS = {
  square: "square lattice",
  triangular: "triangular lattice",
  hexagonal: "hexagonal lattice",
  cylinder: "cylinder",
};
const LAWS = {
  pm: "±1",
  negative: "±1, negative",
  diluted: "±1, missing",
  gaussian: "Gaussian",
  uniform: "uniform",
  one: "all 1",
  alternate: "1 and −1 in turn",
};

const app = {
  world: null, edits: new Map(), couplings: [], typical: 1, answer: null, view: "ground", selected: -1,
  droplet: null, proof: null, steps: -1, pointed: -1, costs: null, clusters: null, wall: null,
  past: [], future: [], asked: 0, frame: { scale: 1, x: 0, y: 0, isFitted: true }, clicked: 0, pending: 0,
};

// What is said.

function trouble(text) {
  id("trouble").textContent = text;
  id("trouble").hidden = !text;
}

function say(text) {
  id("status").textContent = text;
}

async function guarded(action) {
  wait(1);
  try {
    await action();
  } catch (fault) {
    trouble(fault.message);
  } finally {
    wait(-1);
  }
}

// Counts what is under way, for who waits for the page to be ready.
function wait(change) {
  app.pending += change;
  document.body.dataset.state = app.pending ? "busy" : "ready";
}

const own = (value) => shownNumber(value, app.world.unit);

// Instances and edits.

function settle() {
  const { world, edits } = app;
  app.couplings = world.base.slice();
  for (const [bond, coupling] of edits) app.couplings[bond] = coupling;
  const sizes = Float64Array.from(app.couplings, Math.abs).sort();
  app.typical = sizes[Math.floor(0.9 * (sizes.length - 1))] || 1;
  if (!sizes.length || sizes[0] === sizes[sizes.length - 1]) app.typical = 0;
  Object.assign(app, { droplet: null, costs: null, clusters: null, wall: null });
}

function remember() {
  app.past.push({ world: app.world, edits: app.edits });
  if (app.past.length > MOST_UNDO) app.past.shift();
  app.future = [];
}

// Goes on to another instance; where that is refused, everything stays as it was.
async function change(world, edits) {
  const before = { ...app }, isNew = world !== app.world;
  Object.assign(app, { world, edits });
  if (isNew) Object.assign(app, { answer: null, proof: null, selected: -1, steps: -1, pointed: -1 });
  settle();
  if (isNew) {
    showSource();
    fit();
  }
  try {
    await refresh();
  } catch (fault) {
    if (before.answer) {
      const { asked, past, future, pending } = app;
      Object.assign(app, before, { asked, past, future, pending });
      if (isNew) showSource();
      show();
    }
    throw fault;
  }
}

function travel(from, to) {
  if (!from.length) return;
  to.push({ world: app.world, edits: app.edits });
  const { world, edits } = from.pop();
  guarded(() => change(world, edits));
}

// A change that can be undone.
async function changeNew(world, edits) {
  remember();
  try {
    await change(world, edits);
  } catch (fault) {
    app.past.pop();
    if (app.answer) showHistory();
    throw fault;
  }
}

const undo = () => travel(app.past, app.future);
const redo = () => travel(app.future, app.past);

function set(bond, coupling) {
  if (bond < 0 || coupling === app.couplings[bond]) return;
  app.clicked = performance.now();
  const edits = new Map(app.edits);
  if (coupling === app.world.base[bond]) edits.delete(bond);
  else edits.set(bond, coupling);
  guarded(() => changeNew(app.world, edits));
}

const flip = (bond) => bond >= 0 && set(bond, app.couplings[bond] === 0 ? 0 : -app.couplings[bond]);

async function open(source, edits = new Map(), isFirst = false) {
  const world = await worldOf(source);
  for (const bond of edits.keys()) {
    if (bond >= world.bonds) throw new Error(`the link changes bond ${bond}, and there are ${world.bonds}`);
  }
  await (isFirst ? change(world, edits) : changeNew(world, edits));
}

// Answers.

const isSmall = () => app.world.spins <= COSTS_UP_TO;
const instance = () => app.world.withCouplings(app.couplings);

// Asks for what the view needs; where the instance has changed meanwhile, asks again.
async function refresh() {
  const asked = ++app.asked;
  trouble("");
  const { view } = app;
  const found = await ask("solve", { instance: instance(), loops: view === "loops", nest: view === "nest" });
  if (asked !== app.asked) return;
  takeAnswer(found);
  show();
  if (hasMore()) await askMore(asked, view);
}

// Whether the view asks for more than the ground state.
function hasMore() {
  const { view, world } = app;
  return (isSmall() && ["costs", "clusters"].includes(view)) || (view === "wall" && world.seam.size > 0);
}

async function askMore(asked, view) {
  try {
    const found = await ask(view, { instance: instance() });
    if (asked !== app.asked) return;
    if (view === "costs") app.costs = costsOf(found.costs, app.world.unit);
    if (view === "clusters") app.clusters = clustersOf(found.clusters);
    if (view === "wall") app.wall = found;
    show();
  } catch (fault) {
    trouble(fault.message);
  }
}

function takeAnswer(found) {
  const before = app.answer && app.answer.world === app.world ? app.answer : null;
  const broken = app.world.brokenBy(app.couplings, found.spins);
  const weight = broken.reduce((sum, k) => sum + Math.abs(app.couplings[k]), 0);
  const total = app.couplings.reduce((sum, j) => sum + Math.abs(j), 0);
  app.answer = { ...found, world: app.world, broken, weight, total, before: before && before.energy };
  app.turned = before ? turnedBetween(before.spins, found.spins) : new Set();
  const wasWhole = !app.proof || app.steps >= app.proof.entries.length;
  app.proof = null;
  if (found.loops) app.proof = proofOfLoops(app.couplings, found.energy, found.loops);
  else if (found.nest) app.proof = proofOfNest(app.world, app.couplings, weight, found.nest);
  app.pointed = -1;
  if (app.proof && (wasWhole || app.steps > app.proof.entries.length)) app.steps = app.proof.entries.length;
}

// The spins by which two states differ, up to all of them.
function turnedBetween(one, other) {
  const found = [...one.keys()].filter((spin) => one[spin] !== other[spin]);
  if (2 * found.length <= one.length) return new Set(found);
  const inside = new Set(found);
  return new Set([...one.keys()].filter((spin) => !inside.has(spin)));
}

async function force(bond) {
  if (bond < 0 || !app.answer) return;
  const asked = app.asked;
  const found = await ask("force", { instance: instance(), bond, spins: app.answer.spins });
  if (asked !== app.asked) return;
  app.droplet = { ...found, bond, turned: new Set(found.turned) };
  app.selected = bond;
  show();
}
