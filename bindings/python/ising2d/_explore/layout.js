// Places for a graph that has none, from its rotation: a straight-line drawing after Tutte. Each face gets a
// ring of helpers beside its corners and a hub in its middle, so that what is laid out is a triangulation;
// the ring of the longest face is the rim, and every other node moves to the mean of its neighbours.

const RELAXATION = 1.85;
const MOST_SWEEPS = 1500;
const LEAST_MOVE = 1e-8;
const ROUNDS = 7;
const MANY_NODES = 4000;

// The nodes of one component with their neighbours, and which of them are fixed on the rim.
class Mesh {
  constructor() {
    this.near = [];
    this.rim = [];
  }

  node() {
    return this.near.push([]) - 1;
  }

  join(one, other) {
    this.near[one].push(other);
    this.near[other].push(one);
  }

  // A ring of helpers along a closed walk, each beside two corners that follow each other.
  ring(walk) {
    const helpers = walk.map(() => this.node());
    helpers.forEach((helper, i) => {
      this.join(helper, walk[i]);
      if (walk.length > 1) this.join(helper, walk[(i + 1) % walk.length]);
      if (helpers.length > 2) this.join(helper, helpers[(i + 1) % helpers.length]);
    });
    return helpers;
  }

  fill(walk) {
    const isSimple = walk.length > 2 && new Set(walk).size === walk.length;
    const hub = this.node();
    for (const corner of isSimple ? walk : this.ring(walk)) this.join(hub, corner);
  }

  // Places for all nodes: the rim on a circle, every other one at the weighted mean of its neighbours. What
  // is long gets more weight, and all is settled again, which draws crowded parts apart.
  settled() {
    const count = this.near.length;
    const places = { x: new Float64Array(count), y: new Float64Array(count) }, fixed = new Set(this.rim);
    this.rim.forEach((node, i) => {
      const angle = (2 * Math.PI * i) / this.rim.length;
      [places.x[node], places.y[node]] = [Math.cos(angle), Math.sin(angle)];
    });
    const free = this.near.map((_, node) => node).filter((node) => !fixed.has(node) && this.near[node].length);
    const weights = this.near.map((near) => near.map(() => 1));
    for (let round = 0; round < (count > MANY_NODES ? 1 : ROUNDS); round++) {
      if (round) this.reweigh(places, weights);
      for (let sweep = 0; sweep < MOST_SWEEPS; sweep++) if (this.sweep(places, free, weights) < LEAST_MOVE) break;
    }
    return places;
  }

  reweigh({ x, y }, weights) {
    const length = (one, other) => Math.hypot(x[one] - x[other], y[one] - y[other]);
    const lengths = this.near.map((near, node) => near.map((other) => length(node, other)));
    const sorted = lengths.flat().sort((one, other) => one - other), middle = sorted[sorted.length >> 1] || 1;
    lengths.forEach((own, node) => own.forEach((length, i) => {
      weights[node][i] = Math.max(0.03, Math.min(30, weights[node][i] * Math.sqrt(length / middle)));
    }));
  }

  // Moves each free node, by over-relaxation, and returns how far the farthest went.
  sweep({ x, y }, free, weights) {
    let move = 0;
    for (const node of free) {
      const near = this.near[node], own = weights[node];
      let right = 0, down = 0, sum = 0;
      for (let i = 0; i < near.length; i++) {
        right += own[i] * x[near[i]];
        down += own[i] * y[near[i]];
        sum += own[i];
      }
      right = RELAXATION * (right / sum - x[node]);
      down = RELAXATION * (down / sum - y[node]);
      x[node] += right;
      y[node] += down;
      move = Math.max(move, Math.abs(right), Math.abs(down));
    }
    return move;
  }
}

// For each spin the least spin of its component.
function componentsOf(count, ends) {
  const above = Array.from({ length: count }, (_, spin) => spin);
  const root = (spin) => {
    while (above[spin] !== spin) spin = above[spin] = above[above[spin]];
    return spin;
  };
  for (let k = 0; k < ends.length; k += 2) {
    const [one, other] = [root(ends[k]), root(ends[k + 1])];
    above[Math.max(one, other)] = Math.min(one, other);
  }
  return above.map((_, spin) => root(spin));
}

// The bonds that share both their ends with another one: these are bent, to be told apart.
function parallelBonds(ends) {
  const first = new Map(), found = new Set();
  for (let k = 0; 2 * k < ends.length; k++) {
    const pair = [ends[2 * k], ends[2 * k + 1]].sort((a, b) => a - b).join();
    if (first.has(pair)) found.add(k).add(first.get(pair));
    else first.set(pair, k);
  }
  return found;
}

// The places of all spins, and for bonds that are bent the place of their bend.
function layOut(count, ends, faces) {
  const component = componentsOf(count, ends);
  const bent = parallelBonds(ends);
  const own = new Map();
  for (const face of faces) {
    if (!face.length) continue;
    const name = component[ends[face[0]]];
    if (!own.has(name)) own.set(name, []);
    own.get(name).push(face);
  }
  const places = Array.from({ length: count }, () => [0, 0]), bends = new Map();
  let left = 0;
  for (let spin = 0; spin < count; spin++) {
    if (component[spin] !== spin) continue;
    left += laidComponent(own.get(spin) || [], spin, ends, bent, left, places, bends);
  }
  return { places, bends };
}

// Lays out one component to the right of `left`, and returns how wide it is.
function laidComponent(faces, spin, ends, bent, left, places, bends) {
  if (!faces.length) {
    places[spin] = [left, 0];
    return 1;
  }
  const mesh = new Mesh(), nodes = new Map();
  const nodeOf = (name) => {
    if (!nodes.has(name)) nodes.set(name, mesh.node());
    return nodes.get(name);
  };
  const walks = faces.map((face) => face.flatMap((dart) => {
    const corner = nodeOf(ends[dart]);
    return bent.has(dart >> 1) ? [corner, nodeOf(`bend ${dart >> 1}`)] : [corner];
  }));
  walks.forEach((walk) => walk.forEach((node, i) => {
    const next = walk[(i + 1) % walk.length];
    if (node < next && !mesh.near[node].includes(next)) mesh.join(node, next);
  }));
  const outer = walks.reduce((best, walk) => (walk.length > best.length ? walk : best));
  for (const walk of walks) if (walk !== outer) mesh.fill(walk);
  mesh.rim = outer.length > 2 ? mesh.ring(outer) : outer;
  const { x, y } = mesh.settled();
  const lengths = walks.flatMap((walk) => walk.map((node, i) => {
    const next = walk[(i + 1) % walk.length];
    return Math.hypot(x[node] - x[next], y[node] - y[next]);
  })).sort((a, b) => a - b);
  const unit = lengths[lengths.length >> 1] || 1;
  const high = Math.max(...mesh.rim.map((node) => Math.abs(x[node]))) / unit;
  for (const [name, node] of nodes) {
    const place = [left + high + x[node] / unit, y[node] / unit];
    if (typeof name === "number") places[name] = place;
    else bends.set(Number(name.slice(5)), place);
  }
  return 2 * high + 1;
}
