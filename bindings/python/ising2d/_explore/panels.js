// What stands beside the picture: numbers, the proof and its entries.

const id = (name) => document.getElementById(name);
const MOST_ENTRIES = 400;

// Whole numbers with thin spaces, and real ones where the couplings have a unit below 1.
function grouped(value) {
  const text = String(Math.abs(value)).replace(/\B(?=(\d{3})+(?!\d))/g, "\u202f");
  return (value < 0 ? "−" : "") + text;
}

function shownNumber(value, unit) {
  if (unit === 1) return Number.isInteger(value) ? grouped(value) : String(value).replace("-", "−");
  const text = Math.abs(value / unit).toFixed(6);
  return (value < 0 && Number(text) !== 0 ? "−" : "") + text;
}

// A proof that adds up: entries with weights, the room of each bond, and how much of it each entry uses.
class Proof {
  constructor(kind, entries, target, room) {
    Object.assign(this, { kind, entries, target, room });
  }

  // The share of each bond that the first entries use, their sum, and the bonds that the last of them fills.
  upTo(steps) {
    const load = new Float64Array(this.room.length), marked = [];
    let sum = 0;
    for (const [i, { weight, uses }] of this.entries.slice(0, steps).entries()) {
      sum += weight;
      for (const [bond, amount] of uses) {
        load[bond] += amount;
        if (i === steps - 1 && amount > 0 && load[bond] >= this.room[bond]) marked.push(bond);
      }
    }
    const share = Array.from(load, (own, k) => (own === 0 ? 0 : own / this.room[k]));
    return { share, sum, marked: [...new Set(marked)] };
  }
}

function proofOfLoops(couplings, energy, loops) {
  const { weights, starts, bonds } = loops;
  const entries = weights.map((weight, i) => {
    const own = bonds.slice(starts[i], starts[i + 1]);
    return { weight, bonds: own, uses: own.map((bond) => [bond, weight]), note: `${own.length} bonds` };
  });
  entries.sort((one, other) => other.weight - one.weight);
  const total = couplings.reduce((sum, j) => sum + Math.abs(j), 0);
  return new Proof("loops", entries, energy + total, couplings.map((j) => 2 * Math.abs(j)));
}

// The regions of a nest, inner ones first, each with its faces and the bonds on its edge.
function proofOfNest(world, couplings, brokenWeight, nest) {
  const { parents, radii, regions, at_radii: places } = nest, none = 2 ** 32 - 1;
  const chainOf = (face) => {
    const chain = [];
    for (let own = regions[face]; own !== none && own !== undefined; own = parents[own]) chain.push(own);
    return chain;
  };
  const chains = world.faces.map((_, face) => chainOf(face));
  const entries = radii.map((radius) => ({ weight: radius, bonds: [], uses: [], faces: [] }));
  chains.forEach((chain, face) => chain.forEach((own) => entries[own].faces.push(face)));
  const height = (face, own) => radii[own] - (regions[face] === own ? places[face] : 0);
  for (let k = 0; k < world.bonds; k++) {
    const [one, other] = [world.sides[2 * k], world.sides[2 * k + 1]];
    if (one === other) continue;
    const heights = new Map(chains[one].map((own) => [own, height(one, own)]));
    for (const own of chains[other]) heights.set(own, (heights.get(own) || 0) - height(other, own));
    for (const [own, climb] of heights) if (climb) entries[own].uses.push([k, Math.abs(climb)]);
    const inOther = new Set(chains[other]), inOne = new Set(chains[one]);
    for (const own of chains[one]) if (!inOther.has(own)) entries[own].bonds.push(k);
    for (const own of chains[other]) if (!inOne.has(own)) entries[own].bonds.push(k);
  }
  const depths = radii.map((_, own) => {
    let depth = 0;
    for (let above = parents[own]; above !== none; above = parents[above]) depth += radii[above] > 0 ? 1 : 0;
    return depth;
  });
  entries.forEach((entry, own) => {
    const outer = entry.faces.some((face) => !world.faces[face].isInner) ? ", outside" : "";
    const faces = entry.faces.length === 1 ? "1 face" : `${entry.faces.length} faces`;
    entry.note = `${faces}${outer}${depths[own] ? `, in ${depths[own]}` : ""}`;
  });
  const grown = entries.filter((entry) => entry.weight > 0);
  return new Proof("nest", grown, 4 * brokenWeight, couplings.map((j) => 4 * Math.abs(j)));
}

// For each face how many of the first regions hold it, and the radii that are written on single faces.
function regionsUpTo(world, proof, steps) {
  const depths = new Array(world.faces.length).fill(0), labels = new Map();
  for (const { faces, weight } of proof.entries.slice(0, steps)) {
    for (const face of faces) depths[face] += 1;
    if (faces.length === 1) labels.set(faces[0], weight);
  }
  return { depths, labels };
}

// The largest clusters of more than one spin, and all sizes.
function clustersOf(names) {
  const sizes = new Map();
  for (const name of names) sizes.set(name, (sizes.get(name) || 0) + 1);
  const sorted = [...sizes].sort((one, other) => other[1] - one[1] || one[0] - other[0]);
  return { names, sorted, large: sorted.filter(([, size]) => size > 1).slice(0, CLUSTERS.length) };
}

// Costs with their colours: a colour for each of a few values, else equal steps up to the 95th of a hundred.
function costsOf(values, unit) {
  const sorted = [...values.keys()].sort((one, other) => values[one] - values[other] || one - other);
  const distinct = [...new Set(values)].filter((cost) => cost > 0).sort((one, other) => one - other);
  if (distinct.length <= RAMP.length) {
    const colourOf = (i) => Math.round((i * (RAMP.length - 1)) / Math.max(1, distinct.length - 1));
    const ticks = distinct.map((cost, i) => [`cost ${shownNumber(cost, unit)}`, RAMP[colourOf(i)]]);
    return { values, sorted, ticks, classOf: (cost) => colourOf(distinct.indexOf(cost)) };
  }
  const top = values[sorted[Math.floor(0.95 * (sorted.length - 1))]] || distinct[distinct.length - 1];
  const ticks = RAMP.map((colour, i) => [i, colour]).filter(([i]) => i % 2 === 0).map(([i, colour]) => {
    const low = shownNumber(Math.round((top * i) / RAMP.length), unit).replace(/(\.\d{3})\d+$/, "$1");
    return [i === RAMP.length - 1 ? `cost ${low} and more` : `cost from ${low}`, colour];
  });
  const classOf = (cost) => Math.min(RAMP.length - 1, Math.floor((RAMP.length * cost) / top));
  return { values, sorted, ticks, classOf };
}

function fillNumbers(rows) {
  const parts = rows.flatMap(([name, value, look]) => {
    const [term, own] = [document.createElement("dt"), document.createElement("dd")];
    term.textContent = name;
    own.textContent = value;
    if (look) own.className = look;
    return [term, own];
  });
  id("numbers").replaceChildren(...parts);
}

function fillEntries(entries) {
  const list = id("entries");
  list.hidden = !entries.length;
  const shown = entries.slice(0, MOST_ENTRIES).map(([text, note], i) => {
    const own = document.createElement("li");
    own.id = `entry-${i}`;
    own.role = "option";
    own.ariaSelected = "false";
    const [left, right] = [document.createElement("span"), document.createElement("span")];
    left.textContent = text;
    right.textContent = note;
    own.append(left, right);
    return own;
  });
  if (entries.length > MOST_ENTRIES) {
    const more = document.createElement("li");
    more.role = "presentation";
    more.textContent = `and ${grouped(entries.length - MOST_ENTRIES)} more`;
    shown.push(more);
  }
  list.replaceChildren(...shown);
  list.removeAttribute("aria-activedescendant");
  list.scrollTop = 0;
}

let keptLegend = "";

function fillLegend(entries, key) {
  if (key === keptLegend) return;
  keptLegend = key;
  const parts = entries.map(({ text, sample }) => {
    const own = document.createElement("li"), canvas = document.createElement("canvas");
    const ratio = window.devicePixelRatio || 1;
    [canvas.width, canvas.height] = [26 * ratio, 16 * ratio];
    canvas.style.width = "26px";
    canvas.style.height = "16px";
    canvas.ariaHidden = "true";
    const pen = canvas.getContext("2d");
    pen.scale(ratio, ratio);
    sample(new Scene(pen, { x: 0, y: 0, scale: 30 }, [26, 16], { world: null }), 13, 8);
    own.append(canvas, text);
    return own;
  });
  id("legend").replaceChildren(...parts);
}
