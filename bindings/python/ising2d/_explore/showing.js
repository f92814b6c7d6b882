// What is shown: the picture, and the numbers and lists beside it.

function shown() {
  const { world, couplings, answer, view, droplet } = app;
  const isShown = (name) => [name, id(`show-${name}`).checked];
  const shows = Object.fromEntries(["spins", "faces", "broken", "sizes"].map(isShown));
  const found = { world, couplings, shows, typical: app.typical, spins: answer && answer.spins };
  found.selected = app.selected;
  if (view === "costs" && app.costs) found.costs = app.costs;
  if (view === "clusters" && app.clusters) found.clusters = app.clusters;
  if (view === "wall" && app.wall) found.wall = app.wall.bonds;
  if (app.proof && app.proof.kind === view) Object.assign(found, shownProof());
  if (droplet) {
    found.droplet = { turned: droplet.turned, border: droplet.border, title: "the droplet: spins that flip" };
  } else if (view === "ground" && app.turned && app.turned.size) {
    found.droplet = { turned: app.turned, title: "differs from the state before" };
  }
  return found;
}

function shownProof() {
  const { share, marked } = app.proof.upTo(app.steps), place = app.pointed >= 0 ? app.pointed : app.steps - 1;
  const found = { share, marked: app.steps < app.proof.entries.length || app.pointed < 0 ? marked : [] };
  if (app.steps === app.proof.entries.length && app.pointed < 0) found.marked = [];
  if (app.proof.kind === "nest") {
    found.regions = regionsUpTo(app.world, app.proof, app.steps);
    found.regions.labels.forEach((radius, face, all) => all.set(face, quarter(radius)));
  }
  const entry = app.proof.entries[place];
  if (entry && (app.pointed >= 0 || app.steps < app.proof.entries.length)) {
    const isLoop = app.proof.kind === "loops";
    const title = isLoop ? `loop of weight ${own(entry.weight)}` : `region of radius ${quarter(entry.weight)}`;
    found.entry = { ...entry, title };
  }
  return found;
}

const quarter = (radius) => own(radius / 4);

function show() {
  showTitle();
  showNumbers();
  showBond();
  showPanel();
  showHistory();
  paint();
  keepLink();
}

function paint() {
  const canvas = id("picture"), ratio = window.devicePixelRatio || 1;
  const box = [canvas.clientWidth, canvas.clientHeight];
  if (canvas.width !== Math.round(box[0] * ratio) || canvas.height !== Math.round(box[1] * ratio)) {
    [canvas.width, canvas.height] = box.map((side) => Math.round(side * ratio));
  }
  if (!app.world) return;
  if (app.frame.isFitted) fitFrame(box);
  const pen = canvas.getContext("2d");
  pen.setTransform(ratio, 0, 0, ratio, 0, 0);
  pen.clearRect(0, 0, ...box);
  const entries = new Scene(pen, app.frame, box, shown()).draw();
  fillLegend(entries, [app.view, app.frame.scale >= FINE, ...entries.map(({ text }) => text)].join("|"));
  canvas.dataset.frame = [app.frame.scale, app.frame.x, app.frame.y].join();
  if (app.clicked) {
    const taken = performance.now() - app.clicked;
    app.clicked = 0;
    canvas.dataset.taken = taken.toFixed(1);
    say(changeText(taken));
  }
}

function changeText(taken) {
  const { answer } = app, step = answer.before === null ? 0 : answer.energy - answer.before;
  const sign = step > 0 ? "+" : "";
  const times = `Solved in ${(1000 * answer.seconds).toFixed(1)} ms, drawn after ${taken.toFixed(0)} ms.`;
  return `Energy ${sign}${own(step)}; ${grouped(app.turned.size)} spins differ. ${times}`;
}

function showTitle() {
  const { world, edits } = app, { source } = world;
  const parts = [];
  if (source.law) {
    const law = SHARED.includes(source.law) ? `${LAWS[source.law]} ${source.share / 1000}` : LAWS[source.law];
    parts.push(`${KINDS[source.kind]} ${source.rows} × ${source.cols}`, `${law}, seed ${source.seed}`);
  } else {
    parts.push(source.name, `${grouped(world.spins)} spins`);
  }
  parts.push(`${grouped(world.bonds)} bonds`);
  if (edits.size) parts.push(`${edits.size} changed`);
  id("title").textContent = parts.join(" · ");
  id("picture").ariaLabel = `${parts.join(", ")}. Ground state energy ${own(app.answer.energy)}.`;
}

function showNumbers() {
  const { answer, world } = app;
  const rows = [["Energy", own(answer.energy), "large"]];
  if (world.unit > 1) rows.push(["in 2⁻²⁰", grouped(answer.energy)]);
  rows.push(
    ["per spin", (answer.energy / world.unit / world.spins).toFixed(4).replace("-", "−")],
    ["sum of sizes", own(answer.total)],
    ["broken bonds", `${grouped(answer.broken.length)} of ${grouped(world.bonds)}`],
    ["their weight", own(answer.weight)],
  );
  fillNumbers(rows);
  const verdict = answer.verdicts[answer.verdicts.length - 1], name = verdict.of === "nest" ? "nest" : "loops";
  id("verdict").textContent = `Checked (${name}): ${verdict.sentence}.`;
  id("verdict").classList.toggle("fails", !answer.verdicts.every((each) => each.holds));
}

function bondText() {
  const { world, selected, couplings, answer, droplet } = app;
  if (selected < 0) return "Point at a bond, or go to one with the arrow keys.";
  const j = couplings[selected], spins = answer.spins;
  const product = spins[world.ends[2 * selected]] * spins[world.ends[2 * selected + 1]];
  const state = j === 0 ? "free" : j * product < 0 ? "broken" : "satisfied";
  const alike = product > 0 ? "equal" : "opposite";
  let text = `Bond ${selected}, ${world.bondName(selected)}: coupling ${own(j)}, spins ${alike}, ${state}.`;
  if (app.edits.has(selected)) text += ` Drawn as ${own(world.base[selected])}.`;
  if (app.costs) text += ` Flipping it costs ${own(app.costs.values[selected])}.`;
  if (world.seam.has(selected)) text += " It is in the seam.";
  if (droplet && droplet.bond === selected) text += ` ${dropletText(product)}`;
  return text;
}

function dropletText(product) {
  const { cost, turned, border, verdict } = app.droplet, forced = product > 0 ? "opposite" : "equal";
  return [
    `Forced to be ${forced}, it costs ${own(cost)}: a droplet of ${grouped(turned.size)} spins flips,`,
    `and its boundary crosses ${border.length} bonds.`,
    verdict.holds ? "Checked: no state with this bond flipped costs less." : "The proof of this state fails.",
  ].join(" ");
}

function showBond() {
  id("bond-text").textContent = bondText();
  for (const name of ["bond-flip", "bond-force", "bond-set"]) id(name).disabled = app.selected < 0;
}

function showHistory() {
  id("undo").disabled = !app.past.length;
  id("redo").disabled = !app.future.length;
  document.querySelector('[name="view"][value="wall"]').disabled = !app.world.seam.size;
}

// For each view the title, the text and the entries of what stands beside it.
const PANELS = {
  ground: () => ["What you see", TEXTS.ground, []],
  loops: () => {
    const entries = app.proof.entries.map(({ weight, note }, i) => [`${i + 1}. weight ${own(weight)}`, note]);
    return ["Loops, heaviest first", TEXTS.loops, entries];
  },
  nest: () => {
    const entries = app.proof.entries.map(({ weight, note }, i) => [`${i + 1}. radius ${quarter(weight)}`, note]);
    return ["Regions, inner ones first", TEXTS.nest, entries];
  },
  costs: () => {
    if (!app.costs) return ["Costs", isSmall() ? TEXTS.wait : TEXTS.large, []];
    const { values, sorted } = app.costs, loose = sorted.filter((k) => values[k] === 0).length;
    const text = `${grouped(loose)} of ${grouped(values.length)} bonds cost nothing: they are satisfied in one
      ground state and broken in another. The cheapest others:`;
    return ["Costs of flipping a bond", text, sorted.slice(loose).map((k) => [app.world.bondName(k), own(values[k])])];
  },
  clusters: () => {
    if (!app.clusters) return ["Rigid clusters", isSmall() ? TEXTS.wait : TEXTS.large, []];
    const { sorted, large } = app.clusters, others = sorted.filter(([, size]) => size > 1);
    const text = `Spins with fixed relative signs in all ground states: ${grouped(sorted.length)} clusters, of
      which ${grouped(sorted.length - others.length)} are single spins. The ${large.length} largest have a colour
      and a shape.`;
    const entries = others.map(([name, size]) => [`spin ${app.world.spinName(name)}`, `${grouped(size)} spins`]);
    return ["Rigid clusters", text, entries];
  },
  wall: () => {
    if (!app.wall) return ["Domain wall", app.world.seam.size ? TEXTS.wait : TEXTS.seam, []];
    const { periodic, antiperiodic, difference, bonds, verdicts } = app.wall;
    const text = `With the signs of the seam changed the least energy is ${own(antiperiodic)} instead of
      ${own(periodic)}: the wall costs ${own(difference)}, and crosses ${bonds.length} bonds.
      ${verdicts.every((each) => each.holds) ? "Both states are checked." : "A proof fails."}`;
    return ["Domain wall", text, bonds.map((k) => [app.world.bondName(k), own(app.couplings[k])])];
  },
};

const TEXTS = {
  ground: `A negative bond favours opposite spins. A face with an odd number of them is frustrated: every assignment
    breaks one of its bonds. Flip a sign, or force a bond, and see what follows.`,
  loops: `A loop has an odd number of negative bonds: every assignment breaks one of its bonds. No bond carries more
    than twice its size. So twice the weight of the broken bonds is at least that of all loops.`,
  nest: `A region holds an odd number of frustrated faces: broken bonds of every assignment lead out of it. Over a
    bond all regions together climb at most its size. So the broken bonds weigh at least as much as all radii.`,
  wait: "Computing.",
  seam: "Only a cylinder, or a graph with a seam, has a wall.",
  large: `Available up to ${COSTS_UP_TO} spins. Force a bond to see its cost.`,
};

function showPanel() {
  const isProof = app.view === "loops" || app.view === "nest";
  if (isProof && (!app.proof || app.proof.kind !== app.view)) {
    id("proof").hidden = true;
    id("panel-title").textContent = "Proof";
    id("panel-text").textContent = "No nest was found for this instance: see the loops.";
    return fillEntries([]);
  }
  const [title, text, entries] = PANELS[app.view]();
  id("panel-title").textContent = title;
  id("panel-text").textContent = text;
  fillEntries(entries);
  id("proof").hidden = !isProof;
  if (isProof) showSteps();
}

function showSteps() {
  const { proof, steps, answer } = app, { sum } = proof.upTo(steps), all = proof.entries.length;
  const slider = id("steps"), isNest = proof.kind === "nest", part = isNest ? 4 : 1;
  [slider.max, slider.value] = [all, steps];
  slider.ariaValueText = `${steps} of ${all}`;
  id("steps-label").textContent = `Add up: ${grouped(steps)} of ${grouped(all)} ${isNest ? "regions" : "loops"}`;
  id("sum-bar").firstElementChild.style.width = `${proof.target ? Math.min(100, (100 * sum) / proof.target) : 100}%`;
  const sizes = `energy + sizes = ${own(answer.energy)} + ${own(answer.total)}`;
  const total = isNest ? "the weight of the broken bonds" : sizes;
  const what = isNest ? "Radii" : "Weights";
  id("sum-text").textContent = sum === proof.target
    ? `${what}: ${own(sum / part)} = ${total}. No assignment has less energy.`
    : `${what}: ${own(sum / part)} of ${own(proof.target / part)}.`;
  [...id("entries").children].forEach((entry, i) => entry.classList.toggle("in", i < steps));
}

function step(to) {
  if (!app.proof) return;
  app.steps = Math.max(0, Math.min(app.proof.entries.length, to));
  point(-1);
  showSteps();
  keepLink();
}

// Points at an entry of the list.
function point(place) {
  app.pointed = place;
  for (const [i, entry] of [...id("entries").children].entries()) entry.ariaSelected = String(i === place);
  const entry = id(`entry-${place}`);
  if (entry) {
    id("entries").setAttribute("aria-activedescendant", entry.id);
    entry.scrollIntoView({ block: "nearest" });
    const bond = bondOfEntry(place);
    if (bond >= 0) app.selected = bond;
    showBond();
  }
  paint();
}

// The bond, or the bond at the spin, that an entry is of.
function bondOfEntry(place) {
  if (app.view === "costs" && app.costs) return app.costs.sorted.filter((k) => app.costs.values[k] !== 0)[place];
  if (app.view === "wall" && app.wall) return app.wall.bonds[place];
  return -1;
}

function select(bond) {
  app.selected = bond;
  showBond();
  paint();
  keepLink();
}

// The part of the picture that is seen.

function fitFrame(box) {
  const { world, frame } = app, margin = 26;
  const scale = Math.min((box[0] - 2 * margin) / (world.wide || 1), (box[1] - 2 * margin) / (world.high || 1), 90);
  frame.scale = Math.max(0.5, scale);
  frame.x = (box[0] - world.wide * frame.scale) / 2 - world.left * frame.scale;
  frame.y = (box[1] - world.high * frame.scale) / 2 - world.top * frame.scale;
}

function fit() {
  app.frame.isFitted = true;
  if (app.answer) paint();
}

function zoom(factor, x, y) {
  const { frame } = app, canvas = id("picture");
  const [atX, atY] = [x ?? canvas.clientWidth / 2, y ?? canvas.clientHeight / 2];
  const scale = Math.max(1, Math.min(200, frame.scale * factor));
  frame.x = atX - ((atX - frame.x) * scale) / frame.scale;
  frame.y = atY - ((atY - frame.y) * scale) / frame.scale;
  Object.assign(frame, { scale, isFitted: false });
  soon();
}

function move(right, down) {
  app.frame.x += right;
  app.frame.y += down;
  app.frame.isFitted = false;
  soon();
}

let isDue = false;
function soon() {
  if (isDue) return;
  isDue = true;
  requestAnimationFrame(() => {
    isDue = false;
    paint();
  });
}

// A bond that is gone to by keys is brought into the picture.
function reveal(bond) {
  const [x, y] = app.world.middle(bond), { frame } = app, canvas = id("picture");
  const [right, down] = [frame.x + x * frame.scale, frame.y + y * frame.scale];
  const inside = (value, size) => (value < 20 ? 20 - value : value > size - 20 ? size - 20 - value : 0);
  const [moveX, moveY] = [inside(right, canvas.clientWidth), inside(down, canvas.clientHeight)];
  if (moveX || moveY) move(moveX, moveY);
}
