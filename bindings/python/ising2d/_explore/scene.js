// What is drawn, from the back to the front, with a pen that is a canvas or writes SVG. The colours are those
// of Okabe and Ito, as in the package's pictures; what a colour tells apart a form tells apart as well.

const BLUE = "#0072B2", GREEN = "#009E73", PURPLE = "#CC79A7", SKY = "#56B4E9", ORANGE = "#E69F00";
const RED = "#D55E00", YELLOW = "#F0E442", GREY = "#999999", BLACK = "#222222", PALE = "#FBE8B6";
const CLUSTERS = [BLUE, ORANGE, GREEN, PURPLE, SKY, RED, YELLOW];
const FORMS = [
  null,
  [-0.8, -0.8, 0.8, -0.8, 0.8, 0.8, -0.8, 0.8],
  [0, -1, 0.95, 0.75, -0.95, 0.75],
  [0, -1.1, 1.1, 0, 0, 1.1, -1.1, 0],
  [0, 1, 0.95, -0.75, -0.95, -0.75],
  [-0.35, -1, 0.35, -1, 0.35, -0.35, 1, -0.35, 1, 0.35, 0.35, 0.35].concat(
    [0.35, 1, -0.35, 1, -0.35, 0.35, -1, 0.35, -1, -0.35, -0.35, -0.35]),
  [-1, 0, -0.5, -0.87, 0.5, -0.87, 1, 0, 0.5, 0.87, -0.5, 0.87],
];
// Dark where a bond costs little, light where it costs much.
const RAMP = ["#440154", "#453781", "#33638D", "#238A8D", "#20A386", "#55C667", "#A8DB34"];
const SIZES = [0.45, 0.8, 1.15, 1.5];
// Below so many pixels for a bond dashes and crosses are too small to be seen.
const FINE = 13;

class Scene {
  constructor(pen, view, box, shown) {
    Object.assign(this, { pen, view, box, shown, world: shown.world, cell: view.scale, entries: [] });
    this.line = Math.max(0.7, Math.min(2.6, this.cell * 0.045));
  }

  draw() {
    const { shown } = this;
    if (shown.regions) this.regions();
    if (shown.shows.faces) this.frustrated();
    if (shown.droplet) this.droplet();
    if (shown.share) this.shares();
    if (shown.costs) this.costs();
    this.bonds();
    if (shown.marked) this.marks();
    if (shown.entry) this.entry();
    if (shown.wall) this.crossing(shown.wall, BLUE, "the wall");
    if (shown.droplet && shown.droplet.border) this.crossing(shown.droplet.border, BLUE, "boundary of the droplet");
    if (shown.clusters) this.clusters();
    else if (shown.shows.spins && shown.spins) this.spins();
    if (shown.selected >= 0) this.selected();
    return this.entries;
  }

  // Where things are.

  px(x) {
    return this.view.x + x * this.view.scale;
  }

  py(y) {
    return this.view.y + y * this.view.scale;
  }

  isSeen(x, y) {
    const [right, down] = [this.px(x), this.py(y)], far = 2 * this.cell;
    return right > -far && down > -far && right < this.box[0] + far && down < this.box[1] + far;
  }

  trace(bonds) {
    const { pen, world } = this;
    pen.beginPath();
    for (const k of bonds) {
      this.traceOne(world.paths[k], 0);
      if (world.isTwice(k)) this.traceOne(world.paths[k], world.period);
    }
  }

  traceOne(path, shift) {
    if (!this.isSeen(path[0] + shift, path[1]) && !this.isSeen(path[2] + shift, path[3])) return;
    this.pen.moveTo(this.px(path[0] + shift), this.py(path[1]));
    for (let i = 2; i < path.length; i += 2) this.pen.lineTo(this.px(path[i] + shift), this.py(path[i + 1]));
  }

  polygon(points) {
    this.outline(points.map(([x, y]) => [this.px(x), this.py(y)]));
  }

  // A way round these places of the picture. (In a path of many, closePath takes most of the time.)
  outline(points) {
    points.forEach(([right, down], i) => (i ? this.pen.lineTo(right, down) : this.pen.moveTo(right, down)));
    this.pen.lineTo(...points[0]);
  }

  set(look) {
    const plain = { globalAlpha: 1, lineCap: "butt", lineJoin: "miter", lineWidth: 1, dash: [] };
    const { dash, ...own } = { ...plain, ...look };
    Object.assign(this.pen, own);
    this.pen.setLineDash(dash);
  }

  stroke(bonds, look) {
    if (!bonds.length) return;
    this.set(look);
    this.trace(bonds);
    this.pen.stroke();
  }

  // An entry of the legend: what draws its sample, round a place, and what it means.
  explain(text, sample) {
    this.entries.push({ text, sample });
  }

  // A sample that is a short line.
  ruled(...looks) {
    return (scene, x, y) => {
      for (const look of looks) {
        scene.set(look);
        scene.pen.beginPath();
        scene.pen.moveTo(x - 11, y);
        scene.pen.lineTo(x + 11, y);
        scene.pen.stroke();
      }
    };
  }

  // What is drawn.

  facesFilled(numbers, look) {
    this.set(look);
    this.pen.beginPath();
    for (const number of numbers) {
      const face = this.world.faces[number];
      if (face.isInner && this.isSeen(...face.middle)) this.polygon(face.points);
    }
    this.pen.fill();
  }

  boxed(look) {
    return (scene, x, y) => {
      scene.set(look);
      scene.pen.beginPath();
      scene.outline([[x - 9, y - 5], [x + 9, y - 5], [x + 9, y + 5], [x - 9, y + 5]]);
      scene.pen.fill();
    };
  }

  frustrated() {
    const { couplings, world } = this.shown;
    const odd = world.faces.map((face, number) => [face, number])
      .filter(([face]) => face.darts.reduce((sum, dart) => sum + (couplings[dart >> 1] < 0 ? 1 : 0), 0) % 2)
      .map(([, number]) => number);
    if (!odd.length) return;
    if (this.shown.regions) this.hearts(odd);
    else this.facesFilled(odd, { fillStyle: this.isFine() ? PALE : "#F5DA98" });
    this.explain("frustrated face", this.boxed({ fillStyle: this.isFine() ? PALE : "#F5DA98" }));
  }

  // Frustrated faces, drawn smaller, so that the regions are seen about them.
  hearts(numbers) {
    this.set({ fillStyle: PALE, strokeStyle: ORANGE, lineWidth: 1 });
    this.pen.beginPath();
    for (const number of numbers) {
      const { isInner, middle, points } = this.world.faces[number];
      if (!isInner || !this.isSeen(...middle)) continue;
      this.polygon(points.map((point) => point.map((value, side) => middle[side] + 0.5 * (value - middle[side]))));
    }
    this.pen.fill();
    if (this.cell >= FINE) this.pen.stroke();
  }

  // Faces by how many regions hold them.
  regions() {
    const { depths } = this.shown.regions;
    const most = depths.reduce((best, depth) => Math.max(best, depth), 0);
    const lookOf = (depth) => ({ fillStyle: SKY, globalAlpha: 0.14 + 0.13 * Math.min(depth, 5) });
    for (let depth = 1; depth <= Math.min(most, 5); depth++) {
      const own = [...depths.keys()].filter((face) => (depth === 5 ? depths[face] >= 5 : depths[face] === depth));
      this.facesFilled(own, lookOf(depth));
    }
    if (!most) return;
    this.explain("face in one region", this.boxed(lookOf(1)));
    if (most > 1) this.explain(`in ${most > 5 ? "5 or more" : most}, nested`, this.boxed(lookOf(most)));
    if (this.cell > 24) this.radii();
  }

  radii() {
    const { labels } = this.shown.regions;
    this.set({ fillStyle: "#00476E", font: `${Math.min(12, this.cell * 0.3)}px sans-serif`, textAlign: "center" });
    for (const [face, text] of labels) {
      const { isInner, middle } = this.world.faces[face];
      if (isInner && this.isSeen(...middle)) this.pen.fillText(text, this.px(middle[0]), this.py(middle[1]) + 4);
    }
  }

  // The spins that turn, as one blot.
  droplet() {
    const { turned, title } = this.shown.droplet, { world } = this;
    const look = { strokeStyle: SKY, globalAlpha: 0.4, lineCap: "round", lineJoin: "round" };
    this.set({ ...look, lineWidth: Math.max(3, 0.98 * this.cell) });
    this.trace(world.within((spin) => turned.has(spin)));
    for (const [x, y] of this.points(turned)) {
      this.pen.moveTo(this.px(x), this.py(y));
      this.pen.lineTo(this.px(x) + 0.1, this.py(y));
    }
    this.pen.stroke();
    this.explain(title, this.ruled({ ...look, lineCap: "butt", lineWidth: 11 }));
  }

  // The places of spins; of the first column of a cylinder also the second ones.
  points(spins) {
    const { world } = this, found = [];
    for (const spin of spins) {
      found.push([world.x[spin], world.y[spin]]);
      if (world.period && world.x[spin] === 0) found.push([world.period, world.y[spin]]);
    }
    return found.filter(([x, y]) => this.isSeen(x, y));
  }

  // How much of a bond the proof has used.
  shares() {
    const { share } = this.shown, full = [], parts = [[], [], []];
    share.forEach((part, k) => {
      if (part >= 1) full.push(k);
      else if (part > 0) parts[Math.min(2, Math.floor(3 * part))].push(k);
    });
    const wide = Math.max(3, Math.min(14, 0.34 * this.cell));
    const look = { strokeStyle: GREEN, globalAlpha: 0.55, lineCap: "round" };
    parts.forEach((own, i) => this.stroke(own, { ...look, lineWidth: wide * (0.28 + 0.24 * i) }));
    const looks = [{ strokeStyle: BLACK, lineWidth: wide + 1.6 }, { strokeStyle: "#7CCDB4", lineWidth: wide - 0.8 }];
    for (const own of looks) this.stroke(full, own);
    this.explain("room used, by width", this.ruled({ ...look, lineWidth: 6 }));
    this.explain("no room left", this.ruled({ ...looks[0], lineWidth: 9 }, { ...looks[1], lineWidth: 6.4 }));
  }

  // Bars over the bonds that the last step has filled.
  marks() {
    const { world } = this, arm = Math.max(4, 0.2 * this.cell);
    const look = { strokeStyle: BLACK, lineWidth: Math.max(2, 0.07 * this.cell) };
    this.set(look);
    this.pen.beginPath();
    for (const k of this.shown.marked) {
      const [x, y] = world.middle(k), path = world.paths[k], last = path.length - 2;
      const [right, down] = [path[last] - path[0], path[last + 1] - path[1]];
      const far = Math.hypot(right, down) || 1;
      for (const shift of world.isTwice(k) ? [0, world.period] : [0]) {
        const [middleX, middleY] = [this.px(x + shift), this.py(y)];
        this.pen.moveTo(middleX - (arm * down) / far, middleY + (arm * right) / far);
        this.pen.lineTo(middleX + (arm * down) / far, middleY - (arm * right) / far);
      }
    }
    this.pen.stroke();
    if (this.shown.marked.length) {
      this.explain("filled by this step", (scene, x, y) => {
        scene.set({ ...look, lineWidth: 2.5 });
        scene.pen.beginPath();
        scene.pen.moveTo(x, y - 6);
        scene.pen.lineTo(x, y + 6);
        scene.pen.stroke();
      });
    }
  }

  // The loop or the region that is pointed at.
  entry() {
    const { bonds, faces, title } = this.shown.entry;
    if (faces) this.facesFilled(faces, { fillStyle: PURPLE, globalAlpha: 0.3 });
    const look = { strokeStyle: "#A6427A", lineWidth: Math.max(2.2, 0.11 * this.cell), lineCap: "round" };
    this.stroke(bonds, look);
    this.explain(title, this.ruled({ ...look, lineWidth: 4 }));
  }

  costs() {
    const { values, classOf } = this.shown.costs;
    const wide = Math.max(2.5, Math.min(13, 0.32 * this.cell));
    const classes = RAMP.map(() => []), loose = [];
    values.forEach((cost, k) => {
      if (cost === 0) loose.push(k);
      else classes[classOf(cost)].push(k);
    });
    classes.forEach((own, i) => this.stroke(own, { strokeStyle: RAMP[i], lineWidth: wide, lineCap: "round" }));
    const [rim, core] = [{ strokeStyle: RAMP[0] }, { strokeStyle: "#FFFFFF" }];
    this.stroke(loose, { ...rim, lineWidth: wide });
    this.stroke(loose, { ...core, lineWidth: Math.max(1.2, wide - 3) });
    const sample = this.ruled({ ...rim, lineWidth: 8 }, { ...core, lineWidth: 4.5 });
    if (loose.length) this.explain("cost 0: not rigid", sample);
    for (const [text, colour] of this.shown.costs.ticks) {
      this.explain(text, this.ruled({ strokeStyle: colour, lineWidth: 8 }));
    }
  }

  bonds() {
    const { couplings, spins, world, shows } = this.shown;
    const positive = SIZES.map(() => []), negative = SIZES.map(() => []), none = [];
    const typical = shows.sizes ? this.shown.typical : 0;
    for (let k = 0; k < world.bonds; k++) {
      const j = couplings[k], size = typical ? Math.min(3, Math.floor((2.2 * Math.abs(j)) / typical)) : 2;
      if (j === 0) none.push(k);
      else (j > 0 ? positive : negative)[size].push(k);
    }
    const broken = shows.broken && spins ? world.brokenBy(couplings, spins) : [];
    // Where bonds have another colour the crosses alone tell which are broken.
    const isPlain = !this.shown.costs && !this.shown.share;
    const halo = { strokeStyle: RED, lineWidth: isPlain ? 4 * this.line : 0, globalAlpha: 0.45 };
    if (this.isFine() && isPlain) this.stroke(broken, halo);
    this.lines(positive, negative, none);
    if (this.isFine() && broken.length) this.crosses(broken, halo);
    if (!this.isFine() && isPlain && broken.length) this.crossing(broken, RED, "broken bond, crossed by a line", 0.3);
  }

  isFine() {
    return this.cell >= FINE;
  }

  // Couplings by sign and size. In small pictures those above 0 are left out.
  lines(positive, negative, none) {
    const isFine = this.isFine(), dash = isFine ? [2.4 * this.line + 1, 1.8 * this.line + 1] : [];
    const grey = { strokeStyle: GREY }, black = { strokeStyle: isFine ? BLACK : "#A9AEB3", dash };
    if (isFine) positive.forEach((own, i) => this.stroke(own, { ...grey, lineWidth: this.line * SIZES[i] }));
    negative.forEach((own, i) => this.stroke(own, { ...black, lineWidth: 1.3 * this.line * SIZES[i] }));
    this.stroke(none, { strokeStyle: GREY, lineWidth: 0.7, dash: [1, 3] });
    const below = { ...black, dash: isFine ? [5, 4] : [], lineWidth: isFine ? 2.2 : 1.2 };
    if (isFine && positive.flat().length) this.explain("coupling above 0", this.ruled({ ...grey, lineWidth: 2 }));
    if (negative.flat().length) this.explain(isFine ? "below 0" : "coupling below 0", this.ruled(below));
    if (none.length) this.explain("coupling 0", this.ruled({ strokeStyle: GREY, lineWidth: 1, dash: [1, 3] }));
  }

  crosses(broken, halo) {
    const look = { strokeStyle: RED, lineWidth: Math.max(1.2, 1.8 * this.line) }, arm = 0.12 * this.cell;
    this.set(look);
    this.pen.beginPath();
    for (const k of broken) {
      const [x, y] = this.world.middle(k);
      for (const shift of this.world.isTwice(k) ? [0, this.world.period] : [0]) {
        if (this.isSeen(x + shift, y)) this.cross(this.px(x + shift), this.py(y), arm);
      }
    }
    this.pen.stroke();
    this.explain("broken bond", (scene, x, y) => {
      if (halo.lineWidth) scene.ruled({ ...halo, lineWidth: 7 })(scene, x, y);
      scene.set({ ...look, lineWidth: 2 });
      scene.pen.beginPath();
      scene.cross(x, y, 4);
      scene.pen.stroke();
    });
  }

  cross(x, y, arm) {
    this.pen.moveTo(x - arm, y - arm);
    this.pen.lineTo(x + arm, y + arm);
    this.pen.moveTo(x - arm, y + arm);
    this.pen.lineTo(x + arm, y - arm);
  }

  // A line over bonds, from the middle of the face on one side of each to that on the other.
  crossing(bonds, colour, title, part = 0.11) {
    const { world, pen } = this;
    const look = { strokeStyle: colour, lineCap: "round", lineJoin: "round" };
    this.set({ ...look, lineWidth: Math.max(2, Math.min(5, part * this.cell)) });
    pen.beginPath();
    for (const k of bonds) {
      const [x, y] = world.middle(k), middles = world.beside(k).map((face) => face.middle);
      const groups = new Map();
      for (const middle of middles) {
        const shift = world.period && middle[0] - x > 1.5 ? world.period : 0;
        groups.set(shift, [...(groups.get(shift) || []), middle]);
      }
      if (!middles.length) groups.set(0, [this.asideOf(k)]);
      for (const [shift, own] of groups) this.over([x + shift, y], own);
    }
    pen.stroke();
    this.explain(title, this.ruled({ ...look, lineWidth: 3.5 }));
  }

  // Beside an outer face the line goes on a little.
  over([x, y], [first, second]) {
    const part = Math.min(1, 0.5 / (Math.hypot(x - first[0], y - first[1]) || 1));
    const last = second || [x + part * (x - first[0]), y + part * (y - first[1])];
    this.pen.moveTo(this.px(first[0]), this.py(first[1]));
    this.pen.lineTo(this.px(x), this.py(y));
    this.pen.lineTo(this.px(last[0]), this.py(last[1]));
  }

  asideOf(k) {
    const path = this.world.paths[k], last = path.length - 2, [x, y] = this.world.middle(k);
    return [x - (path[last + 1] - path[1]) / 2, y + (path[last] - path[0]) / 2];
  }

  dots(spins, radius, fill, ring) {
    this.set({ fillStyle: fill, strokeStyle: BLACK, lineWidth: Math.max(0.8, 0.8 * this.line) });
    this.pen.beginPath();
    for (const [x, y] of this.points(spins)) {
      this.pen.moveTo(this.px(x) + radius, this.py(y));
      this.pen.arc(this.px(x), this.py(y), radius, 0, 2 * Math.PI);
    }
    this.pen.fill();
    if (ring) this.pen.stroke();
  }

  dot(radius, fill, ring) {
    return (scene, x, y) => {
      scene.set({ fillStyle: fill, strokeStyle: BLACK, lineWidth: 1.4 });
      scene.pen.beginPath();
      scene.pen.moveTo(x + radius, y);
      scene.pen.arc(x, y, radius, 0, 2 * Math.PI);
      scene.pen.fill();
      if (ring) scene.pen.stroke();
    };
  }

  // In small pictures the spins that are 1 alone.
  spins() {
    const { spins } = this.shown, all = [...spins.keys()], up = all.filter((spin) => spins[spin] > 0);
    if (!this.isFine()) {
      this.dots(up, Math.max(0.7, 0.17 * this.cell), "#70767C", false);
      return this.explain("spin 1 (the others are −1)", this.dot(2.5, "#70767C", false));
    }
    const radius = Math.min(9, 0.17 * this.cell);
    this.dots(up, radius, BLACK, false);
    this.dots(all.filter((spin) => spins[spin] < 0), radius - 0.4, "#FFFFFF", true);
    this.explain("spin 1", this.dot(4.5, BLACK, false));
    return this.explain("spin −1", this.dot(4.2, "#FFFFFF", true));
  }

  clusters() {
    const { names, large } = this.shown.clusters, { world } = this;
    const placeOf = new Map(large.map(([name], i) => [name, i]));
    const rest = [...names.keys()].filter((spin) => !placeOf.has(names[spin]));
    large.forEach(([name, size], i) => {
      const look = { strokeStyle: CLUSTERS[i], globalAlpha: 0.45, lineWidth: 0.24 * this.cell, lineCap: "round" };
      this.stroke(world.within((spin) => names[spin] === name), look);
      const radius = Math.max(2, 0.2 * this.cell), own = [...names.keys()].filter((spin) => names[spin] === name);
      for (const [x, y] of this.points(own)) this.form(i, this.px(x), this.py(y), radius);
      this.explain(`cluster of ${size} spins`, (scene, x, y) => scene.form(i, x, y, 6));
    });
    this.dots(rest, Math.max(1, 0.09 * this.cell), GREY, false);
    if (rest.length) this.explain("spin of a smaller cluster", this.dot(3, GREY, false));
  }

  form(place, x, y, radius) {
    this.set({ fillStyle: CLUSTERS[place], strokeStyle: BLACK, lineWidth: Math.max(0.6, 0.6 * this.line) });
    this.pen.beginPath();
    const form = FORMS[place];
    if (!form) this.pen.arc(x, y, 0.9 * radius, 0, 2 * Math.PI);
    else {
      const corners = Array.from({ length: form.length / 2 }, (_, i) => form.slice(2 * i, 2 * i + 2));
      this.outline(corners.map(([right, down]) => [x + radius * right, y + radius * down]));
    }
    this.pen.fill();
    this.pen.stroke();
  }

  // The bond that is pointed at, in a capsule between its spins.
  selected() {
    const { selected: k, couplings, world } = this.shown, wide = Math.max(8, 0.26 * this.cell), j = couplings[k];
    const look = j < 0 ? { strokeStyle: BLACK, dash: [4, 3] } : { strokeStyle: j ? GREY : "#CCCCCC" };
    this.capsule(k, { strokeStyle: BLUE, lineWidth: wide + 4, lineCap: "round" });
    this.capsule(k, { strokeStyle: "#FFFFFF", lineWidth: wide, lineCap: "round" });
    this.capsule(k, { ...look, lineWidth: 2.2 });
    if (!this.isBroken(k)) return;
    this.set({ strokeStyle: RED, lineWidth: 2 });
    this.pen.beginPath();
    const [x, y] = world.middle(k);
    this.cross(this.px(x), this.py(y), Math.max(3, 0.1 * this.cell));
    this.pen.stroke();
  }

  capsule(k, look) {
    const path = this.world.paths[k], part = this.isFine() ? 0.3 : 0;
    const [right, down] = [path[2] - path[0], path[3] - path[1]], isBent = path.length > 4;
    const inner = [path[0] + part * right, path[1] + part * down, path[2] - part * right, path[3] - part * down];
    this.set(look);
    this.pen.beginPath();
    for (const shift of this.world.isTwice(k) ? [0, this.world.period] : [0]) this.traceOne(isBent ? path : inner, shift);
    this.pen.stroke();
  }

  isBroken(k) {
    const { spins, couplings, world } = this.shown;
    return spins && couplings[k] * spins[world.ends[2 * k]] * spins[world.ends[2 * k + 1]] < 0;
  }
}
