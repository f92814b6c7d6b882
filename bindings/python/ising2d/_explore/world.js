// An instance with where its parts lie, whatever its couplings.

class World {
  // `source` says how the instance came to be: a law and a seed, or a text.
  constructor(source, found) {
    const { instance, shape, unit } = found;
    this.source = source;
    this.instance = instance;
    this.unit = unit;
    this.kind = instance.kind;
    this.cols = instance.cols || 0;
    this.spins = shape.spins;
    this.ends = Uint32Array.from(shape.ends);
    this.bonds = shape.ends.length / 2;
    this.seam = new Set(shape.seam);
    this.period = shape.period;
    this.base = instance.kind === "general" ? instance.bonds.map((bond) => bond[2]) : instance.couplings;
    this.place(shape);
    this.cut(shape.faces);
    this.measure();
  }

  // The places of the spins, in units of a typical bond.
  place(shape) {
    const laid = shape.places ? { places: shape.places, bends: new Map() }
      : layOut(this.spins, this.ends, shape.faces);
    const lengths = [];
    for (let k = 0; k < this.bonds; k++) {
      const [from, to] = [laid.places[this.ends[2 * k]], laid.places[this.ends[2 * k + 1]]];
      lengths.push(Math.hypot(to[0] - from[0], to[1] - from[1]));
    }
    lengths.sort((a, b) => a - b);
    const unit = lengths[lengths.length >> 1] || 1;
    this.x = Float64Array.from(laid.places, (place) => place[0] / unit);
    this.y = Float64Array.from(laid.places, (place) => place[1] / unit);
    this.paths = Array.from({ length: this.bonds }, (_, k) => this.path(k, laid.bends.get(k), unit));
  }

  // The corners of a bond from its first end to its second: over the seam of a cylinder it goes on to where
  // the first column stands a second time.
  path(k, bend, unit) {
    const [u, v] = [this.ends[2 * k], this.ends[2 * k + 1]];
    const shift = this.period && this.x[v] < this.x[u] ? this.period : 0;
    const path = [this.x[u], this.y[u]];
    if (bend) path.push(bend[0] / unit, bend[1] / unit);
    path.push(this.x[v] + shift, this.y[v]);
    return path;
  }

  // Whether a bond is drawn a second time, in the second first column of a cylinder.
  isTwice(k) {
    return this.period > 0 && this.x[this.ends[2 * k]] === 0 && this.x[this.ends[2 * k + 1]] === 0;
  }

  // The faces: their darts, their corners, and whether they are enclosed; for each bond those beside it.
  cut(faces) {
    this.sides = new Int32Array(2 * this.bonds).fill(-1);
    this.faces = faces.map((darts, number) => {
      for (const dart of darts) this.sides[dart] = number;
      return { darts, ...this.corners(darts) };
    });
    const largest = this.faces.reduce((best, face) => (Math.abs(face.area) > Math.abs(best) ? face.area : best), 0);
    const turn = this.period ? Math.sign(this.faces.reduce((sum, face) => sum + face.area, 0)) : -Math.sign(largest);
    for (const face of this.faces) face.isInner = face.isClosed && face.area * turn > 1e-9;
  }

  // The way round a face, its area by the sense in which it is gone round, and its middle.
  corners(darts) {
    const points = [];
    let [x, y] = darts.length ? [this.x[this.ends[darts[0]]], this.y[this.ends[darts[0]]]] : [0, 0];
    for (const dart of darts) {
      const path = this.paths[dart >> 1], last = path.length - 2, isBack = dart & 1;
      for (let i = 0; i < last; i += 2) {
        points.push([x, y]);
        const [from, to] = isBack ? [last - i, last - i - 2] : [i, i + 2];
        x += path[to] - path[from];
        y += path[to + 1] - path[from + 1];
      }
    }
    const isClosed = points.length > 0 && Math.hypot(x - points[0][0], y - points[0][1]) < 1e-6;
    const shift = this.period && points.some((point) => point[0] < -1e-6) ? this.period : 0;
    for (const point of points) point[0] += shift;
    const area = isClosed ? areaOf(points) : 0;
    const middle = [0, 1].map((side) => points.reduce((sum, point) => sum + point[side], 0) / (points.length || 1));
    return { points, isClosed, area, middle };
  }

  measure() {
    const xs = [], ys = [];
    for (let spin = 0; spin < this.spins; spin++) {
      xs.push(this.x[spin]);
      ys.push(this.y[spin]);
    }
    for (const path of this.paths) {
      for (let i = 0; i < path.length; i += 2) {
        xs.push(path[i]);
        ys.push(path[i + 1]);
      }
    }
    const least = (values) => values.reduce((best, value) => Math.min(best, value), Infinity);
    const most = (values) => values.reduce((best, value) => Math.max(best, value), -Infinity);
    this.left = least(xs);
    this.top = least(ys);
    this.wide = most(xs) - this.left;
    this.high = most(ys) - this.top;
  }

  middle(k) {
    const path = this.paths[k];
    if (path.length > 4) return [path[2], path[3]];
    return [(path[0] + path[2]) / 2, (path[1] + path[3]) / 2];
  }

  // The middles of the enclosed faces beside a bond.
  beside(k) {
    return [2 * k, 2 * k + 1].map((dart) => this.faces[this.sides[dart]]).filter((face) => face && face.isInner);
  }

  spinName(spin) {
    return this.cols ? `(${Math.floor(spin / this.cols)}, ${spin % this.cols})` : `${spin}`;
  }

  bondName(k) {
    return `${this.spinName(this.ends[2 * k])} to ${this.spinName(this.ends[2 * k + 1])}`;
  }

  // The bond next to a place, and how far it is.
  nearest(x, y) {
    let best = -1, least = Infinity;
    for (let k = 0; k < this.bonds; k++) {
      const path = this.paths[k];
      let far = distance(path, x, y);
      if (this.isTwice(k)) far = Math.min(far, distance(path, x - this.period, y));
      if (far < least) [least, best] = [far, k];
    }
    return { bond: best, far: least };
  }

  // The next bond in a direction from one: near, and not too far aside.
  towards(k, right, down) {
    const [x, y] = k < 0 ? [this.left + this.wide / 2, this.top + this.high / 2] : this.middle(k);
    let best = k, least = Infinity;
    for (let other = 0; other < this.bonds; other++) {
      if (other === k) continue;
      const [otherX, otherY] = this.middle(other);
      const along = (otherX - x) * right + (otherY - y) * down;
      const aside = Math.abs((otherX - x) * down - (otherY - y) * right);
      if (k >= 0 && along < 0.05) continue;
      const far = Math.abs(along) + 2 * aside;
      if (far < least) [least, best] = [far, other];
    }
    return best;
  }

  // The bonds that the spins do not satisfy.
  brokenBy(couplings, spins) {
    const found = [];
    for (let k = 0; k < this.bonds; k++) {
      if (couplings[k] * spins[this.ends[2 * k]] * spins[this.ends[2 * k + 1]] < 0) found.push(k);
    }
    return found;
  }

  // The bonds whose ends are both among some spins.
  within(isAmong) {
    const found = [];
    for (let k = 0; k < this.bonds; k++) {
      if (isAmong(this.ends[2 * k]) && isAmong(this.ends[2 * k + 1])) found.push(k);
    }
    return found;
  }

  // The instance with these couplings, as the server reads it.
  withCouplings(couplings) {
    if (this.kind !== "general") return { ...this.instance, couplings };
    const bonds = this.instance.bonds.map(([u, v], k) => [u, v, couplings[k]]);
    return { ...this.instance, bonds };
  }
}

function areaOf(points) {
  let sum = 0;
  points.forEach(([x, y], i) => {
    const [nextX, nextY] = points[(i + 1) % points.length];
    sum += x * nextY - y * nextX;
  });
  return sum / 2;
}

function distance(path, x, y) {
  let least = Infinity;
  for (let i = 0; i + 3 < path.length; i += 2) {
    const [right, down] = [path[i + 2] - path[i], path[i + 3] - path[i + 1]];
    const square = right * right + down * down || 1;
    const part = Math.max(0, Math.min(1, ((x - path[i]) * right + (y - path[i + 1]) * down) / square));
    least = Math.min(least, Math.hypot(path[i] + part * right - x, path[i + 1] + part * down - y));
  }
  return least;
}
