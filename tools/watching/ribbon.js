// A walk as a ribbon along the edges of the mesh. Where it passes an edge more than once, each pass has a lane of its own, and
// darts keep to the right, so that a spur can be seen.

const LANE = 6, MOST_DARTS_IN_LANES = 600, SAMPLE = 7, SLIDING = 48;

class Ribbon {
  // Places of the canvas are kept as x, y, depth.
  constructor(space) {
    this.space = space;
  }

  // For each dart of some walks how far it runs to the right of its edge, in lanes.
  lanes(...walks) {
    const passes = new Map(), lanes = walks.map((walk) => new Float32Array(walk.length));
    for (const [w, walk] of walks.entries()) {
      for (let k = 0; k + 1 < walk.length; k++) {
        const [u, v] = [walk[k], walk[k + 1]], key = u < v ? `${u} ${v}` : `${v} ${u}`;
        if (!passes.has(key)) passes.set(key, { forward: [], backward: [] });
        passes.get(key)[u < v ? "forward" : "backward"].push([w, k]);
      }
    }
    for (const { forward, backward } of passes.values()) {
      const middle = (forward.length + backward.length - 1) / 2;
      forward.forEach(([w, dart], k) => (lanes[w][dart] = backward.length + k - middle));
      backward.forEach(([w, dart], k) => (lanes[w][dart] = forward.length + k - middle));
    }
    return lanes;
  }

  // The places along a dart, moved to the right by some lanes: those inside, its ends drawn in, and the ends themselves.
  along(u, v, lane) {
    const { space } = this, curve = space.shape.curve(u, v), spots = [];
    for (let k = 0; k + 1 < curve.length; k++) {
      const [x0, y0] = space.spot(curve[k], curve[k + 1], 0), [x1, y1] = space.spot(curve[k], curve[k + 1], 1);
      const length = Math.hypot(x1 - x0, y1 - y0) || 1, aside = (lane * LANE * space.scale) / length;
      const count = Math.max(1, Math.round(length / (SAMPLE * space.scale)));
      for (let j = 0; j < count + (k + 2 === curve.length ? 1 : 0); j++) {
        const [x, y, z] = space.spot(curve[k], curve[k + 1], j / count);
        spots.push([x - (y1 - y0) * aside, y + (x1 - x0) * aside, z]);
      }
    }
    const drawnIn = Math.min(Math.round((10 * space.scale) / (SAMPLE * space.scale)), Math.floor((spots.length - 1) / 3));
    return { inner: spots.slice(drawnIn, spots.length - drawnIn), start: spots[0], end: spots[spots.length - 1] };
  }

  // The places along a walk, along its darts and round its corners; and for each dart, and behind the last one, at which place
  // the corner before it begins and ends.
  places(walk, lanes = this.lanes(walk)[0]) {
    const places = [this.spotOf(walk[0])], corners = [[0, 1]];
    for (let k = 0, before = null; k + 1 < walk.length; k++) {
      const dart = this.along(walk[k], walk[k + 1], lanes[k]);
      if (before) {
        const start = places.length;
        this.bend(places, before.end.map((x, i) => (x + dart.start[i]) / 2), dart.inner[0]);
        corners.push([start, places.length]);
      }
      places.push(...dart.inner);
      before = dart;
    }
    if (walk.length > 1) {
      places.push(this.spotOf(walk[walk.length - 1]));
      corners.push([places.length - 1, places.length]);
    }
    return { places, corners };
  }

  spotOf(vertex) {
    return [this.space.x[vertex], this.space.y[vertex], this.space.z[vertex]];
  }

  // The ribbon of a walk at rest, each place with a mark where it is seen. A long walk goes straight from vertex to vertex.
  atRest(walk, lanes) {
    return this.seen(walk.length > MOST_DARTS_IN_LANES ? walk.map((vertex) => this.spotOf(vertex)) : this.places(walk, lanes).places);
  }

  // The ribbon while a move takes one walk to another: the part slides over to the other part, and all else stays.
  between(walk, after, { at, part, other }, share) {
    const [b, a] = [this.places(walk), this.places(after)], mix = (p, q) => p.map((x, i) => x + (q[i] - x) * share);
    const [start, bEnd] = [b.corners[at][0], b.corners[at + part.length - 1][1]], aEnd = a.corners[at + other.length - 1][1];
    const from = Ribbon.evenly(b.places.slice(start, bEnd), SLIDING), to = Ribbon.evenly(a.places.slice(start, aEnd), SLIDING);
    const before = b.places.slice(0, start).map((place, k) => mix(place, a.places[k]));
    const behind = b.places.slice(bEnd).map((place, k) => mix(place, a.places[aEnd + k]));
    const sliding = from.map((place, k) => {
      const [x, y] = mix(place, to[k]);
      return [x, y, this.space.isSeen(...place) || this.space.isSeen(...to[k])];
    });
    return [...this.seen(before), ...sliding, ...this.seen(behind)];
  }

  // A corner, rounded off.
  bend(places, corner, to) {
    const from = places[places.length - 1];
    for (const t of [0.25, 0.5, 0.75]) {
      places.push([0, 1, 2].map((i) => (1 - t) * (1 - t) * from[i] + 2 * t * (1 - t) * corner[i] + t * t * to[i]));
    }
  }

  // A number of places evenly along some others.
  static evenly(places, count) {
    const lengths = [0];
    for (let k = 1; k < places.length; k++) {
      lengths.push(lengths[k - 1] + Math.hypot(places[k][0] - places[k - 1][0], places[k][1] - places[k - 1][1]));
    }
    const total = lengths[lengths.length - 1], even = [];
    for (let j = 0, k = 0; j < count; j++) {
      const wanted = (total * j) / (count - 1);
      while (k + 2 < places.length && lengths[k + 1] < wanted) k++;
      const next = places[Math.min(k + 1, places.length - 1)], step = lengths[Math.min(k + 1, places.length - 1)] - lengths[k];
      const share = step ? Math.min(1, (wanted - lengths[k]) / step) : 0;
      even.push(places[k].map((from, i) => from + (next[i] - from) * share));
    }
    return even;
  }

  // Places with a mark for those that are seen.
  seen(places) {
    return places.map(([x, y, z]) => [x, y, this.space.isSeen(x, y, z)]);
  }

  // Strokes what is seen of some places in one style, and what is hidden in another. Where there are colours, the ribbon goes
  // through all of them from its start to its end.
  stroke(pen, places, { width, colours, hidden, dash }) {
    pen.lineJoin = pen.lineCap = "round";
    for (const seen of [false, true]) {
      pen.globalAlpha = seen ? 1 : hidden;
      pen.lineWidth = (seen ? width : Math.min(width, 2.5)) * this.space.scale;
      pen.setLineDash(!seen && dash ? [5 * this.space.scale, 6 * this.space.scale] : []);
      for (let part = 0; part < colours.length; part++) {
        const from = Math.floor((part * (places.length - 1)) / colours.length);
        const to = Math.floor(((part + 1) * (places.length - 1)) / colours.length);
        pen.strokeStyle = colours[part];
        this.strokePart(pen, places, from, to, seen);
      }
    }
    pen.setLineDash([]);
    pen.globalAlpha = 1;
  }

  strokePart(pen, places, from, to, seen) {
    let goesOn = false, isEmpty = true;
    pen.beginPath();
    for (let k = from; k < to; k++) {
      const [p, q] = [places[k], places[k + 1]], fits = (p[2] && q[2]) === seen;
      if (fits && !goesOn) pen.moveTo(p[0], p[1]);
      if (fits) pen.lineTo(q[0], q[1]);
      goesOn = fits;
      isEmpty &&= !fits;
    }
    if (!isEmpty) pen.stroke();
  }

  // Small heads along a ribbon, which show the way it runs.
  heads(pen, places, colours) {
    const size = 6.5 * this.space.scale, apart = 64 * this.space.scale;
    let left = apart / 2;
    for (let k = 0; k + 1 < places.length; k++) {
      const [x, y, seen] = places[k], [dx, dy] = [places[k + 1][0] - x, places[k + 1][1] - y], step = Math.hypot(dx, dy);
      left -= step;
      if (left > 0 || step === 0) continue;
      left = apart;
      if (!seen) continue;
      const [ux, uy] = [(dx / step) * size, (dy / step) * size];
      pen.fillStyle = colours[Math.floor((k * colours.length) / places.length)];
      pen.beginPath();
      pen.moveTo(x + 1.3 * ux, y + 1.3 * uy);
      pen.lineTo(x - 0.7 * ux - uy, y - 0.7 * uy + ux);
      pen.lineTo(x - 0.7 * ux + uy, y - 0.7 * uy - ux);
      pen.fill();
    }
  }

  // Colours from one to another, in even steps.
  static blend(from, to, count) {
    const channels = (colour) => [1, 3, 5].map((k) => parseInt(colour.slice(k, k + 2), 16)), [one, two] = [channels(from), channels(to)];
    return Array.from({ length: count }, (_, k) => `rgb(${one.map((c, i) => Math.round(c + ((two[i] - c) * k) / (count - 1)))})`);
  }

  dot(pen, vertex, colour, size) {
    const { space } = this;
    pen.beginPath();
    pen.arc(space.x[vertex], space.y[vertex], size * space.scale, 0, 2 * Math.PI);
    pen.fillStyle = colour;
    pen.strokeStyle = "#fff";
    pen.lineWidth = 2 * space.scale;
    pen.fill();
    pen.stroke();
  }
}
