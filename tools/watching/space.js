// The mesh in space: turned, projected, and painted from the back to the front on a canvas of its own, over which that of the
// walks lies. A coarse map of the canvas has the patch that is in front at each place, and how far away it is: by it the walks
// know where they are hidden, and a large mesh is painted while it is turned.

const EYE = 4.2, DEPTH_CELL = 3, MOST_NUMBERED = 60, MOST_QUICK = 1500, MOST_FINE = 60000, MOST_NEAR = 12000, REST = 300;

// A turn about the upright axis, and then a tilt towards the eye.
function turned(azimuth, elevation) {
  const [ca, sa, ce, se] = [Math.cos(azimuth), Math.sin(azimuth), Math.cos(elevation), Math.sin(elevation)];
  return [ca, sa, 0, -sa * se, ca * se, ce, sa * ce, -ca * ce, se];
}

// A mesh as it is painted. Its points are three numbers each, and its patches rings of points, all in one row; patch k begins at
// starts[k]. Its edges are straight pieces, two points each. Where patch k is not face k, `pieces` has the patches of each face as rings;
// where edges are bent, `curves` has the points of each. `coarse` is a shape of fewer patches on the same points, if there is one.
class Shape {
  constructor({ points, corners, starts, edges = [], edgeCount = edges.length / 2, numbered = [], ...others }) {
    Object.assign(this, { points, corners, starts, edges, edgeCount, pieces: null, curves: null, coarse: null, ...others });
    this.numbered = new Set(numbered);
    this.size = starts.length - 1;
  }

  // The shape of a page's data, which is made of lists.
  static of(data) {
    const patches = data.surface ?? data.faces, starts = new Uint32Array(patches.length + 1);
    patches.forEach((patch, k) => (starts[k + 1] = starts[k] + patch.length));
    const edges = data.curves.flatMap(([u, v, ...inner]) => {
      const line = [u, ...inner, v];
      return line.slice(1).flatMap((point, k) => [line[k], point]);
    });
    return new Shape({
      points: Float32Array.from(data.points.flat()), corners: Uint32Array.from(patches.flat()), starts,
      edges: Uint32Array.from(edges), edgeCount: data.curves.length, pieces: data.pieces, numbered: data.faces.flat(),
      curves: new Map(data.curves.map((curve) => [`${curve[0]} ${curve[1]}`, curve])),
    });
  }

  patch(k) {
    return this.corners.subarray(this.starts[k], this.starts[k + 1]);
  }

  // The rings that cover a face.
  cover(face) {
    return this.pieces ? this.pieces[face] : [this.patch(face)];
  }

  // The points of the edge from one vertex to another.
  curve(u, v) {
    const [low, high, ...inner] = this.curves?.get(u < v ? `${u} ${v}` : `${v} ${u}`) ?? [Math.min(u, v), Math.max(u, v)];
    return u < v ? [low, ...inner, high] : [high, ...inner.reverse(), low];
  }
}

class Space {
  // The painter paints faces and edges on the canvas below; without one they are painted by a pen.
  constructor(canvas, shape, view, painter = new PenPainter()) {
    Object.assign(this, { canvas, shape, painter, curves: shape.curves, zoom: 1, mostZoom: 8, aside: [0, 0] });
    Object.assign(this, { depth: null, cell: DEPTH_CELL });
    [this.azimuth, this.elevation] = view.map((degrees) => (degrees * Math.PI) / 180);
    const count = shape.points.length / 3;
    [this.x, this.y, this.z] = [new Float32Array(count), new Float32Array(count), new Float32Array(count)];
    this.still = canvas.parentElement.insertBefore(document.createElement("canvas"), canvas);
    this.still.setAttribute("aria-hidden", "true");
    this.painter.start(this);
    this.stale = true;
    this.turnedAt = -REST;
  }

  // Dragging turns the mesh, and the wheel brings it nearer.
  listen() {
    const { canvas } = this;
    canvas.addEventListener("pointerdown", (event) => canvas.setPointerCapture(event.pointerId));
    canvas.addEventListener("pointermove", (event) => {
      if (event.buttons) this.turn(event.movementX * 0.008, event.movementY * 0.008);
    });
    canvas.addEventListener("wheel", (event) => {
      event.preventDefault();
      this.magnify(Math.exp(-event.deltaY * 0.001));
    }, { passive: false });
  }

  turn(right, down) {
    this.azimuth += right;
    this.elevation = Math.min(Math.PI / 2, Math.max(-Math.PI / 2, this.elevation + down));
    this.change();
  }

  // Brings the mesh nearer, or away; a place of the canvas, from its middle, stays where it is.
  magnify(factor, right = 0, down = 0) {
    const before = this.zoom;
    this.zoom = Math.min(this.mostZoom, Math.max(0.4, this.zoom * factor));
    const share = this.zoom / before;
    this.aside = [right + (this.aside[0] - right) * share, down + (this.aside[1] - down) * share];
    this.change();
  }

  // Moves the mesh over the canvas.
  shift(right, down) {
    this.aside = [this.aside[0] + right, this.aside[1] + down];
    this.change();
  }

  change() {
    this.stale = true;
    this.turnedAt = performance.now();
  }

  // Fits the canvas to its place on the page.
  fit() {
    const scale = window.devicePixelRatio || 1, box = this.canvas.getBoundingClientRect();
    const [width, height] = [Math.round(box.width * scale), Math.round(box.height * scale)];
    if (this.canvas.width === width && this.canvas.height === height) return;
    for (const canvas of [this.canvas, this.still]) Object.assign(canvas, { width, height });
    this.scale = scale;
    this.stale = true;
  }

  // How many points of the canvas a step aside takes at the distance 1 from the eye.
  reach() {
    return Math.min(this.canvas.width, this.canvas.height) * 0.46 * this.zoom * Math.sqrt(EYE * EYE - 1);
  }

  // Where each point is on the canvas, and how far from the eye.
  project() {
    const [a, b, c, d, e, f, g, h, i] = turned(this.azimuth, this.elevation), reach = this.reach();
    const { x, y, z, shape: { points } } = this, scale = this.scale || 1;
    const across = this.canvas.width / 2 + this.aside[0] * scale, down = this.canvas.height / 2 + this.aside[1] * scale;
    for (let k = 0, at = 0; k < x.length; k++, at += 3) {
      const px = points[at], py = points[at + 1], pz = points[at + 2], depth = EYE - (g * px + h * py + i * pz);
      x[k] = across + (reach * (a * px + b * py + c * pz)) / depth;
      y[k] = down - (reach * (d * px + e * py + f * pz)) / depth;
      z[k] = depth;
    }
    this.light = [a * -0.35 + d * 0.55 + g * 0.76, b * -0.35 + e * 0.55 + h * 0.76, c * -0.35 + f * 0.55 + i * 0.76];
  }

  // Paints all that stands still while a walk moves: the faces and the edges. A large mesh is painted roughly while it is turned,
  // and well when it comes to rest.
  paint() {
    this.fit();
    const moves = performance.now() < this.turnedAt + REST && this.shape.size > MOST_QUICK;
    if (!this.stale && (!this.rough || moves)) return;
    if (this.stale) this.project();
    const mapped = (moves && this.shape.coarse) || this.shape, cell = this.cellAt(moves);
    if (this.stale || this.mapped !== mapped || this.cell !== cell) this.depth = null;
    this.cell = cell;
    if (!this.depth && !(moves && this.painter.hidesByItself)) this.mapDepth(mapped);
    this.painter.paint(this, moves);
    [this.stale, this.rough] = [false, moves];
  }

  // How wide a cell of the map is: a very large mesh that is painted by cells has fine ones when it is at rest.
  cellAt(moves) {
    const isFine = !moves && this.shape.size > MOST_FINE && !this.painter.hidesByItself;
    return isFine ? Math.max(1, Math.round(this.scale)) : DEPTH_CELL;
  }

  // What a film paints on the mesh whenever that is painted.
  paintOver() {}

  // Whether something is to be painted anew.
  isStale() {
    return this.stale || (this.rough && performance.now() >= this.turnedAt + REST);
  }

  // A place on the way between two points: where it is on the canvas, and how far from the eye.
  spot(from, to, share) {
    const mix = (list) => list[from] + (list[to] - list[from]) * share;
    return [mix(this.x), mix(this.y), mix(this.z)];
  }

  // For each cell of the canvas the patch that is nearest to the eye there, and how far away it is.
  mapDepth(shape = this.shape) {
    const { cell } = this;
    this.mapped = shape;
    this.across = Math.ceil(this.canvas.width / cell) + 2;
    this.down = Math.ceil(this.canvas.height / cell) + 2;
    this.depth = new Float32Array(this.across * this.down).fill(Infinity);
    this.front = new Int32Array(this.across * this.down).fill(-1);
    const { corners, starts, size } = shape;
    for (let k = 0; k < size; k++) {
      for (let j = starts[k] + 2; j < starts[k + 1]; j++) this.mapTriangle(k, corners[starts[k]], corners[j - 1], corners[j]);
    }
  }

  mapTriangle(patch, a, b, c) {
    const { cell } = this;
    const ax = this.x[a] / cell, ay = this.y[a] / cell, bx = this.x[b] / cell, by = this.y[b] / cell;
    const cx = this.x[c] / cell, cy = this.y[c] / cell, area = (bx - ax) * (cy - ay) - (by - ay) * (cx - ax);
    if (area === 0) return;
    const left = Math.max(0, Math.ceil(Math.min(ax, bx, cx))), right = Math.min(this.across - 1, Math.floor(Math.max(ax, bx, cx)));
    const top = Math.max(0, Math.ceil(Math.min(ay, by, cy))), bottom = Math.min(this.down - 1, Math.floor(Math.max(ay, by, cy)));
    const { z, depth, front } = this, rise = z[b] - z[a], slope = z[c] - z[a];
    for (let y = top; y <= bottom; y++) {
      for (let x = left; x <= right; x++) {
        const toB = ((x - ax) * (cy - ay) - (y - ay) * (cx - ax)) / area, toC = ((bx - ax) * (y - ay) - (by - ay) * (x - ax)) / area;
        if (toB < 0 || toC < 0 || toB + toC > 1) continue;
        const here = z[a] + toB * rise + toC * slope, place = y * this.across + x;
        if (here < depth[place]) [depth[place], front[place]] = [here, patch];
      }
    }
  }

  // Whether a place is on the side of the surface that looks at the eye: some cell about it has nothing well before it. While there
  // is no map all counts as seen.
  isSeen(x, y, depth) {
    if (!this.depth) return true;
    const column = Math.round(x / this.cell), row = Math.round(y / this.cell);
    if (column < 1 || row < 1 || column >= this.across - 1 || row >= this.down - 1) return true;
    for (let r = row - 1; r <= row + 1; r++) {
      for (let c = column - 1; c <= column + 1; c++) if (this.depth[r * this.across + c] > depth - 0.03) return true;
    }
    return false;
  }

  trace(pen, ring) {
    pen.moveTo(this.x[ring[0]], this.y[ring[0]]);
    for (let k = 1; k < ring.length; k++) pen.lineTo(this.x[ring[k]], this.y[ring[k]]);
    pen.closePath();
  }

  // A face in a colour, over what is painted.
  glow(pen, face, colour) {
    pen.fillStyle = colour;
    for (const seen of [false, true]) {
      pen.beginPath();
      for (const patch of this.shape.cover(face)) {
        if (patch.every((p) => this.isSeen(this.x[p], this.y[p], this.z[p])) === seen) this.trace(pen, patch);
      }
      pen.globalAlpha = seen ? 0.6 : 0.2;
      pen.fill();
    }
    pen.globalAlpha = 1;
  }

  // The numbers of the vertices, where they are few.
  number(pen) {
    if (this.shape.numbered.size > MOST_NUMBERED) return;
    pen.font = `600 ${13 * this.scale}px system-ui, "DejaVu Sans", sans-serif`;
    pen.textAlign = "center";
    pen.textBaseline = "middle";
    for (const vertex of this.shape.numbered) {
      const seen = this.isSeen(this.x[vertex], this.y[vertex], this.z[vertex]);
      const away = Math.hypot(this.x[vertex] - this.canvas.width / 2, this.y[vertex] - this.canvas.height / 2) || 1;
      const [dx, dy] = [(this.x[vertex] - this.canvas.width / 2) / away, (this.y[vertex] - this.canvas.height / 2) / away];
      if (!seen && this.shape.numbered.size > MOST_NUMBERED / 3) continue;
      pen.globalAlpha = seen ? 1 : 0.35;
      pen.lineWidth = 4 * this.scale;
      pen.strokeStyle = "rgba(255, 255, 255, 0.85)";
      pen.fillStyle = "#1d2733";
      const [x, y] = [this.x[vertex] + 15 * this.scale * dx, this.y[vertex] + 15 * this.scale * dy];
      pen.strokeText(vertex, x, y);
      pen.fillText(vertex, x, y);
    }
    pen.globalAlpha = 1;
  }
}

// Paints a mesh by the pen of a canvas: patch by patch from the back to the front, or a square for each cell of the map while the mesh
// is turned. Where it is very large, it is squares always, unless few patches are in front.
class PenPainter {
  start(space) {
    this.pen = space.still.getContext("2d");
  }

  paint(space, moves) {
    const { pen } = this;
    pen.clearRect(0, 0, space.still.width, space.still.height);
    if (moves) this.paintRoughly(space);
    else if (space.shape.size > MOST_FINE) this.paintNear(space);
    else {
      this.paintPatches(space, Uint32Array.from({ length: space.shape.size }, (_, k) => k));
      this.paintEdges(space);
    }
    space.paintOver(pen);
  }

  // Of a very large mesh what is in front: its patches with their outlines where these are few.
  paintNear(space) {
    const near = new Set(space.front);
    near.delete(-1);
    if (near.size > MOST_NEAR) return this.paintRoughly(space);
    this.paintPatches(space, Uint32Array.from(near));
    this.pen.beginPath();
    for (const k of near) space.trace(this.pen, space.shape.patch(k));
    return this.strokeEdges(space, true, true);
  }

  // The patches in front, a square for each cell of the map.
  paintRoughly(space) {
    const image = new ImageData(space.across, space.down), words = new Uint32Array(image.data.buffer), { front, cell } = space;
    for (let k = 0; k < words.length; k++) {
      if (front[k] < 0) continue;
      const [red, green, blue] = this.shade(space.mapped, space.light, front[k]);
      words[k] = (255 << 24) | (blue << 16) | (green << 8) | red;
    }
    this.draft ??= document.createElement("canvas");
    Object.assign(this.draft, { width: space.across, height: space.down });
    this.draft.getContext("2d").putImageData(image, 0, 0);
    this.pen.drawImage(this.draft, -cell / 2, -cell / 2, space.across * cell, space.down * cell);
  }

  // How red, green and blue a patch is, by the direction in which it looks. Directions are kept, once they are found.
  shade(shape, light, k) {
    const normals = (shape.normals ??= new Float32Array(3 * shape.size));
    if (!normals[3 * k] && !normals[3 * k + 1] && !normals[3 * k + 2]) normals.set(this.normal(shape, k), 3 * k);
    const bright = Math.abs(normals[3 * k] * light[0] + normals[3 * k + 1] * light[1] + normals[3 * k + 2] * light[2]);
    return [172 + 70 * bright, 186 + 60 * bright, 201 + 50 * bright];
  }

  // The direction in which a patch looks, before any turn.
  normal({ points, corners, starts }, k) {
    const sum = [0, 0, 0];
    for (let j = starts[k]; j < starts[k + 1]; j++) {
      const p = 3 * corners[j], q = 3 * corners[j + 1 < starts[k + 1] ? j + 1 : starts[k]];
      for (let i = 0; i < 3; i++) {
        const [next, last] = [(i + 1) % 3, (i + 2) % 3];
        sum[i] += points[p + next] * points[q + last] - points[p + last] * points[q + next];
      }
    }
    const size = Math.hypot(...sum) || 1;
    return sum.map((part) => part / size);
  }

  // Paints some patches, the farthest first.
  paintPatches(space, chosen) {
    const { pen } = this, { z, shape } = space, far = new Float32Array(shape.size);
    for (const k of chosen) far[k] = shape.patch(k).reduce((sum, point) => sum + z[point], 0) / shape.patch(k).length;
    const order = chosen.sort((p, q) => far[q] - far[p]);
    pen.lineWidth = 0.8;
    for (const k of order) {
      pen.fillStyle = pen.strokeStyle = `rgb(${this.shade(shape, space.light, k)})`;
      pen.beginPath();
      space.trace(pen, shape.patch(k));
      pen.fill();
      pen.stroke();
    }
  }

  paintEdges(space) {
    const { pen } = this, { x, y, shape: { edges, edgeCount } } = space, crowded = edgeCount > 1500;
    for (const seen of crowded ? [true] : [false, true]) {
      pen.beginPath();
      for (let k = 0; k < edges.length; k += 2) {
        const [from, to] = [edges[k], edges[k + 1]];
        if (space.isSeen(...space.spot(from, to, 0.5)) !== seen) continue;
        pen.moveTo(x[from], y[from]);
        pen.lineTo(x[to], y[to]);
      }
      this.strokeEdges(space, seen, crowded);
    }
  }

  strokeEdges(space, seen, crowded) {
    this.pen.strokeStyle = `rgba(60, 75, 92, ${seen ? (crowded ? 0.28 : 0.62) : 0.1})`;
    this.pen.lineWidth = (crowded ? 0.7 : 1.2) * space.scale;
    this.pen.stroke();
  }
}
