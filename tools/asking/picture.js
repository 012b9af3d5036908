// What lies over the mesh: the walks, the vertices that were set, what is marked, and where the keys stand.

const WALK_COLOURS = ["#1c6dd0", "#e07b00"], FAULT = "#c92a2a", CURSOR = "#9c36b5";
// The faces of a chain by their numbers, below 0 and above, each from 1 to more.
const CHAIN_COLOURS = { above: ["#b2f2bb", "#51cf66", "#2b8a3e"], below: ["#fcc2d7", "#f06595", "#a61e4d"] };
// A longer walk is drawn by some of its vertices, while a large mesh is turned by fewer.
const MOST_DRAWN = 30000, MOST_DRAWN_ROUGHLY = 2000;
const NO_MARKS = { vertices: [], edges: [], chain: [], faces: [], numbers: [] };

class Picture {
  constructor(space) {
    Object.assign(this, { space, ribbon: new Ribbon(space), marks: NO_MARKS, version: 0, drawn: "" });
    Object.assign(this, { cursor: null, hover: null, dragged: null });
  }

  // Marks vertices, edges, the faces of a chain and the edges of a cocycle with their numbers, or an odd chain of faces.
  mark(marks) {
    this.marks = { ...NO_MARKS, ...marks };
    this.version++;
  }

  // Paints what has changed.
  paint(drawing) {
    const { space, cursor, hover, dragged } = this, { clientWidth, clientHeight } = space.canvas;
    const state = [drawing.version, drawing.current, cursor, hover, dragged?.vertex, this.version, clientWidth, clientHeight].join();
    if (state === this.drawn && !space.isStale()) return;
    this.drawn = state;
    space.paint();
    const pen = space.canvas.getContext("2d");
    pen.clearRect(0, 0, space.canvas.width, space.canvas.height);
    this.paintMarks(pen);
    this.paintWalks(pen, drawing);
    space.number(pen);
    this.paintCursor(pen, drawing);
  }

  paintWalks(pen, { walks, current, version }) {
    const { ribbon } = this;
    if (this.walksVersion !== version) {
      [this.walksVersion, this.parts] = [version, walks.map((walk) => Picture.thinned(walk.vertices(), MOST_DRAWN))];
      this.roughParts = this.parts.map((part) => Picture.thinned(part, MOST_DRAWN_ROUGHLY));
      this.lanes = this.parts.every((part) => part.length <= MOST_DARTS_IN_LANES) ? ribbon.lanes(...this.parts) : [];
    }
    const parts = this.space.rough ? this.roughParts : this.parts;
    for (const w of [1 - current, current]) {
      if (!walks[w].stops.length) continue;
      const colours = [WALK_COLOURS[w]], places = ribbon.atRest(parts[w], this.lanes[w]), isShort = parts[w].length <= MOST_DARTS_IN_LANES;
      ribbon.stroke(pen, places, { width: w === current ? 5 : 3.5, colours, hidden: 0.5, dash: isShort });
      if (isShort) ribbon.heads(pen, places, colours);
      walks[w].stops.forEach((vertex, k) => this.dot(pen, vertex, WALK_COLOURS[w], k ? 5 : 7));
    }
  }

  // A long walk by so many of its vertices, evenly.
  static thinned(walk, most) {
    const step = Math.ceil(walk.length / most);
    return step > 1 ? walk.filter((_, k) => k % step === 0 || k === walk.length - 1) : walk;
  }

  paintMarks(pen) {
    const { space, ribbon, marks } = this;
    for (const [face, colour] of marks.faces) space.glow(pen, face, colour);
    for (const [u, v, colour, width] of marks.edges) this.edge(pen, u, v, colour ?? FAULT, width ?? 6);
    if (marks.chain.length) this.paintChain(pen);
    for (const vertex of marks.vertices) {
      ribbon.dot(pen, vertex, FAULT, 9);
      this.name(pen, vertex, FAULT);
    }
    for (const [place, number] of marks.numbers) this.text(pen, ...this.middle(place), number, "#1d2733");
  }

  // The faces of an odd chain, from green to red, and a line through the middles of its edges.
  paintChain(pen) {
    const { space, marks: { chain } } = this, shades = Ribbon.blend("#51cf66", "#e03131", Math.max(2, chain.length));
    chain.forEach(([face], k) => space.glow(pen, face, shades[k]));
    pen.beginPath();
    [...chain, chain[0]].forEach(([, u, v], k) => {
      const [x, y] = this.middle([u, v]);
      if (k) pen.lineTo(x, y);
      else pen.moveTo(x, y);
    });
    pen.strokeStyle = FAULT;
    pen.lineWidth = 3 * space.scale;
    pen.stroke();
  }

  // Where the middle of some points is on the canvas; of two, that of the edge between them.
  middle(points) {
    const { x, y, shape } = this.space, curve = points.length === 2 ? shape.curve(...points) : points, half = curve.length / 2;
    const ends = points.length === 2 ? [curve[Math.ceil(half) - 1], curve[Math.floor(half)]] : points;
    return [x, y].map((list) => ends.reduce((sum, point) => sum + list[point], 0) / ends.length);
  }

  edge(pen, u, v, colour, width) {
    this.ribbon.stroke(pen, this.ribbon.atRest([u, v], [0, 0]), { width, colours: [colour], hidden: 0.5 });
  }

  dot(pen, vertex, colour, size) {
    const { space } = this;
    pen.globalAlpha = space.isSeen(space.x[vertex], space.y[vertex], space.z[vertex]) ? 1 : 0.45;
    this.ribbon.dot(pen, vertex, colour, size);
    pen.globalAlpha = 1;
  }

  text(pen, x, y, text, colour) {
    const { scale } = this.space;
    pen.font = `700 ${14 * scale}px system-ui, "DejaVu Sans", sans-serif`;
    [pen.textAlign, pen.textBaseline, pen.lineWidth] = ["center", "middle", 4 * scale];
    [pen.strokeStyle, pen.fillStyle] = ["rgba(255, 255, 255, 0.9)", colour];
    pen.strokeText(text, x, y);
    pen.fillText(text, x, y);
  }

  // The number of a vertex, beside it.
  name(pen, vertex, colour) {
    const { space } = this;
    if (space.shape.numbered.size && space.shape.numbered.size <= MOST_NUMBERED) return;
    this.text(pen, space.x[vertex], space.y[vertex] - 20 * space.scale, vertex, colour);
  }

  // Where the keys stand, the vertex that a click would set, and where a stop is dragged to.
  paintCursor(pen, drawing) {
    const { cursor, hover, dragged } = this;
    if (dragged) this.dot(pen, dragged.vertex, WALK_COLOURS[dragged.walk], 9);
    const shown = dragged?.vertex ?? hover ?? cursor;
    if (shown !== null) this.name(pen, shown, "#1d2733");
    else if (drawing.walk.stops.length) this.name(pen, drawing.walk.end, WALK_COLOURS[drawing.current]);
    if (hover !== null && !dragged) this.ring(pen, hover, WALK_COLOURS[drawing.current], 9);
    if (cursor !== null) this.ring(pen, cursor, CURSOR, 12);
  }

  ring(pen, vertex, colour, size) {
    const { space } = this;
    pen.beginPath();
    pen.arc(space.x[vertex], space.y[vertex], size * space.scale, 0, 2 * Math.PI);
    [pen.strokeStyle, pen.lineWidth] = [colour, 3 * space.scale];
    pen.stroke();
  }

  // The faces of a chain in the colours of their numbers.
  static chainFaces(entries) {
    return entries.map(([face, number]) => {
      const shades = CHAIN_COLOURS[number > 0 ? "above" : "below"];
      return [face, shades[Math.min(Math.abs(number), shades.length) - 1]];
    });
  }
}
