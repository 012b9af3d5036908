// Two walks while they are drawn. A walk is the vertices that were set, its stops, with a way along edges from each to the next.

const MOST_STOPS = 60, NAMES = ["first", "second"];

class Walk {
  constructor(stops = [], ways = []) {
    Object.assign(this, { stops, ways });
  }

  // A walk by the numbers of its vertices: each is a stop, or of a long walk the two ends alone.
  static of(vertices) {
    if (vertices.length < 2) return new Walk([...vertices]);
    if (vertices.length > MOST_STOPS) return new Walk([vertices[0], vertices[vertices.length - 1]], [[...vertices]]);
    return new Walk([...vertices], vertices.slice(1).map((vertex, k) => [vertices[k], vertex]));
  }

  get start() {
    return this.stops[0];
  }

  get end() {
    return this.stops[this.stops.length - 1];
  }

  get darts() {
    return this.ways.reduce((sum, way) => sum + way.length - 1, 0);
  }

  isClosed() {
    return this.darts > 0 && this.start === this.end;
  }

  vertices() {
    const vertices = this.stops.slice(0, 1);
    for (const way of this.ways) for (let k = 1; k < way.length; k++) vertices.push(way[k]);
    return vertices;
  }
}

// What is drawn, with what was there before each change. `find` gives a promise of the way between two vertices, or of nothing.
class Drawing {
  constructor(find) {
    Object.assign(this, { find, walks: [new Walk(), new Walk()], current: 0, past: [], version: 0 });
  }

  get walk() {
    return this.walks[this.current];
  }

  set(number, walk) {
    this.past.push([...this.walks]);
    this.put(this.walks.map((old, k) => (k === number ? walk : old)));
  }

  put(walks) {
    this.walks = walks;
    this.version++;
  }

  undo() {
    const before = this.past.pop();
    if (before) this.put(before);
    return Boolean(before);
  }

  // Sets a vertex behind the end of the current walk. Gives what is to be said of it.
  async extend(vertex) {
    const number = this.current, walk = this.walks[number], name = NAMES[number];
    if (!walk.stops.length) {
      this.set(number, new Walk([vertex]));
      return `The ${name} walk starts at vertex ${vertex}.`;
    }
    if (walk.end === vertex) return `The ${name} walk stands at vertex ${vertex} already.`;
    const way = await this.find(walk.end, vertex);
    if (!way) return `No way along edges leads from vertex ${walk.end} to vertex ${vertex}: they lie in two components.`;
    const longer = new Walk([...walk.stops, vertex], [...walk.ways, way]);
    this.set(number, longer);
    const whole = `The ${name} walk has ${numberOf(longer.darts, "dart")} now`;
    return longer.isClosed() ? `The ${name} walk is closed, at vertex ${vertex}. ${whole}.` : `${whole}, and ends at vertex ${vertex}.`;
  }

  // Moves a stop of a walk to another vertex. Both ways beside it are found anew; nothing changes where there are none.
  async move(number, stop, vertex) {
    const walk = this.walks[number], { stops, ways } = walk, last = stops.length - 1;
    const before = stop > 0 ? await this.join(stops[stop - 1], vertex) : [];
    const behind = stop < last ? await this.join(vertex, stops[stop + 1]) : [];
    if (!before || !behind || this.walks[number] !== walk) return `Vertex ${vertex} lies in another component.`;
    const news = [stops.slice(), ways.slice()];
    news[0][stop] = vertex;
    if (stop > 0) news[1][stop - 1] = before;
    if (stop < last) news[1][stop] = behind;
    this.set(number, new Walk(...news));
    return `A stop of the ${NAMES[number]} walk is at vertex ${vertex} now.`;
  }

  async join(u, v) {
    return u === v ? [u] : this.find(u, v);
  }

  // A walk by numbers that were typed: neighbours that no edge joins are joined by a way. Gives what is to be said of it; nothing changes
  // where it is stopped before all ways are found.
  async type(number, vertices, isStopped = () => false) {
    const ways = [];
    let joined = 0;
    for (let k = 0; k + 1 < vertices.length; k++) {
      if (isStopped()) return "It was stopped, and the walk is as it was.";
      const way = await this.join(vertices[k], vertices[k + 1]);
      if (!way) return `No way along edges leads from vertex ${vertices[k]} to vertex ${vertices[k + 1]}: they lie in two components.`;
      joined += way.length > 2 ? 1 : 0;
      ways.push(way);
    }
    const stops = vertices.filter((vertex, k) => !k || vertex !== vertices[k - 1]);
    const walk = new Walk(stops, ways.filter((way) => way.length > 1));
    this.set(number, walk.stops.length > MOST_STOPS ? Walk.of(walk.vertices()) : walk);
    const gaps = joined ? ` Where no edge joins two vertices that stand side by side, a shortest way was put (${joined} times).` : "";
    return `The ${NAMES[number]} walk has ${numberOf(walk.darts, "dart")}.${gaps}`;
  }
}
