// The page: a mesh, two walks that are drawn on it, and what the proved program says of them. Nothing here decides anything.

const QUESTIONS = ["decide", "loops", "homology", "decide-open"];
const SHOWS = { decide: "certify", "decide-open": "certify-open" }, MOST_TOLD = 300, MOST_MARKED = 20000, MOST_NUMBERS = 80;
const BOUNDARY = "#0b7285", COCYCLE = "#9c36b5", PATIENCE = 700;
const NO_FILM = {
  loops: "The program prints nothing that shows this answer, so there is no film.",
  "decide-open": "Of walks that are different on a mesh with boundary the program prints nothing that shows it, so there is no film.",
};

const byId = (id) => document.getElementById(id);

// A mesh as the page needs it: which vertices faces name, and which are neighbours.
class Mesh {
  constructor({ corners, edges, sides, first, next }, isLaidOut) {
    Object.assign(this, { edges, sides, first, next, isLaidOut, used: new Set(corners) });
  }

  neighbours(vertex) {
    return this.next.subarray(this.first[vertex], this.first[vertex + 1]);
  }

  // Whether an edge joins two vertices. Neighbours stand in order.
  areJoined(u, v) {
    const { next } = this;
    let [from, to] = [this.first[u], this.first[u + 1]];
    while (from < to) {
      const middle = (from + to) >> 1;
      if (next[middle] === v) return true;
      if (next[middle] < v) from = middle + 1;
      else to = middle;
    }
    return false;
  }

  hasWalk(walk) {
    return walk.every((vertex, k) => this.used.has(vertex) && (!k || this.areJoined(vertex, walk[k - 1])));
  }

  // The edges with another number of sides than two: on the boundary, or on more than two faces. At most as many as are marked.
  uneven(isWanted) {
    const found = [];
    for (let k = 0; k < this.sides.length && found.length < MOST_MARKED; k++) {
      if (isWanted(this.sides[k])) found.push([this.edges[2 * k], this.edges[2 * k + 1]]);
    }
    return found;
  }
}

class Page {
  constructor(start) {
    Object.assign(this, { start, helper: new Helper(), own: {}, answer: null, jobs: [], changing: Promise.resolve() });
    this.drawing = new Drawing(async (from, to) => {
      if (this.mesh.areJoined(from, to)) return [from, to];
      const { way, milliseconds } = await this.helper.ask("way", { from, to });
      this.wayTook = milliseconds;
      return way;
    });
    put("title", `Two walks on ${start.name}`);
    document.title = `${start.name}: two walks`;
    this.tellMesh();
    this.listen();
  }

  // What the program said of the mesh.
  tellMesh() {
    const { surface, open, exercise } = this.start, isOpen = open?.line === "homotopic";
    const told = isOpen ? "A surface with boundary, orientable and in one piece." : (open ?? surface).sentence;
    put("what", told);
    byId("what").className = isOpen ? "yes" : (open ?? surface).tone;
    for (const id of isOpen ? ["decide-open"] : surface.tone === "yes" ? ["decide", "loops", "homology"] : []) byId(id).className = "fits";
    if (!exercise) return;
    byId("task").hidden = false;
    put("task-title", `Exercise ${exercise.number}: ${exercise.title}`);
    byId("task-text").replaceChildren(...exercise.text.map((text) => Object.assign(document.createElement("p"), { textContent: text })));
  }

  listen() {
    const on = (id, what, type = "click") => byId(id).addEventListener(type, what);
    for (const w of [0, 1]) {
      on(`walk${w}`, () => this.choose(w), "change");
      on(`numbers${w}`, () => this.type(w), "change");
    }
    on("undo", () => this.undo());
    on("close", () => this.close());
    on("clear", () => this.clear());
    for (const question of QUESTIONS) on(question, () => this.ask(question));
    on("play", () => this.play());
    on("save", () => this.save());
    on("stop", () => this.job()?.stop());
    on("film", () => this.filmIsThere(), "load");
    on("theatre", () => byId("film").removeAttribute("src"), "close");
  }

  // Reads the mesh and shows it.
  async open() {
    const bytes = await this.busy("The mesh file is read.", meshBytes((share) => (byId("progress").value = share)));
    const read = await this.busy("The mesh is made ready.", this.helper.ask("read", { bytes }, [bytes]));
    const scene = read.isPlaced ? null : await this.busy("The file has no coordinates: the mesh is laid out.", get("scene"));
    this.mesh = new Mesh(read, Boolean(scene?.pieces));
    if (scene?.left_out) return this.withoutPicture(scene.left_out);
    const shape = scene ? Shape.of(scene) : Page.shapeOf(read);
    if (scene) this.helper.ask("place", { points: shape.points });
    this.show(shape);
    if (scene) this.say(scene.told);
    return this.begin();
  }

  // The shape of a mesh with coordinates.
  static shapeOf(read) {
    const coarse = read.coarse && new Shape({ ...read.coarse, points: read.points });
    const { points, corners, starts, edges } = read;
    return new Shape({ points, corners, starts, edges, coarse, numbered: read.corners.length < 1000 ? read.corners : [] });
  }

  show(shape) {
    const painter = GlPainter.isThere() ? new GlPainter() : new PenPainter();
    this.space = new Space(byId("space"), shape, this.start.view, painter);
    this.space.mostZoom = Math.max(8, Math.sqrt(shape.size) / 8);
    this.picture = new Picture(this.space);
    this.picker = new Picker(this.space, this.mesh);
    this.hands = new Hands(this.picker, this.deeds());
    this.markMesh();
    const frame = () => {
      this.picture.paint(this.drawing);
      requestAnimationFrame(frame);
    };
    requestAnimationFrame(frame);
  }

  withoutPicture(why) {
    byId("nothing").hidden = false;
    put("nothing", why);
    byId("space").hidden = true;
    return this.begin();
  }

  async begin() {
    const { walks } = this.start;
    if (!walks.every((walk) => this.mesh.hasWalk(walk))) this.say("The walks of the file are not of this mesh, and are left out.");
    else for (const [w, walk] of walks.entries()) this.drawing.walks[w] = Walk.of(walk);
    this.drawing.version++;
    this.tell();
    document.body.dataset.ready = "yes";
  }

  // What hands and keys do.
  deeds() {
    const { drawing, picture } = this;
    return {
      drawing,
      click: (x, y) => this.click(x, y),
      hover: (vertex) => (picture.hover = vertex),
      drag: (stop) => (picture.dragged = stop),
      drop: (isUp) => this.drop(isUp),
      step: (right, down) => this.step(right, down),
      seek: (end) => this.seek(end),
      set: () => (picture.cursor === null ? this.step(0, 0) : this.extend(picture.cursor)),
      undo: () => this.undo(),
      close: () => this.close(),
      choose: (walk) => this.choose(walk),
    };
  }

  // One change of a walk after another, each said and shown. `stop` ends one that takes long.
  change(deed, stop = null) {
    this.changing = this.changing.then(() => this.busy("Ways are searched.", deed(), stop)).then((said) => {
      this.say(said);
      this.tell();
    }, (fault) => this.say(`That did not work: ${fault.message}.`));
    return this.changing;
  }

  click(x, y) {
    const vertex = this.picker.at(x, y), behind = vertex === null ? this.picker.behind(x, y) : null;
    if (vertex !== null) return this.extend(vertex);
    return this.say(behind === null ? "There is no vertex there: click nearer to one." : `Vertex ${behind} is behind: turn the mesh.`);
  }

  extend(vertex) {
    return this.change(() => this.drawing.extend(vertex));
  }

  drop(isUp) {
    const { walk, stop, vertex } = this.picture.dragged ?? {};
    this.picture.dragged = null;
    const isElsewhere = walk !== undefined && vertex !== this.drawing.walks[walk].stops[stop];
    if (isUp && isElsewhere) this.change(() => this.drawing.move(walk, stop, vertex));
  }

  undo() {
    return this.change(() => (this.drawing.undo() ? "The last change is taken back." : "There is nothing to take back."));
  }

  close() {
    const { walk } = this.drawing;
    if (!walk.stops.length) return this.say("The walk has no vertex yet.");
    return walk.isClosed() ? this.say("The walk is closed already.") : this.extend(walk.start);
  }

  clear() {
    const { current } = this.drawing;
    return this.change(() => (this.drawing.set(current, new Walk()), `The ${NAMES[current]} walk is empty.`));
  }

  choose(walk) {
    this.drawing.current = walk;
    byId(`walk${walk}`).checked = true;
    this.say(`Clicks go to the ${NAMES[walk]} walk.`);
  }

  // A walk by its numbers.
  type(number) {
    if (!this.mesh) return this.say("The mesh is not read yet.");
    const words = byId(`numbers${number}`).value.trim().split(/[\s,]+/).filter(Boolean), vertices = words.map(Number);
    const wrong = words.find((word, k) => !/^[0-9]+$/.test(word) || !this.mesh.used.has(vertices[k]));
    byId(`numbers${number}`).ariaInvalid = Boolean(wrong);
    if (wrong) return this.say(/^[0-9]+$/.test(wrong) ? `No face names the vertex ${wrong}.` : `"${wrong}" is no number of a vertex.`);
    let isStopped = false;
    return this.change(() => this.drawing.type(number, vertices, () => isStopped), () => (isStopped = true));
  }

  // The keys go to the neighbour in a direction, and say what is there.
  step(right, down) {
    const { picture, picker, space: { canvas } } = this, at = picture.cursor;
    const first = () => this.drawing.walk.end ?? picker.at(canvas.width / 2, canvas.height / 2) ?? picker.used[0];
    this.stand(at === null ? first() : picker.towards(at, right, down) ?? at);
  }

  // The keys go to an end of the first walk, where the second one is to start or to end.
  seek(end) {
    const vertex = this.drawing.walks[0][end];
    if (vertex === undefined) this.say("The first walk has no vertex yet.");
    else this.stand(vertex);
  }

  stand(vertex) {
    this.picture.cursor = vertex;
    this.picker.lookAt(vertex);
    const around = [...this.mesh.neighbours(vertex)].slice(0, 12).join(", ");
    this.say(`Vertex ${vertex}, with the neighbours ${around}. Enter sets it.`);
  }

  say(text) {
    put("said", text);
  }

  // The walks in numbers. What was answered is of the walks as they were.
  tell() {
    this.drawing.walks.forEach((walk, w) => {
      const vertices = walk.vertices();
      byId(`numbers${w}`).value = vertices.length > MOST_TOLD ? `${vertices.slice(0, MOST_TOLD).join(" ")} ..` : vertices.join(" ");
      byId(`numbers${w}`).readOnly = vertices.length > MOST_TOLD;
      byId(`numbers${w}`).title = vertices.length > MOST_TOLD ? "The walk is too long to be told here. Clear it to type another." : "";
      byId(`numbers${w}`).ariaInvalid = false;
      put(`darts${w}`, vertices.length ? `${walk.darts.toLocaleString("en")} dart${walk.darts === 1 ? "" : "s"}` : "");
    });
    if (!this.answer || this.answer.version === this.drawing.version) return;
    byId("answer").hidden = true;
    this.answer = null;
    this.mark({});
  }

  // What takes longer is told, with the seconds, and can be stopped where there is a way to.
  async busy(doing, promise, stop = null) {
    const job = { doing, stop, since: performance.now() }, timer = setInterval(() => this.tellJob(), 200);
    this.jobs.push(job);
    byId("progress").removeAttribute("value");
    try {
      return await promise;
    } finally {
      clearInterval(timer);
      this.jobs.splice(this.jobs.indexOf(job), 1);
      this.tellJob();
    }
  }

  // The job that is told: one that can be stopped, if there is one.
  job() {
    return this.jobs.find(({ stop }) => stop) ?? this.jobs[0];
  }

  tellJob() {
    const job = this.job(), passed = job ? performance.now() - job.since : 0;
    byId("busy").hidden = passed < PATIENCE;
    if (!job) return;
    put("doing", job.doing);
    put("seconds", `${Math.floor(passed / 1000)} s`);
    byId("stop").hidden = !job.stop;
  }

  async ask(question) {
    await this.changing;
    const wrong = [0, 1].find((w) => byId(`numbers${w}`).ariaInvalid === "true");
    if (wrong !== undefined) return this.type(wrong);
    const { walks, version } = this.drawing, empty = walks.findIndex((walk) => !walk.stops.length);
    if (empty >= 0) return this.say(`The ${NAMES[empty]} walk has no vertex yet.`);
    for (const id of QUESTIONS) byId(id).disabled = true;
    byId("answer").hidden = true;
    this.mark({});
    try {
      const answer = await this.run(question, walks), isAnswered = answer.tone !== "refused" && SHOWS[question];
      const shows = isAnswered ? await this.run(SHOWS[question], walks) : null;
      if (this.drawing.version !== version) this.say("The walks were changed meanwhile: ask again.");
      else {
        this.answer = { ...answer, shows, version };
        this.tellAnswer();
      }
    } catch (fault) {
      this.say(`There is no answer: ${fault.message}.`);
    }
    for (const id of QUESTIONS) byId(id).disabled = false;
    return byId(question).focus();
  }

  run(question, walks) {
    const ticket = crypto.randomUUID();
    const view = this.space ? [this.space.azimuth, this.space.elevation].map((angle) => Math.round((angle * 180) / Math.PI)) : null;
    const asked = post("ask", { question, walks: walks.map((walk) => walk.vertices()), ticket, view });
    return this.busy(`The program is at work (${question}).`, asked, () => post("stop", { ticket }));
  }

  tellAnswer() {
    const { answer } = this, { shows } = answer, film = shows?.film ? shows : null;
    put("sentence", answer.sentence);
    byId("sentence").className = answer.tone;
    put("more", this.tellShown(answer.shown));
    put("why", film || answer.tone === "refused" ? "" : this.noFilm(answer));
    put("line", answer.line);
    put("command", answer.command);
    byId("play").hidden = byId("tab").hidden = !film;
    byId("tab").href = film ? `film/${film.number}` : "";
    byId("save").hidden = answer.tone === "refused";
    byId("saved").hidden = true;
    byId("answer").hidden = false;
    byId("answer").scrollIntoView({ block: "nearest" });
    this.mark(this.marksOf(answer));
  }

  // Why an answer has no film.
  noFilm({ question, shows }) {
    if (shows?.tone !== "refused") return NO_FILM[question] ?? "";
    return shows.line ? shows.sentence : `There is no film, and the answer stands. ${shows.sentence}`;
  }

  // What a chain or a cocycle counts.
  tellShown(shown) {
    if (!shown) return "";
    const { kind, count, entries } = shown, isCut = count > entries.length;
    const rest = isCut ? ` The first ${entries.length.toLocaleString("en")} are shown.` : "";
    if (kind === "chain" && !count) return "The chain is empty: the walks run along each edge equally often.";
    if (kind === "chain") {
      return `The chain: ${numberOf(count, "face")} with a number that is not 0; green above 0, rose below, and darker for more.${rest}`;
    }
    const sums = this.drawing.walks.map((walk) => this.sum(entries, walk.vertices()));
    return `The cocycle: ${numberOf(count, "edge")} with a number that is not 0, each from the lower vertex to the higher.` +
      (rest || ` They add up to ${sums[0]} along the first walk, and to ${sums[1]} along the second.`);
  }

  // What the numbers of edges add up to along a walk.
  sum(entries, vertices) {
    const numbers = new Map(entries.map(([u, v, x]) => [`${u} ${v}`, x]));
    const along = (u, v) => (u < v ? numbers.get(`${u} ${v}`) ?? 0 : -(numbers.get(`${v} ${u}`) ?? 0));
    return vertices.slice(1).reduce((sum, vertex, k) => sum + along(vertices[k], vertex), 0);
  }

  marksOf({ marks, shown }) {
    if (!shown) return marks;
    const few = shown.count <= MOST_NUMBERS && this.space;
    if (shown.kind === "chain") {
      const numbers = few ? shown.entries.map(([face, x]) => [this.faceOf(face), x]) : [];
      return { faces: Picture.chainFaces(shown.entries), numbers };
    }
    return { edges: shown.entries.map(([u, v]) => [u, v, COCYCLE, 7]), numbers: few ? shown.entries.map(([u, v, x]) => [[u, v], x]) : [] };
  }

  // The points of a face's cover.
  faceOf(face) {
    return this.space.shape.cover(face).flatMap((ring) => [...ring]);
  }

  // What the mesh has by itself: its boundary, or what is wrong with it.
  markMesh() {
    const { surface, open } = this.start, isOpen = surface.marks.edges?.length;
    const boundary = isOpen ? this.mesh.uneven((sides) => sides === 1).map(([u, v]) => [u, v, BOUNDARY, 4]) : [];
    const crowded = isOpen ? this.mesh.uneven((sides) => sides > 2) : [];
    const faults = open?.tone === "refused" ? open.marks : open ? {} : surface.marks;
    this.own = { ...faults, edges: [...boundary, ...crowded, ...(faults.edges ?? [])] };
    const first = faults.vertices?.[0] ?? crowded[0]?.[0];
    this.mark({});
    if (first !== undefined) this.picker.lookAt(first);
  }

  // Marks what an answer names, beside what the mesh has by itself.
  mark(marks) {
    const both = (kind) => [...(this.own[kind] ?? []), ...(marks[kind] ?? [])];
    this.picture?.mark({ ...this.own, ...marks, edges: both("edges"), vertices: both("vertices") });
  }

  // Opens the film. Till it is made, that is told.
  play() {
    const since = performance.now();
    byId("film").src = `film/${this.answer.shows.number}`;
    byId("theatre").showModal();
    clearInterval(this.filming);
    this.filming = setInterval(() => {
      const passed = performance.now() - since;
      if (passed >= PATIENCE) put("filming", `The film is made. ${Math.floor(passed / 1000)} s`);
    }, 200);
  }

  // The keys go to the film, and Escape closes it from there too.
  filmIsThere() {
    clearInterval(this.filming);
    put("filming", "");
    if (!byId("theatre").open) return;
    const { contentWindow, contentDocument } = byId("film");
    contentDocument.getElementById("play")?.focus();
    contentWindow.addEventListener("keydown", ({ key }) => key === "Escape" && byId("theatre").close());
  }

  async save() {
    const { answer } = this, { number } = answer.shows?.film ? answer.shows : answer;
    try {
      const { files, commands } = await this.busy("The files are written.", post("save", { number }));
      put("saved", [...files.map((file) => `# ${file}`), ...commands].join("\n"));
    } catch (fault) {
      put("saved", `${fault.message}`);
    }
    byId("saved").hidden = false;
    byId("saved").scrollIntoView({ block: "nearest" });
  }
}

// The server is gone: what is drawn stays, and nothing can be asked.
function gone() {
  put("said", "tools/ask has ended. What you see stays, and nothing more can be asked.");
  for (const button of document.querySelectorAll("#questions button, #save, #play")) button.disabled = true;
}

let page = null;
stayAlive(gone);
get("start").then((start) => {
  page = new Page(start);
  return page.open();
}).catch((fault) => {
  byId("nothing").hidden = false;
  put("nothing", `The page cannot show the mesh: ${fault.message}.`);
});
