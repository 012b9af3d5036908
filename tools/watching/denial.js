// The film of a denial: the first walk is led along its spokes, then the second, and their words are compared.

class DenialFilm {
  constructor(data) {
    Object.assign(this, data);
    this.judgeLabels();
    this.found = this.fault ? [] : data.walks.map((walk) => wordAlong(walk, this.spokesOf, data.places));
    this.darts = data.walks.flatMap((walk, w) => walk.slice(1).map((head, k) => ({ w, k, u: walk[k], v: head })));
    Object.assign(this, { frames: this.fault ? 0 : this.darts.length, unit: "darts", pace: 0.7, drawn: "" });
    this.steps = [...document.querySelectorAll("svg .step")].map((step) => this.stepOf(step));
    this.ends = [...document.querySelectorAll("svg .end")];
    this.space = new Space(document.getElementById("space"), Shape.of(data), data.view);
    this.ribbon = new Ribbon(this.space);
    this.space.listen();
    for (const id of ["open", "inspace"]) document.getElementById(id).addEventListener("click", () => this.look(id));
    this.list();
    const open = document.getElementById("open");
    open.hidden = !document.querySelector("#surface > svg");
    this.look(open.hidden ? "inspace" : "open");
  }

  // The spokes of the darts; or the rule of a good labelling that fails.
  judgeLabels() {
    const { faces, degree, rows, places } = this;
    try {
      this.spokesOf = checkLabelling(faces, edgesOf(faces), degree, rows, places);
    } catch (fault) {
      if (!(fault instanceof Fault)) throw fault;
      this.fault = labelFaultInWords(fault.message);
    }
  }

  spokes(u, v) {
    return this.fault ? [] : this.spokesOf.get(`${u} ${v}`);
  }

  // A part of a picture, and the frame behind which it is whole.
  stepOf(step) {
    const { walk, at } = step.dataset;
    const frame = Number(walk) * (this.walks[0].length - 1) + Number(at) + 1;
    return { step, frame, ways: [...step.querySelectorAll(".way")] };
  }

  look(id) {
    document.body.classList.toggle("inspace", id === "inspace");
    for (const name of ["open", "inspace"]) document.getElementById(name).setAttribute("aria-pressed", name === id);
    this.drawn = "";
  }

  // The darts of both walks with their spokes, in two lines.
  list() {
    for (const w of [0, 1]) {
      const line = document.getElementById(`walk${w}`);
      this.darts.forEach((dart, k) => {
        if (dart.w !== w) return;
        const chip = document.createElement("span"), spokes = this.spokes(dart.u, dart.v);
        chip.className = "chip";
        chip.dataset.frame = k + 1;
        chip.innerHTML = `<b>${dart.u} → ${dart.v}</b><i>${spokes.join(", ") || "–"}</i>`;
        line.append(chip);
      });
    }
    this.chips = [...document.querySelectorAll(".chip")];
  }

  // Shows a place of the film, and says how far it came: not past the end of a walk whose word is not the one printed.
  show(place) {
    const reached = Math.min(place, this.wrongAt()), state = [reached, this.space.isStale(), innerWidth, innerHeight].join();
    if (state === this.drawn) return reached;
    this.drawn = state;
    for (const { step, frame, ways } of this.steps) {
      const share = Math.min(1, Math.max(0, reached - frame + 1));
      step.style.display = share > 0 ? "" : "none";
      step.classList.toggle("now", share < 1 || frame === reached);
      for (const way of ways) way.style.strokeDasharray = share < 1 ? `${share} 1` : "";
    }
    const lasts = [this.walks[0].length - 1, this.frames];
    for (const end of this.ends) end.style.display = reached >= lasts[end.dataset.walk] ? "" : "none";
    this.tell(reached);
    if (document.body.classList.contains("inspace")) this.paint(reached);
    return reached;
  }

  // The frame at which the film stops, since a word is wrong there; or the last one.
  wrongAt() {
    if (this.fault) return 0;
    const ends = [this.walks[0].length - 1, this.frames];
    return ends.find((end, w) => !this.isPrinted(w)) ?? this.frames;
  }

  isPrinted(w) {
    return String(this.found[w]) === String(this.words[w]);
  }

  verdict(place) {
    if (this.fault) return ["wrong", `This is no denial: ${this.fault}.`];
    const first = this.walks[0].length - 1;
    if (place >= first && !this.isPrinted(0)) return ["wrong", `The first walk has not the word ${this.name(this.words[0])}.`];
    if (place < this.frames) return ["", "Each edge keeps one of the three rules. The walks are led along their spokes."];
    if (!this.isPrinted(1)) return ["wrong", `The second walk has not the word ${this.name(this.words[1])}.`];
    if (String(this.words[0]) === String(this.words[1])) return ["wrong", "The two words are equal: nothing is denied."];
    return ["right", "The words differ. No move changes a word, so no list of moves leads from the first walk to the second."];
  }

  name(word) {
    return this.degree === 4 ? `(${word.join(", ")})` : word.join(" ") || "empty";
  }

  tell(place) {
    const done = Math.ceil(place), dart = this.darts[done - 1];
    put("step", `Dart ${done} of ${this.frames}`);
    put("saying", dart ? this.inWords(dart) : "Both walks start at one vertex, with no spokes yet.");
    for (const w of [0, 1]) {
      const before = w ? this.walks[0].length - 1 : 0, k = Math.min(this.walks[w].length - 1, Math.max(0, Math.floor(place) - before));
      put(`word${w}`, this.fault ? "" : this.name(wordAlong(this.walks[w].slice(0, k + 1), this.spokesOf, this.places)));
    }
    const [state, verdict] = this.verdict(place), box = document.getElementById("verdict");
    put("verdict", verdict);
    box.className = state;
    document.body.classList.toggle("wrong", state === "wrong");
    document.body.classList.toggle("ended", place >= this.frames);
    for (const chip of this.chips) {
      const frame = Number(chip.dataset.frame);
      chip.classList.toggle("done", frame <= place);
      chip.classList.toggle("now", frame === done);
      if (frame === done && done !== this.last) chip.scrollIntoView({ block: "nearest" });
    }
    this.last = done;
  }

  inWords({ w, u, v }) {
    const spokes = this.spokes(u, v), walk = ["first", "second"][w];
    if (!spokes.length) return `The ${walk} walk goes from ${u} to ${v} along a tree edge: no spokes.`;
    const rule = ruleOf(...spokes, ...this.spokes(v, u), this.places, this.degree);
    return `The ${walk} walk goes from ${u} to ${v} along a ${rule} edge: in along spoke ${spokes[0]}, out along spoke ${spokes[1]}.`;
  }

  // The mesh in space, with both walks as far as they are led.
  paint(place) {
    const { space, ribbon } = this, pen = space.canvas.getContext("2d");
    space.paint();
    pen.clearRect(0, 0, space.canvas.width, space.canvas.height);
    const first = this.walks[0].length - 1, done = [Math.min(first, Math.ceil(place)), Math.max(0, Math.ceil(place) - first)];
    const parts = this.walks.map((walk, w) => walk.slice(0, done[w] + 1)), lanes = ribbon.lanes(...parts);
    parts.forEach((part, w) => {
      const colours = [["#1c6dd0"], ["#e07b00"]][w], places = ribbon.atRest(part, lanes[w]);
      ribbon.stroke(pen, places, { width: 4.5, colours, hidden: 0.55, dash: true });
      ribbon.heads(pen, places, colours);
    });
    ribbon.dot(pen, this.walks[0][0], "#1d2733", 6);
    space.number(pen);
  }

  turn(right, down) {
    this.space.turn(0.12 * right, 0.12 * down);
  }
}

const film = new DenialFilm(JSON.parse(document.getElementById("data").textContent));
const player = new Player(film);
