// The film of a list of moves. The judge goes along the list as the film plays, and back along it by the inverse moves.

const MOST_FRAMES = 2000, MOST_TOLD = 120, BUDGET = 12;
const COLOURS = { first: "#1c6dd0", second: "#e07b00", wrong: "#c92a2a", glow: "#ffd43b" };
const MOVING = Ribbon.blend("#0b1a30", "#0fbf8f", 16);

// The move that leads back.
function inverse(faces, move) {
  if (move.kind === "f") return { ...move, step: -move.step, taken: faces[move.face].length - move.taken };
  return { ...move, kind: move.kind === "+" ? "-" : "+" };
}

class MovesFilm {
  constructor(data) {
    Object.assign(this, { faces: data.faces, edges: edgesOf(data.faces) });
    this.space = new Space(document.getElementById("space"), Shape.of(data), data.view);
    this.ribbon = new Ribbon(this.space);
    this.space.paintOver = (pen) => this.paintBands(pen);
    [this.first, this.second] = data.walks;
    Object.assign(this, { lines: data.moves, peak: data.peak, walk: this.first, done: 0, refused: null, unit: "moves", pace: 0.8 });
    this.frames = Math.min(this.lines.length, MOST_FRAMES);
    this.isThinned = this.lines.length > this.frames;
    this.drawn = "";
    if (this.first.length > this.peak + 1) this.refused = { move: 0, reason: "peak" };
    if (this.isThinned) this.unit = "frames";
    this.space.listen();
  }

  // How many moves are done at a frame.
  movesAt(frame) {
    return this.frames ? Math.floor((frame * this.lines.length) / this.frames) : 0;
  }

  // Shows a place of the film, and says how far it came: not past a move that is refused.
  show(place) {
    const frame = Math.floor(place), wanted = this.movesAt(frame);
    this.judgeUpTo(wanted);
    let share = !this.isThinned && this.done === wanted ? place - frame : 0;
    const next = share > 0 ? this.judged(this.done) : null;
    if (next?.refused) [this.refused, share] = [{ move: this.done + 1, reason: next.refused }, 0];
    this.paint(share, next);
    return this.refused ? Math.min(place, (this.done * this.frames) / this.lines.length || 0) : place;
  }

  // What a move makes of the walk; or why it is refused.
  judged(move) {
    try {
      return make(this.faces, this.edges, this.walk, this.peak, moveOfLine(this.lines[move]));
    } catch (fault) {
      if (fault instanceof Fault) return { refused: fault.message };
      throw fault;
    }
  }

  // Makes moves, or takes them back, as far as there is time.
  judgeUpTo(wanted) {
    const until = performance.now() + BUDGET;
    if (wanted < this.done - wanted) Object.assign(this, { walk: this.first, done: 0 });
    while (this.done > wanted && performance.now() < until) {
      this.walk = make(this.faces, this.edges, this.walk, Infinity, inverse(this.faces, moveOfLine(this.lines[--this.done]))).walk;
    }
    while (this.done < wanted && performance.now() < until) {
      const after = this.judged(this.done);
      if (this.refused?.move === 0) return;
      if (after.refused) {
        this.refused = { move: this.done + 1, reason: after.refused };
        return;
      }
      this.walk = after.walk;
      this.done++;
    }
  }

  isSecond() {
    return this.walk.length === this.second.length && this.walk.every((vertex, k) => vertex === this.second[k]);
  }

  verdict() {
    if (this.refused?.move === 0) return ["wrong", "The first walk has more darts than the peak of the list."];
    if (this.refused) return ["wrong", `Move ${this.refused.move} is refused: ${REFUSALS[this.refused.reason]}.`];
    if (this.done < this.lines.length) return ["", this.done ? "Each move so far is allowed." : "No move is made yet."];
    if (!this.isSecond()) return ["wrong", "All moves are made, and the walk is not the second one."];
    return ["right", "The walk is the second walk, and each move was allowed."];
  }

  // The move before which the film stands and which is refused; 0 where the first walk is, and nothing at any other place.
  stopped() {
    return this.refused && this.done + 1 >= this.refused.move ? this.refused.move : null;
  }

  paint(share, next) {
    const move = share > 0 ? this.done + 1 : this.done, [state] = this.verdict();
    const look = [this.done, share, state, this.space.isStale(), innerWidth, innerHeight].join();
    if (look === this.drawn) return;
    this.drawn = look;
    this.space.paint();
    this.paintWalks(share, next);
    const telling = [this.done, share > 0, state].join();
    if (telling === this.told) return;
    this.told = telling;
    this.tell(move, share > 0 ? next : null);
  }

  // Both walks as bands on the mesh.
  paintBands(pen) {
    const { ribbon } = this, lanes = ribbon.lanes(this.first, this.second);
    [this.first, this.second].forEach((walk, w) => {
      const colours = [`${[COLOURS.first, COLOURS.second][w]}80`];
      ribbon.stroke(pen, ribbon.atRest(walk, lanes[w]), { width: 9, colours, hidden: 0.4 });
    });
  }

  paintWalks(share, next) {
    const { space, ribbon } = this, pen = space.canvas.getContext("2d");
    pen.clearRect(0, 0, space.canvas.width, space.canvas.height);
    const stopped = this.stopped(), shown = share > 0 || stopped > 0 ? moveOfLine(this.lines[this.done]) : null;
    if (shown?.kind === "f") space.glow(pen, shown.face, stopped ? "#ff8787" : COLOURS.glow);
    const slides = share > 0 && Math.max(this.walk.length, next.walk.length) <= MOST_DARTS_IN_LANES;
    const smooth = share * share * (3 - 2 * share);
    const places = slides ? ribbon.between(this.walk, next.walk, next, smooth) : ribbon.atRest(this.walk);
    const colours = stopped === null ? MOVING : [COLOURS.wrong], last = this.walk.length - 1;
    ribbon.stroke(pen, places, { width: 4.5, colours, hidden: 0.55, dash: true });
    if (last < MOST_DARTS_IN_LANES) ribbon.heads(pen, places, colours);
    ribbon.dot(pen, this.walk[last], colours[colours.length - 1], 6);
    ribbon.dot(pen, this.walk[0], colours[0], 6);
    space.number(pen);
  }

  tell(move, change) {
    const frame = this.frames && Math.floor((this.done * this.frames) / this.lines.length);
    const shown = this.stopped() ?? move, line = this.lines[shown - 1];
    put("step", `Move ${shown.toLocaleString("en")} of ${this.lines.length.toLocaleString("en")}`);
    put("frame", this.isThinned ? `Frame ${frame} of ${this.frames}` : "");
    put("saying", line ? moveInWords(moveOfLine(line)) : "the first walk");
    put("line", line ?? "");
    const [state, verdict] = this.verdict(), box = document.getElementById("verdict");
    put("verdict", verdict);
    box.className = state;
    document.body.classList.toggle("wrong", state === "wrong");
    put("darts", numberOf(this.walk.length - 1, "dart"));
    this.tellWalk(change);
  }

  // The vertices of the walk, with the part marked that a move takes out; of a long walk those round that part.
  tellWalk(change) {
    const [start, end] = change ? [change.at, change.at + change.part.length] : [0, 0];
    const from = this.walk.length > MOST_TOLD ? Math.max(0, start - MOST_TOLD / 2) : 0, to = Math.min(this.walk.length, from + MOST_TOLD);
    const words = (k, l) => this.walk.slice(k, Math.max(k, Math.min(l, to))).map((vertex) => `${vertex} `).join("");
    const marked = document.createElement("b");
    marked.textContent = words(start, end).trim();
    document.getElementById("walk").replaceChildren(from ? ".. " : "", words(from, start), ...(change ? [marked, " "] : []),
      words(Math.max(from, end), to), to < this.walk.length ? ".." : "");
  }

  turn(right, down) {
    this.space.turn(0.12 * right, 0.12 * down);
  }
}

const film = new MovesFilm(JSON.parse(document.getElementById("data").textContent));
const player = new Player(film);
