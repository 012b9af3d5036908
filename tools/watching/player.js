// Plays a film: slider, play, step, speed, and the keys. A film has frames, shows a place between two of them, and says how far it
// came: it stops where it is not to go on.

class Player {
  constructor(film) {
    Object.assign(this, { film, place: 0, playing: false, last: 0 });
    this.slider = document.getElementById("slider");
    this.pace = document.getElementById("pace");
    this.slider.max = film.frames;
    this.pace.value = Math.log2(Math.min(50, Math.max(film.pace, film.frames / 40)));
    const on = (id, what) => document.getElementById(id).addEventListener("click", what);
    on("play", () => this.toggle());
    on("start", () => this.jump(0));
    on("back", () => this.jump(Math.ceil(this.place) - 1));
    on("on", () => this.jump(Math.floor(this.place) + 1));
    on("end", () => this.jump(film.frames));
    this.slider.addEventListener("input", () => this.jump(Number(this.slider.value)));
    this.slider.addEventListener("pointerup", () => this.slider.blur());
    document.addEventListener("keydown", (event) => this.key(event));
    requestAnimationFrame((now) => this.tick(now));
  }

  key(event) {
    if (event.target.tagName === "INPUT" && event.key.startsWith("Arrow")) return;
    if (event.target.tagName === "BUTTON" && event.key === " ") return;
    const deeds = {
      " ": () => this.toggle(), ",": () => this.jump(Math.ceil(this.place) - 1), ".": () => this.jump(Math.floor(this.place) + 1),
      Home: () => this.jump(0), End: () => this.jump(this.film.frames), ArrowLeft: () => this.film.turn(-1, 0),
      ArrowRight: () => this.film.turn(1, 0), ArrowUp: () => this.film.turn(0, -1), ArrowDown: () => this.film.turn(0, 1),
    };
    if (!deeds[event.key] || event.ctrlKey || event.metaKey || event.altKey) return;
    event.preventDefault();
    deeds[event.key]();
  }

  toggle() {
    if (!this.playing && this.place >= this.film.frames) this.place = 0;
    this.playing = !this.playing;
  }

  jump(place) {
    this.playing = false;
    this.place = Math.min(this.film.frames, Math.max(0, place));
  }

  framesEachSecond() {
    return 2 ** Number(this.pace.value);
  }

  tick(now) {
    const passed = Math.min(0.1, (now - this.last) / 1000);
    this.last = now;
    if (this.playing) this.place = Math.min(this.film.frames, this.place + passed * this.framesEachSecond());
    const reached = this.film.show(this.place);
    if (reached < this.place) Object.assign(this, { place: reached, playing: false });
    if (this.place >= this.film.frames) this.playing = false;
    this.slider.value = this.place;
    put("play", this.playing ? "Pause" : "Play");
    put("told", `${this.framesEachSecond().toFixed(1)} ${this.film.unit} a second`);
    requestAnimationFrame((then) => this.tick(then));
  }
}
