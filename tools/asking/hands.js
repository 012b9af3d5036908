// What the mouse, a finger and the keys do to the mesh and the walks.

const CLICK_REACH = 40, STOP_REACH = 13, STILL = 5, MOST_LOOKED_AT = 20000;
const LOOKS_UP = [0, 0.6, -0.6, 1.2, -1.2], LOOKS_ROUND = 16;

// Which vertex of a mesh a place of the canvas means.
class Picker {
  constructor(space, mesh) {
    Object.assign(this, { space, mesh, used: [...mesh.used] });
  }

  // The vertex that is seen nearest to a place, within reach; nothing where there is none.
  at(x, y) {
    const { space, mesh } = this;
    space.paint();
    const few = this.used.length <= MOST_LOOKED_AT || mesh.isLaidOut ? this.used : this.corners(x, y);
    let [best, least] = [null, CLICK_REACH * space.scale];
    for (const vertex of few) {
      const away = Math.hypot(space.x[vertex] - x, space.y[vertex] - y);
      if (away < least && this.sees(vertex)) [best, least] = [vertex, away];
    }
    return best;
  }

  // The vertex with a number that is hidden behind a place, or nothing.
  behind(x, y) {
    const { space } = this, away = (vertex) => Math.hypot(space.x[vertex] - x, space.y[vertex] - y);
    const named = space.shape.numbered.size <= MOST_NUMBERED ? [...space.shape.numbered] : [];
    return named.find((vertex) => away(vertex) < 2 * STOP_REACH * space.scale && !this.sees(vertex)) ?? null;
  }

  // The corners of the faces that are in front about a place.
  corners(x, y) {
    const { space } = this, found = new Set(), [column, row] = [x, y].map((place) => Math.round(place / space.cell));
    if (!space.depth || space.mapped !== space.shape) space.mapDepth();
    for (let r = Math.max(0, row - 2); r <= Math.min(space.down - 1, row + 2); r++) {
      for (let c = Math.max(0, column - 2); c <= Math.min(space.across - 1, column + 2); c++) {
        const face = space.front[r * space.across + c];
        if (face >= 0) for (const corner of space.shape.patch(face)) found.add(corner);
      }
    }
    return found;
  }

  // The stop of a walk that is seen at a place: of the current walk first.
  stopAt(x, y, { walks, current }) {
    const { space } = this;
    for (const walk of [current, 1 - current]) {
      const isHere = (vertex) => Math.hypot(space.x[vertex] - x, space.y[vertex] - y) < STOP_REACH * space.scale;
      const stop = walks[walk].stops.findLastIndex((vertex) => isHere(vertex) && this.sees(vertex));
      if (stop >= 0) return { walk, stop, vertex: walks[walk].stops[stop] };
    }
    return null;
  }

  // The neighbour of a vertex that lies in a direction of the canvas, or nothing.
  towards(vertex, right, down) {
    const { space, mesh } = this;
    let [best, most] = [null, 0.25];
    for (const next of mesh.neighbours(vertex)) {
      const dx = space.x[next] - space.x[vertex], dy = space.y[next] - space.y[vertex];
      const along = (dx * right + dy * down) / (Math.hypot(dx, dy) || 1);
      if (along > most) [best, most] = [next, along];
    }
    return best;
  }

  // Turns the mesh so that a vertex is seen, where that can be, and moves it where the vertex lies beside the canvas.
  lookAt(vertex) {
    const { space } = this, { canvas, scale, x, y } = space, views = [...this.views(vertex), [space.azimuth, space.elevation]];
    for (let k = 0; !this.sees(vertex) && k < views.length; k++) {
      [space.azimuth, space.elevation] = views[k];
      space.change();
    }
    const isInside = x[vertex] > 0 && y[vertex] > 0 && x[vertex] < canvas.width && y[vertex] < canvas.height;
    if (!isInside) space.shift((canvas.width / 2 - x[vertex]) / scale, (canvas.height / 2 - y[vertex]) / scale);
  }

  // From where a vertex may be seen: from straight outside, and then from all around, the sides that are near first. Of a large mesh, which
  // takes long to be mapped, a few alone.
  views(vertex) {
    const { space } = this, [x, y, z] = space.shape.points.subarray(3 * vertex, 3 * vertex + 3);
    const outside = [Math.atan2(x, -y), Math.asin(Math.max(-1, Math.min(1, z / (Math.hypot(x, y, z) || 1))))];
    const around = LOOKS_UP.flatMap((up) => Array.from({ length: LOOKS_ROUND }, (_, k) => [(2 * Math.PI * k) / LOOKS_ROUND, up]));
    const away = ([azimuth, elevation]) => (1 - Math.cos(azimuth - space.azimuth)) + (elevation - space.elevation) ** 2;
    around.sort((one, two) => away(one) - away(two));
    return [outside, ...around.slice(0, space.shape.size > MOST_FINE ? 6 : around.length)];
  }

  sees(vertex) {
    const { space } = this;
    space.paint();
    if (!space.depth) space.mapDepth();
    return space.isSeen(space.x[vertex], space.y[vertex], space.z[vertex]);
  }
}

// `deeds` has what is done: click, hover, drag and drop of a stop, and what the keys stand for.
class Hands {
  constructor(picker, deeds) {
    Object.assign(this, { picker, space: picker.space, deeds, pointers: new Map(), held: null });
    const { canvas } = this.space, on = (type, what) => canvas.addEventListener(type, (event) => what(event));
    on("pointerdown", (event) => this.press(event));
    on("pointermove", (event) => this.move(event));
    on("pointerup", (event) => this.release(event, true));
    on("pointercancel", (event) => this.release(event, false));
    on("pointerleave", () => this.deeds.hover(null));
    on("contextmenu", (event) => event.preventDefault());
    canvas.addEventListener("wheel", (event) => this.roll(event), { passive: false });
    on("keydown", (event) => this.key(event));
  }

  // Where an event is on the canvas, in its own points.
  place(event) {
    const box = this.space.canvas.getBoundingClientRect();
    return [(event.clientX - box.left) * this.space.scale, (event.clientY - box.top) * this.space.scale];
  }

  // Where an event is, from the middle of the canvas, in points of the page.
  fromMiddle({ clientX, clientY }) {
    const box = this.space.canvas.getBoundingClientRect();
    return [clientX - box.left - box.width / 2, clientY - box.top - box.height / 2];
  }

  press(event) {
    this.space.canvas.setPointerCapture(event.pointerId);
    this.pointers.set(event.pointerId, event);
    const isOne = this.pointers.size === 1, mayDrag = isOne && event.button === 0;
    this.held = { from: event, moved: !isOne, stop: mayDrag ? this.picker.stopAt(...this.place(event), this.deeds.drawing) : null };
  }

  move(event) {
    const before = this.pointers.get(event.pointerId);
    if (!before) return this.deeds.hover(event.pointerType === "mouse" ? this.picker.at(...this.place(event)) : null);
    const [dx, dy] = [event.clientX - before.clientX, event.clientY - before.clientY];
    if (this.pointers.size === 2) this.pinch(event, before);
    this.pointers.set(event.pointerId, event);
    const { held } = this, { from } = held;
    held.moved ||= Math.hypot(event.clientX - from.clientX, event.clientY - from.clientY) > STILL;
    if (!held.moved || this.pointers.size !== 1) return undefined;
    if (held.stop) return this.deeds.drag({ ...held.stop, vertex: this.picker.at(...this.place(event)) ?? held.stop.vertex });
    return event.shiftKey || from.button === 2 ? this.space.shift(dx, dy) : this.space.turn(dx * 0.008, dy * 0.008);
  }

  // Two fingers bring the mesh nearer, and move it.
  pinch(event, before) {
    const other = [...this.pointers.values()].find(({ pointerId }) => pointerId !== event.pointerId);
    const apart = (one) => Math.hypot(one.clientX - other.clientX, one.clientY - other.clientY) || 1;
    this.space.shift((event.clientX - before.clientX) / 2, (event.clientY - before.clientY) / 2);
    this.space.magnify(apart(event) / apart(before), ...this.fromMiddle(event));
  }

  release(event, isUp) {
    const { held } = this;
    this.pointers.delete(event.pointerId);
    if (!held || this.pointers.size) return;
    this.held = null;
    if (held.stop && held.moved) this.deeds.drop(isUp);
    else if (isUp && !held.moved && held.from.button === 0) this.deeds.click(...this.place(event));
  }

  roll(event) {
    event.preventDefault();
    this.space.magnify(Math.exp(-event.deltaY * 0.001), ...this.fromMiddle(event));
  }

  showWhole() {
    Object.assign(this.space, { zoom: 1, aside: [0, 0] });
    this.space.change();
  }

  key(event) {
    if (event.metaKey || event.altKey || (event.ctrlKey && event.key !== "z")) return;
    const { deeds, space } = this, nearer = () => space.magnify(1.2), away = () => space.magnify(1 / 1.2);
    const way = { ArrowLeft: [-1, 0], ArrowRight: [1, 0], ArrowUp: [0, -1], ArrowDown: [0, 1] }[event.key];
    const keys = {
      "+": nearer, "=": nearer, "-": away, Enter: deeds.set, " ": deeds.set, Backspace: deeds.undo, Delete: deeds.undo, z: deeds.undo,
      c: deeds.close, Home: () => deeds.seek("start"), End: () => deeds.seek("end"), 0: () => this.showWhole(),
      1: () => deeds.choose(0), 2: () => deeds.choose(1),
    };
    const deed = way ? () => (event.shiftKey ? space.turn(0.12 * way[0], 0.12 * way[1]) : deeds.step(...way)) : keys[event.key];
    if (!deed) return;
    event.preventDefault();
    deed();
  }
}
