// Paints a mesh by WebGL, so that a large one turns smoothly. The picture is that of the pen: the same view, and faces lit alike.

// A point is turned, and drawn by how far it is from the eye; `at` is where it is before the eye's view of it. What is from 3 to 5.4 away
// is drawn, and the mesh lies from 3.2 to 5.2.
const VERTEX = `#version 300 es
in vec3 place;
uniform mat3 turn;
uniform vec2 reach, aside;
uniform float eye, nearer;
out vec3 at;
void main() {
  at = turn * place;
  float depth = eye - at.z;
  gl_Position = vec4(reach * at.xy + aside * depth, (3.5 - nearer) * depth - 13.5, depth);
}`;
// A face is as bright as the light falls on it, from either side.
const FACE = `#version 300 es
precision highp float;
in vec3 at;
out vec4 colour;
void main() {
  float bright = abs(dot(normalize(cross(dFdx(at), dFdy(at))), vec3(-0.35, 0.55, 0.76)));
  colour = vec4(vec3(172.0, 186.0, 201.0) + bright * vec3(70.0, 60.0, 50.0), 255.0) / 255.0;
}`;
const EDGE = `#version 300 es
precision highp float;
uniform float strength;
out vec4 colour;
void main() { colour = vec4(vec3(60.0, 75.0, 92.0) / 255.0 * strength, strength); }`;
const MOST_EDGES = 400000, MOST_MILLISECONDS = 100;

class GlPainter {
  constructor() {
    this.hidesByItself = true;
  }

  static isThere() {
    const gl = document.createElement("canvas").getContext("webgl2");
    gl?.getExtension("WEBGL_lose_context")?.loseContext();
    return Boolean(gl);
  }

  start(space) {
    const gl = (this.gl = space.still.getContext("webgl2", { antialias: true, premultipliedAlpha: true }));
    space.still.addEventListener("webglcontextlost", () => this.giveUp(space));
    [this.face, this.edge] = [this.program(VERTEX, FACE), this.program(VERTEX, EDGE)];
    const { shape } = space;
    this.buffer(gl.ARRAY_BUFFER, shape.points);
    for (const { program } of [this.face, this.edge]) {
      gl.enableVertexAttribArray(gl.getAttribLocation(program, "place"));
      gl.vertexAttribPointer(gl.getAttribLocation(program, "place"), 3, gl.FLOAT, false, 0, 0);
    }
    const triangles = GlPainter.triangles(shape);
    Object.assign(this, { triangles: this.buffer(gl.ELEMENT_ARRAY_BUFFER, triangles), triangleCount: triangles.length });
    Object.assign(this, { edges: this.buffer(gl.ELEMENT_ARRAY_BUFFER, shape.edges), edgeCount: shape.edges.length });
    gl.enable(gl.DEPTH_TEST);
    gl.depthFunc(gl.LEQUAL);
    gl.enable(gl.BLEND);
    gl.blendFunc(gl.ONE, gl.ONE_MINUS_SRC_ALPHA);
    space.fit();
    if (this.takes(space) > MOST_MILLISECONDS && this.takes(space) > MOST_MILLISECONDS) this.giveUp(space);
  }

  // How many milliseconds a picture takes. Reading a point of it waits till it is done.
  takes(space) {
    const { gl } = this, start = performance.now();
    this.paint(space, true);
    gl.readPixels(0, 0, 1, 1, gl.RGBA, gl.UNSIGNED_BYTE, new Uint8Array(4));
    return performance.now() - start;
  }

  // The browser took the picture away, or has no graphics processor and is slow: the pen goes on.
  giveUp(space) {
    if (space.painter !== this) return;
    const canvas = document.createElement("canvas");
    canvas.setAttribute("aria-hidden", "true");
    Object.assign(canvas, { width: space.still.width, height: space.still.height });
    space.still.replaceWith(canvas);
    Object.assign(space, { still: canvas, painter: new PenPainter() });
    space.painter.start(space);
    space.change();
  }

  program(vertex, fragment) {
    const { gl } = this, program = gl.createProgram();
    for (const [kind, text] of [[gl.VERTEX_SHADER, vertex], [gl.FRAGMENT_SHADER, fragment]]) {
      const shader = gl.createShader(kind);
      gl.shaderSource(shader, text);
      gl.compileShader(shader);
      gl.attachShader(program, shader);
    }
    gl.bindAttribLocation(program, 0, "place");
    gl.linkProgram(program);
    const named = {};
    for (const name of ["turn", "reach", "aside", "eye", "nearer", "strength"]) named[name] = gl.getUniformLocation(program, name);
    return { program, ...named };
  }

  buffer(kind, data) {
    const { gl } = this, buffer = gl.createBuffer();
    gl.bindBuffer(kind, buffer);
    gl.bufferData(kind, data, gl.STATIC_DRAW);
    return buffer;
  }

  // The patches cut into triangles, each from its first corner.
  static triangles({ corners, starts, size }) {
    let put = 0;
    const triangles = new Uint32Array(3 * (corners.length - 2 * size));
    for (let k = 0; k < size; k++) {
      for (let j = starts[k] + 2; j < starts[k + 1]; j++) {
        triangles[put++] = corners[starts[k]];
        triangles[put++] = corners[j - 1];
        triangles[put++] = corners[j];
      }
    }
    return triangles;
  }

  // The faces, and the edges a hair before them; of a crowded mesh the edges only at rest, and of a very crowded one not at all.
  paint(space, moves) {
    const { gl } = this, { width, height } = space.still, isFew = space.shape.edgeCount <= 1500;
    gl.viewport(0, 0, width, height);
    gl.clearColor(0, 0, 0, 0);
    gl.clear(gl.COLOR_BUFFER_BIT | gl.DEPTH_BUFFER_BIT);
    this.draw(space, this.face, gl.TRIANGLES, this.triangles, this.triangleCount, 0);
    if (!isFew && (moves || space.shape.edgeCount > MOST_EDGES * space.zoom ** 2)) return;
    gl.useProgram(this.edge.program);
    gl.uniform1f(this.edge.strength, isFew ? 0.62 : 0.28);
    this.draw(space, this.edge, gl.LINES, this.edges, this.edgeCount, 0.002);
    if (!isFew) return;
    gl.depthFunc(gl.GREATER);
    gl.uniform1f(this.edge.strength, 0.1);
    this.draw(space, this.edge, gl.LINES, this.edges, this.edgeCount, 0.002);
    gl.depthFunc(gl.LEQUAL);
  }

  draw(space, named, kind, indices, count, nearer) {
    const { gl } = this, { width, height } = space.still, m = turned(space.azimuth, space.elevation), reach = space.reach();
    gl.useProgram(named.program);
    gl.uniformMatrix3fv(named.turn, true, m);
    gl.uniform2f(named.reach, (2 * reach) / width, (2 * reach) / height);
    gl.uniform2f(named.aside, (2 * space.aside[0] * space.scale) / width, (-2 * space.aside[1] * space.scale) / height);
    gl.uniform1f(named.eye, EYE);
    gl.uniform1f(named.nearer, nearer);
    gl.bindBuffer(gl.ELEMENT_ARRAY_BUFFER, indices);
    gl.drawElements(kind, count, gl.UNSIGNED_INT, 0);
  }
}
