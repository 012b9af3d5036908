// Reads the text of a mesh (OFF) into rows of numbers, for the picture. Whether a text is a mesh the program says, by docs/FORMATS.md.

const [LINE_FEED, HASH, MINUS, PLUS, POINT, ZERO] = [10, 35, 45, 43, 46, 48];
const KEYWORD = /^((?:ST|C|N|4|n)*)OFF(.*)$/;

function isBlank(byte) {
  return byte === 32 || byte === 9 || (byte >= 11 && byte <= 13);
}

// Words of a text, line by line; `from` and `to` are where the present word stands.
class Scan {
  constructor(bytes) {
    const hasMark = bytes[0] === 0xef && bytes[1] === 0xbb && bytes[2] === 0xbf;
    Object.assign(this, { bytes, at: hasMark ? 3 : 0, from: 0, to: 0, line: 1 });
  }

  // Goes to the next word of this line, if there is one.
  word() {
    const { bytes } = this, end = bytes.length;
    let at = this.at;
    while (at < end && isBlank(bytes[at])) at++;
    this.from = at;
    while (at < end && bytes[at] !== LINE_FEED && bytes[at] !== HASH && !isBlank(bytes[at])) at++;
    this.to = this.at = at;
    return at > this.from;
  }

  pastLine() {
    while (this.at < this.bytes.length && this.bytes[this.at] !== LINE_FEED) this.at++;
    this.at++;
    this.line++;
  }

  // Goes to the first word of the next line that has one. There is an error where there is none.
  first() {
    while (!this.word()) {
      if (this.at >= this.bytes.length) throw new Error(`the text ends before line ${this.line}`);
      this.pastLine();
    }
  }

  text() {
    return String.fromCharCode(...this.bytes.subarray(this.from, this.to));
  }

  natural() {
    let value = 0;
    for (let k = this.from; k < this.to; k++) {
      const digit = this.bytes[k] - ZERO;
      if (digit < 0 || digit > 9) throw new Error(`line ${this.line} has a word that is no number`);
      value = 10 * value + digit;
    }
    return value;
  }

  // A coordinate: a plain decimal at once, all else as the language reads it.
  number() {
    const { bytes, from, to } = this, sign = bytes[from] === MINUS ? -1 : 1;
    let value = 0, scale = 0;
    for (let k = from + (bytes[from] === MINUS || bytes[from] === PLUS ? 1 : 0); k < to; k++) {
      const digit = bytes[k] - ZERO;
      if (digit >= 0 && digit <= 9 && value < 1e14) [value, scale] = [10 * value + digit, 10 * scale];
      else if (bytes[k] === POINT && !scale) scale = 1;
      else return Number(this.text());
    }
    return (sign * value) / (scale || 1);
  }
}

// How many vertices and faces there are, and how many coordinates a vertex has.
function countsOf(scan) {
  scan.first();
  const keyword = KEYWORD.exec(scan.text());
  if (!keyword) return { vertices: scan.natural(), faces: (scan.word(), scan.natural()), coordinates: 3 };
  const coordinates = keyword[1].includes("4") ? 4 : 3;
  let vertices;
  if (keyword[2]) vertices = Number(keyword[2]);
  else {
    if (!scan.word()) scan.first();
    vertices = scan.natural();
  }
  scan.word();
  return { vertices, faces: scan.natural(), coordinates };
}

function pointsOf(scan, { vertices, coordinates }) {
  const points = new Float64Array(3 * vertices);
  for (let k = 0; k < vertices; k++) {
    scan.pastLine();
    scan.first();
    for (let axis = 0; axis < coordinates; axis++) {
      if (axis) scan.word();
      if (axis < 3) points[3 * k + axis] = scan.number();
    }
  }
  return points;
}

function facesOf(scan, { faces }) {
  const starts = new Uint32Array(faces + 1);
  let corners = new Uint32Array(4 * faces + 16), count = 0;
  for (let k = 0; k < faces; k++) {
    scan.pastLine();
    scan.first();
    const sides = scan.natural();
    if (count + sides > corners.length) {
      const more = new Uint32Array(2 * corners.length + sides);
      more.set(corners.subarray(0, count));
      corners = more;
    }
    for (let j = 0; j < sides; j++) corners[count++] = (scan.word(), scan.natural());
    starts[k + 1] = count;
  }
  return { starts, corners: corners.slice(0, count) };
}

// The points, and the faces as rings of points in one row.
function readOff(bytes) {
  const scan = new Scan(bytes), counts = countsOf(scan), points = pointsOf(scan, counts);
  return { points, ...facesOf(scan, counts) };
}

// Whether coordinates tell the vertices of a mesh apart.
function areApart(points, corners) {
  const first = 3 * corners[0];
  let apart = false;
  for (const corner of corners) {
    for (let axis = 0; axis < 3; axis++) {
      if (!Number.isFinite(points[3 * corner + axis])) return false;
      apart ||= points[3 * corner + axis] !== points[first + axis];
    }
  }
  return apart;
}

// The points moved and scaled so that those of faces fill a ball of radius 1 about 0: its middle is drawn to the farthest point again and
// again, each time less far. Squares of the coordinates as they are may be too large or too small for a number, so they are scaled first.
function centred(points, corners) {
  const used = new Uint8Array(points.length / 3), middle = [0, 0, 0], moved = new Float32Array(points.length);
  let largest = 0;
  for (const corner of corners) {
    used[corner] = 1;
    for (let axis = 0; axis < 3; axis++) largest = Math.max(largest, Math.abs(points[3 * corner + axis]));
  }
  for (let k = 0; k < points.length; k++) points[k] /= largest;
  let far = corners[0], reach = 0;
  for (let round = 1; round < 24; round++) {
    for (let axis = 0; axis < 3; axis++) middle[axis] += (points[3 * far + axis] - middle[axis]) / round;
    [far, reach] = farthest(points, used, ...middle);
  }
  for (let k = 0; k < used.length; k++) {
    for (let axis = 0; used[k] && axis < 3; axis++) moved[3 * k + axis] = (points[3 * k + axis] - middle[axis]) / reach;
  }
  return moved;
}

// The used point that is farthest from a place, and how far that is.
function farthest(points, used, x, y, z) {
  let far = 0, most = -1;
  for (let k = 0; k < used.length; k++) {
    const dx = points[3 * k] - x, dy = points[3 * k + 1] - y, dz = points[3 * k + 2] - z, square = dx * dx + dy * dy + dz * dz;
    if (used[k] && square > most) [far, most] = [k, square];
  }
  return [far, Math.sqrt(most)];
}
