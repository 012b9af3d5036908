// The judge of this page: of tools/judge what comes behind the reading of texts, function by function and under the same names. The
// pages need two of its lines as functions of their own, `edgesOf` and `make`. Nothing else on a page decides what a certificate shows.

class Fault extends Error {}

function must(holds, ...fault) {
  if (!holds) throw new Fault(fault.join(" ").trim());
}

// The pairs of neighbours round the faces, in both directions.
function edgesOf(faces) {
  return new Set(faces.flatMap((face) => face.flatMap((u, k) => {
    const v = face[(k + 1) % face.length];
    return [`${u} ${v}`, `${v} ${u}`];
  })));
}

// The part of a walk that a move takes out at its place, and what it puts there.
function replacement(faces, edges, walk, where, { kind, at, via, face, corner, step, taken }) {
  must(at + { "+": 0, "-": 2, f: taken }[kind] < walk.length, where, "place");
  if (kind === "f") {
    let ring = faces[face] ?? [];
    must(corner < ring.length && taken <= ring.length, where, "face");
    ring = [...ring.slice(corner), ...ring.slice(0, corner + 1)];
    if (step < 0) ring.reverse();
    return [ring.slice(0, taken + 1), ring.slice(taken).reverse()];
  }
  const here = walk[at], spur = [here, via, here];
  must(kind === "-" || edges.has(`${here} ${via}`), where, "edge");
  return kind === "+" ? [[here], spur] : [spur, [here]];
}

// A move that is allowed under the peak: where it is made, what it takes out and puts in, and the walk behind it.
function make(faces, edges, walk, peak, move, where = "") {
  const { kind, at } = move, [part, other] = replacement(faces, edges, walk, where, move);
  must(part.every((vertex, k) => walk[at + k] === vertex), where, kind === "f" ? "face" : "spur");
  must(walk.length - part.length + other.length - 1 <= peak, where, "peak");
  return { at, part, other, walk: walk.slice(0, at).concat(other, walk.slice(at + part.length)) };
}

// Each move is allowed, no walk has more darts than the peak, and the last one is the second walk.
function checkMoves(faces, edges, walks, moves, peak) {
  let [walk] = walks;
  must(walk.length - 1 <= peak, "peak");
  moves.forEach((move, k) => {
    ({ walk } = make(faces, edges, walk, peak, move, `move ${k + 1}`));
  });
  must(String(walk) === String(walks[1]), "end");
}

// The rule that an edge keeps, by the labels a, b of the side that leads there, and c, d of the one back.
function ruleOf(a, b, c, d, p, D) {
  const rise = b === (a + 1) % D && d === (c + 1) % D && p[d] === (p[a] + D - 1) % D && p[b] === (p[c] + D - 1) % D;
  if (a === b && c === d) return "tree";
  if (a === d && b === c) return "cotree";
  return rise ? "leftover" : null;
}

// Puts a turn behind a canonical word, so that it stays one; gives by how much less the next is to be counted.
function putTurn(word, turn, D) {
  const end = word.length, run = turn === D - 1 ? D - 2 : 2;
  let k = 0;
  while ((turn === 1 || turn === D - 1) && k + 1 < end && word[end - 1 - k] === run) k++;
  if (end && turn === 0) return -word.pop(); // spur
  if (end && turn === D - 1) { // flip
    word.splice(end - 1 - k, k + 1, (word[end - 1 - k] + 1) % D, 1, ...Array(k).fill(2));
    return -1;
  }
  if (turn === 1 && k + 1 < end && word[end - 1 - k] === 1) { // close
    word.splice(end - 2 - k, k + 2, (word[end - 2 - k] + D - 1) % D, ...Array(k).fill(D - 2));
    return 1;
  }
  word.push(turn); // start, else
  return 0;
}

// The word of a walk, by the spokes of its darts: where they lead from the origin, or from the empty word.
function wordAlong(walk, spokesOf, p) {
  const spokes = walk.slice(1).flatMap((v, k) => spokesOf.get(`${walk[k]} ${v}`)), D = p.length;
  if (D === 4) {
    const steps = [[1, 0], [0, 1], [-1, 0], [0, -1]];
    return [0, 1].map((axis) => spokes.reduce((sum, spoke, k) => sum + (k % 2 ? -1 : 1) * steps[spoke][axis], 0));
  }
  const word = [];
  let less = 0;
  for (const spoke of spokes) { // from the vertex to the middle where an even number is put, and else back
    const [here, there] = word.length % 2 ? [spoke, p[spoke]] : [p[spoke], spoke];
    less = there + putTurn(word, (((here - less) % D) + D) % D, D);
  }
  return word;
}

// It is good: its shape, degree, places, and each edge. Gives the spokes of each dart, by the tree rule none.
function checkLabelling(faces, edges, D, rows, places) {
  const fit = (list, size) => list.length === size && list.every((label) => label < D);
  must(rows.length === faces.length && faces.every((face, f) => fit(rows[f][1], face.length)) && fit(places, D), "shape");
  must(D > 4 || (D === 4 && places.every((place, k) => places[(k + 1) % 4] === (place + 1) % 4)), "degree", D);
  const sorted = [...places].sort((one, other) => one - other);
  sorted.forEach((place, k) => must(place !== sorted[k + 1], "place", place));
  const sides = new Map([...edges].map((dart) => [dart, []])); // the labels at tail and head of each side, as the signs turn the faces
  faces.forEach((face, f) => {
    const [sign, labels] = rows[f], corners = face.map((vertex, k) => [vertex, labels[k]]);
    if (sign === "-") corners.reverse();
    corners.forEach(([u, a], k) => {
      const [v, b] = corners[(k + 1) % corners.length];
      sides.get(`${u} ${v}`).push(a, b);
    });
  });
  for (const [u, v] of [...edges].map((edge) => edge.split(" ").map(Number)).sort(([u, v], [w, x]) => u - w || v - x)) {
    const there = sides.get(`${u} ${v}`), back = sides.get(`${v} ${u}`);
    must(there.length === 2 && back.length === 2 && ruleOf(...there, ...back, places, D), "edge", u, v);
  }
  return new Map([...sides].map(([dart, [a, b]]) => [dart, a === b ? [] : [a, b]]));
}

// The labelling is good; both walks have the words, and these differ.
function checkDenial(faces, edges, walks, D, rows, places, words) {
  const spokesOf = checkLabelling(faces, edges, D, rows, places);
  for (const w of [0, 1]) must(String(wordAlong(walks[w], spokesOf, places)) === String(words[w]), "word", w + 1);
  must(String(words[0]) !== String(words[1]), "equal");
}
