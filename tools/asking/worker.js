// Reads the mesh and searches for ways, beside the page, which goes on meanwhile.
importScripts("off.js", "ways.js");

let ways = null;

// From so many faces on a mesh is shown roughly while it is turned by the pen.
const LARGE = 60000;

const DEEDS = {
  // The mesh of a text: where its coordinates put it, its edges, and its neighbours.
  read({ bytes }) {
    const { points, corners, starts } = readOff(new Uint8Array(bytes)), vertices = points.length / 3;
    const isPlaced = areApart(points, corners), placed = isPlaced ? centred(points, corners) : new Float32Array(points.length);
    const { edges, sides } = edgesOf({ corners, starts }, vertices), { first, next } = neighboursOf(edges, vertices);
    ways = new Ways(first, next, placed);
    const coarse = isPlaced && starts.length > LARGE ? coarsened(placed, { corners, starts }) : null;
    return { isPlaced, points: placed, corners, starts, edges, sides, first, next, coarse };
  },

  // The mesh stands elsewhere than its file says.
  place({ points }) {
    ways.points = points;
    return {};
  },

  way({ from, to }) {
    const start = performance.now();
    return { way: ways.way(from, to), milliseconds: performance.now() - start };
  },
};

onmessage = ({ data }) => {
  try {
    postMessage({ ticket: data.ticket, ...DEEDS[data.deed](data) });
  } catch (fault) {
    postMessage({ ticket: data.ticket, fault: fault instanceof RangeError ? "there is too little memory for it" : fault.message });
  }
};
