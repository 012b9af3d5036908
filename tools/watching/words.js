// Moves and refusals in words, and where words are put on the page.

function put(id, text) {
  const box = document.getElementById(id);
  if (box.textContent !== String(text)) box.textContent = text;
}

const SMALL_NUMBERS = ["no", "one", "two", "three", "four", "five", "six", "seven", "eight", "nine", "ten"];

function numberOf(count, thing) {
  return `${SMALL_NUMBERS[count] ?? count} ${thing}${count === 1 ? "" : "s"}`;
}

function moveOfLine(line) {
  const words = line.split(" ");
  if (words[0] !== "f") return { kind: words[0], at: Number(words[1]), via: Number(words[2]), line };
  const [at, face, corner, taken] = [1, 2, 3, 5].map((k) => Number(words[k]));
  return { kind: "f", at, face, corner, step: words[4] === "+" ? 1 : -1, taken, line };
}

function moveInWords(move) {
  if (move.kind === "+") return `a spur goes in at place ${move.at}: out to vertex ${move.via} and straight back`;
  if (move.kind === "-") return `a spur goes out at place ${move.at}: the way to vertex ${move.via} and straight back`;
  const way = move.step === 1 ? "forward" : "backward";
  return `across face ${move.face}, from corner ${move.corner}, ${way}, ${numberOf(move.taken, "side")}`;
}

const REFUSALS = {
  place: "the walk does not reach so far",
  edge: "the two vertices form no edge",
  spur: "there is no such spur in the walk",
  face: "the walk does not go round the face so",
  peak: "the walk would have more darts than the peak of the list",
};

// The first word of a fault of a labelling, and what follows the whole of it.
const LABEL_FAULTS = {
  shape: "the labels and places are not those of this mesh",
  degree: "no surface gives so many spokes with such places",
  place: "two spokes have it",
  edge: "it keeps none of the three rules",
};

function labelFaultInWords(fault) {
  return `${fault}, since ${LABEL_FAULTS[fault.split(" ")[0]]}`;
}
