// What the page asks of the server on this machine, and of the worker beside it.

async function answerOf(response) {
  if (!response.ok) throw new Error((await response.text()).trim());
  const data = await response.json();
  if (data.fault) throw new Error(data.fault);
  return data;
}

async function get(name) {
  return answerOf(await fetch(name));
}

async function post(name, data) {
  return answerOf(await fetch(name, { method: "POST", headers: { "Content-Type": "application/json" }, body: JSON.stringify(data) }));
}

// The bytes of the mesh file, with a share of 1 told as they come.
async function meshBytes(tell) {
  const response = await fetch("mesh"), size = Number(response.headers.get("Content-Length"));
  if (!response.ok) throw new Error((await response.text()).trim());
  const bytes = new Uint8Array(size), reader = response.body.getReader();
  let put = 0;
  for (let piece = await reader.read(); !piece.done; piece = await reader.read()) {
    bytes.set(piece.value, put);
    put += piece.value.length;
    tell(put / size);
  }
  return bytes.buffer;
}

// The server ends when the last page is gone: this connection tells it that one is there. It is told of where the server has ended.
async function stayAlive(isGone) {
  try {
    const reader = (await fetch("alive")).body.getReader();
    while (!(await reader.read()).done);
  } catch {
    // The connection broke; that the server is gone is said below.
  }
  isGone();
}

// The worker, asked by name: each question gets a promise of its answer.
class Helper {
  constructor() {
    Object.assign(this, { worker: new Worker("worker.js"), waiting: new Map(), tickets: 0 });
    this.worker.onmessage = ({ data }) => {
      const [done, failed] = this.waiting.get(data.ticket);
      this.waiting.delete(data.ticket);
      if (data.fault) failed(new Error(data.fault));
      else done(data);
    };
  }

  ask(deed, data = {}, moved = []) {
    const ticket = ++this.tickets;
    return new Promise((done, failed) => {
      this.waiting.set(ticket, [done, failed]);
      this.worker.postMessage({ ticket, deed, ...data }, moved);
    });
  }
}
