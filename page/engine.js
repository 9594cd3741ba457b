// The engine in the page as one file: both programs, compiled for WebAssembly, in a worker, so that the page goes on while one of them runs. The
// first message is the compiled module; each further one is a question, {number, program, words, script}, and its answer has the same number.

const TOO_LITTLE_ROOM = 256;
const OUT_OF_MEMORY = 7;

let module = null;
let engine = null;

/** A place in the engine's memory, which moves when it has to be larger. */
class Room {
  place = 0n;
  size = 0;

  constructor(exports) {
    this.exports = exports;
  }

  need(size) {
    if (size <= this.size) return;
    this.size = Math.max(size, 2 * this.size, 1 << 16);
    this.place = this.exports.page_take(BigInt(this.size));
    if (this.place === 0n) throw new Error("The engine is out of memory.");
  }

  /** Its first bytes. (They are looked at anew each time, since the memory is another one after it has grown.) */
  bytes(size) {
    return new Uint8Array(this.exports.memory.buffer, Number(this.place), size);
  }

  /** Puts a text into it, and returns how many bytes that has. */
  put(text) {
    const bytes = new TextEncoder().encode(text);
    this.need(bytes.length);
    this.bytes(bytes.length).set(bytes);
    return BigInt(bytes.length);
  }
}

/** The programs in a memory of their own. */
class Engine {
  constructor() {
    this.exports = new WebAssembly.Instance(module).exports;
    [this.question, this.script, this.text, this.count] = Array.from({ length: 4 }, () => new Room(this.exports));
    this.text.need(1 << 18);
    this.count.need(8);
  }

  answer(program, words, script) {
    const lengths = [this.question.put([program, ...words, ""].join("\n")), this.script.put(script)];
    for (;;) {
      const { question, text, count } = this;
      const room = [text.place, BigInt(text.size), count.place];
      const status = this.exports.camelot_page(question.place, lengths[0], this.script.place, lengths[1], ...room);
      const length = Number(new DataView(count.bytes(8).slice().buffer).getBigUint64(0, true));
      if (status === OUT_OF_MEMORY) throw new Error("The engine is out of memory.");
      if (status !== TOO_LITTLE_ROOM) return { status, text: new TextDecoder().decode(text.bytes(length).slice()), said: "" };
      text.need(length);
    }
  }
}

onmessage = ({ data }) => {
  if (data instanceof WebAssembly.Module) {
    module = data;
    return;
  }
  const { number, program, words, script } = data;
  try {
    engine ??= new Engine();
    postMessage({ number, answer: engine.answer(program, words, script) });
  } catch (error) {
    // (after a trap the memory may be in the midst of something)
    engine = null;
    postMessage({ number, fault: error.message });
  }
};
