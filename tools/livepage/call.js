// A call of the library: words and files in, the status and both texts out. Each has an instance of its own, so that
// nothing is left of one.

const SMALL_ROOM = 1 << 16;
const encoder = new TextEncoder(), decoder = new TextDecoder();

class Call {
  constructor(module) {
    this.exports = new WebAssembly.Instance(module, {}).exports;
  }

  // Memory may have moved with each room that was made.
  get view() {
    return new DataView(this.exports.memory.buffer);
  }

  room(size) {
    const at = this.exports.page_room(BigInt(Math.max(size, 1)));
    if (at === 0n) throw new RangeError("no memory");
    return Number(at);
  }

  // A struct sq_bytes of a text: where it stands, and how long it is.
  put(text) {
    const bytes = encoder.encode(text), at = this.room(bytes.length);
    new Uint8Array(this.exports.memory.buffer).set(bytes, at);
    return [at, bytes.length];
  }

  // An array of structs, of which each field is a pointer or a length.
  table(rows) {
    const fields = rows.flat(), at = this.room(8 * fields.length), { view } = this;
    fields.forEach((field, n) => view.setBigUint64(at + 8 * n, BigInt(field), true));
    return [at, rows.length];
  }

  text(at, length) {
    return decoder.decode(new Uint8Array(this.exports.memory.buffer, at, length));
  }

  perform(words, files) {
    const handed = [...this.table(words.map((word) => this.put(word)))];
    handed.push(...this.table(Object.entries(files).map(([name, text]) => [...this.put(name), ...this.put(text)])));
    const lengths = this.room(16);
    for (let rooms = [SMALL_ROOM, SMALL_ROOM]; ;) {
      const [out, err] = rooms.map((size) => this.room(size));
      const all = [...handed, out, rooms[0], err, rooms[1], lengths].map(BigInt);
      const status = this.exports.sq_call(...all);
      const [outLength, errLength] = [0, 8].map((field) => Number(this.view.getBigUint64(lengths + field, true)));
      if (outLength <= rooms[0] && errLength <= rooms[1]) {
        return { status, out: this.text(out, outLength), err: this.text(err, errLength) };
      }
      [out, err].forEach((at) => this.exports.page_free(BigInt(at)));
      rooms = [Math.max(outLength, rooms[0]), Math.max(errLength, rooms[1])];
    }
  }
}

// What a call says, and how long it took. Where it wants more stack than there is, it is `deep`: a browser has some 500 KB
// for a worker and 1 MB for a page, whatever stands in the memory.
function answered(module, { words, files }) {
  const begun = performance.now();
  let said;
  try {
    said = new Call(module).perform(words, files);
  } catch (fault) {
    const deep = /call stack/.test(fault.message);
    const lack = deep ? "no memory: the browser's stack doesn't hold a text that is nested so deep" : "no memory";
    said = { status: 6, out: "", err: `${deep || fault instanceof RangeError ? lack : fault.message}\n`, deep };
  }
  return { ...said, milliseconds: performance.now() - begun };
}
