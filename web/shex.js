// Calls of the module shex.wasm. Each call has an instance of its own: the memory of a module only grows, and a call that
// is stopped leaves it half written.
'use strict';

/** For how many bytes of the output, of the error lines and of the file that is handed back there is room at first. */
const ROOMS = [1 << 20, 1 << 16, 1 << 20];

/** Puts texts and records into the memory of an instance, as shex.h describes them: each field has eight bytes. */
class Memory {
  constructor(exports) {
    this.exports = exports;
  }

  /** The place of so many bytes. */
  room(count) {
    const at = this.exports.host_alloc(BigInt(count));
    if (at === 0n) throw new RangeError('the memory of the module is used up');
    return at;
  }

  /** A record, or a list of them, by its fields; gives its place. */
  fields(values) {
    const at = this.room(8 * values.length + 8);
    new BigUint64Array(this.exports.memory.buffer, Number(at), values.length).set(values);
    return at;
  }

  /** A text: its place and its length. */
  text(text) {
    const bytes = typeof text === 'string' ? new TextEncoder().encode(text) : text;
    const at = this.room(bytes.length);
    new Uint8Array(this.exports.memory.buffer, Number(at), bytes.length).set(bytes);
    return [at, BigInt(bytes.length)];
  }

  /** A list of records of texts: its place, and how many records it has. */
  list(records) {
    return [this.fields(records.flatMap((texts) => texts.flatMap((text) => this.text(text)))), BigInt(records.length)];
  }

  numbers(at, count) {
    return Array.from(new BigUint64Array(this.exports.memory.buffer, Number(at), count), Number);
  }

  bytes(at, count) {
    return new Uint8Array(this.exports.memory.buffer, Number(at), count).slice();
  }
}

/**
 * Answers a command over files in memory, as the program of that name answers it.
 * @param {WebAssembly.Module} module shex.wasm
 * @param {{program: string, words: string[], files: [string, string | Uint8Array][], wanted: string}} call the program (`shex` or
 *   `shextool`), its words, the files by name, and the name of the file that is handed back
 * @param {number[]} rooms how many bytes of the output, of the error lines and of the file there is room for
 * @returns {{status: number, out: string, err: string, file: Uint8Array, milliseconds: number, memory: number}}
 */
function callShex(module, call, rooms = ROOMS) {
  const exports = new WebAssembly.Instance(module, {}).exports;
  const memory = new Memory(exports);
  const request = memory.fields([
    ...memory.list(call.words.map((word) => [word])), ...memory.list(call.files), ...memory.text(call.wanted)]);
  const places = rooms.map((room) => memory.room(room));
  const reply = memory.fields(places.flatMap((place, n) => [place, BigInt(rooms[n]), 0n]));
  const began = performance.now();
  const status = exports[`${call.program}_call`](request, reply);
  const milliseconds = performance.now() - began;
  const counts = memory.numbers(reply, 9).filter((_, n) => n % 3 === 2);
  if (counts.some((count, n) => count > rooms[n])) return callShex(module, call, rooms.map((room, n) => Math.max(room, counts[n])));
  const [out, err, file] = places.map((place, n) => memory.bytes(place, counts[n]));
  const text = (bytes) => new TextDecoder().decode(bytes);
  return { status, out: text(out), err: text(err), file, milliseconds, memory: exports.memory.buffer.byteLength };
}
