// One run of the planner, in an instance of its own. What it takes of the C library, but for the heap, stands here: words
// and files come out of the message, and what is written goes into the answer.
"use strict";

const MOST_WRITTEN = 128 * 1024 * 1024;
const NO_ENTRY = 2, NO_FILE = 9, NO_ROOM = 28; // ENOENT, EBADF and ENOSPC

function library(words, files, memory, written) {
  let errno = 0;
  const open = new Map(); // what is left to be read, by descriptor
  const total = () => written[1].length + written[2].length;
  const bytes = (at, length) => new Uint8Array(memory(), Number(at), Number(length));
  const fails = error => { errno = error; return -1; };
  const nameAt = at => {
    const from = new Uint8Array(memory(), Number(at));
    return new TextDecoder().decode(from.subarray(0, from.indexOf(0)));
  };
  return {
    __sysv_signal: () => 0n,
    rattle_errno: () => errno,
    rattle_set_errno: error => { errno = error; },
    // Puts a word into the room: its length, -1 where there is none, or -2 where it does not fit.
    rattle_arg(index, into, room) {
      const word = words[Number(index)];
      if (word === undefined) return -1n;
      if (word.length > Number(room)) return -2n;
      bytes(into, word.length).set(word);
      return BigInt(word.length);
    },
    open(name) {
      const file = files[nameAt(name)];
      if (file === undefined) return fails(NO_ENTRY);
      const descriptor = 3 + open.size;
      open.set(descriptor, file);
      return descriptor;
    },
    read(descriptor, into, room) {
      const left = open.get(descriptor);
      if (left === undefined) return BigInt(fails(NO_FILE));
      const piece = left.subarray(0, Number(room));
      bytes(into, piece.length).set(piece);
      open.set(descriptor, left.subarray(piece.length));
      return BigInt(piece.length);
    },
    write(descriptor, from, length) {
      if (total() + Number(length) > MOST_WRITTEN) return BigInt(fails(NO_ROOM));
      written[descriptor].add(bytes(from, length));
      return length;
    },
    close: () => 0,
  };
}

// Bytes that grow.
class Written {
  #room = new Uint8Array(4096);
  length = 0;
  add(piece) {
    if (this.length + piece.length > this.#room.length) {
      const more = new Uint8Array(Math.max(2 * this.#room.length, this.length + piece.length));
      more.set(this.#room.subarray(0, this.length));
      this.#room = more;
    }
    this.#room.set(piece, this.length);
    this.length += piece.length;
  }
  bytes() { return this.#room.slice(0, this.length); }
}

onmessage = async ({data: {module, words, files}}) => {
  const written = {1: new Written(), 2: new Written()};
  let memory = () => new ArrayBuffer(0);
  try {
    const texts = ["tlplan", ...words].map(word => new TextEncoder().encode(word));
    const env = library(texts, files, () => memory(), written);
    const {exports} = await WebAssembly.instantiate(module, {env});
    memory = () => exports.memory.buffer;
    const began = performance.now();
    const status = exports.tlplan_main();
    const took = performance.now() - began;
    const complaint = new TextDecoder().decode(written[2].bytes());
    postMessage({status, answer: written[1].bytes(), complaint, took, memory: memory().byteLength});
  } catch (fault) {
    postMessage({fault: String(fault)});
  }
};
