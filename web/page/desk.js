"use strict";
// The desk over the module's memory: words and files in, a reply out. The page and its worker share this file.

// The pages of 64 KiB that a memory has at first: growing is slow where a browser copies the memory for it, and a page that is not used costs nothing.
const FIRST_PAGES = 6144n;
// A memory that has grown beyond this is given back after the call, since a memory never shrinks.
const KEPT_MEMORY = 1 << 29;
// The exit status of an error: with the page's words and files, that memory ran out.
const NO_MEMORY = 5;
// What the page answers for a call that failed otherwise, that was cancelled, and whose worker died twice.
const FAILED = 8;
const CANCELLED = 9;
const LOST = 10;
// The bytes of a text's place in memory, an address and a length; and of a reply, a status and three such places.
const TEXT = 16;
const REPLY = 8 + 3 * TEXT;

// Whether this browser has memories of 64 bits: a module of no more than such a memory.
const hasWideMemory = () =>
  typeof WebAssembly === "object" && WebAssembly.validate(new Uint8Array([0, 97, 115, 109, 1, 0, 0, 0, 5, 3, 1, 4, 1]));

const encoded = text => new TextEncoder().encode(text);

class NoMemory extends Error {}

// What an error comes to: memory that cannot be had, or anything else.
const statusOf = error => (error instanceof NoMemory || (/^(Range|Internal)Error$/.test(error.name) && /memory|allocat/i.test(error.message)) ? NO_MEMORY : FAILED);

// The reply of a call that failed.
const failed = (status, error) => ({ status, out: new Uint8Array(0), err: new Uint8Array(0), made: new Uint8Array(0), took: 0, error });

class Desk {
  constructor(code) {
    this.code = code;
    this.calls = null;
  }

  // Begins with a memory of its own; where there is none of that size, it grows with what is asked for.
  begin() {
    this.calls = new WebAssembly.Instance(this.code, {}).exports;
    try {
      this.calls.memory.grow(FIRST_PAGES);
    } catch (error) {
      if (statusOf(error) !== NO_MEMORY) throw error;
    }
  }

  // The memory as it is now: a call may have made it grow.
  get memory() {
    return this.calls.memory.buffer;
  }

  // One room for a reply, the places of texts, and the texts themselves, one after another: where it begins.
  put(texts) {
    const length = texts.reduce((sum, bytes) => sum + bytes.length, REPLY + TEXT * texts.length);
    const at = Number(this.calls.page_room(BigInt(length)));
    if (!at) throw new NoMemory("no room of " + length + " bytes");
    const places = new BigUint64Array(this.memory, at + REPLY, 2 * texts.length);
    let from = at + REPLY + TEXT * texts.length;
    texts.forEach((bytes, i) => {
      places.set([BigInt(from), BigInt(bytes.length)], 2 * i);
      new Uint8Array(this.memory).set(bytes, from);
      from += bytes.length;
    });
    return at;
  }

  // A text of a reply, copied out and given back; one of no bytes lies in no room.
  take(at) {
    const [from, length] = [...new BigUint64Array(this.memory, at, 2)];
    const bytes = new Uint8Array(this.memory).slice(Number(from), Number(from + length));
    if (length) this.calls.page_free(from);
    return bytes;
  }

  // One call, with texts for the words, and for the files in turn a name and bytes.
  asked(words, files) {
    const at = this.put([...words, ...files]);
    const given = at + REPLY;
    this.calls.page_ask(...[given, words.length, given + TEXT * words.length, files.length / 2, at].map(BigInt));
    const status = new DataView(this.memory).getUint32(at, true);
    const [out, err, made] = [0, 1, 2].map(i => this.take(at + 8 + i * TEXT));
    this.calls.page_free(BigInt(at));
    return { status, out, err, made };
  }

  // The reply to words, from files that they may name, each { name, bytes }. After an error, and after a call that took much memory, the module starts again.
  ask(words, files) {
    const began = performance.now();
    try {
      if (!this.calls) this.begin();
      const reply = this.asked(words.map(encoded), files.flatMap(({ name, bytes }) => [encoded(name), bytes]));
      if (this.memory.byteLength > KEPT_MEMORY) this.calls = null;
      return { ...reply, took: performance.now() - began };
    } catch (error) {
      this.calls = null;
      return failed(statusOf(error), String(error));
    }
  }
}
