'use strict';
// Calls the module: the words and the bytes of a run go in; its status, and the report or the line of refusal, come out.
// The module imports nothing, so it cannot reach a file, a clock or the network.

const NO_ROOM = 6;
const LINE_ROOM = 96;
const MOST_ROOM = 2 ** 28;
const MEMORY_PAGE = 65536;

class Engine {
  constructor(module) {
    this.module = module;
  }

  // Each run has its own instance, and so its own memory.
  answer(words, bytes) {
    for (let room = 2 ** 22; ; room *= 8) {
      const answer = this.answerIn(room, words, bytes);
      if (answer.status !== NO_ROOM || room >= MOST_ROOM) return answer;
    }
  }

  // A run with this many bytes for its report.
  answerIn(room, words, bytes) {
    const { memory, exact_answer: exactAnswer } = new WebAssembly.Instance(this.module).exports;
    const packed = packedWords(words);
    const parts = [packed.length, bytes.length, room, LINE_ROOM];
    // The added memory belongs to the caller: words, bytes, report, line and the two counts.
    let at = memory.buffer.byteLength;
    memory.grow(BigInt(Math.ceil((parts.reduce((sum, part) => sum + part) + 24) / MEMORY_PAGE)));
    const places = parts.map(length => {
      at += length;
      return [BigInt(at - length), BigInt(length)];
    });
    const counts = Math.ceil(at / 8) * 8;
    const bytesAt = (place, length) => new Uint8Array(memory.buffer, Number(place[0]), Number(length));
    const text = (place, length) => new TextDecoder().decode(bytesAt(place, length));
    bytesAt(places[0], packed.length).set(packed);
    bytesAt(places[1], bytes.length).set(bytes);
    const status = exactAnswer(...places.flat(), BigInt(counts));
    const [written, told] = new BigUint64Array(memory.buffer, counts, 2);
    return { status, report: text(places[2], written), line: text(places[3], told), memory: memory.buffer.byteLength };
  }
}

// The words one after another, each ended by a zero byte.
function packedWords(words) {
  if (words.some(word => word.includes('\0'))) throw new Error('a word contains a zero byte');
  return new TextEncoder().encode(words.map(word => `${word}\0`).join(''));
}
