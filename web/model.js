"use strict";

// The proved model, a WebAssembly module with a memory of 64 bits, and the heap that the page supplies to it.

const PAGE_BYTES = 65536;

/** Blocks of the module's memory, each of 2^n bytes from 32 on, above all that the module has of its own. */
class Heap {
  constructor() {
    this.memory = null;
    this.free = new Map();
    this.sizes = new Map();
    this.next = 0;
  }

  attach(memory) {
    this.memory = memory;
    this.next = memory.buffer.byteLength;
  }

  /** The address of a block of at least so many bytes, a multiple of 16; 0 where there is no memory for it. */
  take(size) {
    const room = size <= 32 ? 32 : 2 ** Math.ceil(Math.log2(size));
    const at = this.free.get(room)?.pop() ?? this.fresh(room);
    if (at) {
      this.sizes.set(at, room);
    }
    return at;
  }

  fresh(room) {
    const at = this.next;
    const missing = at + room - this.memory.buffer.byteLength;
    if (missing > 0) {
      try {
        this.memory.grow(BigInt(Math.ceil(missing / PAGE_BYTES)));
      } catch {
        return 0;
      }
    }
    this.next = at + room;
    return at;
  }

  give(at) {
    const room = this.sizes.get(at);
    this.sizes.delete(at);
    if (!this.free.has(room)) {
      this.free.set(room, []);
    }
    this.free.get(room).push(at);
  }

  bytes(at, length) {
    return new Uint8Array(this.memory.buffer, at, length);
  }

  /** Puts what a call of the module's is told: whether there is a block, and its address, which is never 0. */
  tell(out, at) {
    const view = new DataView(this.memory.buffer);
    view.setUint8(Number(out), at ? 1 : 0);
    view.setBigUint64(Number(out) + 8, BigInt(at || 16), true);
  }

  /** The functions that the module takes of its host. */
  imports() {
    return {
      rattle_alloc: (out, size) => this.tell(out, this.take(Number(size))),
      rattle_realloc: (out, old, kept, size) => this.tell(out, this.move(Number(old), Number(kept), Number(size))),
      rattle_dealloc: (at) => this.give(Number(at)),
    };
  }

  /** A block for so many bytes that begins with those kept of another, which is given back; 0, and nothing is done, where there is no memory. */
  move(old, kept, size) {
    const room = this.sizes.get(old);
    if (size <= room && size * 4 > room) {
      return old;
    }
    const at = this.take(size);
    if (at) {
      this.bytes(at, kept).set(this.bytes(old, kept));
      this.give(old);
    }
    return at;
  }
}

const REFUSALS = [
  "",
  "bad magic",
  "truncated",
  "trailing bytes",
  "bad memory",
  "bad chunk",
  "bad device",
  "out of memory",
  "bad line",
  "overlap",
  "outside memory",
  "",
  "bad capabilities",
  "bad window",
];
const LITTLE_ROOM = 11;
const BUILT_IN = "ram 0x80000000 0x100000\n";

/** What the model refuses: an image, a text of one, or for want of memory. */
class Refusal extends Error {}

/** The model: texts assembled and scripts answered. */
class Model {
  constructor(heap, exports) {
    this.heap = heap;
    this.exports = exports;
  }

  /** The model of the module with these bytes, in base64. */
  static async open(code) {
    const heap = new Heap();
    const bytes = Uint8Array.from(atob(code), (c) => c.charCodeAt(0));
    const { instance } = await WebAssembly.instantiate(bytes, { heap: heap.imports() });
    heap.attach(instance.exports.memory);
    return new Model(heap, instance.exports);
  }

  /** Calls an export with blocks for these, each an array of bytes or how many bytes; they are given back after it. */
  with(parts, call) {
    const blocks = [];
    try {
      for (const part of parts) {
        const length = typeof part === "number" ? part : part.length;
        const at = this.heap.take(length);
        if (!at) {
          throw new Refusal("out of memory");
        }
        blocks.push({ at, length });
        if (typeof part !== "number") {
          this.heap.bytes(at, length).set(part);
        }
      }
      return call(blocks);
    } finally {
      blocks.forEach((it) => this.heap.give(it.at));
    }
  }

  number(block) {
    return Number(new DataView(this.heap.memory.buffer).getBigUint64(block.at, true));
  }

  /** The bytes of the image that a text states; of an empty text those of the built-in image. */
  assemble(text) {
    const bytes = new TextEncoder().encode(text.trim() ? text : BUILT_IN);
    return this.answered(4096 + bytes.length, (room) =>
      this.with([bytes, room, 8, 8], ([source, image, count, line]) => {
        const told = this.exports.page_assemble(...slice(source), ...slice(image), BigInt(count.at), BigInt(line.at));
        const place = told >= 8 && told <= 10 ? `line ${this.number(line)}: ` : "";
        return { told, place, ...this.written(told, count, image) };
      }),
    );
  }

  /** The answer to each line of a script on an image, as `debug` has it; empty for a blank line. */
  play(image, lines) {
    const script = new TextEncoder().encode(lines.map((line) => `${line}\n`).join(""));
    const bytes = this.answersTo(image, script, 4096 + 32 * lines.length);
    return new TextDecoder().decode(bytes).split("\n").slice(0, -1);
  }

  /** The same of a script in bytes, each answer with a line end behind it; called a second time where this is too little room. */
  answersTo(image, script, enough) {
    return this.played("page_play", image, script, enough);
  }

  /**
   * The answers while it is kept what any IOMMU may hold. Behind each stands a line with the last access of its line that wasn't settled, or an
   * empty one; behind all a line for each request that is owed.
   */
  reportsOn(image, script, enough) {
    return this.played("page_settle", image, script, enough);
  }

  played(name, image, script, enough) {
    return this.answered(enough, (room) =>
      this.with([image, script, room, 8], ([start, source, answers, count]) => {
        const told = this.exports[name](...slice(start), ...slice(source), ...slice(answers), BigInt(count.at));
        return { told, place: "", ...this.written(told, count, answers) };
      }),
    );
  }

  /** The bytes that a call answers, called again with more room where it was too little. */
  answered(room, call) {
    let got = call(room);
    if (got.told === LITTLE_ROOM) {
      got = call(got.count);
    }
    if (got.told) {
      throw new Refusal(got.place + REFUSALS[got.told]);
    }
    return got.bytes;
  }

  /** How many bytes a call wrote, and these where it refused nothing. */
  written(told, count, block) {
    const length = this.number(count);
    return { count: length, bytes: told ? null : this.heap.bytes(block.at, length).slice() };
  }
}

/** A block as an export takes a slice: its address and its length. */
function slice(block) {
  return [BigInt(block.at), BigInt(block.length)];
}
