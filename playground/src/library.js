// The library as WebAssembly: slices are laid into its memory for one call, or held there for many.

const PAGE = 65536;
const ALIGNED = 8;

/** A slice that stays in the library's memory until everything held is let go. */
class Held {
  constructor(library, Numbers, at, length) {
    Object.assign(this, { library, Numbers, at, length });
  }

  /** What it holds now, as a copy. */
  get numbers() {
    return new this.Numbers(this.library.memory.buffer, this.at, this.length).slice();
  }

  put(numbers) {
    new this.Numbers(this.library.memory.buffer, this.at, this.length).set(numbers);
  }
}

export class Library {
  constructor(instance) {
    this.functions = instance.exports;
    this.memory = instance.exports.memory;
    this.begin = instance.exports.__heap_base.value;
    this.free = this.begin;
  }

  static async open(wasm) {
    const { instance } = await WebAssembly.instantiate(wasm, {});
    return new Library(instance);
  }

  /** Room for so many bytes behind all that was laid. */
  room(bytes) {
    const at = Math.ceil(this.free / ALIGNED) * ALIGNED;
    this.free = at + bytes;
    const missing = this.free - this.memory.buffer.byteLength;
    if (missing > 0) this.memory.grow(Math.ceil(missing / PAGE));
    return at;
  }

  /** Holds a copy of the numbers. */
  hold(numbers) {
    const held = new Held(this, numbers.constructor, this.room(numbers.byteLength), numbers.length);
    held.put(numbers);
    return held;
  }

  /** Lets go of everything that is held. */
  letGo() {
    this.free = this.begin;
  }

  /**
   * Calls a function. A typed array is lent as a pointer and a length, and has afterwards what the function left there. What is held is
   * handed over as it lies. Anything else is a number. The answer is a BigInt, of 32 or of 64 bits.
   */
  call(name, ...given) {
    const before = this.free;
    const lent = [];
    const words = [];
    for (const value of given) {
      if (value instanceof Held) {
        words.push(value.at, value.length);
      } else if (ArrayBuffer.isView(value)) {
        const at = this.room(value.byteLength);
        lent.push([new Uint8Array(value.buffer, value.byteOffset, value.byteLength), at]);
        words.push(at, value.length);
      } else {
        words.push(value);
      }
    }
    for (const [bytes, at] of lent) new Uint8Array(this.memory.buffer, at, bytes.length).set(bytes);
    const answer = this.functions[`groovepawn_${name}`](...words);
    for (const [bytes, at] of lent) bytes.set(new Uint8Array(this.memory.buffer, at, bytes.length));
    this.free = before;
    return typeof answer === 'bigint' ? BigInt.asUintN(64, answer) : BigInt(answer >>> 0);
  }
}
