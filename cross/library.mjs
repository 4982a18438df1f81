// The library as WebAssembly: slices are laid into its memory for one call, and read back after it.
import { readFileSync } from 'node:fs';

export class Library {
  constructor(path) {
    const module = new WebAssembly.Module(readFileSync(path));
    this.functions = new WebAssembly.Instance(module, {}).exports;
    this.free = this.functions.__heap_base.value;
  }

  /** The memory as it is now: it moves when it grows. */
  get bytes() {
    return new Uint8Array(this.functions.memory.buffer);
  }

  /** Room for so many bytes behind all that was laid. */
  room(bytes) {
    const at = (this.free + 7) & ~7;
    this.free = at + bytes;
    const { memory } = this.functions;
    const missing = this.free - memory.buffer.byteLength;
    if (missing > 0) memory.grow(Math.ceil(missing / 65536));
    return at;
  }

  /**
   * Calls a function. A typed array is lent as a pointer and a length, and holds afterwards what the function left there; anything else is a number.
   * The answer is a BigInt, of 32 or of 64 bits.
   */
  call(name, ...given) {
    const before = this.free;
    const lent = [];
    const words = given.flatMap((value) => {
      if (!ArrayBuffer.isView(value)) return [value];
      const at = this.room(value.byteLength);
      lent.push([value, at]);
      return [at, value.length];
    });
    for (const [value, at] of lent) this.bytes.set(new Uint8Array(value.buffer, value.byteOffset, value.byteLength), at);
    const answer = this.functions[`groovepawn_${name}`](...words);
    for (const [value, at] of lent) {
      new Uint8Array(value.buffer, value.byteOffset, value.byteLength).set(this.bytes.subarray(at, at + value.byteLength));
    }
    this.free = before;
    return typeof answer === 'bigint' ? BigInt.asUintN(64, answer) : BigInt(answer >>> 0);
  }
}
