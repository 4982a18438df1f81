// The loop of example/tick_loop.c over the library as WebAssembly:
//
//     node cross/tick_loop.mjs GROOVEPAWN.WASM
import { Library } from './library.mjs';

const library = new Library(process.argv[2]);
const policy = Uint8Array.from([
  1, 82, 1, 67, 1, 0, 3, 2, 0, 0, 0, 4,
  0, 1, 1, 0, 0, 1, 1, 0, 0, 255, 255, 0, 0, 0, 0, 0, 1, 0, 0, 0, 255, 255, 1, 0, 0, 1, 1, 1, 0, 0, 0, 255, 255, 1, 0, 0, 1, 0, 0, 1, 0, 0, 0, 2,
]);
const marks = new Uint8Array(8);
const state = new Uint16Array(5);

/** What a call found; a refusal ends the loop before anything is put out. */
function found(answer) {
  if (answer & 0xffn) throw new Error(`refused ${answer & 0xffn}`);
  return answer >> 8n;
}

const prepared = found(library.call('prepare', 1, policy, marks));
console.log(`verdict ${prepared & 0xffn} states ${prepared >> 8n & 0xffffffn} live ${prepared >> 32n}`);
[1, 0, 0, 0, 0].forEach((sensed, tick) => {
  const x = Number(found(library.call('input', 1, policy, marks, state, sensed)));
  const wanted = 0; // the controller forgets C
  const y = Number(found(library.call('output', 1, policy, marks, state, x, wanted)));
  const event = (x | y << 4).toString(16).toUpperCase().padStart(2, '0');
  console.log(`tick ${tick + 1}: input ${sensed} passed as ${x}, output ${wanted} put out as ${y}, event ${event}, then location ${state[0]} and clock ${state[1]}`);
});
