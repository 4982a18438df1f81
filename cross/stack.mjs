// How much of its stack each function uses as WebAssembly, as tools/stack.c reads it on the other processors: the stack lies at the beginning of the
// memory, is painted before a call, and looked at after it. What the engine keeps for itself is not in it.
//
//     node cross/stack.mjs GROOVEPAWN.WASM
import { Library } from './library.mjs';

const library = new Library(process.argv[2]);
const STACK = 2 * 1024 * 1024;
const PAINT = 0xa5;
const STATES = 65536;
const EVENTS = 16384;
const FILE = 5974;

const head = [4, 80, 66, 67, 65, 4, 68, 70, 71, 72, 4, 0, 3, 0, 3, 0, 3, 0, 3, 2, 0, 0, 1, 0];
// 256 rules at one location that hold and each take one event; those to location 1, which has no rules, lead nowhere.
const nested = Array.from({ length: 256 }, (_, event) => {
  const [x, y] = [event >> 4, event & 15];
  return [0, 15 & ~x, 0, 15 & ~y, 0, 15, x === 0 || event === 128 ? 1 : 0, ...Array(4).fill([0, 0, 0, 2]).flat()];
});
// The same with bounds that fail last, but for the last rule, which takes the event 15, 15 alone.
const barred = nested.map((_, event) => {
  const last = event === 255 ? 15 : 0;
  const open = [0, 0, 255, 255];
  return [0, last, last, last, last, 15, 0, ...open, ...open, ...open, 0, last ? 0 : 2, 255, 255];
});
const any = Uint8Array.from([4, 80, 66, 67, 65, 4, 68, 70, 71, 72, 0, 1, 0, 0, 1, 0, 0, 0, 0, 0, 0, 0]);
const policy = (rules) => Uint8Array.from([...head, ...rules.flat()]);

/** The calls, by name, with what one leaves for another. */
function* calls(file, reading) {
  const marks = new Uint8Array(STATES);
  const work = Array.from({ length: 5 }, () => new Uint16Array(STATES));
  const index = new Uint16Array(128);
  const state = () => new Uint16Array(5);
  const bays = new Uint16Array(40);
  const station = new Uint16Array(6);
  const totals = new Uint32Array(2);
  const quiet = new Uint8Array(EVENTS);
  const restless = quiet.map((_, i) => (i % 2 ? 255 : 0));
  const text = new Uint8Array(508119);
  yield ['check', file];
  yield ['prepare', reading, file, marks];
  yield ['prepare_fast', reading, file, marks, ...work];
  yield ['index', file, index];
  yield ['input', reading, file, marks, state(), 0];
  yield ['output', reading, file, marks, state(), 15, 0];
  yield ['run', reading, file, marks, state(), quiet, new Uint8Array(EVENTS)];
  yield ['input_indexed', reading, file, index, marks, state(), 0];
  yield ['output_indexed', reading, file, index, marks, state(), 15, 0];
  yield ['bays_new', bays];
  yield ['bay_input', reading, file, marks, bays, 7, 0];
  yield ['bay_output', reading, file, marks, bays, 7, 15, 0];
  yield ['meter_new', station, totals, 65530];
  yield ['meter_input', reading, file, marks, station, 4, 0];
  yield ['meter_output', reading, file, marks, station, totals, 4, 15, 0];
  yield ['join', file, any, new Uint8Array(FILE)];
  yield ['clean', reading, file, new Uint8Array(FILE), new Uint8Array(957)];
  yield ['why', reading, file, marks, state(), 0, 0];
  const tables = [new Uint32Array(STATES), new Uint32Array(STATES), new Uint8Array(STATES)];
  yield ['why_run', reading, file, marks, state(), quiet, new BigUint64Array(EVENTS), ...tables, ...work];
  yield ['ticks', 12345, 100, 1];
  const written = yield ['wave_write', file, restless, text];
  yield ['wave_read', file, text.subarray(0, Number(written >> 8n)), new Uint8Array(EVENTS)];
  const policyText = new Uint8Array(39420);
  const shown = policyText.subarray(0, Number((yield ['text_write', file, policyText]) >> 8n));
  yield ['text_read', shown, new Uint8Array(FILE)];
  yield ['text_line_of_rule', shown, 255];
  yield ['text_name_of_signal', shown, 7];
  yield ['text_name_of_clock', shown, 3];
  yield ['text_name_of_location', shown, 1];
}

function used(call) {
  library.bytes.fill(PAINT, 0, STACK);
  const answer = library.call(...call);
  if (answer & 0xffn) throw new Error(`groovepawn_${call[0]} refused ${answer & 0xffn}`);
  let untouched = 0;
  while (untouched < STACK && library.bytes[untouched] === PAINT) untouched++;
  return [answer, STACK - untouched];
}

const most = new Map();
for (const rules of [nested, barred]) {
  for (const reading of [1, 2]) {
    const these = calls(policy(rules), reading);
    for (let next = these.next(); !next.done;) {
      const [answer, bytes] = used(next.value);
      const name = next.value[0];
      most.set(name, Math.max(most.get(name) ?? 0, bytes));
      next = these.next(answer);
    }
  }
}
for (const [name, bytes] of most) console.log(`groovepawn_${name} ${bytes} bytes`);
