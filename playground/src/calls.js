// The library's functions, with their answers taken apart. Every answer has `refusal`, 0 for none.

const MOST_FILE_BYTES = 5974;
const MOST_STRUCK_BYTES = 957;
const MOST_WAVE_BYTES = 508119;
const MOST_WAVE_EVENTS = 16384;
const MOST_TEXT_BYTES = 39420;
export const STATE_NUMBERS = 5;

const field = (answer, from, bits) => Number((answer >> BigInt(from)) & ((1n << BigInt(bits)) - 1n));
const refusalOf = (answer) => field(answer, 0, 8);

/** The file of a policy's text; or the line that is refused. */
export function readText(library, text) {
  const file = new Uint8Array(MOST_FILE_BYTES);
  const answer = library.call('text_read', text, file);
  const refusal = refusalOf(answer);
  return { refusal, line: field(answer, 8, 32), file: refusal ? null : file.slice(0, field(answer, 40, 24)) };
}

/** The text of a file, as bytes. */
export function writeText(library, file) {
  const text = new Uint8Array(MOST_TEXT_BYTES);
  const answer = library.call('text_write', file, text);
  return { refusal: refusalOf(answer), text: text.slice(0, field(answer, 8, 56)) };
}

/** The line of a text, from 1, in which rule i is. */
export function lineOfRule(library, text, rule) {
  const answer = library.call('text_line_of_rule', text, rule);
  return refusalOf(answer) ? 0 : field(answer, 8, 32);
}

/** The name of the i-th signal, clock or location of a text; '' where it has none. */
export function nameOf(library, text, kind, i) {
  const answer = library.call(`text_name_of_${kind}`, text, i);
  if (refusalOf(answer)) return '';
  const at = field(answer, 8, 32);
  return new TextDecoder().decode(text.subarray(at, at + field(answer, 40, 24)));
}

/** How many states a file has. */
export function check(library, file) {
  const answer = library.call('check', file);
  return { refusal: refusalOf(answer), states: field(answer, 8, 56) };
}

/** Five slices of 16 bits, the scratch of the second engine. */
export const workSlices = (library, states) => Array.from({ length: 5 }, () => library.hold(new Uint16Array(states)));

/** Writes the marks: they are written with refusal 11 too. */
export function prepare(library, reading, file, marks, work) {
  const answer = library.call('prepare_fast', reading, file, marks, ...work);
  return { refusal: refusalOf(answer), verdict: field(answer, 8, 8), states: field(answer, 16, 24), live: field(answer, 40, 24) };
}

/** Joins two files. */
export function join(library, a, b) {
  const out = new Uint8Array(MOST_FILE_BYTES);
  const answer = library.call('join', a, b, out);
  return { refusal: refusalOf(answer), file: out.slice(0, field(answer, 8, 56)) };
}

const STRUCK_BYTES = 3;

/** The cleaned file, and what was struck out: `kind` 1 a location, 2 a rule of one, 3 another rule. */
export function clean(library, reading, file) {
  const cleaned = new Uint8Array(MOST_FILE_BYTES);
  const list = new Uint8Array(MOST_STRUCK_BYTES);
  const answer = library.call('clean', reading, file, cleaned, list);
  const struck = [];
  for (let at = 0; at < field(answer, 32, 32); at += STRUCK_BYTES) {
    struck.push({ kind: list[at], number: list[at + 1] * 256 + list[at + 2] });
  }
  return { refusal: refusalOf(answer), file: cleaned.slice(0, field(answer, 8, 24)), struck };
}

/** One tick or many; the state, which is held, moves. */
export function run(library, reading, file, marks, state, events, released) {
  const answer = library.call('run', reading, file, marks, state, events, released);
  return { refusal: refusalOf(answer), count: field(answer, 8, 56) };
}

/** A reason for each half: `kind` 0 for one that is not edited. */
export function reasonsOf(answer) {
  return {
    input: { kind: field(answer, 8, 8), number: field(answer, 16, 16) },
    output: { kind: field(answer, 32, 8), number: field(answer, 40, 24) },
  };
}

/** Why an event as read is edited in a state. */
export function why(library, reading, file, marks, state, event) {
  const answer = library.call('why', reading, file, marks, state, event & 15, event >> 4);
  return { refusal: refusalOf(answer), answer };
}

/** The reasons of a run of events, each as one number; the state, which is lent, moves. */
export function whyRun(library, reading, file, marks, state, events, room) {
  const reasons = new BigUint64Array(events.length);
  const answer = library.call('why_run', reading, file, marks, state, events, reasons, room.ticks, room.rests, room.prepared, ...room.work);
  return { refusal: refusalOf(answer), reasons };
}

/** A stream as a Value Change Dump. */
export function writeWave(library, file, events) {
  const text = new Uint8Array(MOST_WAVE_BYTES);
  const answer = library.call('wave_write', file, events, text);
  return { refusal: refusalOf(answer), text: text.slice(0, field(answer, 8, 56)) };
}

/** The stream of such a text. */
export function readWave(library, file, text) {
  const events = new Uint8Array(MOST_WAVE_EVENTS);
  const answer = library.call('wave_read', file, text, events);
  return { refusal: refusalOf(answer), events: events.slice(0, field(answer, 8, 56)) };
}

/** A station with a meter, whose register is first read as given. */
export function newMeter(library, station, totals, register) {
  return { refusal: refusalOf(library.call('meter_new', station, totals, register)) };
}

/** Both halves of a tick of a station with a meter: the state, the register kept and the totals move. */
export function meterTick(library, reading, file, marks, meter, register, event) {
  const input = library.call('meter_input', reading, file, marks, meter.station, register, event & 15);
  if (refusalOf(input)) return { refusal: refusalOf(input) };
  const passed = field(input, 8, 8);
  const output = library.call('meter_output', reading, file, marks, meter.station, meter.totals, register, passed, event >> 4);
  return { refusal: refusalOf(output), released: passed | (field(output, 8, 8) << 4) };
}
