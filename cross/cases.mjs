// The stored cases, read and put to the library as WebAssembly: by node, and by the page of playground/ in a browser.

// What a function is given, in the order of its record: b h w numbers of 1, 2 and 4 bytes; s n a string and numbers of 16 bits; S N T R a string and
// numbers of 16, 32 and 64 bits, written; p q k a string and numbers of 32 and of 16 bits that are scratch: what these hold afterwards is not compared.
// Then the order in which the function takes them.
const KINDS = [
  ['prepare', 'bsS'], ['input', 'bssnb'], ['output', 'bssNbb'], ['run', 'bssNsS'], ['join', 'ssS'], ['ticks', 'wwb'],
  ['wave_write', 'ssS'], ['wave_read', 'ssS'], ['index', 'sN'], ['input_indexed', 'bssnnb', [0, 1, 4, 2, 3, 5]],
  ['output_indexed', 'bssNnbb', [0, 1, 4, 2, 3, 5, 6]], ['bays_new', 'N'], ['bay_input', 'bssnwb'], ['bay_output', 'bssNwbb'],
  ['meter_new', 'NTh'], ['meter_input', 'bssnhb'], ['meter_output', 'bssNThbb'], ['prepare_fast', 'bsSkkkkk'], ['clean', 'bsSS'],
  ['why', 'bssnbb'], ['check', 's'], ['why_run', 'bssNsRqqpkkkkk'],
  ['text_read', 'sS'], ['text_write', 'sS'], ['text_line_of_rule', 'sw'], ['text_name_of_signal', 'sw'], ['text_name_of_clock', 'sw'],
  ['text_name_of_location', 'sw'],
];

class Reader {
  constructor(bytes) {
    this.bytes = bytes;
    this.at = 0;
  }

  take(length) {
    if (this.bytes.length - this.at < length) throw new Error('malformed');
    this.at += length;
    return this.bytes.subarray(this.at - length, this.at);
  }

  number(length) {
    return this.take(length).reduce((number, byte) => number * 256 + byte, 0);
  }

  answer() {
    return this.take(8).reduce((number, byte) => number * 256n + BigInt(byte), 0n);
  }

  string() {
    const string = new Uint8Array(this.number(4));
    for (let made = 0; made < string.length;) {
      const k = this.number(1);
      const piece = k < 128 ? this.take(k + 1) : new Uint8Array(k - 127).fill(this.number(1));
      string.set(piece, made);
      made += piece.length;
    }
    return string;
  }

  numbers(Numbers) {
    const size = Numbers.BYTES_PER_ELEMENT;
    return Numbers.from({ length: this.number(1) }, () => (size === 8 ? this.answer() : this.number(size)));
  }

  part(kind) {
    switch (kind.toLowerCase()) {
      case 'b': return this.number(1);
      case 'h': return this.number(2);
      case 'w': return this.number(4);
      case 's': case 'p': return this.string();
      case 't': case 'q': return this.numbers(Uint32Array);
      case 'r': return this.numbers(BigUint64Array);
      default: return this.numbers(Uint16Array);
    }
  }
}

const same = (a, b) => a.length === b.length && a.every((value, i) => value === b[i]);

/** Whether one record comes out as it should. */
function holds(library, [name, given, order], body) {
  const kinds = [...given];
  const before = kinds.map((kind) => body.part(kind));
  const lent = before.map((value) => (ArrayBuffer.isView(value) ? value.slice() : value));
  const answer = library.call(name, ...(order ?? [...kinds.keys()]).map((i) => lent[i]));
  let good = answer === body.answer();
  kinds.forEach((kind, i) => {
    if ('sn'.includes(kind)) good = same(lent[i], before[i]) && good;
  });
  const written = (kind) => lent.filter((_, i) => kinds[i] === kind);
  const [first, ...list] = written('S');
  const expected = [['s', first], ['n', ...written('N')], ['t', ...written('T')], ['r', ...written('R')], ['s', ...list]];
  for (const [kind, slice] of expected) {
    if (slice) good = same(slice, body.part(kind)) && good;
  }
  if (body.at !== body.bytes.length) throw new Error('malformed');
  return good;
}

/** Puts all cases of a file to the library: how many of each function, and how many come out different. */
export function replay(library, bytes) {
  const file = new Reader(bytes);
  if (file.number(4) !== 0x47505632) throw new Error('malformed');
  const all = file.number(4);
  const counts = new Map(KINDS.map(([name]) => [name, 0]));
  let different = 0;
  for (let left = all; left > 0; left--) {
    const kind = KINDS[file.number(1) - 1];
    const body = new Reader(file.take(file.number(4)));
    if (!holds(library, kind, body)) different++;
    counts.set(kind[0], counts.get(kind[0]) + 1);
  }
  if (file.at !== file.bytes.length) throw new Error('malformed');
  return { counts: [...counts], different, all };
}
