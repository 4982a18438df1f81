// A policy file taken apart, to be shown. The library has checked it before.

const VIOLATION = 255;
const NO_UPPER_BOUND = 65535;
const RULE_BYTES = 7;

class Bytes {
  constructor(bytes) {
    this.bytes = bytes;
    this.at = 0;
  }

  byte() {
    return this.bytes[this.at++];
  }

  pair() {
    return this.byte() * 256 + this.byte();
  }

  list(one) {
    return Array.from({ length: this.byte() }, one);
  }
}

/** The bits of an event: an input in the low four, an output in the high four. */
const both = (input, output) => input | (output << 4);

function ruleFrom(bytes, number, clocks) {
  const [source, inputCare, inputValue, outputCare, outputValue, resets, target] = Array.from({ length: RULE_BYTES }, () => bytes.byte());
  const bounds = Array.from({ length: clocks }, () => {
    const low = bytes.pair();
    const high = bytes.pair();
    return { low, high: high === NO_UPPER_BOUND ? null : high };
  });
  return {
    number,
    source,
    care: both(inputCare, outputCare),
    value: both(inputValue, outputValue),
    resets: bounds.map((_, clock) => clock).filter((clock) => (resets >> clock) & 1),
    target: target === VIOLATION ? null : target,
    bounds,
  };
}

/** Signals with their bits in an event, ceilings, locations and rules of a file. */
export function fileParts(file) {
  const bytes = new Bytes(file);
  const letter = () => String.fromCharCode(bytes.byte());
  const inputs = bytes.list(letter).map((tag, i) => ({ tag, bit: 1 << i, input: true }));
  const outputs = bytes.list(letter).map((tag, i) => ({ tag, bit: 16 << i, input: false }));
  const ceilings = bytes.list(() => bytes.pair());
  const mustBeLeft = bytes.list(() => bytes.byte() === 1);
  const rules = Array.from({ length: bytes.pair() }, (_, number) => ruleFrom(bytes, number, ceilings.length));
  return { signals: [...inputs, ...outputs], inputs, outputs, ceilings, mustBeLeft, rules };
}

/** How many states each location has: as many as there are values of the clocks. */
export const statesOfALocation = (parts) => parts.ceilings.reduce((product, ceiling) => product * (ceiling + 1), 1);
