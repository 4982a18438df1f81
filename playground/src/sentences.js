// Rules, reasons and verdicts in words: those of docs/WHY.md, with the names of the text.

/** The conditions of a rule, as a line of a text has them. */
export function conditions(named, rule) {
  const words = named.signals.filter(({ bit }) => rule.care & bit).map(({ bit, name }) => (rule.value & bit ? name : `!${name}`));
  rule.bounds.forEach(({ low, high }, clock) => {
    if (low > 0) words.push(`${named.clocks[clock]} >= ${low}`);
    if (high !== null) words.push(`${named.clocks[clock]} <= ${high}`);
  });
  return words.join(' ') || 'any';
}

/** The clocks that a rule sets to 0. */
export const resets = (named, rule) => (rule.resets.length ? `reset ${rule.resets.map((clock) => named.clocks[clock]).join(' ')}` : '');

/** What a rule asks: where, which signals on and off, which clocks from and to. */
function asked(named, rule) {
  const parts = [`at ${named.locations[rule.source]}`];
  for (const [value, word] of [[rule.value, 'on'], [~rule.value, 'off']]) {
    const names = named.signals.filter(({ bit }) => rule.care & value & bit).map(({ name }) => name);
    if (names.length) parts.push(`${names.join(' ')} ${word}`);
  }
  rule.bounds.forEach(({ low, high }, clock) => {
    const name = named.clocks[clock];
    if (high !== null) parts.push(`${name} from ${low} to ${high}`);
    else if (low > 0) parts.push(`${name} from ${low} on`);
  });
  return parts.join(', ');
}

const RULE = 1;
const NO_RULE = 2;
const TICKS_LEFT = 3;
const RESTS_LEFT = 4;
const NO_VIOLATION = 'it is no violation itself, but ';

const times = (count, one, many) => `${count} more ${count === 1 ? one : many}`;

function forbids(named, number) {
  const rule = named.parts.rules[number];
  const line = named.lineOf(number);
  const place = line ? `rule ${number} (line ${line})` : `rule ${number}`;
  return rule ? `${place} forbids it: ${asked(named, rule)}` : `${place} forbids it`;
}

/** Why an output was edited. */
function outputReason(named, { kind, number }) {
  switch (kind) {
    case RULE: return forbids(named, number);
    case NO_RULE: return 'no rule allows it';
    case TICKS_LEFT: return `${NO_VIOLATION}after it at most ${times(number, 'tick', 'ticks')}`;
    case RESTS_LEFT: return `${NO_VIOLATION}after it ${number === 0 ? 'never at rest again' : `at most ${times(number, 'time at rest', 'times at rest')}`}`;
    default: return '';
  }
}

/** Why an input was edited: a rule, or that there is none, is the reason only where no output will do. */
function inputReason(named, reason) {
  const words = outputReason(named, reason);
  return reason.kind === RULE || reason.kind === NO_RULE ? `no output will do; with none on, ${words}` : words;
}

/** The reasons of both halves; `half` is 'input' or 'output'. Only halves that were edited have one. */
export function reasonsInWords(named, reasons) {
  const told = [];
  if (reasons.input.kind) told.push({ half: 'input', words: inputReason(named, reasons.input), rule: ruleIn(reasons.input) });
  if (reasons.output.kind) told.push({ half: 'output', words: outputReason(named, reasons.output), rule: ruleIn(reasons.output) });
  return told;
}

const ruleIn = ({ kind, number }) => (kind === RULE ? number : null);

/** What was done to the signals of a half: "credit off", "valve on". */
export function changesOf(named, half, read, released) {
  const changed = named.signals.filter(({ bit, input }) => input === (half === 'input') && (read ^ released) & bit);
  return changed.map(({ bit, name }) => `${name} ${released & bit ? 'on' : 'off'}`).join(', ');
}

const grouped = new Intl.NumberFormat('en');
export const amount = (number) => grouped.format(number);
export const plural = (count, one, many = `${one}s`) => `${amount(count)} ${count === 1 ? one : many}`;

/** The verdict of prepare in words. */
export function verdictWords({ refusal, verdict, states, live }) {
  if (refusal === 11) return 'Hopeless. From the start no permitted stream goes on for ever and comes to rest again and again.';
  const counts = live === states ? `${plural(states, 'state')}, all live` : `${plural(states, 'state')}, ${amount(live)} live`;
  return verdict === 0
    ? `Every state that permitted events lead to has a future (${counts}).`
    : `A permitted event can lead to a state without a future; such events are edited (${counts}).`;
}
