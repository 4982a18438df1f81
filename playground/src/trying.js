// The switches, the meter, and what became of one tick in sentences.
import { escaped } from './html.js';
import { refusalWords } from './refusals.js';
import { amount } from './sentences.js';
import { eventShown, objectionSentences, reasonSentences, signalsShown } from './table.js';

/** The switches of the inputs or of the outputs. A meter sets P itself. */
export function switchesShown({ signals }, input, bits, metered) {
  const own = signals.filter((signal) => signal.input === input);
  const switches = own.map(({ bit, name, tag }) => {
    const byMeter = metered && input && tag === 'P' ? 'disabled title="The meter sets it"' : '';
    const letter = name === tag ? '' : ` <kbd>${tag}</kbd>`;
    return `<button type="button" class="switch" role="switch" data-bit="${bit}" aria-checked="${Boolean(bits & bit)}" ${byMeter}><i></i>${
      escaped(name)}${letter}</button>`;
  });
  return switches.join('') || '<span class="none">none</span>';
}

const listed = (sentences) => (sentences.length ? `<ul>${sentences.map((words) => `<li>${escaped(words)}</li>`).join('')}</ul>` : '');

/** What became of a tick under one reading. */
function releaseShown({ record, named }, clauses, tick, lead) {
  const refusal = `refused ${record.refusal}: ${escaped(refusalWords(record.refusal))}.`;
  if (tick >= record.done) return `<p>${lead}The tick is ${refusal}</p>`;
  const next = record.refusal && tick === record.done - 1 ? `<p class="wrong">The next tick is ${refusal}</p>` : '';
  const [read, released] = [record.read[tick], record.released[tick]];
  if (read === released) return `<p>${lead}Released as read.</p>${next}`;
  const reasons = record.reasons ? reasonSentences(named, record.reasons[tick], read, released).join(' ') : 'Looking for the reason …';
  const objections = clauses.length > 1 && record.objections ? objectionSentences(clauses, record.objections.get(tick)) : [];
  return `<p>${lead}Released ${signalsShown(named, read, released)}. ${escaped(reasons)}</p>${listed(objections)}${next}`;
}

/** What became of a tick, under each reading that is shown. */
export function tickShown(shown, clauses, tick) {
  const [{ record, named }] = shown;
  if (tick < 0 && !record.refusal) return '<p class="none">Set the switches as the field and the controller would, and press One tick.</p>';
  const lines = shown.map((one) => releaseShown(one, clauses, Math.max(tick, 0), shown.length > 1 ? `<b>Reading ${one.reading}.</b> ` : ''));
  const head = tick < 0 ? '' : `<p><b>Tick ${amount(tick + 1)}.</b> Read ${eventShown(named, record.read[tick])}.</p>`;
  return `${head}${lines.join('')}`;
}

/** A policy with an input P and an output D can have a meter. */
export function canHaveMeter({ signals }) {
  const has = (letter, asInput) => signals.some(({ tag, input }) => tag === letter && input === asInput);
  return has('P', true) && has('D', false);
}

const METER_HELP = 'As text <code>@+5</code> advances the register, <code>@4</code> names it; it has 16 bits and rolls over.';

/** The meter: its pulses of the next tick to be set, and what it has counted up to a tick. */
export function meterShown(pulses, { totals }, registers, tick) {
  const [billed, unbilled] = totals.subarray(tick * 2, tick * 2 + 2);
  const facts = registers && tick >= 0
    ? [['Register', registers[tick]], ['Billed', billed], ['Not billed', unbilled], ['All pulses', billed + unbilled]] : [];
  const list = facts.map(([name, value]) => `<div><dt>${name}</dt><dd>${amount(value)}</dd></div>`).join('');
  return `<label>Meter: pulses in the next tick <input type="number" id="pulses" min="0" max="65535" value="${escaped(pulses)}"></label>
    <span class="soft">${METER_HELP}</span>${list ? `<dl>${list}</dl>` : ''}`;
}
