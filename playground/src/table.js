// The ticks as a table: what was read, what was released, where that leads, and why. Equal ticks in a row are one row.
import { STATE_NUMBERS, reasonsOf } from './calls.js';
import { escaped, putInto } from './html.js';
import { refusalWords } from './refusals.js';
import { amount, changesOf, plural, reasonsInWords } from './sentences.js';

const ROWS = 40;

/** The signals of an event as released, with what was put on and what was taken off. */
export function signalsShown(named, read, released) {
  const shown = named.signals.flatMap(({ bit, name }) => {
    if (released & bit) return [read & bit ? `<span>${escaped(name)}</span>` : `<ins>${escaped(name)}<span class="heard">, put on</span></ins>`];
    return read & bit ? [`<del>${escaped(name)}<span class="heard">, taken off</span></del>`] : [];
  });
  const none = released === 0 ? '<span class="none">–</span>' : '';
  return [none, ...shown].filter(Boolean).join(' ');
}

export const eventShown = (named, event) => signalsShown(named, event, event);

/** The clocks of a state in words. */
export const clockWords = ({ clocks }, state) => clocks.map((name, clock) => `${name} ${state[1 + clock]}`).join(', ');

/** A state in words: its location, and its clocks. */
export function stateShown(named, state) {
  const clocks = clockWords(named, state);
  return `<b>${escaped(named.locations[state[0]])}</b>${clocks && ` <span class="clocks">${escaped(clocks)}</span>`}`;
}

/** The state after a tick; before the first it is the start. */
export function stateAfter(states, tick) {
  return tick < 0 ? new Uint16Array(STATE_NUMBERS) : states.subarray(tick * STATE_NUMBERS, (tick + 1) * STATE_NUMBERS);
}

const capital = (words) => words[0].toUpperCase() + words.slice(1);

/** The reasons of one edited tick as sentences. */
export function reasonSentences(named, reasons, read, released) {
  return reasonsInWords(named, reasonsOf(reasons)).map(({ half, words }) => `${capital(half)} changed, ${changesOf(named, half, read, released)}: ${words}.`);
}

/** What each clause says of the event as read, in its own names. */
export function objectionSentences(clauses, answers) {
  if (!answers) return [];
  const told = answers.flatMap((answer, i) => reasonsInWords(clauses[i], reasonsOf(answer)).map(({ half, words }) => `${clauses[i].title} objects to the ${half}: ${words}.`));
  return told.length ? told : ['No clause alone objects to the event as read: they object only together.'];
}

function alike({ read, released, states, reasons }, one, other) {
  return read[one] === read[other] && released[one] === released[other] && states[one * STATE_NUMBERS] === states[other * STATE_NUMBERS]
    && (!reasons || reasons[one] === reasons[other]);
}

/** Ticks in a row that are alike in all that is shown, as one. */
function groupsOf(records, onlyEdited) {
  const [first] = records;
  const groups = [];
  let last = null;
  for (let tick = 0; tick < first.done; tick++) {
    const edited = records.some(({ read, released }) => read[tick] !== released[tick]);
    if (onlyEdited && !edited) {
      last = null;
      continue;
    }
    if (last && records.every((record) => alike(record, last.from, tick))) last.to = tick;
    else groups.push((last = { from: tick, to: tick, edited }));
  }
  return groups;
}

const cell = (name, html, kind = '') => `<td role="cell" data-name="${name}" class="${kind}">${html}</td>`;

function releasedCell({ reading, named, read, released }, tick, both) {
  const name = both ? `released, reading ${reading}` : 'released';
  return cell(name, signalsShown(named, read[tick], released[tick]), read[tick] === released[tick] ? '' : 'edited');
}

function headOf(records) {
  const both = records.length > 1;
  const released = records.map(({ reading }) => (both ? `Released, reading ${reading}` : 'Released'));
  return ['Tick', 'Read', ...released, both ? 'Then, reading 1' : 'Then', 'Why'];
}

/** The tick that was refused, behind those that were not. */
function refusedRows(records, columns) {
  return records.filter(({ refusal }) => refusal).map(({ refusal, done, reading }) => {
    const lead = records.length > 1 ? `Reading ${reading}: r` : 'R';
    const words = `${lead}efused ${refusal}: ${escaped(refusalWords(refusal))}. The ticks behind it are not played.`;
    return `<tr role="row"><th role="rowheader" scope="row">${amount(done + 1)}</th><td role="cell" colspan="${columns - 1}" class="wrong">${words}</td></tr>`;
  }).join('');
}

function editedIn({ read, released, done }) {
  let count = 0;
  for (let tick = 0; tick < done; tick++) if (read[tick] !== released[tick]) count++;
  return count;
}

export class TickTable {
  constructor(root, chosen) {
    this.root = root;
    this.chosen = chosen;
    this.page = null;
    root.addEventListener('click', (event) => {
      const button = event.target.closest('button');
      if (button?.dataset.tick) chosen(Number(button.dataset.tick));
      if (button?.dataset.page) this.turn(button.dataset.page);
    });
    root.addEventListener('change', (event) => {
      if (event.target.name !== 'edited') return;
      this.onlyEdited = event.target.checked;
      this.page = null;
      this.show(this.shown);
      root.querySelector('[name=edited]').focus();
    });
  }

  turn(where) {
    const last = Math.max(0, Math.ceil(this.groups.length / ROWS) - 1);
    const now = Math.min(this.page ?? last, last);
    this.page = { first: 0, earlier: Math.max(0, now - 1), later: Math.min(last, now + 1), last }[where];
    if (this.page === last) this.page = null;
    this.show(this.shown);
    (this.root.querySelector(`[data-page=${where}]:not(:disabled)`) ?? this.root.querySelector('[data-page]:not(:disabled)'))?.focus();
  }

  /** `records` has for each reading shown its number, its record with reasons, and the names. */
  show(shown) {
    this.shown = shown;
    const { records } = shown;
    this.groups = groupsOf(records, this.onlyEdited);
    const last = Math.max(0, Math.ceil(this.groups.length / ROWS) - 1);
    const page = Math.min(this.page ?? last, last);
    const head = headOf(records);
    const rows = this.groups.slice(page * ROWS, (page + 1) * ROWS).map((group) => this.row(group, shown)).join('');
    const refused = page === last ? refusedRows(records, head.length) : '';
    putInto(this.root, `${this.tools(records, last, page)}<div class="wide"><table role="table">
      <thead role="rowgroup"><tr role="row">${head.map((word) => `<th role="columnheader" scope="col">${word}</th>`).join('')}</tr></thead>
      <tbody role="rowgroup">${rows + refused || this.noRow(head.length)}</tbody></table></div>`);
  }

  noRow(columns) {
    const words = this.onlyEdited ? 'No tick was edited.' : 'No tick yet. Set the switches and press One tick.';
    return `<tr role="row"><td role="cell" colspan="${columns}" class="none">${words}</td></tr>`;
  }

  tools(records, last, page) {
    const edited = records.map((record) => `${amount(editedIn(record))} edited${records.length > 1 ? ` under reading ${record.reading}` : ''}`);
    const words = `${plural(records[0].done, 'tick')}, ${edited.join(', ')}`;
    const turn = (where, label, off) => `<button type="button" data-page="${where}" ${off ? 'disabled' : ''}>${label}</button>`;
    const back = turn('first', 'First', page === 0) + turn('earlier', 'Earlier', page === 0);
    const on = turn('later', 'Later', page === last) + turn('last', 'Last', page === last);
    const pages = last > 0 ? `<span class="pages">${back}<span>page ${page + 1} of ${last + 1}</span>${on}</span>` : '';
    const only = `<label><input type="checkbox" name="edited" ${this.onlyEdited ? 'checked' : ''}> edited ticks only</label>`;
    return `<p class="tools"><span>${words}</span>${only}${pages}</p>`;
  }

  row(group, { records, clauses, chosen }) {
    const { from, to, edited } = group;
    const [{ named, read, states }] = records;
    const here = chosen !== null && chosen >= from && chosen <= to;
    const label = from === to ? amount(from + 1) : `${amount(from + 1)} to ${amount(to + 1)}`;
    const button = `<button type="button" data-tick="${to}" aria-pressed="${here}" title="Show this tick in the drawing and the waves">${label}</button>`;
    const cells = [
      cell('read', eventShown(named, read[from])),
      ...records.map((record) => releasedCell(record, from, records.length > 1)),
      cell('then', stateShown(named, stateAfter(states, to))),
      cell('why', this.why(group, records, clauses), 'why'),
    ];
    return `<tr role="row" class="${edited ? 'edited' : ''}${here ? ' chosen' : ''}"><th role="rowheader" scope="row">${button}</th>${cells.join('')}</tr>`;
  }

  /** The sentences of a row, for each reading in which it was edited. */
  why({ from, edited }, records, clauses) {
    if (!edited) return '';
    const told = records.flatMap(({ reading, named, read, released, reasons, objections }) => {
      if (read[from] === released[from]) return [];
      const lead = records.length > 1 ? `<b>Reading ${reading}.</b> ` : '';
      if (!reasons) return [`<p>${lead}<span class="none">looking for the reason …</span></p>`];
      const sentences = reasonSentences(named, reasons[from], read[from], released[from]);
      const parts = clauses.length > 1 ? objectionSentences(clauses, objections?.get(from)) : [];
      return [`<p>${lead}${escaped(sentences.join(' '))}</p>${parts.length ? `<ul>${parts.map((words) => `<li>${escaped(words)}</li>`).join('')}</ul>` : ''}`];
    });
    return told.join('');
  }
}
