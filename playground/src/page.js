// The page: what was typed and switched goes to the library, and its answers to their places.
import { check, readText, reasonsOf, writeText } from './calls.js';
import { clauseTitle, clausesShown, newClause } from './clauses.js';
import { drawing } from './drawing.js';
import { Editor } from './editor.js';
import { withTicks, withoutLastTick } from './events.js';
import { statesOfALocation } from './file.js';
import { escaped, putInto } from './html.js';
import { deskFrom, emptyDesk } from './keeping.js';
import { Library } from './library.js';
import { namedClause, namedJoin } from './naming.js';
import { refusalSentence } from './refusals.js';
import { SAMPLES } from './samples.js';
import { amount, plural, reasonsInWords } from './sentences.js';
import { Shelf } from './shelf.js';
import { TickTable, clockWords, stateAfter, stateShown } from './table.js';
import { canHaveMeter, meterShown, switchesShown, tickShown } from './trying.js';
import { notReadShown, verdictsShown, wholeShown, workShown } from './verdicts.js';
import { ticksThatFit, waves } from './waves.js';
import { Workshop } from './workshop.js';

const byId = (id) => document.getElementById(id);
const put = (id, html) => putInto(byId(id), html);
const none = (words) => `<p class="none">${words}</p>`;
/** Where the answers under a reading stand. */
const READING = { 1: 0, 2: 1 };
const MOST_TICKS_AT_ONCE = 100000;
/** So many texts are remembered with what the library said of them. */
const MOST_TEXTS = 200;

/** The library's bytes stand in the page, packed. */
async function wasmOf(packed) {
  const bytes = Uint8Array.from(atob(packed), (letter) => letter.charCodeAt(0));
  return new Response(new Blob([bytes]).stream().pipeThrough(new DecompressionStream('deflate-raw'))).arrayBuffer();
}

function sampleOptions() {
  const options = (group) => SAMPLES.map(({ group: own, name }, i) => (own === group ? `<option value="${i}">${escaped(name)}</option>` : ''));
  const groups = [...new Set(SAMPLES.map(({ group }) => group))].map((group) => `<optgroup label="${group}">${options(group).join('')}</optgroup>`);
  return `<option value="" disabled selected>Choose one</option>${groups.join('')}`;
}

class Page {
  constructor(library, workshop) {
    Object.assign(this, { library, workshop });
    this.shelf = new Shelf(this);
    this.desk = emptyDesk();
    this.texts = new Map();
    this.turn = 0;
    this.look();
    this.text = new Editor(byId('text'), { label: 'The policy as text', lowest: 14, changed: (text) => this.typed(text) });
    this.eventsText = new Editor(byId('events'), { label: 'Events, a line for each tick', lowest: 6, changed: (text) => this.eventsTyped(text) });
    this.table = new TickTable(byId('table'), (tick) => this.choose(tick));
    put('sample', sampleOptions());
    this.listen();
    this.measure();
  }

  /** How one looks at a desk at first: nothing switched, nothing chosen. */
  look() {
    Object.assign(this, { switches: 0, chosen: null, drawn: 'all', from: null });
  }

  // What a person does.

  listen() {
    const on = (id, what, does) => byId(id).addEventListener(what, does);
    this.listenToShelf(on);
    on('tick', 'click', () => this.tick(1));
    on('ticks', 'click', () => this.tick(this.count));
    on('undo', 'click', () => this.setEvents(withoutLastTick(this.desk.events)));
    on('restart', 'click', () => this.restart());
    on('clauses', 'click', (event) => this.clauseClicked(event.target.closest('button')));
    on('clauses', 'change', (event) => this.change({ cleaning: event.target.checked }));
    on('drawn', 'click', (event) => this.draw(event.target.closest('button')?.dataset.drawn));
    on('whole-shown', 'click', (event) => event.target.closest('button') && this.takeWhole());
    on('whole', 'toggle', () => this.showWhole());
    on('from', 'input', (event) => this.showWaves(Number(event.target.value) - 1));
    on('try-part', 'change', (event) => event.target.name === 'reading' && this.change({ reading: event.target.value }));
    on('try-part', 'keydown', (event) => this.keyed(event));
    for (const id of ['inputs', 'outputs']) on(id, 'click', (event) => this.flip(event.target.closest('button')?.dataset.bit));
    // The address belongs to the policy: the link only moves the focus.
    on('skip', 'click', (event) => {
      event.preventDefault();
      byId('text-heading').focus();
    });
    addEventListener('resize', () => {
      if (this.measure()) this.showTried();
    });
  }

  listenToShelf(on) {
    const { shelf } = this;
    on('sample', 'change', (event) => {
      shelf.takeSample(Number(event.target.value));
      event.target.selectedIndex = 0;
    });
    on('open', 'click', () => byId('file').click());
    on('file', 'change', (event) => {
      shelf.open(event.target.files[0]);
      event.target.value = '';
    });
    on('save-text', 'click', () => shelf.saveText());
    on('save-file', 'click', () => shelf.saveFile());
    on('save-wave', 'click', () => shelf.saveWave());
    on('link', 'click', () => shelf.copyLink());
    on('back', 'click', () => shelf.bringBack());
    addEventListener('hashchange', () => shelf.followAddress());
  }

  /** How wide the drawing and the waves may be, measured once: to ask at every keystroke would lay out the page each time. */
  measure() {
    const before = this.widths;
    this.widths = { drawing: byId('drawing').clientWidth, waves: byId('waves').clientWidth };
    return before?.drawing !== this.widths.drawing || before?.waves !== this.widths.waves;
  }

  typed(text) {
    this.desk.clauses[this.desk.open] = text;
    this.changed();
  }

  eventsTyped(text) {
    this.desk.events = text;
    this.chosen = null;
    this.shelf.keep();
    this.showButtons();
    this.play();
  }

  setEvents(text) {
    this.eventsText.text = text;
    this.eventsTyped(text);
  }

  get count() {
    return Math.min(MOST_TICKS_AT_ONCE, Math.max(1, Math.floor(Number(byId('count').value)) || 1));
  }

  /** Whether a tick can be added: the policy is tried, and no line of the events is wrong. */
  get canTick() {
    return Boolean(this.policies && this.record && !this.wrongEvents);
  }

  tick(times) {
    if (!this.canTick) return;
    const pulses = Number(byId('pulses')?.value) || 0;
    this.setEvents(withTicks(this.desk.events, this.named.signals, this.switches, times, pulses));
  }

  restart() {
    this.shelf.putAside();
    this.setEvents('');
    byId('back').hidden = !this.shelf.hasAside;
    this.say('The policy is at its start again.');
  }

  flip(bit) {
    if (!bit) return;
    this.switches ^= Number(bit);
    this.showSwitches(bit);
  }

  /** A signal's letter flips its switch while one is at the switches. */
  keyed(event) {
    if (event.ctrlKey || event.metaKey || event.altKey || /^(TEXTAREA|INPUT|SELECT)$/.test(event.target.tagName)) return;
    const signal = this.named?.signals.find(({ tag }) => tag === event.key.toUpperCase());
    if (!signal) return;
    this.switches ^= signal.bit;
    this.showSwitches(event.target.dataset.bit);
  }

  change(changes) {
    Object.assign(this.desk, changes);
    this.changed();
  }

  clauseClicked(button) {
    if (!button) return;
    const { clauses } = this.desk;
    if (button.dataset.clause) this.desk.open = Number(button.dataset.clause);
    if (button.dataset.add) this.desk.open = clauses.push(newClause(clauses[0])) - 1;
    if (button.dataset.remove) {
      this.shelf.putAside();
      clauses.splice(this.desk.open, 1);
      this.desk.open = Math.max(0, this.desk.open - 1);
    }
    this.drawn = 'all';
    this.showDesk();
    this.changed();
    byId('clauses').querySelector('[aria-pressed=true]')?.focus();
  }

  choose(tick) {
    this.chosen = this.chosen === tick ? null : tick;
    this.showTried();
    byId('table').querySelector(`[data-tick="${tick}"]`)?.focus();
  }

  draw(what) {
    if (what === undefined) return;
    this.drawn = what === 'all' ? 'all' : Number(what);
    this.showDrawn();
    this.showDrawing();
    byId('drawn').querySelector('[aria-pressed=true]').focus();
  }

  // The desk.

  /** Another desk takes the place of this one. */
  take(desk, words) {
    this.shelf.putAside();
    this.desk = deskFrom(desk);
    this.look();
    this.showDesk();
    this.changed();
    this.say(words);
  }

  showDesk() {
    this.text.text = this.desk.clauses[this.desk.open];
    this.eventsText.text = this.desk.events;
    document.querySelector(`[name=reading][value="${this.desk.reading}"]`).checked = true;
    byId('back').hidden = !this.shelf.hasAside;
  }

  say(words) {
    byId('said').textContent = words;
  }

  async begin() {
    this.desk = this.shelf.left;
    this.showDesk();
    if (location.hash.length < 2 || !await this.shelf.followAddress()) this.changed();
  }

  /** The desk was changed: everything is asked anew. */
  changed() {
    this.shelf.keep();
    this.readClauses();
    this.ask();
  }

  /** What the library says of a text. What was asked once is kept. */
  read(text) {
    if (!this.texts.has(text)) {
      if (this.texts.size >= MOST_TEXTS) this.texts.clear();
      const bytes = new TextEncoder().encode(text);
      this.texts.set(text, { ...readText(this.library, bytes), bytes });
    }
    return this.texts.get(text);
  }

  readClauses() {
    const { clauses, open } = this.desk;
    this.reads = clauses.map((text) => this.read(text));
    put('clauses', clausesShown(this.desk, this.reads));
    this.text.label(clauses.length > 1 ? `Clause ${open + 1} of ${clauses.length}, as text` : 'The policy as text');
    const { refusal, line } = this.reads[open];
    const words = refusal ? refusalSentence(refusal) : '';
    this.text.mark(refusal && line ? { line, words } : null, 'wrong');
    byId('wrong').textContent = refusal ? `${line ? `Line ${line}: ` : ''}${words}.` : '';
  }

  // Asking the worker.

  ask() {
    this.turn++;
    this.workshop.stop();
    const refused = this.reads.findIndex(({ refusal }) => refusal);
    if (refused >= 0) {
      this.showNotRead(refused);
      return;
    }
    this.preparing = true;
    const { reads } = this;
    const [texts, files] = [reads.map(({ bytes }) => bytes), reads.map(({ file }) => file)];
    const { cleaning, events } = this.desk;
    this.states = Math.max(...files.map((file) => check(this.library, file).states));
    this.workshop.send('answer', { texts, files, cleaning, events }, (parts, done) => this.came(parts, done, reads, events));
  }

  /** The events alone are played anew. While a policy is prepared they wait for it. */
  play() {
    if (this.preparing || !this.policies) return;
    this.turn++;
    this.workshop.drop();
    const { events } = this.desk;
    this.workshop.send('play', { events }, (parts, done) => this.came(parts, done, this.reads, events));
  }

  /** A part of the answer came, or all of it. */
  came({ prepared, played, reasons }, done, reads, events) {
    if (prepared) this.takePrepared(prepared, reads);
    if (played) this.takePlayed(played);
    reasons?.forEach((told, i) => told && Object.assign(this.tried[i], told));
    if (this.tried) this.showTried();
    else this.showDrawing();
    if (!done) return;
    this.answered();
    if (events !== this.desk.events) this.play();
  }

  takePrepared({ names, policies }, reads) {
    this.preparing = false;
    document.body.classList.remove('stale');
    this.policies = policies;
    this.tried = null;
    const title = (i) => clauseTitle(this.desk.clauses[i], i);
    this.clauses = reads.map(({ bytes, file }, i) => ({ ...namedClause(this.library, bytes, file, names[i]), title: title(i) }));
    this.names = policies.map((policy) => this.namesOf(policy));
    this.named = this.names[READING[this.primary]];
    put('verdict', verdictsShown(policies, this.clauses));
    this.showWhole();
    this.showDrawn();
  }

  /** What a prepared policy's parts are called; nothing where the clauses were not joined. */
  namesOf({ refusal, file, places }) {
    if (refusal) return null;
    return this.clauses.length === 1 ? this.clauses[0] : namedJoin(this.clauses, file, places);
  }

  takePlayed({ records, registers, wrong }) {
    this.tried = records;
    this.registers = registers;
    this.wrongEvents = Boolean(wrong);
    this.eventsText.mark(wrong, 'events-wrong');
    byId('events-wrong').textContent = wrong ? `Line ${wrong.line}: ${wrong.words}.` : '';
    put('verdict', verdictsShown(this.policies, this.clauses));
  }

  /** Everything that was asked is answered and shown. */
  answered() {
    document.body.dataset.answered = this.turn;
  }

  /** A question takes long enough to be noticed. */
  noticed() {
    put('verdict', workShown(this.preparing ? `Preparing ${plural(this.states, 'state')} …` : 'Playing the events …'));
  }

  /** A fault of the page, and not of what was typed. */
  broken(words) {
    this.say('The page has a fault and cannot answer. Your text is kept; reload the page.');
    console.error(words);
  }

  /** A text that gives no file. What came of the last right one stays in sight, dimmed, so that nothing jumps while one types. */
  showNotRead(clause) {
    this.policies = null;
    this.preparing = false;
    document.body.classList.add('stale');
    const where = clause === this.desk.open ? 'The text is not right yet' : `Clause ${clause + 1} is not right yet`;
    put('verdict', notReadShown(`${where}${this.named ? ': what is drawn and tried is of the last one that was' : ''}.`));
    byId('whole').hidden = true;
    this.text.light([]);
    if (!this.named) put('drawing', none('The automaton is drawn when the text is right.'));
    this.showButtons();
    this.answered();
  }

  // What is shown of the policy.

  /** The reading that is drawn, tried and saved; 1 where both are shown. */
  get primary() {
    return this.desk.reading === '2' ? 2 : 1;
  }

  get policy() {
    return this.policies?.[READING[this.primary]];
  }

  get record() {
    return this.tried?.[READING[this.primary]];
  }

  /** The policy as one text, written by the library. */
  showWhole() {
    const { policy, clauses, desk } = this;
    const place = byId('whole');
    place.hidden = !policy || Boolean(policy.refusal);
    if (place.hidden || !place.open) return;
    const cleaned = desk.cleaning ? `, and cleaned in between for reading ${this.primary}` : '';
    put('whole-shown', wholeShown(this.named, this.wholeText, clauses.length > 1 ? `${plural(clauses.length, 'clause')} joined${cleaned}: ` : ''));
  }

  get wholeText() {
    return new TextDecoder().decode(writeText(this.library, this.policy.file).text);
  }

  takeWhole() {
    this.take({ ...this.desk, clauses: [this.wholeText], open: 0 }, 'This is the whole policy as one text. Names and comments are not in a file.');
  }

  showDrawn() {
    const choice = (value, words) => `<button type="button" data-drawn="${value}" aria-pressed="${this.drawn === value}">${words}</button>`;
    const each = this.clauses.map((_, i) => choice(i, `Clause ${i + 1}`));
    put('drawn', each.length > 1 ? `${choice('all', 'All joined')}${each.join('')}` : '');
  }

  /** The names, the marks and the states of what is drawn: the whole policy, or one clause of it. */
  get drawnPart() {
    const { policy, drawn, record } = this;
    if (drawn === 'all' || this.clauses.length === 1) {
      return this.named && { named: this.named, told: policy, states: record?.states };
    }
    const named = this.clauses[drawn];
    const told = policy.refusal ? { live: named.locations.map(() => statesOfALocation(named.parts)), struck: [] } : policy.clauses[drawn];
    return { named, told, states: record?.clauseStates[drawn] };
  }

  showDrawing() {
    const part = this.drawnPart;
    if (!part) {
      put('drawing', none('The clauses are not joined. Choose one of them to see it drawn.'));
      put('now', '');
      return;
    }
    const { named, told, states } = part;
    const tick = this.shownTick;
    const state = states ? stateAfter(states, tick) : null;
    const now = state && { location: state[0], clocks: clockWords(named, state), rule: this.litRule(this.drawn) };
    put('drawing', drawing(named, { ...told, statesEach: statesOfALocation(named.parts) }, now, this.widths.drawing));
    put('now', state ? `${tick < 0 ? 'At the start' : `After tick ${amount(tick + 1)}`}: ${stateShown(named, state)}` : '');
    this.followLocation(now?.location);
  }

  /** The present location is kept in sight where the drawing is higher than its place. */
  followLocation(location) {
    if (location === this.followed) return;
    this.followed = location;
    const place = byId('drawing');
    const card = place.querySelector('.here > .box');
    if (!card || place.scrollHeight <= place.clientHeight) return;
    const [top, height] = [Number(card.getAttribute('y')), Number(card.getAttribute('height'))];
    if (top < place.scrollTop || top + height > place.scrollTop + place.clientHeight) place.scrollTop = Math.max(0, top - 20);
  }

  // What is shown of the ticks.

  /** The tick that is shown in the drawing and in words: the one chosen, or the last. */
  get shownTick() {
    return this.chosen ?? (this.record?.done ?? 0) - 1;
  }

  /** The rule that the reason of the tick shown names: of the whole policy, or of what one clause says of the event. */
  litRule(part) {
    const { record, shownTick: tick } = this;
    const whole = part === 'all' || this.clauses.length === 1;
    const answer = whole ? record?.reasons?.[tick] : record?.objections?.get(tick)?.[part];
    if (!answer) return null;
    const told = reasonsInWords(whole ? this.named : this.clauses[part], reasonsOf(answer));
    return told.map(({ rule }) => rule).find((rule) => rule !== null) ?? null;
  }

  /** Lights the line of that rule in the text that is open. */
  lightLine() {
    const rule = this.named ? this.litRule(this.desk.open) : null;
    this.text.light(rule === null ? [] : [this.clauses[this.desk.open].lineOf(rule)]);
  }

  /** The records of the readings that are shown, with their names. */
  get shown() {
    const readings = this.desk.reading === 'both' ? [1, 2] : [this.primary];
    return readings.map((reading) => ({ reading, record: this.tried?.[READING[reading]], named: this.names[READING[reading]] })).filter(({ record }) => record);
  }

  showTried() {
    if (!this.policies) return;
    this.lightLine();
    this.showDrawing();
    this.showSwitches();
    this.showButtons();
    const { shown, clauses, chosen } = this;
    if (shown.length === 0) {
      this.showNothingToTry();
      return;
    }
    this.showWaves(this.from);
    this.table.show({ records: shown.map(({ reading, record, named }) => ({ reading, named, ...record })), clauses, chosen });
    put('last', tickShown(shown, clauses, this.shownTick));
    this.showMeter();
  }

  showNothingToTry() {
    for (const id of ['waves', 'table']) put(id, none('There is nothing to try: the policy is refused.'));
    put('last', none(this.named ? 'A hopeless policy has nothing to release: no stream is permitted that goes on for ever.' : 'The clauses are not joined.'));
    for (const id of ['window', 'meter']) byId(id).hidden = true;
  }

  showButtons() {
    for (const id of ['tick', 'ticks']) byId(id).disabled = !this.canTick;
    for (const id of ['undo', 'restart']) byId(id).disabled = this.desk.events === '';
    byId('save-wave').disabled = !this.policies || !this.record;
    byId('save-file').disabled = !this.policy || Boolean(this.policy.refusal);
  }

  showSwitches(focus) {
    if (!this.named) return;
    this.switches &= this.named.signals.reduce((bits, { bit }) => bits | bit, 0);
    const metered = Boolean(this.registers && this.record);
    put('inputs', switchesShown(this.named, true, this.switches, metered));
    put('outputs', switchesShown(this.named, false, this.switches, metered));
    if (focus) byId('try-part').querySelector(`[data-bit="${focus}"]`)?.focus();
  }

  /** Shows the ticks from one on; from the last that fit, if none is named. A chosen tick is always in sight. */
  showWaves(from) {
    const { shown, chosen, widths } = this;
    const [{ record: { done, read } }] = shown;
    const fit = Math.min(done, ticksThatFit(widths.waves));
    const last = done - fit;
    let begin = Math.min(from ?? last, last);
    if (chosen !== null && (chosen < begin || chosen >= begin + fit)) begin = Math.min(last, Math.max(0, chosen - Math.floor(fit / 2)));
    this.from = begin === last ? null : begin;
    this.showWindow(begin, fit, done);
    const traces = shown.map(({ reading, record }) => ({ label: shown.length > 1 ? `reading ${reading}` : 'released', events: record.released.subarray(0, record.done) }));
    if (done === 0) put('waves', none('No tick yet.'));
    else if (this.named.signals.length === 0) put('waves', none('The policy has no signals.'));
    else put('waves', waves(this.named, read, traces, { from: begin, to: begin + fit, room: widths.waves }, chosen));
  }

  showWindow(begin, fit, done) {
    byId('window').hidden = fit === done;
    byId('from').max = done - fit + 1;
    byId('from').value = begin + 1;
    byId('from-said').textContent = `${amount(begin + 1)} to ${amount(begin + fit)} of ${amount(done)}`;
  }

  /** The meter: shown where the events name its register, or could. */
  showMeter() {
    const { record, registers } = this;
    byId('meter').hidden = !record || (!canHaveMeter(this.named) && !registers);
    if (byId('meter').hidden) return;
    const focused = document.activeElement?.id === 'pulses';
    put('meter', meterShown(byId('pulses')?.value ?? '0', record, registers, Math.min(this.shownTick, record.done - 1)));
    if (focused) byId('pulses').focus();
  }
}

export async function openPage() {
  const wasm = await wasmOf(WASM);
  const library = await Library.open(wasm);
  const program = URL.createObjectURL(new Blob([byId('program').textContent], { type: 'text/javascript' }));
  let page = null;
  const workshop = new Workshop(program, wasm, { noticed: () => page.noticed(), broken: (words) => page.broken(words) });
  page = new Page(library, workshop);
  // For engineers who want to ask the library from the console, and for the tests.
  window.groovepawn = { library, page, samples: SAMPLES };
  await page.begin();
}
