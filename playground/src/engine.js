// What is asked of the library about a policy and its ticks, under both readings. It runs in the worker, so that nothing waits for it.
import { STATE_NUMBERS, check, clean, meterTick, newMeter, prepare, run, why, whyRun, workSlices } from './calls.js';
import { fileParts, statesOfALocation } from './file.js';
import { readEvents } from './events.js';
import { joinedClauses } from './joining.js';
import { namedClause, namedJoin, namesInText } from './naming.js';

const READINGS = [1, 2];
const HOPELESS = 11;

/** Scratch for the second engine and for reasons, as long as the largest policy needs. */
function roomFor(library, states) {
  return {
    work: workSlices(library, states),
    ticks: library.hold(new Uint32Array(states)),
    rests: library.hold(new Uint32Array(states)),
    prepared: library.hold(new Uint8Array(states)),
  };
}

/** How many states of each location are live. */
function liveByLocation(file, marks) {
  const parts = fileParts(file);
  const each = statesOfALocation(parts);
  const all = marks.numbers;
  return parts.mustBeLeft.map((_, location) => {
    let live = 0;
    for (let state = location * each; state < (location + 1) * each; state++) live += all[state];
    return live;
  });
}

/** One policy under one reading: its file and marks are held by the library, its state moves with the ticks. */
class Station {
  constructor(library, reading, file, room) {
    this.library = library;
    this.reading = reading;
    this.file = library.hold(file);
    this.marks = library.hold(new Uint8Array(check(library, file).states));
    this.summary = prepare(library, reading, this.file, this.marks, room.work);
    this.state = library.hold(new Uint16Array(STATE_NUMBERS));
    this.event = library.hold(new Uint8Array(1));
    this.out = library.hold(new Uint8Array(1));
    this.answers = new Map();
  }

  get hopeless() {
    return this.summary.refusal === HOPELESS;
  }

  /** Puts the station where it was after the ticks that are done. */
  putAt(states, ticks) {
    this.state.put(stateBefore(states, ticks));
  }

  /** One tick: the event released, or the refusal. */
  tick(event) {
    this.event.put([event]);
    const { refusal } = run(this.library, this.reading, this.file, this.marks, this.state, this.event, this.out);
    return { refusal, released: this.out.numbers[0] };
  }

  /** Why an event would be edited in the present state. What was asked once is kept. */
  objection(event) {
    const key = `${this.state.numbers.join()} ${event}`;
    if (!this.answers.has(key)) {
      this.answers.set(key, why(this.library, this.reading, this.file, this.marks, this.state, event).answer);
    }
    return this.answers.get(key);
  }
}

/** A station whose input P is set by a meter, and whose pulses are counted. */
class Meter {
  constructor(library, first) {
    this.library = library;
    this.station = library.hold(new Uint16Array(STATE_NUMBERS + 1));
    this.totals = library.hold(new Uint32Array(2));
    newMeter(library, this.station, this.totals, first);
  }

  tick(station, register, event) {
    return meterTick(this.library, station.reading, station.file, station.marks, this, register, event);
  }

  get state() {
    return this.station.numbers.subarray(0, STATE_NUMBERS);
  }

  putAt({ states, totals }, registers, ticks) {
    if (ticks === 0) return;
    this.station.put([...stateBefore(states, ticks), registers[ticks - 1]]);
    this.totals.put(totals.subarray(ticks * 2 - 2, ticks * 2));
  }
}

/** What happened tick by tick, with the state after each. */
class Record {
  constructor(ticks, clauses) {
    this.read = new Uint8Array(ticks);
    this.released = new Uint8Array(ticks);
    this.states = new Uint16Array(ticks * STATE_NUMBERS);
    this.totals = new Uint32Array(ticks * 2);
    this.clauseStates = Array.from({ length: clauses }, () => new Uint16Array(ticks * STATE_NUMBERS));
    this.done = 0;
    this.refusal = 0;
  }

  /** The first ticks of another record, which need not be run again. */
  take(other, ticks) {
    this.read.set(other.read.subarray(0, ticks));
    this.released.set(other.released.subarray(0, ticks));
    this.states.set(other.states.subarray(0, ticks * STATE_NUMBERS));
    this.totals.set(other.totals.subarray(0, ticks * 2));
    this.clauseStates.forEach((states, i) => states.set(other.clauseStates[i].subarray(0, ticks * STATE_NUMBERS)));
    this.done = ticks;
  }
}

/** How many ticks at the beginning of a play are those of the play before. */
function sameTicks(before, { events, registers, first }) {
  if (!before || before.first !== first || Boolean(before.registers) !== Boolean(registers)) return 0;
  const most = Math.min(before.events.length, events.length);
  for (let tick = 0; tick < most; tick++) {
    if (before.events[tick] !== events[tick] || (registers && before.registers[tick] !== registers[tick])) return tick;
  }
  return most;
}

export class Engine {
  constructor(library) {
    this.library = library;
    this.policies = [];
  }

  /** All answers about clauses and a text of events, one after another. */
  *answer(given) {
    yield { prepared: this.prepare(given) };
    yield* this.play(given);
  }

  /** The answers about a text of events for the policy that was prepared last. */
  *play({ events }) {
    const said = this.signals ? readEvents(events, this.signals) : null;
    yield { played: { records: said ? this.run(said) : [], registers: said?.registers ?? null, wrong: said?.wrong ?? null } };
    yield { reasons: said ? this.reasons() : [] };
  }

  /** The names in the clauses' texts; what was found once is kept. */
  namesOf(texts, files) {
    const before = this.named ?? new Map();
    const words = texts.map((text) => new TextDecoder('latin1').decode(text));
    this.named = new Map(words.map((text, i) => [text, before.get(text) ?? namesInText(this.library, texts[i], files[i])]));
    return words.map((text) => this.named.get(text));
  }

  /** Joins the clauses and prepares what comes of it, and each clause, under both readings. */
  prepare({ texts, files, cleaning }) {
    const { library } = this;
    library.letGo();
    this.before = null;
    this.told = null;
    const joins = READINGS.map((reading) => joinedClauses(library, reading, files, cleaning));
    const counts = [...files, ...joins.filter(({ refusal }) => !refusal).map(({ file }) => file)].map((file) => check(library, file).states);
    this.room = roomFor(library, Math.max(...counts));
    this.policies = joins.map((joined, i) => (joined.refusal ? null : this.policy(READINGS[i], joined, files)));
    this.mark = library.free;
    const names = this.namesOf(texts, files);
    this.signals = this.signalsOf(texts, files, names, joins.find(({ refusal }) => !refusal));
    return {
      names,
      policies: joins.map((joined, i) => (joined.refusal ? joined : { ...joined, ...this.policies[i].told })),
    };
  }

  /** The signals that a text of events may name; none where the clauses are not joined. */
  signalsOf(texts, files, names, joined) {
    if (!joined) return null;
    const clauses = files.map((file, i) => namedClause(this.library, texts[i], file, names[i]));
    return namedJoin(clauses, joined.file, joined.places).signals;
  }

  policy(reading, joined, files) {
    const { library, room } = this;
    const station = new Station(library, reading, joined.file, room);
    const clauses = files.length > 1 ? files.map((file) => new Station(library, reading, file, room)) : [];
    const told = {
      summary: station.summary,
      live: liveByLocation(joined.file, station.marks),
      struck: clean(library, reading, joined.file).struck,
      clauses: clauses.map((clause) => ({
        summary: clause.summary,
        live: liveByLocation(clause.file.numbers, clause.marks),
        struck: clean(library, reading, clause.file).struck,
      })),
    };
    return { station, clauses, told };
  }

  /** Runs events from the start, under both readings. `registers` are those of a meter, or none. Ticks that were run before are not run again. */
  run(play) {
    const { events, registers, first } = play;
    this.library.free = this.mark;
    const same = sameTicks(this.before, play);
    this.same = same;
    const records = this.policies.map((policy, i) => {
      if (!policy || policy.station.hopeless) return null;
      const record = new Record(events.length, policy.clauses.length);
      if (same) record.take(this.records[i], Math.min(same, this.records[i].done));
      const meter = registers ? new Meter(this.library, first) : null;
      meter?.putAt(record, registers, record.done);
      policy.station.putAt(record.states, record.done);
      policy.clauses.forEach((clause, number) => clause.putAt(record.clauseStates[number], record.done));
      for (let tick = record.done; tick < events.length && !record.refusal; tick++) this.tick(policy, record, meter, events[tick], registers?.[tick]);
      return record;
    });
    this.before = play;
    this.records = records;
    return records;
  }

  /** One tick of a record. With a meter the input P is as the meter sets it: on where a total has risen. */
  tick({ station, clauses }, record, meter, event, register) {
    const at = record.done;
    const before = meter ? sum(meter.totals.numbers) : 0;
    const { refusal, released } = meter ? meter.tick(station, register, event) : station.tick(event);
    if (refusal) {
      record.refusal = refusal;
      return;
    }
    if (meter) {
      record.totals.set(meter.totals.numbers, at * 2);
      record.states.set(meter.state, at * STATE_NUMBERS);
    } else {
      record.states.set(station.state.numbers, at * STATE_NUMBERS);
    }
    record.read[at] = meter ? withPulse(station, event, sum(meter.totals.numbers) > before) : event;
    record.released[at] = released;
    record.done++;
    clauses.forEach((clause, i) => {
      clause.tick(released);
      record.clauseStates[i].set(clause.state.numbers, at * STATE_NUMBERS);
    });
  }

  /** The reasons of every edited tick of the records, and the objections of each clause. Those of ticks that were run before are kept. */
  reasons() {
    this.told = this.records.map((record, i) => (record ? this.reasonsOf(this.policies[i], record, this.told?.[i]) : null));
    return this.told;
  }

  reasonsOf(policy, record, before) {
    const from = Math.min(this.same, before?.reasons.length ?? 0);
    const edited = [];
    for (let tick = from; tick < record.done; tick++) if (record.read[tick] !== record.released[tick]) edited.push(tick);
    const reasons = new BigUint64Array(record.done);
    if (from) reasons.set(before.reasons.subarray(0, from));
    if (edited.length) reasons.set(this.reasonsFrom(policy.station, record, from), from);
    const kept = [...(before?.objections ?? [])].filter(([tick]) => tick < from);
    return { reasons, objections: new Map([...kept, ...this.objections(policy, record, edited)]) };
  }

  reasonsFrom(station, record, from) {
    const state = stateBefore(record.states, from).slice();
    return whyRun(this.library, station.reading, station.file, station.marks, state, record.read.subarray(from, record.done), this.room).reasons;
  }

  /** For each edited tick what each clause alone says of the event as read. */
  objections({ clauses }, record, edited) {
    const told = new Map();
    for (const tick of edited.slice(0, clauses.length ? MOST_OBJECTIONS : 0)) {
      told.set(tick, clauses.map((clause, i) => {
        clause.state.put(stateBefore(record.clauseStates[i], tick));
        return clause.hopeless ? 0n : clause.objection(record.read[tick]);
      }));
    }
    return told;
  }
}

/** So many edited ticks are explained clause by clause; a reader of more would look for them by their reasons. */
const MOST_OBJECTIONS = 5000;

const sum = ([billed, unbilled]) => billed + unbilled;

function withPulse(station, event, pulses) {
  const { bit } = fileParts(station.file.numbers).inputs.find(({ tag }) => tag === 'P');
  return pulses ? event | bit : event & ~bit;
}

/** The state before a tick, of the states after each. */
function stateBefore(states, tick) {
  return tick === 0 ? new Uint16Array(STATE_NUMBERS) : states.subarray((tick - 1) * STATE_NUMBERS, tick * STATE_NUMBERS);
}
