// What signals, clocks and locations are called: by the names of a clause's text, or of several texts put together.
import { lineOfRule, nameOf } from './calls.js';
import { fileParts } from './file.js';

/** Asks once for each number. */
function remembered(ask) {
  const answers = new Map();
  return (number) => {
    if (!answers.has(number)) answers.set(number, ask(number));
    return answers.get(number);
  };
}

/** The names in a text, found by the library. */
export function namesInText(library, text, file) {
  const parts = fileParts(file);
  const names = (kind, items) => items.map((_, i) => nameOf(library, text, kind, i));
  return { signals: names('signal', parts.signals), clocks: names('clock', parts.ceilings), locations: names('location', parts.mustBeLeft) };
}

/** A clause that was read: its file in parts, its names, and the line of each rule as the library finds it. */
export function namedClause(library, text, file, names) {
  const parts = fileParts(file);
  return {
    file,
    parts,
    signals: parts.signals.map((signal, i) => ({ ...signal, name: names.signals[i] || signal.tag })),
    clocks: names.clocks,
    locations: names.locations,
    lineOf: remembered((rule) => lineOfRule(library, text, rule)),
  };
}

/** The name of a signal: that of the first clause that has one for its letter. */
function nameOfSignal(clauses, signal) {
  const named = clauses.map((clause) => clause.signals.find(({ tag }) => tag === signal.tag)?.name);
  return named.find((name) => name && name !== signal.tag) ?? signal.tag;
}

/** Clocks of several clauses: a name that is there twice says its clause. */
function clockNames(clauses) {
  const all = clauses.flatMap((clause, number) => clause.clocks.map((name) => ({ name, number })));
  return all.map(({ name, number }) => (all.filter((other) => other.name === name).length > 1 ? `${name}(${number + 1})` : name));
}

/** A clause with one location has nothing to tell by it. */
function placeName(clauses, place) {
  const names = place.map((location, i) => clauses[i].locations[location]);
  const telling = names.filter((_, i) => clauses[i].locations.length > 1);
  return (telling.length ? telling : names.slice(0, 1)).join(' · ');
}

/** Clauses that were joined: `places` has for each location of the file the locations of the clauses that it stands for. */
export function namedJoin(clauses, file, places) {
  const parts = fileParts(file);
  return {
    file,
    parts,
    signals: parts.signals.map((signal) => ({ ...signal, name: nameOfSignal(clauses, signal) })),
    clocks: clockNames(clauses),
    locations: places.map((place) => placeName(clauses, place)),
    lineOf: () => 0,
  };
}
