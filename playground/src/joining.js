// Clauses joined from left to right by the library, and cleaned in between. What is added here is only which locations were joined into which.
import { clean, join } from './calls.js';
import { fileParts } from './file.js';

const LOCATION = 1;

/** Without what cleaning strikes out; the names of what is left go with it. */
function cleaned(library, reading, part) {
  const { refusal, file, struck } = clean(library, reading, part.file);
  if (refusal) return { refusal };
  const gone = new Set(struck.filter(({ kind }) => kind === LOCATION).map(({ number }) => number));
  return { refusal, file, places: part.places.filter((_, location) => !gone.has(location)) };
}

/** Location (a, b) has the number a × (locations of B) + b. */
function joinedPair(library, a, b) {
  const { refusal, file } = join(library, a.file, b.file);
  if (refusal) return { refusal };
  return { refusal, file, places: a.places.flatMap((left) => b.places.map((right) => [...left, ...right])) };
}

const whole = (file) => ({ refusal: 0, file, places: fileParts(file).mustBeLeft.map((_, location) => [location]) });

/** What a join would have, and the most that it may: to say by which limit it was refused. */
function sizes(a, b) {
  const [one, other] = [fileParts(a.file), fileParts(b.file)];
  const contradict = (x, y) => x.care & y.care & (x.value ^ y.value);
  const rules = one.rules.flatMap((x) => other.rules.filter((y) => !contradict(x, y))).length;
  const states = [one, other].flatMap(({ ceilings, mustBeLeft }) => [mustBeLeft.length, ...ceilings.map((ceiling) => ceiling + 1)]);
  return [
    [one.mustBeLeft.length * other.mustBeLeft.length, 64, 'locations'],
    [one.ceilings.length + other.ceilings.length, 4, 'clocks'],
    [rules, 256, 'rules'],
    [states.reduce((product, factor) => product * factor, 1), 65536, 'states'],
  ].filter(([count, most]) => count > most);
}

/** All clauses as one; or the clause that could not be joined, its refusal, and the limits that were passed. */
export function joinedClauses(library, reading, files, cleaning) {
  const step = (part) => (cleaning && files.length > 1 && !part.refusal ? cleaned(library, reading, part) : part);
  let all = step(whole(files[0]));
  for (let clause = 1; clause < files.length && !all.refusal; clause++) {
    const part = step(whole(files[clause]));
    const both = part.refusal ? part : step(joinedPair(library, all, part));
    if (both.refusal) return { refusal: both.refusal, clause, over: both.refusal === 13 ? sizes(all, part) : [] };
    all = both;
  }
  return all.refusal ? { ...all, clause: 0, over: [] } : all;
}
