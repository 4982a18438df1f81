// What is on the desk: the clauses, the events, the reading. It is kept in the browser at every keystroke, and carried by the address.

const PLACE = 'groovepawn-playground';
const BEFORE = 'groovepawn-playground-before';

export const emptyDesk = () => ({ title: '', clauses: [''], open: 0, events: '', reading: '1', cleaning: true });

const isText = (value) => typeof value === 'string';

/** Whatever was kept or linked, as a desk: what is not of its form is left out. */
export function deskFrom(value) {
  const desk = emptyDesk();
  if (!value || typeof value !== 'object') return desk;
  if (Array.isArray(value.clauses) && value.clauses.length && value.clauses.every(isText)) desk.clauses = value.clauses;
  if (isText(value.title)) desk.title = value.title;
  if (isText(value.events)) desk.events = value.events;
  if (['1', '2', 'both'].includes(value.reading)) desk.reading = value.reading;
  if (typeof value.cleaning === 'boolean') desk.cleaning = value.cleaning;
  if (Number.isInteger(value.open) && value.open >= 0 && value.open < desk.clauses.length) desk.open = value.open;
  return desk;
}

/** A store that may be forbidden or full: the page works without it, and says so. */
function stored(place) {
  try {
    return JSON.parse(localStorage.getItem(place));
  } catch {
    return null;
  }
}

function store(place, value) {
  try {
    localStorage.setItem(place, JSON.stringify(value));
    return true;
  } catch {
    return false;
  }
}

const bytesToWords = (bytes) => btoa(Array.from(bytes, (byte) => String.fromCharCode(byte)).join('')).replace(/\+/g, '-').replace(/\//g, '_').replace(/=+$/, '');
const wordsToBytes = (words) => Uint8Array.from(atob(words.replace(/-/g, '+').replace(/_/g, '/')), (letter) => letter.charCodeAt(0));

async function through(stream, bytes) {
  return new Uint8Array(await new Response(new Blob([bytes]).stream().pipeThrough(stream)).arrayBuffer());
}

/** The desk as the part of an address behind the #. */
export async function addressOf(desk) {
  const bytes = new TextEncoder().encode(JSON.stringify(desk));
  return `#p=${bytesToWords(await through(new CompressionStream('deflate-raw'), bytes))}`;
}

/** The desk that an address carries; null for none, an error for a damaged one. */
export async function deskOfAddress(address) {
  const plain = /^#text=(.*)$/s.exec(address);
  if (plain) return { ...emptyDesk(), clauses: [decodeURIComponent(plain[1])] };
  const packed = /^#p=([\w-]+)$/.exec(address);
  if (!packed) {
    if (address.length > 1) throw new Error('no policy');
    return null;
  }
  return deskFrom(JSON.parse(new TextDecoder().decode(await through(new DecompressionStream('deflate-raw'), wordsToBytes(packed[1])))));
}

export class Keeper {
  /** Keeps the desk as it is now. The address goes with it, so that a reload tells which of the two is newer. */
  keep(desk) {
    return store(PLACE, { desk, address: location.hash });
  }

  get kept() {
    return stored(PLACE);
  }

  /** What was there before a sample, a file or a link took its place. */
  putAside(desk) {
    store(BEFORE, desk);
  }

  get aside() {
    const before = stored(BEFORE);
    return before ? deskFrom(before) : null;
  }

  forgetAside() {
    try {
      localStorage.removeItem(BEFORE);
    } catch { /* there is no store */ }
  }
}

/** Hands a file to the person. */
export function save(name, bytes, type) {
  const link = document.createElement('a');
  link.href = URL.createObjectURL(new Blob([bytes], { type }));
  link.download = name;
  document.body.append(link);
  link.click();
  link.remove();
  setTimeout(() => URL.revokeObjectURL(link.href), 10000);
}

/** What a file is, by what it begins with: a policy's bytes begin with a count, a wave with its time scale. */
export function kindOfFile(bytes, name) {
  if (bytes.length === 0 || bytes[0] < 9) return 'file';
  const begin = new TextDecoder().decode(bytes.subarray(0, 12));
  if (begin.startsWith('$timescale')) return 'wave';
  return /\.events$/.test(name) ? 'events' : 'text';
}
