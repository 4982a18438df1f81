// Waves: each signal as read and as released, tick by tick, with the edits shaded.
import { escaped } from './html.js';

const NARROW_STEP = 20;
const WIDE_STEP = 34;
const LABEL = 128;
const TRACE = 15;
const BETWEEN = 9;
const AXIS = 24;
const EVERY = 5;

/** How many ticks fit into a width. */
export const ticksThatFit = (width) => Math.max(4, Math.floor((width - LABEL - 12) / NARROW_STEP));

/** Few ticks are drawn wide. */
const stepFor = (ticks, width) => Math.max(NARROW_STEP, Math.min(WIDE_STEP, Math.floor((width - LABEL - 12) / Math.max(1, ticks))));

/** A trace: high where the signal is on. */
function trace(events, bit, { from, step }, to, y, kind) {
  let path = '';
  for (let tick = from; tick < to; tick++) {
    const level = y + (events[tick] & bit ? 2 : TRACE - 2);
    const x = LABEL + (tick - from) * step;
    path += tick === from ? `M${x} ${level}` : ` V${level}`;
    path += ` H${x + step}`;
  }
  return `<path class="${kind}" d="${path}"/>`;
}

/** A shade where the trace differs from what was read, with a mark that needs no colour. */
function edits(read, released, bit, { from, step }, to, y) {
  let shapes = '';
  for (let tick = from; tick < to; tick++) {
    if ((read[tick] ^ released[tick]) & bit) {
      const x = LABEL + (tick - from) * step;
      const sign = released[tick] & bit ? '▲' : '▼';
      shapes += `<rect class="edit" x="${x}" y="${y}" width="${step}" height="${TRACE}"/><text class="edit" x="${x + step / 2}" y="${y + TRACE - 4}">${sign}</text>`;
    }
  }
  return shapes;
}

function signalRows(signal, read, traces, part, y) {
  const { to } = part;
  let shapes = `<text class="name" x="4" y="${y + 12}">${escaped(signal.name.slice(0, 9))}<title>${escaped(signal.name)}</title></text>`;
  shapes += `<text class="what" x="${LABEL - 6}" y="${y + 12}">read</text>${trace(read, signal.bit, part, to, y, 'read')}`;
  traces.forEach(({ label, events }, i) => {
    const at = y + (i + 1) * TRACE + (i + 1) * 2;
    shapes += `<text class="what" x="${LABEL - 6}" y="${at + 12}">${label}</text>${edits(read, events, signal.bit, part, Math.min(to, events.length), at)}${trace(events, signal.bit, part, Math.min(to, events.length), at, 'released')}`;
  });
  return shapes;
}

function axis({ from, to, step }, height) {
  let shapes = '';
  for (let tick = from; tick < to; tick++) {
    const x = LABEL + (tick - from) * step;
    const numbered = (tick + 1) % EVERY === 0 || tick === 0;
    shapes += `<path class="grid${numbered ? ' numbered' : ''}" d="M${x} ${AXIS - 4} V${height}"/>`;
    if (numbered) shapes += `<text class="tick" x="${x + step / 2}" y="14">${tick + 1}</text>`;
  }
  return shapes;
}

/** The waves of the ticks from `from` to before `to`. `traces` has a label and the events released for each reading that is shown. */
export function waves(named, read, traces, { from, to, room }, chosen) {
  const step = stepFor(to - from, room);
  const part = { from, to, step };
  const each = (1 + traces.length) * (TRACE + 2) + BETWEEN;
  const inputs = named.signals.filter(({ input }) => input).length;
  const height = AXIS + named.signals.length * each + (inputs && inputs < named.signals.length ? BETWEEN : 0) + 4;
  const width = LABEL + (to - from) * step + 8;
  const rows = named.signals.map((signal, i) => signalRows(signal, read, traces, part, AXIS + i * each + (signal.input ? 0 : BETWEEN)));
  const at = chosen !== null && chosen >= from && chosen < to
    ? `<rect class="chosen" x="${LABEL + (chosen - from) * step}" y="${AXIS - 6}" width="${step}" height="${height - AXIS + 4}"/>` : '';
  return `<svg role="img" aria-label="Waves of ticks ${from + 1} to ${to}: each signal as read and as released" width="${width}" height="${height}" viewBox="0 0 ${width} ${height}">${at}${axis(part, height)}${rows.join('')}</svg>`;
}
