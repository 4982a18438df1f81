// The automaton: a card for each location with its rules in order, and arrows to where they lead. Arrows down go along the right side, arrows up
// along the left, each in a lane of its own, so that none crosses a word.
import { escaped } from './html.js';
import { amount, conditions, resets } from './sentences.js';

const ROW = 22;
const HEAD = 34;
const FOOT = 8;
const GAP = 26;
const LANE = 9;
/** All lanes of a side together are no wider. */
const SIDE_LANES = 110;
const SIDE = 16;
const LETTER = 7.3;
const NARROWEST = 190;
const LOCATION = 1;
const WIDE = 430;

/** What is to be told of a location beside its name. */
function chipsOf(place) {
  const chips = [];
  if (place.start) chips.push(['start', 'start']);
  if (place.mustBeLeft) chips.push(['left', 'must be left']);
  if (place.neverEntered) chips.push(['never', 'never entered']);
  else if (place.live === 0) chips.push(['future', 'no future']);
  else if (place.live < place.states) chips.push(['some', `${amount(place.live)} of ${amount(place.states)} live`]);
  return chips;
}

const textWidth = (text) => text.length * LETTER;
const chipWidth = (words) => textWidth(words) * 0.86 + 12;
const chipsWidth = (chips) => chips.reduce((width, [, words]) => width + chipWidth(words) + 6, 0);

/** The row of a rule: its words, where it leads, and what it is told apart by. */
function rowOf(named, rule, unused) {
  const own = rule.target === rule.source;
  const to = rule.target === null ? 'violation' : own ? 'stays' : named.locations[rule.target];
  return {
    rule,
    words: conditions(named, rule),
    to,
    resets: rule.target === null ? '' : resets(named, rule),
    kind: rule.target === null ? 'bad' : own ? 'own' : 'way',
    unused,
  };
}

/** A location with its rules and what is told of it. */
function cardOf(named, told, location, unused) {
  const rows = named.parts.rules.filter(({ source }) => source === location).map((rule) => rowOf(named, rule, unused.rules.has(rule.number)));
  const place = {
    start: location === 0,
    mustBeLeft: named.parts.mustBeLeft[location],
    neverEntered: unused.locations.has(location),
    live: told.live[location],
    states: told.statesEach,
  };
  return { location, name: named.locations[location], rows, place, chips: chipsOf(place) };
}

/** What cleaning strikes out. */
function unusedOf({ struck }) {
  const numbers = (locations) => new Set(struck.filter(({ kind }) => (kind === LOCATION) === locations).map(({ number }) => number));
  return { locations: numbers(true), rules: numbers(false) };
}

/** The present values of the clocks stand in the present card, if there is room. */
function withClocks(chips, clocks, width) {
  const more = [...chips, ['clock', clocks]];
  return clocks && chipsWidth(more) <= width - 24 ? more : chips;
}

/** The cards from top to bottom, as wide as the widest line of them asks, and no wider than there is room. */
function cardsOf(named, told, now, room) {
  const unused = unusedOf(told);
  const cards = named.locations.map((_, location) => cardOf(named, told, location, unused));
  const widest = Math.max(...cards.flatMap((card) => [
    textWidth(card.name) + chipsWidth(card.chips) + 90,
    ...card.rows.map((row) => textWidth(`${row.words} → ${row.to} ${row.resets}`) + 60),
  ]));
  const width = Math.max(NARROWEST, Math.min(Math.max(widest, WIDE), room));
  let y = GAP;
  for (const card of cards) {
    if (card.location === now?.location) card.chips = withClocks(card.chips, now.clocks, width);
    // Where name and chips do not fit side by side, the chips stand below.
    card.below = textWidth(card.name) * 1.2 + chipsWidth(card.chips) > width - 40;
    card.head = HEAD + (card.below ? ROW : 0);
    card.y = y;
    card.height = card.head + Math.max(1, card.rows.length) * ROW + FOOT;
    y += card.height + GAP;
  }
  return { cards, width, height: y };
}

/** Arrows between cards, each in the first lane that is free along its way. */
function arrowsOf(cards) {
  const lanes = { right: [], left: [] };
  const arrows = cards.flatMap((card) => card.rows.map((row, i) => ({ card, row, i }))).filter(({ row }) => row.kind === 'way');
  const spans = arrows.map(({ card, row, i }) => {
    const target = cards[row.rule.target];
    const side = row.rule.target > card.location ? 'right' : 'left';
    const from = card.y + card.head + i * ROW + ROW / 2;
    const to = target.y + HEAD / 2;
    return { row, card, side, from, to, low: Math.min(from, to), high: Math.max(from, to) };
  });
  spans.sort((a, b) => a.high - a.low - (b.high - b.low));
  for (const span of spans) {
    const taken = lanes[span.side];
    // Arrows to the same card share a lane: their heads would lie on each other anyway.
    let lane = taken.findIndex((spansHere) => spansHere.every((other) => other.to === span.to || other.high < span.low - 4 || other.low > span.high + 4));
    if (lane < 0) lane = taken.push([]) - 1;
    taken[lane].push(span);
    span.lane = lane;
  }
  return { spans, right: lanes.right.length, left: lanes.left.length };
}

/** How far lanes stand apart. */
const stepOf = (lanes) => Math.min(LANE, SIDE_LANES / Math.max(1, lanes));

function arrow(span, left, width, step, lit) {
  const edge = span.side === 'right' ? left + width : left;
  const away = span.side === 'right' ? 1 : -1;
  const lane = edge + away * (14 + span.lane * step);
  const bend = 6;
  const down = span.to > span.from ? 1 : -1;
  const out = `M${edge} ${span.from} H${lane - away * bend} Q${lane} ${span.from} ${lane} ${span.from + down * bend}`;
  const back = `V${span.to - down * bend} Q${lane} ${span.to} ${lane - away * bend} ${span.to} H${edge + away * 2}`;
  const kind = `arrow${span.row.unused ? ' unused' : ''}${lit ? ' lit' : ''}`;
  return `<path class="${kind}" d="${out} ${back}" marker-end="url(#${lit ? 'head-lit' : span.row.unused ? 'head-unused' : 'head'})"/>`;
}

function chipShapes(card, right) {
  const y = card.y + 8 + (card.below ? ROW + 2 : 0);
  let x = right - 4 - card.chips.reduce((width, [, words]) => width + chipWidth(words) + 4, 0);
  return card.chips.map(([kind, words]) => {
    const width = chipWidth(words);
    x += width + 4;
    return `<g class="chip ${kind}"><rect x="${x - width - 4}" y="${y}" width="${width}" height="18" rx="9"/><text x="${x - 4 - width / 2}" y="${y + 12.5}">${escaped(words)}</text></g>`;
  }).join('');
}

/** A text cut to a width; all of it stands in the title. */
function cut(text, width) {
  const letters = Math.floor(width / LETTER);
  return text.length <= letters ? text : `${text.slice(0, Math.max(1, letters - 1))}…`;
}

const SIGNS = { bad: '✕', own: '↺', way: '→' };

function rowShape(card, row, i, left, width, litRule) {
  const y = card.y + card.head + i * ROW;
  const kinds = ['row', row.kind, row.unused ? 'unused' : '', row.rule.number === litRule ? 'lit' : ''].join(' ');
  const tail = `${SIGNS[row.kind]} ${row.to}${row.resets ? `, ${row.resets}` : ''}`;
  const room = width - 24;
  // Where not all fits, the conditions have the larger part: the arrow shows the target too.
  const tailWidth = Math.min(textWidth(tail), Math.max(room * 0.4, room - textWidth(row.words) - 10));
  const title = `rule ${row.rule.number}: ${row.words} ${tail}${row.unused ? ' (decides no event)' : ''}`;
  return `<g class="${kinds}"><title>${escaped(title)}</title><rect x="${left + 1}" y="${y}" width="${width - 2}" height="${ROW}"/>
    <text x="${left + 12}" y="${y + 15}">${escaped(cut(row.words, room - tailWidth - 6))}</text>
    <text class="to" x="${left + width - 12}" y="${y + 15}">${escaped(cut(tail, tailWidth + 4))}</text></g>`;
}

/** The frame of a card; a second one within it where the location must be left. */
function frames(card, left, width) {
  const frame = (inset, name) => `<rect class="${name}" x="${left + inset}" y="${card.y + inset}" width="${width - 2 * inset}" height="${
    card.height - 2 * inset}" rx="${10 - inset}"/>`;
  return frame(0, 'box') + (card.place.mustBeLeft ? frame(3.5, 'inner') : '');
}

function cardShape(card, left, width, now) {
  const here = now?.location === card.location;
  const kinds = ['card'];
  if (here) kinds.push('here');
  if (card.place.neverEntered) kinds.push('never');
  else if (card.place.live === 0) kinds.push('future');
  const name = cut(card.name, width - 36 - (card.below ? 0 : chipsWidth(card.chips)));
  const rows = card.rows.map((row, i) => rowShape(card, row, i, left, width, now?.rule)).join('');
  const empty = `<text class="none" x="${left + 12}" y="${card.y + card.head + 15}">${cut('no rule: every event is a violation', width - 20)}</text>`;
  return `<g class="${kinds.join(' ')}">${frames(card, left, width)}<text class="name" x="${left + 12}" y="${card.y + 23}">${here ? '● ' : ''}${
    escaped(name)}<title>${escaped(card.name)}</title></text>${chipShapes(card, left + width)}${rows || empty}</g>`;
}

const HEADS = ['head', 'head-lit', 'head-unused'].map((id) => `<marker id="${id}" viewBox="0 0 8 8" refX="7" refY="4" markerWidth="8" markerHeight="8"
  orient="auto-start-reverse"><path d="M0 0.5 L8 4 L0 7.5 z"/></marker>`).join('');

/** What a screen reader is told of the drawing. */
function spoken(named, cards, now) {
  const here = now ? ` The present location is ${named.locations[now.location]}.` : '';
  return `${cards.length} ${cards.length === 1 ? 'location' : 'locations'}, ${named.parts.rules.length} rules.${here}`;
}

/**
 * The drawing as SVG. `told` has the live states of each location and what cleaning strikes out; `now` the present location, the clocks there in
 * words, and the rule that is lit.
 */
export function drawing(named, told, now, room) {
  const lanes = arrowsOf(cardsOf(named, told, now, Infinity).cards);
  const step = { left: stepOf(lanes.left), right: stepOf(lanes.right) };
  const left = SIDE + 8 + lanes.left * step.left + (lanes.left ? 10 : 0);
  const beside = SIDE + (lanes.right ? 12 + lanes.right * step.right : 0);
  const { cards, width, height } = cardsOf(named, told, now, Math.max(NARROWEST, room - left - beside));
  const { spans } = arrowsOf(cards);
  const full = Math.max(left + width + beside, Math.min(room, 320));
  const begin = `<circle class="begin" cx="${left + 24}" cy="5" r="4.5"/><path class="arrow" d="M${left + 24} 6 V${cards[0].y - 2}" marker-end="url(#head)"/>`;
  return `<svg role="img" aria-label="${escaped(spoken(named, cards, now))}" width="${full}" height="${height}" viewBox="0 0 ${full} ${height}"><defs>${HEADS}</defs>
    ${begin}${spans.map((span) => arrow(span, left, width, step[span.side], span.row.rule.number === now?.rule)).join('')}${cards.map((card) => cardShape(card, left, width, now)).join('')}</svg>`;
}
