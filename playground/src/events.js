// Events as text: a line for each tick with the signals that are on, `-` for none, `* 20` to repeat it, `#` comments.
// With a meter, `@65530` is its register in this tick and `@+10` its advance; a line with the register alone, before all ticks, is the first reading.

const NONE_ON = '-';
const MOST_TICKS = 1000000;
const REGISTER_SIZE = 65536;

class Wrong extends Error {}

/** The bits of the words of a line. */
function eventOf(words, signals) {
  if (words.length === 1 && words[0] === NONE_ON) return 0;
  return words.reduce((event, word) => {
    const signal = signals.find(({ tag, name }) => word === tag || word === name);
    if (!signal) throw new Wrong(`no signal ${word}; there are ${signals.map(({ name }) => name).join(', ') || 'none'}, and - stands for none`);
    if (event & signal.bit) throw new Wrong(`${word} is there twice`);
    return event | signal.bit;
  }, 0);
}

function timesOf(said) {
  if (said === undefined) return 1;
  if (!/^\d{1,7}$/.test(said.trim()) || Number(said) === 0) throw new Wrong(`'${said.trim()}' is no count of ticks behind the *`);
  return Number(said);
}

/** The register that a word names, read or advanced. */
function registerOf(word) {
  const found = /^@(\+?)(\d{1,5})$/.exec(word);
  if (!found || Number(found[2]) >= REGISTER_SIZE) throw new Wrong(`'${word}' is no register: @0 to @65535, or an advance such as @+10`);
  return { number: Number(found[2]), advance: found[1] === '+' };
}

/** A line of events: its event, how often it comes, and what it says of the register. */
function lineOf(line, signals) {
  const [said, times, more] = line.split('#', 1)[0].split('*');
  if (more !== undefined) throw new Wrong('there is more than one *');
  const all = said.split(/\s+/).filter(Boolean);
  const words = all.filter((word) => !word.startsWith('@'));
  const registers = all.filter((word) => word.startsWith('@')).map(registerOf);
  if (registers.length > 1) throw new Wrong('there is more than one register');
  if (words.length === 0 && times !== undefined) throw new Wrong('there is no event before the *; - stands for no signal');
  return { event: words.length ? eventOf(words, signals) : null, times: timesOf(times), register: registers[0] ?? null };
}

/** What a text of events says: the events before its first wrong line, and what is wrong there. */
export function readEvents(text, signals) {
  const pieces = [];
  let [ticks, first, metered, begun, wrong] = [0, 0, false, false, null];
  text.split('\n').every((line, i) => {
    try {
      const said = lineOf(line, signals);
      if (said.register) metered = true;
      if (said.event === null && said.register) {
        if (begun || said.register.advance) throw new Wrong('a register alone is the first reading, before all ticks; a tick with no signal on begins with -');
        first = said.register.number;
      } else if (said.event !== null) {
        if (ticks + said.times > MOST_TICKS) throw new Wrong(`that makes more than ${MOST_TICKS.toLocaleString('en')} ticks`);
        begun = true;
        ticks += said.times;
        pieces.push(said);
      }
      return true;
    } catch (error) {
      if (!(error instanceof Wrong)) throw error;
      wrong = { line: i + 1, words: error.message };
      return false;
    }
  });
  return { ...laid(pieces, ticks, metered, first), first, wrong };
}

function laid(pieces, ticks, metered, first) {
  const events = new Uint8Array(ticks);
  const registers = metered ? new Uint16Array(ticks) : null;
  let [at, register] = [0, first];
  for (const { event, times, register: said } of pieces) {
    events.fill(event, at, at + times);
    if (said && !said.advance) register = said.number;
    for (let tick = at; registers && tick < at + times; tick++) {
      if (said?.advance) register = (register + said.number) % REGISTER_SIZE;
      registers[tick] = register;
    }
    at += times;
  }
  return { events, registers };
}

/** An event as words. */
function eventWords(event, signals) {
  const on = signals.filter(({ bit }) => event & bit).map(({ name }) => name);
  return on.join(' ') || NONE_ON;
}

/** The text with so many ticks more of an event. A last line that says the same counts on. */
export function withTicks(text, signals, event, times, advance = 0) {
  const words = eventWords(event, signals) + (advance ? ` @+${advance}` : '');
  const lines = text.replace(/\n+$/, '').split('\n');
  const last = lines.at(-1);
  const before = /^([^#*]*?)\s*(?:\*\s*(\d+))?\s*$/.exec(last);
  const same = before && before[1].trim().replace(/\s+/g, ' ') === words;
  const count = times + (same ? Number(before[2] ?? 1) : 0);
  const line = count === 1 ? words : `${words} * ${count}`;
  const kept = same ? lines.slice(0, -1) : lines.filter((_, i) => i > 0 || lines[0] !== '' || lines.length > 1);
  return `${[...kept, line].join('\n')}\n`;
}

/** The text without its last tick. */
export function withoutLastTick(text) {
  const lines = text.replace(/\n+$/, '').split('\n');
  for (let i = lines.length - 1; i >= 0; i--) {
    const said = lines[i].split('#', 1)[0].trim();
    if (said && !/^@\d+$/.test(said)) {
      const found = /^(.*?)\s*\*\s*(\d+)$/.exec(said);
      const left = found ? Number(found[2]) - 1 : 0;
      if (left > 0) lines[i] = left === 1 ? found[1] : `${found[1]} * ${left}`;
      else lines.splice(i, 1);
      break;
    }
  }
  return lines.length && lines.join('') ? `${lines.join('\n')}\n` : '';
}

/** A stream of events as a text. */
export function eventsText(events, signals) {
  const lines = [];
  for (let at = 0; at < events.length;) {
    let end = at;
    while (end < events.length && events[end] === events[at]) end++;
    const words = eventWords(events[at], signals);
    lines.push(end - at === 1 ? words : `${words} * ${end - at}`);
    at = end;
  }
  return lines.length ? `${lines.join('\n')}\n` : '';
}
