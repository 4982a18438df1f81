// What is said under the text: the verdict under each reading, why clauses were not joined, what is of no use, and the policy as one text.
import { escaped } from './html.js';
import { refusalSentence } from './refusals.js';
import { amount, plural, verdictWords } from './sentences.js';

const LOCATION = 1;
const OTHER_RULE = 3;

const line = (lamp, words) => `<div class="verdict"><span class="lamp ${lamp}"></span><span>${words}</span></div>`;

/** Clauses that were not joined: by which refusal, and over what limit. */
function notJoined({ refusal, clause, over }) {
  const limits = over.map(([count, most, what]) => `${amount(count)} ${what}, and ${amount(most)} is the most`).join('; ');
  return `Clause ${clause + 1} cannot be joined to those before it: ${escaped(refusalSentence(refusal))}${limits ? `: ${limits}` : ''}.`;
}

/** What no permitted stream enters or uses, with names and lines. */
function struckWords({ struck }, clauses) {
  if (clauses.length > 1) return '';
  const [named] = clauses;
  const numbers = (wanted) => struck.filter(({ kind }) => kind === wanted).map(({ number }) => number);
  const places = numbers(LOCATION).map((number) => named.locations[number]);
  const lines = numbers(OTHER_RULE).map((number) => named.lineOf(number));
  const parts = [];
  if (places.length) parts.push(`never entered: ${escaped(places.join(', '))}`);
  if (lines.length) parts.push(`rules that decide no event: ${lines.length === 1 ? 'line' : 'lines'} ${lines.join(', ')}`);
  return parts.length ? `<br><span class="soft">${parts.join('; ')}.</span>` : '';
}

function verdictOf(policy, clauses) {
  if (policy.refusal) return ['none', notJoined(policy)];
  const { summary } = policy;
  const verdict = summary.refusal ? `Refused ${summary.refusal}.` : `Verdict ${summary.verdict}.`;
  const lamp = summary.refusal ? 'none' : summary.verdict ? 'some' : 'all';
  return [lamp, `<b>${verdict}</b> ${escaped(verdictWords(summary))}${struckWords(policy, clauses)}`];
}

/** The verdicts under both readings; one line where they are alike. */
export function verdictsShown(policies, clauses) {
  const [first, second] = policies.map((policy) => verdictOf(policy, clauses));
  if (first[1] === second[1]) return line(...first);
  return [first, second].map(([lamp, words], i) => line(lamp, `<b>Reading ${i + 1}.</b> ${words}`)).join('');
}

export const workShown = (words) => line('works', `${words} You can go on typing.`);
export const notReadShown = (words) => line('none', words);

/** The policy as one text, written by the library, with what it has. */
export function wholeShown(named, text, joined) {
  const { parts, file } = named;
  const counts = [
    plural(parts.mustBeLeft.length, 'location'), plural(parts.ceilings.length, 'clock'), plural(parts.rules.length, 'rule'), plural(file.length, 'byte'),
  ];
  return `<p>${joined}${counts.join(', ')}.</p><pre tabindex="0" aria-label="The whole policy as text">${escaped(text)}</pre>
    <button type="button">Make this my text</button>`;
}
