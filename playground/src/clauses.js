// The clauses above the text: which there are, which is open, and what can be done with them.
import { escaped } from './html.js';

const LONGEST_TITLE = 24;

/** What a clause is called: the beginning of its first comment. */
export function titleOf(text) {
  const said = /^\s*#+\s*([^:.(,\n]*)/m.exec(text)?.[1].trim() ?? '';
  return said.length <= LONGEST_TITLE ? said : `${said.slice(0, LONGEST_TITLE).replace(/\s+\S*$/, '')} …`;
}

/** A clause in a sentence. */
export function clauseTitle(text, number) {
  const title = titleOf(text);
  return `Clause ${number + 1}${title && ` (${title})`}`;
}

/** A new clause begins with the signals of another: all clauses of a join have the same. */
export function newClause(other) {
  const lines = other.split('\n').filter((line) => /^\s*(input|output)\b/.test(line));
  return `# One more clause\n${lines.map((line) => `${line}\n`).join('')}location all\n\nat all\n  any -> all\n`;
}

function tab(text, number, { open, refused }) {
  const title = titleOf(text);
  return `<button type="button" data-clause="${number}" aria-pressed="${open}" class="${refused ? 'refused' : ''}">${number + 1}${
    title && `. ${escaped(title)}`}${refused ? ' (refused)' : ''}</button>`;
}

/** The clauses of a desk; `reads` is what the library says of each. */
export function clausesShown({ clauses, open, cleaning }, reads) {
  const add = (words) => `<button type="button" data-add="1">${words}</button>`;
  if (clauses.length === 1) return add('Join a clause');
  const tabs = clauses.map((text, i) => tab(text, i, { open: i === open, refused: Boolean(reads[i].refusal) }));
  return `${tabs.join('')}${add('Add a clause')}<button type="button" data-remove="1">Remove this one</button>
    <label><input type="checkbox" ${cleaning ? 'checked' : ''}> clean in between</label>`;
}
