// A text area with line numbers. What stands behind it shows the same text in colours, marks a wrong line, and lights another.
import { escaped, putInto } from './html.js';

const WORDS = /(#.*)|\b(input|output|clock|location|at|reset|must be left|any)\b|\b(violation)\b|(->|>=|<=|@\+?\d+|\*)/g;
const KINDS = ['comment', 'word', 'bad', 'sign'];
const HIGHEST = 28;

/** A line in colours: comments, words of the language, violations, signs. */
function coloured(line) {
  let [html, from] = ['', 0];
  for (const found of line.matchAll(WORDS)) {
    const kind = KINDS[found.slice(1).findIndex((part) => part !== undefined)];
    html += `${escaped(line.slice(from, found.index))}<span class="${kind}">${escaped(found[0])}</span>`;
    from = found.index + found[0].length;
  }
  return html + escaped(line.slice(from));
}

export class Editor {
  constructor(root, { label, lowest, changed }) {
    this.root = root;
    this.lowest = lowest;
    this.wrong = null;
    this.lit = new Set();
    root.classList.add('editor');
    root.innerHTML = `<pre class="numbers" aria-hidden="true"></pre><div class="sheet"><pre class="behind" aria-hidden="true"></pre>
      <textarea wrap="off" spellcheck="false" autocapitalize="off" autocomplete="off" autocorrect="off"></textarea></div>`;
    [this.numbers, this.behind, this.area] = ['.numbers', '.behind', 'textarea'].map((part) => root.querySelector(part));
    this.area.setAttribute('aria-label', label);
    this.area.addEventListener('input', () => {
      this.show();
      changed(this.area.value);
    });
    this.area.addEventListener('scroll', () => this.follow());
    this.area.addEventListener('focus', () => this.follow());
  }

  get text() {
    return this.area.value;
  }

  set text(text) {
    if (this.area.value !== text) this.area.value = text;
    this.show();
    this.follow();
  }

  label(words) {
    this.area.setAttribute('aria-label', words);
  }

  /** Marks a line as wrong, with its words behind it; null for none. */
  mark(wrong, describedBy) {
    this.wrong = wrong;
    if (wrong) this.area.setAttribute('aria-invalid', 'true');
    else this.area.removeAttribute('aria-invalid');
    if (describedBy) this.area.setAttribute('aria-describedby', describedBy);
    this.show();
  }

  /** Lights these lines. */
  light(lines) {
    this.lit = new Set(lines);
    this.show();
  }

  lineShown(text, number) {
    if (this.wrong?.line === number) return `<span class="line wrong">${coloured(text)}<span class="said">${escaped(this.wrong.words)}</span>\n</span>`;
    return `<span class="line${this.lit.has(number) ? ' lit' : ''}">${coloured(text)}\n</span>`;
  }

  show() {
    const lines = this.area.value.split('\n');
    putInto(this.behind, lines.map((line, i) => this.lineShown(line, i + 1)).join(''));
    putInto(this.numbers, lines.map((_, i) => `<span class="${this.wrong?.line === i + 1 ? 'wrong' : ''}">${i + 1}\n</span>`).join(''));
    this.root.style.setProperty('--lines', Math.min(HIGHEST, Math.max(this.lowest, lines.length + 1)));
  }

  /** What stands behind scrolls with the text. */
  follow() {
    const { scrollTop, scrollLeft } = this.area;
    this.behind.style.transform = `translate(${-scrollLeft}px, ${-scrollTop}px)`;
    this.numbers.style.transform = `translateY(${-scrollTop}px)`;
  }
}
