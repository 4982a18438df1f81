// What is kept, put aside, linked, opened and saved.
import { readWave, writeText, writeWave } from './calls.js';
import { eventsText } from './events.js';
import { Keeper, addressOf, deskFrom, deskOfAddress, kindOfFile, save } from './keeping.js';
import { refusalSentence } from './refusals.js';
import { SAMPLES } from './samples.js';
import { plural } from './sentences.js';

/** The address is put anew when nothing was typed for so long. */
const ADDRESS_REST = 400;

const words = (bytes) => new TextDecoder().decode(bytes);
const deskOfSample = ({ name, clauses, events, reading }) => deskFrom({ title: name, clauses: [...clauses], events, reading });

export class Shelf {
  constructor(page) {
    this.page = page;
    this.keeper = new Keeper();
  }

  // Keeping.

  keep() {
    if (!this.keeper.keep(this.page.desk)) this.page.say('This browser keeps nothing for this page: save your text before you leave.');
    clearTimeout(this.later);
    this.later = setTimeout(() => this.putAddress(), ADDRESS_REST);
  }

  async putAddress() {
    const address = await addressOf(this.page.desk);
    try {
      if (address !== location.hash) history.replaceState(null, '', address);
    } catch {
      this.page.say('This is too long for an address: save it as a file instead.');
    }
    this.keeper.keep(this.page.desk);
  }

  get hasAside() {
    return Boolean(this.keeper.aside);
  }

  /** What is on the desk goes aside, unless it is a sample as it was given. */
  putAside() {
    const { clauses, events } = this.page.desk;
    const same = SAMPLES.some((sample) => sample.clauses.join('\0') === clauses.join('\0') && sample.events === events);
    if (!same && clauses.some((text) => text.trim())) this.keeper.putAside(this.page.desk);
  }

  bringBack() {
    const before = this.keeper.aside;
    if (!before) return;
    this.keeper.forgetAside();
    this.page.take(before, 'This is what was here before.');
  }

  takeSample(number) {
    this.page.take(deskOfSample(SAMPLES[number]), `This is the sample “${SAMPLES[number].name}”.`);
  }

  // Addresses.

  /** The desk as it was left; the first sample if there was none. */
  get left() {
    const { kept } = this.keeper;
    return kept ? deskFrom(kept.desk) : deskOfSample(SAMPLES[0]);
  }

  /** A link that is opened, or pasted over the address of this page. True if it brought a desk. */
  async followAddress() {
    if (location.hash === (this.keeper.kept?.address ?? '')) return false;
    try {
      const desk = await deskOfAddress(location.hash);
      if (desk) this.page.take(desk, 'This policy came with the link.');
      return Boolean(desk);
    } catch {
      this.page.say('The link is damaged: it carries no policy. What was here stays.');
      return false;
    }
  }

  async copyLink() {
    await this.putAddress();
    try {
      await navigator.clipboard.writeText(location.href);
      this.page.say('The link is in the clipboard. It carries the policy and the events.');
    } catch {
      this.page.say('The link stands in the address of this page: copy it from there. It carries the policy and the events.');
    }
  }

  // Opening. Each way gives what is wrong with the file, or nothing.

  async open(file) {
    if (!file) return;
    const bytes = new Uint8Array(await file.arrayBuffer());
    const wrong = this[kindOfFile(bytes, file.name)](bytes);
    this.page.say(wrong ?? `${file.name} was opened.`);
  }

  /** A text takes the place of the clause that is open. */
  text(bytes) {
    const { page } = this;
    const { clauses, open } = page.desk;
    page.take({ ...page.desk, clauses: clauses.map((clause, i) => (i === open ? words(bytes) : clause)) }, '');
  }

  file(bytes) {
    const { refusal, text } = writeText(this.page.library, bytes);
    if (refusal) return `That is no policy file: ${refusalSentence(refusal)}.`;
    return this.text(text);
  }

  /** A wave is a released stream of this policy's signals: it becomes the events. */
  wave(bytes) {
    const { library, policy, named } = this.page;
    if (!policy || policy.refusal) return 'A wave is read with the signals of a policy: open its policy first.';
    const { refusal, events } = readWave(library, policy.file, bytes);
    if (refusal) return `That wave is not read: ${refusalSentence(refusal)}.`;
    return this.page.setEvents(eventsText(events, named.signals));
  }

  events(bytes) {
    this.page.setEvents(words(bytes));
  }

  // Saving.

  saveText() {
    const { clauses, open } = this.page.desk;
    const name = clauses.length > 1 ? `clause-${open + 1}.txt` : 'policy.txt';
    save(name, new TextEncoder().encode(clauses[open]), 'text/plain');
    this.page.say(`${name} was saved.`);
  }

  saveFile() {
    const { policy } = this.page;
    save('station.policy', policy.file, 'application/octet-stream');
    this.page.say(`station.policy was saved: ${plural(policy.file.length, 'byte')}.`);
  }

  saveWave() {
    const { library, policy, record, primary } = this.page;
    const { refusal, text } = writeWave(library, policy.file, record.released.subarray(0, record.done));
    if (refusal) {
      this.page.say(`No wave was saved: ${refusalSentence(refusal)}. There are ${plural(record.done, 'tick')}.`);
      return;
    }
    save('station.vcd', text, 'text/plain');
    this.page.say(`station.vcd was saved: ${plural(record.done, 'tick')} as released under reading ${primary}.`);
  }
}
