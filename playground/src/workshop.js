// The engine in a worker. A question that came too late for its answer to matter stops the worker, and a new one begins.
import { Engine } from './engine.js';
import { Library } from './library.js';

/** How long an old question may go on once there is a newer one. */
const PATIENCE = 60;
/** An answer waits so long for the next. */
const AT_ONCE = 25;
/** After so long a person is told that there is work. */
const NOTICED = 150;

/** Hands over the answers to a question as they come. Those that come at once go together. */
function tell(scope, id, answers) {
  let [parts, since] = [{}, performance.now()];
  for (const answer of answers) {
    Object.assign(parts, answer);
    if (performance.now() - since > AT_ONCE) {
      scope.postMessage({ id, parts });
      [parts, since] = [{}, performance.now()];
    }
  }
  scope.postMessage({ id, parts, done: true });
}

/** What the worker does: it answers one question after another. */
export function serve(scope) {
  let opened = null;
  scope.onmessage = async ({ data: { id, ask, given } }) => {
    try {
      if (ask === 'open') opened = Library.open(given).then((library) => new Engine(library));
      const engine = await opened;
      if (ask !== 'open') tell(scope, id, engine[ask](given));
    } catch (error) {
      scope.postMessage({ id, failed: String(error?.stack ?? error) });
    }
  };
}

/** A browser may forbid workers to a page from a file: the same questions are then answered here. */
class Here {
  constructor(answered) {
    this.scope = { postMessage: (data) => setTimeout(() => answered({ data })) };
    serve(this.scope);
  }

  postMessage(data) {
    this.scope.onmessage({ data });
  }

  terminate() {
    this.scope.postMessage = () => {};
  }
}

export class Workshop {
  /** `noticed` is called when a question takes long, `broken` when the page itself has a fault. */
  constructor(program, wasm, { noticed, broken }) {
    Object.assign(this, { program, wasm, noticed, broken });
    this.queue = [];
    this.last = 0;
    this.begin();
  }

  begin() {
    this.current = null;
    const answered = (event) => this.answered(event.data);
    try {
      this.worker = new Worker(this.program);
      this.worker.onmessage = answered;
    } catch {
      this.worker = new Here(answered);
    }
    this.worker.postMessage({ id: 0, ask: 'open', given: this.wasm });
  }

  /** Asks the engine. The worker has one question at a time; the others wait here. `came` is called with the parts of the answer as they come. */
  send(ask, given, came) {
    this.queue.push({ id: ++this.last, ask, given, came });
    this.next();
  }

  next() {
    if (this.current || this.queue.length === 0) return;
    this.current = this.queue.shift();
    const { id, ask, given } = this.current;
    this.current.since = performance.now();
    this.current.slow = setTimeout(() => this.noticed(), NOTICED);
    this.worker.postMessage({ id, ask, given });
  }

  answered({ id, parts, done, failed }) {
    if (id !== this.current?.id) return;
    const { slow, dropped, came } = this.current;
    clearTimeout(slow);
    if (done || failed) this.current = null;
    if (failed) this.broken(failed);
    else if (!dropped) came(parts, Boolean(done));
    this.next();
  }

  /** No answer is waited for any more. */
  drop() {
    this.queue = [];
    if (!this.current) return;
    clearTimeout(this.current.slow);
    this.current.dropped = true;
  }

  /** The same, and the worker is stopped if it stays long at what it does: it must then be told everything anew. */
  stop() {
    this.drop();
    const { current } = this;
    if (!current) return;
    setTimeout(() => this.current === current && this.restart(), Math.max(0, PATIENCE - (performance.now() - current.since)));
  }

  restart() {
    this.worker.terminate();
    this.begin();
    this.next();
  }
}
