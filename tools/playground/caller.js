// ---- calls of the program, in a worker: one at a time, and an answer to a text that is no more the newest is dropped

// A call that takes longer is ended, so many seconds; one for an older text, when it took so many milliseconds.
const SECONDS = 20, PATIENCE = 400;

// The bytes of a text whose characters they are, as the program answers one.
const bytesOf = text => Uint8Array.from(text, one => one.charCodeAt(0));

// Calls, of which each belongs to a turn; those of the newest turn are answered.
class Caller {
  constructor(source, packed) {
    Object.assign(this, { source, packed, busy: null, waiting: [], newest: 0, seconds: SECONDS });
    this.start();
  }

  // Begins a worker.
  start() {
    this.ready = false;
    this.worker = new Worker(URL.createObjectURL(new Blob([this.source], { type: 'text/javascript' })));
    this.worker.onmessage = ({ data }) => data.ready ? this.begin() : this.end(data);
    this.worker.postMessage({ packed: this.packed });
  }

  // Is ready for calls.
  begin() {
    this.ready = true;
    this.next();
  }

  // Makes the next call that is still wanted.
  next() {
    this.waiting = this.waiting.filter(one => one.turn === this.newest || one.then(null));
    if (!this.ready || this.busy || !this.waiting.length) return;
    this.busy = this.waiting.shift();
    this.busy.begun = performance.now();
    this.clock = setTimeout(() => this.stop(`stopped after ${this.seconds} seconds`), this.seconds * 1000);
    this.worker.postMessage(this.busy.request);
  }

  // Hands over an answer, where it is still wanted.
  end(answer) {
    clearTimeout(this.clock);
    const { then, turn } = this.busy;
    this.busy = null;
    then(turn === this.newest ? answer : null);
    this.next();
  }

  // Ends the worker together with its call, and begins another one.
  stop(why) {
    this.worker.terminate();
    this.start();
    this.end({ status: -2, out: '', err: why });
  }

  // A new turn: what was asked in earlier ones is wanted no more.
  turn() {
    this.newest++;
    const { busy } = this;
    if (busy) setTimeout(() => {
      if (this.busy === busy && busy.turn !== this.newest) this.stop('not wanted');
    }, Math.max(0, PATIENCE - (performance.now() - busy.begun)));
    return this.newest;
  }

  // The answer of a call, or null where a newer turn has begun.
  ask(turn, program, words, bytes) {
    return new Promise(then => {
      this.waiting.push({ turn, then, request: { program, words, bytes } });
      this.next();
    });
  }
}
