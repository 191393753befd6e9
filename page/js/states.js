// The states of the page before the one that stands, and those that were taken back: what undo and redo lead to.

const MOST = 100, BURST = 1000;

export class States {
  constructor() {
    Object.assign(this, { past: [], future: [], last: 0, which: "", now: null });
  }

  /** The state that stands goes to those before, since another one follows. */
  remember() {
    if (!this.now) return;
    this.past.push(this.now);
    if (this.past.length > MOST) this.past.shift();
    this.future = [];
  }

  /** A text was typed in. Whether that begins an edit: what follows within a second in the same text is of the same edit. */
  typed(which, state) {
    const time = performance.now(), begins = time - this.last > BURST || this.which !== which;
    if (begins) this.remember();
    Object.assign(this, { last: time, which, now: state });
    return begins;
  }

  /** A whole other state stands. */
  put(state) {
    this.now = state;
    this.last = 0;
  }

  back() {
    return this.move(this.past, this.future);
  }

  forth() {
    return this.move(this.future, this.past);
  }

  move(from, to) {
    const state = from.pop();
    if (!state) return null;
    to.push(this.now);
    this.put(state);
    return state;
  }
}
