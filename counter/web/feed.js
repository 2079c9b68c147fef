// What the counter tells: its event stream, and how old each weight is by the counter's own clock.

export const OLDEST_WEIGHT = 1000;   // milliseconds: no older one is shown
const SILENT_AFTER = 1500;           // milliseconds without an event, after which the counter counts as gone
const AGAIN_AFTER = 1000;
const COMPARE_EVERY = 60000;
const ROUND_TRIPS = 4;

/** @param {number} time */
const pause = time => new Promise(done => setTimeout(done, time));
const now = () => performance.now();

export class Feed {
  constructor() {
    /** @type {(name: string, what: any) => void} */
    this.hear = () => {};            // called with the name of an event and what it says
    /** @type {Weight | null} */
    this.weight = null;
    this.heardAt = -Infinity;
    /** @type {number | null} */
    this.offset = null;              // this browser's clock less the counter's
    this.trip = Infinity;
    this.apart = Date.now() - now();
    this.comparedAt = now();
    /** @type {EventSource | null} */
    this.source = null;
  }

  begin() {
    document.addEventListener('visibilitychange', () => document.hidden ? this.close() : this.open());
    if (!document.hidden) this.open();
    setInterval(() => this.watchClocks(), 250);
  }

  // A page that isn't seen has no stream: so a browser may have many tabs of it.
  open() {
    this.close();
    const source = this.source = new EventSource(`${location.origin}/events`);
    for (const name of ['hello', 'state', 'weight', 'lists', 'tares', 'tare', 'entry', 'given', 'papers', 'alive']) {
      source.addEventListener(name, event => this.take(name, JSON.parse(event.data)));
    }
    source.onerror = () => {
      if (source.readyState !== EventSource.CLOSED || this.source !== source) return;
      setTimeout(() => { if (this.source === source) this.open(); }, AGAIN_AFTER);
    };
  }

  close() {
    this.source?.close();
    this.source = null;
    this.weight = null;
  }

  /** @param {string} name @param {any} what */
  take(name, what) {
    this.heardAt = now();
    if (name === 'hello') this.compareClocks();
    if (name === 'weight') this.weight = what;
    this.hear(name, what);
  }

  // This moment by the counter's clock, in milliseconds; nothing while the distance of the clocks isn't known.
  /** @returns {{ at?: string }} */
  moment() { return this.offset === null ? {} : { at: `${Math.round(now() - this.offset)}` }; }

  isGone() { return now() - this.heardAt > SILENT_AFTER; }

  // Milliseconds since the counter got the weight; Infinity while that can't be told.
  age() { return this.weight === null || this.offset === null ? Infinity : Math.max(0, now() - this.offset - this.weight.at); }

  // The shortest of some round trips tells the offset best, however long events are held up.
  async compareClocks() {
    this.trip = Infinity;
    this.comparedAt = now();
    for (let it = 0; it < ROUND_TRIPS; it++) {
      const from = now();
      const answer = await fetch(`${location.origin}/time`, { cache: 'no-store' }).then(got => got.json()).catch(() => null);
      const took = now() - from;
      if (answer && took < this.trip) {
        this.trip = took;
        this.offset = from + took / 2 - answer.now;
      }
      await pause(50);
    }
  }

  // A machine that slept has clocks that no longer fit: nothing is shown until they were compared anew.
  watchClocks() {
    if (Math.abs(Date.now() - now() - this.apart) > 1000) {
      this.apart = Date.now() - now();
      this.weight = null;
      this.offset = null;
      this.compareClocks();
    } else if (now() - this.comparedAt > COMPARE_EVERY && !document.hidden) {
      this.compareClocks();
    }
  }
}
