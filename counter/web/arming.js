// Keeps a press of the clerk while the load still moves. It needs no browser, and has no clock of its own.

import { weighingOf } from './guide.js';

export const ARMED_FOR = 20000;      // milliseconds after the press
export const READY_FOR = 1000;       // milliseconds that the page is ready before the weighing is sent, so that the clerk sees the weight

// What a press is for. If any of it changes, the clerk has to press again.
/** @param {string} plate @param {Choice} choice */
export const subjectOf = (plate, choice) => `${plate} ${weighingOf(choice)}`;

export class Arming {
  /** @type {string | null} */
  #subject = null;
  #since = -Infinity;
  /** @type {number | null} */
  #readySince = null;

  get isArmed() { return this.#subject !== null; }

  // The moment of the clerk's press, also once it fires.
  get since() { return this.#since; }

  // `since` is the moment of the press, also if the same press is armed once more.
  /** @param {string} subject @param {number} since */
  begin(subject, since) {
    this.#subject = subject;
    this.#since = since;
    this.#readySince = null;
  }

  end() { this.#subject = null; }

  // Takes what the page asks of the clerk now. Only after 'waits' it is still armed. 'fires': the weighing is sent. 'asked': the page asks or warns. 'over': the time
  // is over, or the weighing would be another one, which the clerk has to be told.
  /** @param {Told} told @param {string} subject @param {number} at */
  next(told, subject, at) {
    this.#readySince = told.isReady ? this.#readySince ?? at : null;
    const outcome = this.#outcome(told, subject, at);
    if (outcome !== 'waits') this.end();
    return outcome;
  }

  /** @param {Told} told @param {string} subject @param {number} at */
  #outcome(told, subject, at) {
    if (!told.isReady && !told.isArmable) return told.word === 'one_moment' || told.word.startsWith('link_') ? 'over' : 'asked';
    if (subject !== this.#subject || at - this.#since > ARMED_FOR) return 'over';
    return told.isReady && at - (this.#readySince ?? at) >= READY_FOR ? 'fires' : 'waits';
  }
}
