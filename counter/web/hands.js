// Decides what a key does, and how long Enter doesn't react. It needs no browser, and has no clock of its own.

export const DEAF_FOR = 700;         // milliseconds after the clerk took a plate from a list or answered a question
export const ALL_KEYS = 'all';       // that answer
export const HAMMERED_WITHIN = 250;  // milliseconds at most between two presses by a clerk who hammers

// Enter and the weigh button don't react for a while, and while the clerk hammers Enter. So hammering weighs nothing that the clerk hasn't seen.
// Nor does the key that answered a question, so a key that is pressed too often doesn't answer the next one. Nor does any such key if one of them changed its plate.
export class Deafness {
  until = -Infinity;
  /** @type {string | null} */
  #key = null;

  /** @param {number} at @param {string | null} key */
  begin(at, key = null) {
    this.until = Math.max(this.until, at + DEAF_FOR);
    this.#key = key;
  }

  // Letters were typed in between, so the key isn't hammered.
  typed() { this.#key = null; }

  /** @param {number} at */
  keyAt(at) { return this.isDeaf(at) ? this.#key : null; }

  /** @param {number} at */
  pressed(at) { if (this.isDeaf(at)) this.until = Math.max(this.until, at + HAMMERED_WITHIN); }

  /** @param {number} at */
  isDeaf(at) { return at < this.until; }
}

// With Alt, because each other key is a letter of the plate or has its use.
export const SPEAK_KEY = 'KeyW';

/** @type {{ [code: string]: 'zero' | 'last' | 'find' }} */
export const PAGE_KEYS = { F9: 'zero', F8: 'last', F4: 'find' };

// Each question has keys of its own, so that a key pressed too often answers no other question. Chromium and Firefox leave these keys to the page.
export const ANSWER_KEYS = { on_site: ['F1', 'F2', 'F3'], spelling: ['F2', 'F3'], another: 'F6', small_net: 'F7', odd_tare: 'F3', off_zero: 'F10' };
const ANSWERING = new Set(Object.values(ANSWER_KEYS).flat());

/** @type {Deed} */
const LEAVE = { is: 'left' };        // to the browser
/** @type {Deed} */
const STOP = { is: 'stopped' };      // it does nothing, here or in the browser

// `key` is a keydown event, `on` where it came: plate, answer, field or other. `page` has the answers to its question, whether a dialog is open, and what doesn't react.
/** @param {KeyboardEvent} key @param {string} on @param {{ answers: Pressed[], isDialog: boolean, isDeaf: boolean, deafKey?: string | null }} page @returns {Deed} */
export function deedOf(key, on, { answers, isDialog, isDeaf, deafKey = null }) {
  if (key.altKey && !key.ctrlKey && !key.metaKey && !key.shiftKey && key.code === SPEAK_KEY) return { is: 'spoken' };
  const isPlain = !key.ctrlKey && !key.altKey && !key.metaKey && !key.shiftKey;
  const isOurs = isPlain && (key.code in PAGE_KEYS || ANSWERING.has(key.code)), isEnter = key.key === 'Enter';
  if (key.repeat && (isOurs || isEnter || key.key === 'Escape')) return STOP;
  if (isDialog) return isOurs ? STOP : key.key === 'Escape' ? { is: 'closing' } : LEAVE;
  const answer = isOurs && answers.find(it => it.key === key.code);
  if (answer) return key.code === deafKey || deafKey === ALL_KEYS ? { is: 'deaf' } : { is: 'answered', answer };
  if (isOurs) return key.code in PAGE_KEYS ? { is: 'clicked', part: PAGE_KEYS[key.code] } : STOP;
  if (isEnter && isDeaf) return { is: 'deaf' };
  if (isEnter) return answers.length && (on === 'plate' || on === 'answer') ? STOP : LEAVE;
  if (key.key === 'Escape') return { is: 'cleared' };
  const isLetter = key.key.length === 1 && key.key !== ' ' && !key.ctrlKey && !key.altKey && !key.metaKey;
  return isLetter && on === 'other' ? { is: 'typed' } : LEAVE;
}
