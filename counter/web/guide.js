// The only place that decides what the page asks of the clerk now. It gives a look, a word with its values, what may be pressed, and the answers to a
// question with their keys.

import { ANSWER_KEYS } from './hands.js';

/** @param {string} plate */
export const isPlate = plate => /^[A-Z0-9-]{1,12}$/.test(plate);

// Letters as an office takes them: capitals, a hyphen for a blank, two letters for an umlaut.
/** @param {string} text */
export function plateOf(text) {
  return text.trimStart().toUpperCase().replace(/Ä/g, 'AE').replace(/Ö/g, 'OE').replace(/Ü/g, 'UE').replace(/ß|ẞ/g, 'SS')
    .normalize('NFD').replace(/[\u0300-\u036f]/g, '').replace(/[\s_./·]+/g, '-');
}

/** @param {string} plate */
export const bare = plate => plate.replaceAll('-', '');

// A preset tare as the scale rounds it: to the interval, and upwards from half of one. `checks/counter` compares it with the terminal's reply to `TA`.
/** @param {number} kg @param {number} interval */
export const roundedTare = (kg, interval) => Math.floor((2 * kg + interval) / (2 * interval)) * interval;

const SMALL_TARE = 0.2;              // of the gross: below that it is doubted
const OTHER_THAN_EMPTY = 0.05;       // of the last empty weight: if it differs by more, it is doubted

// One letter more, less or other, or two that changed places.
/** @param {string} one @param {string} other */
function isNear(one, other) {
  if (Math.abs(one.length - other.length) > 1 || other.length < 2) return false;
  let at = 0;
  while (at < other.length && one[at] === other[at]) at++;
  const rests = [[1, 1], [1, 0], [0, 1]].map(([a, b]) => one.slice(at + a) === other.slice(at + b));
  const isTurned = one[at] === other[at + 1] && one[at + 1] === other[at] && one.slice(at + 2) === other.slice(at + 2);
  return isTurned || rests.includes(true);
}

// Returns the vehicles on site that the plate may mean, the likeliest first. The plate is theirs without hyphens, or differs by one letter and was never
// weighed, or is a part of theirs.
// `weighedNear` has the plates that were weighed before, so that a fleet's running numbers get no question. If it lacks a plate, the page asks once too often.
/** @param {string} plate @param {First[]} onSite @param {string[]} weighedNear */
export function alike(plate, onSite, weighedNear) {
  if (!plate || onSite.some(it => it.plate === plate)) return [];
  const typed = bare(plate), isNew = !weighedNear.includes(typed);
  /** @type {((it: string) => unknown)[]} */
  const kinds = [it => it === typed, it => isNew && isNear(it, typed), it => typed && it.includes(typed)];
  const found = onSite.map(it => ({ it, kind: kinds.findIndex(isSo => isSo(bare(it.plate))) })).filter(({ kind }) => kind >= 0);
  return found.sort((one, other) => one.kind - other.kind).map(({ it }) => it);
}

// What kind of weighing the plate means.
/** @param {Now} now @returns {Choice} */
export function choiceOf(now) {
  const first = now.onSite.find(it => it.plate === now.plate);
  if (first) return { kind: 'second', first };
  if (now.oneTare) return { kind: 'single', tare: roundedTare(now.oneTare, now.interval) };
  const kept = now.tares[now.plate];
  if (kept && !kept.is_over && !now.isFirstInstead) return { kind: 'single', tare: roundedTare(kept.kg, now.interval) };
  return now.isOnce ? { kind: 'first', isOnce: true } : { kind: 'first' };
}

// By what a weighing differs from another one of the same plate.
/** @param {Choice} choice */
export const weighingOf = ({ kind, tare, first, isOnce }) => [kind, tare ?? '', first?.number ?? '', isOnce ? 'once' : ''].join(' ');

// Returns the plates with a kept tare that are the typed one without hyphens. They may be other vehicles, so none is taken without an answer.
/** @param {Now} now @param {Choice} choice */
function spellings({ plate, tares }, choice) {
  if (choice.kind !== 'first' || tares[plate]) return [];
  const typed = bare(plate);
  return Object.keys(tares).filter(it => bare(it) === typed && !tares[it].is_over).sort();
}

/** @param {Now} now @param {string[]} others @returns {Told} */
function isItSpelled({ tares, interval }, others) {
  const shown = others.slice(0, ANSWER_KEYS.spelling.length).map((plate, at) => ({ key: ANSWER_KEYS.spelling[at], plate }));
  const answers = [...shown, answerTo('spelling', others.join(' '), ANSWER_KEYS.another, 'another_vehicle')];
  return { look: 'wait', word: 'is_it_spelled', values: { plate: others[0], kg: roundedTare(tares[others[0]].kg, interval) }, answers };
}

// Why a tare is doubted, or null. Without a gross, because the load moves, only the last empty weight tells.
/** @param {number} tare @param {number | null} gross @param {number | null | undefined} empty */
export function doubtOf(tare, gross, empty) {
  if (gross !== null && tare < SMALL_TARE * gross) return { word: 'small_tare', values: { kg: tare } };
  if (empty && Math.abs(tare - empty) > OTHER_THAN_EMPTY * empty) return { word: 'other_tare', values: { kg: tare, empty } };
  return null;
}

/** @param {Weight | null} weight */
export const grossOf = weight => weight && weight.net !== null ? weight.net + (weight.tare ?? 0) : null;

const UNSEEN_FOR = 8000;             // milliseconds without a weight, after which another load may be on the bridge
/** @param {number} since @param {number} at */
const isWhile = (since, at) => Math.abs(at - since) > UNSEEN_FOR;

// Which load the plate in the form is for. A plate that was typed on an empty bridge, or while a weighed vehicle drives off, is for the next load, unless it is the
// weighed vehicle's own. A plate leaves the form with its load, whoever weighed that, so that the next vehicle is never ready under it. It leaves too if the page had
// no weight for a while since it was typed.
export class PlateOfLoad {
  #isForThis = false;
  #isBack = false;
  /** @type {{ kind: Kind, plate: string, number: number } | null} */
  #entry = null;
  #isLoaded = false;
  #loads = 0;
  /** @type {number | null} */
  #seenAt = null;
  #plate = '';
  /** @type {number | null} */
  #plateAt = null;
  #wasUnseen = false;

  // The entry by which the load on the bridge was weighed; null if it wasn't, or if the counter didn't see it.
  get entry() {
    return this.#entry;
  }

  // How many loads have left, or may have. As long as it stays the same, the load is the same.
  get loads() {
    return this.#loads;
  }

  // Whether the page had no weight for a while before the newest one.
  get wasUnseen() {
    return this.#wasUnseen;
  }

  // Whether the page has had no weight for a while.
  /** @param {number} at */
  isUnseen(at) {
    return this.#seenAt !== null && isWhile(this.#seenAt, at);
  }

  // The load on the bridge was weighed, by this page or by another. The counter's state says so a moment later.
  /** @param {{ kind: Kind, plate: string, number: number }} entry */
  weighed(entry) {
    this.#entry = entry;
  }

  // The plate is in the form again, because nothing was stored of its request. It is for the load that is still there, even if a colleague weighed that.
  isBack() {
    this.#isBack = true;
  }

  // Takes what is known now, at a time of the day in milliseconds. Returns true once the load has left for which the plate was typed, or may have.
  /** @param {Now} now */
  hasLeft({ plate, weight, state, min, waiting, newest, at }) {
    const gross = grossOf(weight);
    if (plate !== this.#plate) {
      this.#plate = plate;
      this.#plateAt = at;
    }
    this.#wasUnseen = gross !== null && this.isUnseen(at);
    if (gross === null) return false;
    if (this.#wasUnseen) this.#entry = null;
    const hadPlate = this.#isForThis && Boolean(plate), isNoLoad = gross < min, isWeighed = this.#entry !== null || waiting !== null || ['weighed', 'restarted'].includes(state?.bridge ?? '');
    const leaves = this.#wasUnseen ? Boolean(plate) && isWhile(this.#plateAt ?? at, at) : hadPlate && isNoLoad;
    const isItsOwn = plate === (this.#entry ?? (state?.bridge === 'weighed' ? newest : null))?.plate;
    this.#isForThis = Boolean(plate) && !leaves && !isNoLoad && (hadPlate || this.#isBack || !isWeighed || isItsOwn);
    this.#isBack = false;
    this.#seenAt = at;
    if ((isNoLoad || this.#wasUnseen) && this.#isLoaded) this.#loads++;
    this.#isLoaded = !isNoLoad;
    if (isNoLoad) this.#entry = null;
    return leaves;
  }
}

/** @param {Choice} choice @param {number | null} gross */
export function netOf(choice, gross) {
  if (gross === null) return null;
  if (choice.first) return Math.abs(choice.first.gross - gross);
  return choice.tare ? gross - choice.tare : null;
}

// A question stays until the clerk answers it for this plate and this vehicle. `subject` is what it asks about. For another subject the page asks again.
/** @param {Now} now @param {string} question @param {string} subject */
const isAnswered = (now, question, subject) => now.answered[question] === subject;
/** @param {string} question @param {string} subject @param {string} key @param {string} word */
const answerTo = (question, subject, key, word) => ({ key, word, question, subject });

/** @param {First[]} like @returns {Told} */
function isItOneOf(like) {
  const shown = like.slice(0, ANSWER_KEYS.on_site.length).map((it, at) => ({ key: ANSWER_KEYS.on_site[at], plate: it.plate }));
  const answers = [...shown, answerTo('is_it', subjectOf(like), ANSWER_KEYS.another, 'another_vehicle')];
  if (like.length === 1) return { look: 'wait', word: 'is_it', values: { plate: like[0].plate }, answers };
  return { look: 'wait', word: 'is_it_one', values: { number: like.length }, answers };
}

/** @param {First[]} like */
const subjectOf = like => like.map(it => it.plate).join(' ');

// A Single has no second weighing, so what the bridge showed before the vehicle stays in its net.
/** @param {OffZero} zero @returns {Told} */
function wasOffZero({ before }) {
  const answers = [answerTo('off_zero', `${before}`, ANSWER_KEYS.off_zero, 'weigh_all_the_same')];
  return before === null ? { look: 'wait', word: 'unknown_before', answers } : { look: 'wait', word: 'off_zero_before', values: { kg: before }, answers };
}

// What the bar of a demo says; null without one. The scale's serial decides once it is known, because it is in each legal text.
/** @param {Hello | undefined} hello @param {string | null | undefined} serial */
export function demoOf(hello, serial) {
  if (serial ? serial !== 'DEMO' : !hello?.demo) return null;
  return { page: hello?.demo_page ?? null };
}

// A counter that is set up as a demo, over a scale that isn't.
/** @param {Hello | undefined} hello @param {string | null | undefined} serial */
export const isFalseDemo = (hello, serial) => Boolean(hello?.demo && serial && serial !== 'DEMO');

/** @param {OffZero} zero @returns {Told} */
function isEmpty({ kg, is_refused: isRefused }) {
  if (kg === null) return { look: 'calm', word: 'empty' };
  return isRefused ? { look: 'bad', word: 'off_zero_refused', values: { kg } } : { look: 'wait', word: 'off_zero', values: { kg }, choices: ['set_zero'] };
}

// Who it is that is weighed, also if the page was loaded since.
/** @param {Newest | undefined} newest */
function driveOff(newest) {
  if (!newest) return { word: 'drive_off_any' };
  return { word: newest.isWithdrawn ? 'drive_off_withdrawn' : 'drive_off', values: { plate: newest.plate, paper: newest.paper, number: newest.number } };
}

// A message about something that is over keeps no press from its effect.
/** @param {Told} told */
export const isPast = ({ word }) => word === 'armed_over';
/** @param {Told} told */
const mayPress = ({ isReady, isArmable }) => ({ isReady, isArmable });

/** @param {Now} now @returns {Told} */
export function step(now) {
  const { link, plate, result, told } = now;
  // They are there while the link is up.
  const weight = /** @type {Weight} */ (now.weight), state = /** @type {State} */ (now.state);
  if (now.waiting) return now.waiting;
  if (result && !plate && link !== 'up' && now.isResultNew) return result;     // what came of the press comes before a fault
  if (link !== 'up') return { look: 'bad', word: `link_${link}` };
  if (told) return isPast(told) ? { ...told, ...mayPress(step({ ...now, told: null })) } : told;
  if (weight.state !== 'S' && weight.state !== 'D') return { look: 'bad', word: { I: 'no_weight', '+': 'overload', '-': 'below_zero' }[weight.state] };
  const gross = /** @type {number} */ (grossOf(weight)), isLight = gross < now.min;
  if (result && !plate) return result;
  if (weight.tare && state.tare && !state.busy) return { look: 'wait', word: 'foreign_tare', values: { tare: weight.tare }, choices: ['clear_tare'] };
  if (isLight) return isEmpty(state.off_zero);
  if (state.bridge === 'weighed') return { look: 'wait', ...driveOff(now.newest) };
  if (state.bridge === 'restarted') return { look: 'wait', word: 'drive_off_restarted' };
  const moves = weight.state === 'D';
  if (!plate) return moves ? { look: 'wait', word: 'moving' } : { look: 'do', word: 'type_plate' };
  if (!isPlate(plate)) return { look: 'wait', word: 'no_plate' };
  const like = alike(plate, now.onSite, now.weighedNear);
  if (like.length && !isAnswered(now, 'is_it', subjectOf(like))) return isItOneOf(like);
  const choice = choiceOf(now), net = moves ? null : netOf(choice, gross);
  const others = spellings(now, choice);
  if (others.length && !isAnswered(now, 'spelling', others.join(' '))) return isItSpelled(now, others);
  if (choice.tare && net !== null && net <= 0) return { look: 'wait', word: 'tare_too_great' };
  const doubt = choice.tare ? doubtOf(choice.tare, moves ? null : gross, now.empty) : null;
  if (doubt && !isAnswered(now, 'odd_tare', `${doubt.word} ${choice.tare}`)) {
    return { look: 'wait', ...doubt, answers: [answerTo('odd_tare', `${doubt.word} ${choice.tare}`, ANSWER_KEYS.odd_tare, 'right_tare')] };
  }
  if (choice.tare && state.off_zero.is_doubtful && !isAnswered(now, 'off_zero', `${state.off_zero.before}`)) return wasOffZero(state.off_zero);
  if (net !== null && net < now.min && !isAnswered(now, 'small_net', weighingOf(choice))) {
    return { look: 'wait', word: 'small_net', values: { net }, answers: [answerTo('small_net', weighingOf(choice), ANSWER_KEYS.small_net, 'right_vehicle')] };
  }
  if (now.isDeaf) return { look: 'wait', word: 'one_moment', values: { plate } };
  return moves ? { look: 'wait', word: 'moving_typed', isArmable: true } : { look: 'do', word: 'ready', isReady: true };
}
