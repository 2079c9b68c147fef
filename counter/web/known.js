// What is known now: what the counter told, and what the clerk is at.

import { Arming } from './arming.js';
import { Feed, OLDEST_WEIGHT } from './feed.js';
import { PlateOfLoad } from './guide.js';
import { Deafness } from './hands.js';
import { part } from './parts.js';
import { paperOf } from './words.js';

export const MIN_INTERVALS = 20;     // below so many intervals the bridge is empty
const RESULT_BEFORE_FAULTS = 5000;   // milliseconds that a result is shown before a fault is

export const feed = new Feed();
/** @type {{ hello: Hello, state: State | null, onSite: First[], weighedNear: string[], today: Entry[], sums: Sums | null, tares: { [plate: string]: Kept }, papers: Papers }} */
export const known = { hello: { interval: 20, zone: 'UTC', tare_days: 90 }, state: null, onSite: [], weighedNear: [], today: [], sums: null, tares: {}, papers: { printers: [], jobs: [], refused: null } };
// `left` is the plate that left the form last, and the sentence about it; `askedFor` the plate that a window was opened for; `ofPlate` what the counter knows of the plate in the form, `choice` the weighing that was shown last, and the plates of the answers by their keys.
/** @type {Clerk} */
export const clerk = { oneTare: null, isFirstInstead: false, isOnce: false, isGivenTyped: false, waiting: null, result: null, told: null, newest: null, answered: {}, answers: [], deafness: new Deafness(), arming: new Arming(), plateOfLoad: new PlateOfLoad(), formThatLeft: null, left: { word: '', plate: '' }, askedFor: '', ofPlate: null, choice: { plate: '', weighing: '', plates: {} } };

/** @type {('goods' | 'order' | 'driver')[]} */
export const GIVEN = ['goods', 'order', 'driver'];     // free lines for the paper, which the office doesn't get
/** @param {Given} given */
export const linesOf = given => GIVEN.map(it => given[it]).filter(Boolean).join(', ');

export const plate = () => part('plate').value;
/** @returns {Given} */
export const givenTyped = () => Object.fromEntries(GIVEN.map(it => [it, part(it).value.trim()]));

// What the paper of a weighing will have: what the clerk typed for it, or what its first weighing has.
/** @param {{ first?: First }} choice @returns {Given} */
export const givenOf = ({ first }) => clerk.isGivenTyped ? givenTyped() : first?.given ?? {};

export function linkNow() {
  if (feed.isGone() || known.state === null) return 'off';
  if (known.state.link !== 'up') return known.state.link;
  return feed.age() > OLDEST_WEIGHT ? 'held' : 'up';
}

// By the number of a first weighing: the void by which it was withdrawn today.
export const withdrawnBy = () => new Map(known.today.filter(it => it.kind === 'void').map(it => [it.first, it]));

// The First of a vehicle that is weighed once is closed by the counter, which is no withdrawal.
/** @param {Entry} entry */
export const isWithdrawn = entry => withdrawnBy().has(entry.number) && !entry.once;

/** @returns {Newest | undefined} */
function newestWeighing() {
  const newest = known.today.find(it => it.kind !== 'void');
  return newest && { plate: newest.plate, number: newest.number, paper: paperOf(newest), isWithdrawn: isWithdrawn(newest) };
}

// The plate's last empty weight in kg, as far as the page knows it.
/** @param {string} of */
export const emptyOf = of => known.tares[of]?.empty ?? (clerk.ofPlate?.plate === of ? clerk.ofPlate.empty : null);

/** @returns {Now} */
export function nowKnown() {
  const link = linkNow();
  return {
    at: Date.now(), link, weight: link === 'up' ? feed.weight : null, state: known.state, papers: known.papers, plate: plate(), onSite: known.onSite, weighedNear: known.weighedNear, tares: known.tares,
    interval: known.hello.interval, min: MIN_INTERVALS * known.hello.interval, empty: emptyOf(plate()), oneTare: clerk.oneTare, isFirstInstead: clerk.isFirstInstead, isOnce: clerk.isOnce,
    waiting: clerk.waiting, result: clerk.result, told: clerk.told, newest: newestWeighing(), answered: clerk.answered, isDeaf: clerk.deafness.isDeaf(performance.now()),
    isResultNew: clerk.result !== null && performance.now() - clerk.result.madeAt < RESULT_BEFORE_FAULTS,
  };
}
