// The words of the page in the clerk's language, and how numbers and moments are written in it. A catalogue has a text for each key, or an object of plural
// forms. weighbridge_paper/catalogue.py has the same rules for the paper.

const REMEMBERED = 'weighbridge.language';
const ENGLISH = 'en';
/** @type {Catalogue} */
const NO_WORDS = { words: {}, place: ENGLISH };

let english = NO_WORDS, own = NO_WORDS;
export let language = ENGLISH;
let zone = 'UTC';

/** @param {string} text */
const namesIn = text => [...new Set(text.match(/\{\w+\}/g))].sort().join();
/** @param {Words} words */
const formsOf = words => typeof words === 'string' ? [words] : Object.values(words);

// English fills in for a key that the language lacks, or whose placeholders are other ones.
/** @param {string} key */
function isOwn(key) {
  const words = own.words[key], inEnglish = english.words[key] ?? '';
  return words !== undefined && formsOf(words).every(it => it.trim() && namesIn(it) === namesIn(typeof inEnglish === 'string' ? inEnglish : inEnglish.other));
}

// What writes numbers or moments takes a tenth of a millisecond to make, so each is kept.
const writers = new Map();
/** @param {any} Kind @param {string} place @param {object} [options] @returns {any} */
function writer(Kind, place, options) {
  const key = [Kind.name, place, JSON.stringify(options)].join(' ');
  if (!writers.has(key)) writers.set(key, new Kind(place, options));
  return writers.get(key);
}

/** @param {{ [form: string]: string }} words @param {string} place @param {unknown} count */
const formOf = (words, place, count) => words[typeof count === 'number' ? writer(Intl.PluralRules, place).select(count) : 'other'] ?? words.other;

/** @param {string} key */
export const has = key => english.words[key] !== undefined;

// `number` among the values chooses the plural form, if the key has more than one, and is written as the language writes numbers.
/** @param {string} key @param {Values} values @returns {string} */
export function t(key, values = {}) {
  const { words: { [key]: found = key }, place } = isOwn(key) ? own : english;
  if (typeof found === 'string') return filled(found, values);
  const count = values.number;
  return filled(formOf(found, place, count), typeof count === 'number' ? { ...values, number: number(count) } : values);
}

/** @param {string} text @param {Values} values */
const filled = (text, values) => text.replace(/\{(\w+)\}/g, (_, name) => `${values[name] ?? ''}`);
/** @param {number} value @returns {string} */
export const number = (value, digits = 0) => writer(Intl.NumberFormat, own.place, { minimumFractionDigits: digits, maximumFractionDigits: digits, useGrouping: 'always' }).format(value);
/** @param {number} value */
export const kg = value => `${number(value)} kg`;
/** @param {{ kind: string }} entry */
export const paperOf = entry => t(entry.kind === 'second' || entry.kind === 'single' ? 'ticket' : 'slip');

/** @param {string | number} at @param {Intl.DateTimeFormatOptions} options @returns {string} */
const written = (at, options) => writer(Intl.DateTimeFormat, own.place, { timeZone: zone, ...options }).format(new Date(at));
/** @type {Intl.DateTimeFormatOptions} */
const DAY = { day: '2-digit', month: 'short', year: 'numeric' };
/** @param {string | number} at */
export const dayOf = at => written(at, DAY);
// Of a date alone, as YYYY-MM-DD, in no zone.
/** @param {string} date @returns {string} */
export const dateOf = date => writer(Intl.DateTimeFormat, own.place, { timeZone: 'UTC', ...DAY }).format(new Date(date));
/** @param {string | number} at */
export const timeOf = at => written(at, { hour: '2-digit', minute: '2-digit', hourCycle: 'h23' });
/** @param {string | number} at */
export const isToday = at => dayOf(at) === dayOf(Date.now());
/** @param {string | number} at */
export const whenOf = at => isToday(at) ? timeOf(at) : `${dayOf(at)} ${timeOf(at)}`;
/** @param {number} at */
export const clockOf = at => written(at, { weekday: 'short', day: '2-digit', month: 'short', year: 'numeric', hour: '2-digit', minute: '2-digit', second: '2-digit', hourCycle: 'h23', timeZoneName: 'short' });

/** @param {string} name */
export function useZone(name) { zone = name; }

// The language that the address asks for, or this browser was used in, or the setup names; of those that there are, if that is known.
/** @param {string | undefined} ofSetup @param {{ [name: string]: string }} [languages] @returns {string} */
export function wantedLanguage(ofSetup, languages) {
  const wishes = [new URLSearchParams(location.search).get('lang'), remembered(), ofSetup];
  return wishes.find(it => it && (languages ? it in languages : /^[a-z]{2}$/.test(it))) ?? ENGLISH;
}

function remembered() {
  try { return localStorage.getItem(REMEMBERED); } catch { return null; }
}

// Numbers and dates are the language's, even if its file doesn't name a place: 9,000 would be nine in many languages.
/** @param {{ [key: string]: Words }} words @param {string} name @returns {string} */
function placeOf(words, name) {
  try { return /** @type {any} */ (Intl).getCanonicalLocales(words.place)[0] ?? name; } catch { return name; }
}

// Returns null if the file of a language didn't come.
/** @param {string} name @returns {Promise<Catalogue | null>} */
async function catalogueOf(name) {
  try {
    const answer = await fetch(`${location.origin}/web/lang/${name}.json`);
    if (!answer.ok) return null;
    const words = await answer.json();
    return { words, place: placeOf(words, name) };
  } catch { return null; }
}

/** @param {string} name */
export async function speak(name, isChosen = false) {
  const [inEnglish, chosen] = await Promise.all([english === NO_WORDS ? catalogueOf(ENGLISH) : english, catalogueOf(name)]);
  if (inEnglish === null || chosen === null) return false;
  english = inEnglish;
  own = chosen;
  language = name;
  document.documentElement.lang = name;
  if (isChosen) try { localStorage.setItem(REMEMBERED, name); } catch { /* it is asked for again next time */ }
  return true;
}
