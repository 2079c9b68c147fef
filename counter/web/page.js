// The clerk's page: what the counter tells is shown, what the clerk presses is asked. It judges nothing: the office does.

import { ARMED_FOR, subjectOf } from './arming.js';
import { OLDEST_WEIGHT } from './feed.js';
import { bare, choiceOf, isPlate, plateOf, roundedTare } from './guide.js';
import { ALL_KEYS, DEAF_FOR, deedOf } from './hands.js';
import { clerk, feed, GIVEN, givenOf, givenTyped, known, linkNow, nowKnown, plate } from './known.js';
import { printDay, search, showLists } from './lists.js';
import { keepTare, print, showJobs } from './papers.js';
import { forgetPress, showTares } from './tares.js';
import { make, part } from './parts.js';
import { ask, askJson } from './request.js';
import { showRuns } from './runs.js';
import { acts, isAsking, show } from './show.js';
import { begin, resume, tell } from './weighing.js';
import { clockOf, kg, language, number, speak, t, useZone, wantedLanguage } from './words.js';

const THEME = 'weighbridge.theme';
const TYPED_FOR = 300;               // milliseconds after the last letter of a plate, until the counter is asked about it

// ---- what the counter tells

feed.hear = (name, what) => {
  if (name === 'hello') takeHello(what);
  if (name === 'state') known.state = what;
  if (name === 'lists') Object.assign(known, { onSite: what.on_site, weighedNear: what.weighed_near, today: what.today, sums: what.sums });
  if (name === 'tares') takeTares(what);
  if (name === 'tare') takeTares({ ...known.tares, [what.plate]: what.tare });
  if (name === 'papers') takePapers(what);
  if (name === 'entry') takeEntry(what);
  if (name === 'given') takeGiven(what);
  if (['lists', 'entry', 'given'].includes(name)) showLists();
  show();
  if (name === 'weight') scheduleExpiry();
};

/** @type {number | undefined} */
let expiry;
function scheduleExpiry() {
  clearTimeout(expiry);
  expiry = setTimeout(show, Math.max(0, OLDEST_WEIGHT - feed.age()) + 5);
}

/** @param {Hello & { company: string, languages: { [name: string]: string } }} hello */
function takeHello(hello) {
  known.hello = hello;
  useZone(hello.zone);
  part('company').textContent = hello.company;
  part('language').replaceChildren(...Object.entries(hello.languages).map(([value, textContent]) => make('option', { value, textContent })));
  part('language').value = language;
  const wish = wantedLanguage(hello.language, hello.languages);
  if (wish !== language) change(wish);
}

/** @param {{ entry: Entry, sums: Sums, on_site: First[], weighed_near: string[] }} told */
function takeEntry({ entry, sums, on_site: onSite, weighed_near: weighedNear }) {
  Object.assign(known, { sums, onSite, weighedNear });
  clerk.newest = entry.number;
  if (entry.kind !== 'void') clerk.plateOfLoad.weighed(entry);
  if (!known.today.some(it => it.number === entry.number)) known.today.unshift(entry);
}

/** @param {{ number: number, given: Given }} told */
function takeGiven({ number: of, given }) {
  for (const it of [...known.onSite, ...known.today]) if (it.number === of) it.given = given;
}

/** @param {{ [plate: string]: Kept | null }} tares */
function takeTares(tares) {
  known.tares = Object.fromEntries(Object.entries(tares).flatMap(([of, it]) => it === null ? [] : [[of, it]]));
  if (part('keeping').open) showKept();
}

// ---- what may be pressed

async function setZero() {
  const answer = await askJson('POST', '/zero');
  /** @type {{ [said: string]: [string, string] }} */
  const words = { 'Z A': ['ok', 'zero_set'], 'Z I': ['bad', 'zero_moves'], 'Z +': ['bad', 'zero_too_much'], 'Z -': ['bad', 'zero_too_little'] };
  const [look, word] = words[answer?.said] ?? (answer?.why === 'not_sent' ? ['bad', 'zero_not_sent'] : ['bad', 'zero_unknown_now']);
  tell(look, word);
  focusPlate();
}

async function clearTare() {
  const answer = await askJson('POST', '/tare/clear');
  if (answer?.said !== 'TAC A') tell('bad', 'tare_not_cleared');
  focusPlate();
}

async function closeJournalBar() {
  await askJson('POST', '/lists/seen', '');
  focusPlate();
}

/** @param {number} number */
async function printNumber(number, byBrowser = false) {
  const isAtPrinter = await print(number, known.papers.printers, byBrowser);
  if (isAtPrinter === null) tell('bad', 'not_printed');
  if (isAtPrinter) tell('ok', 'paper_sent');
  focusPlate();
}

const printResult = () => clerk.result && printNumber(clerk.result.number);

async function printLast() {
  const last = clerk.result?.number ?? known.today[0]?.number;
  if (last === undefined) tell('wait', 'nothing_today');
  else await printNumber(last);
  focusPlate();
}

async function printToday() {
  const day = await askJson('GET', '/today');
  if (day?.status !== 200) tell('bad', 'not_printed');
  else printDay(day, known.hello.company);
  focusPlate();
}

/** @param {Papers} papers */
function takePapers(papers) {
  known.papers = papers;
  if (part('printing').open) showPapers();
}

const showPapers = () => showJobs(known.papers, (method, target) => ask(method, target, method === 'POST' ? '' : undefined));

function openPapers() {
  showPapers();
  part('printing').showModal();
}

/** @param {{ plate: string, kg: number }} tare */
async function keepTareOf({ plate: of, kg: value }) {
  const isKept = (await keepTare(of, value))?.status === 200;
  if (isKept && clerk.result?.tare?.plate === of) clerk.result.tare = null;
  tell(isKept ? 'ok' : 'bad', isKept ? 'tare_kept' : 'tare_not_kept', `${of}: ${kg(value)}`);
  focusPlate();
}

// The tare is used once in any case. A clerk who ticked that it is kept must know if it isn't.
/** @param {string} of @param {number} value */
async function keepTyped(of, value) {
  const answer = await keepTare(of, value);
  if (answer?.status !== 200) tell('bad', 'tare_not_kept', `${of}: ${kg(value)}`);
}

// Once the clerk has typed a plate, the counter tells what it knows of it.
/** @type {number | undefined} */
let asking;
function askPlate() {
  clearTimeout(asking);
  const of = plate();
  if (clerk.ofPlate?.plate !== of) clerk.ofPlate = null;
  if (isPlate(of) && clerk.ofPlate === null) asking = setTimeout(() => lookUp(of), TYPED_FOR);
}

/** @param {string} of */
async function lookUp(of) {
  const answer = await askJson('GET', `/plates/${of}`);
  if (plate() !== of || answer?.status !== 200) return;
  clerk.ofPlate = answer;
  if (answer.empty) part('tare-empty').textContent = t('last_empty', { kg: kg(answer.empty) });
  show();
}

function askTare() {
  clerk.askedFor = plate();
  clerk.ofPlate = null;
  part('tare-empty').textContent = '';
  part('tare-label').textContent = t('tare_of', { plate: plate() });
  part('tare-keep-words').textContent = t('keep_it', { number: known.hello.tare_days });
  part('tare-kg').value = '';
  part('tare-keep').checked = false;
  part('taring').showModal();
  lookUp(plate());
}

function useTare() {
  if (isOver()) return;
  const typedTare = Number(part('tare-kg').value);
  if (roundedTare(typedTare, known.hello.interval) === 0) {
    tell('bad', 'counter_bad_tare');
    return;
  }
  clerk.oneTare = typedTare;
  if (part('tare-keep').checked) keepTyped(plate(), typedTare);
  beDeaf();
}

const showKept = () => showTares(known.tares, async of => (await ask('DELETE', `/tares/${of}`))?.status === 200);

function openKept() {
  part('kept-query').value = '';
  forgetPress();
  showKept();
  part('keeping').showModal();
}

// What was found before may have changed since.
function openSearch() {
  part('searching').showModal();
  part('query').select();
  search();
}

// No second weighing follows, so the counter withdraws it later.
function weighOnce() {
  clerk.isOnce = true;
  beDeaf();
  focusPlate();
}

function weighFirstInstead() {
  clerk.oneTare = null;
  clerk.isFirstInstead = true;
  beDeaf();
  focusPlate();
}

// ---- hands

const isTouched = () => matchMedia('(pointer: coarse)').matches;
const focusPlate = () => { if (!isAsking() && !isTouched()) part('plate').focus(); };

// The clerk must see what was taken from a list or answered before it is weighed.
/** @param {string} [key] */
function beDeaf(key) {
  clerk.deafness.begin(performance.now(), key);
  showDeafness();
}

function showDeafness() {
  show();
  setTimeout(() => { if (clerk.deafness.isDeaf(performance.now())) showDeafness(); else show(); }, DEAF_FOR / 7);
}

// Free lines for the paper of this vehicle.
function askGiven() {
  clerk.askedFor = plate();
  if (!clerk.isGivenTyped) fillGiven(givenOf(choiceOf(nowKnown())), false);
  part('giving-why').textContent = '';
  part('giving').showModal();
}

/** @param {Given} given @param {boolean} isTyped */
function fillGiven(given, isTyped) {
  for (const it of GIVEN) part(it).value = given[it] ?? '';
  clerk.isGivenTyped = isTyped;
}

// Letters that a printer would print as a question mark or as an empty box. Without an answer nothing is said.
/** @param {Given} given @returns {Promise<string>} */
async function unprintable(given) {
  const answer = await askJson('GET', `/printable?${new URLSearchParams(given)}`);
  return answer?.status === 200 ? answer.unprintable : '';
}

/** @param {Event} event */
async function useGiven(event) {
  event.preventDefault();
  if (isOver()) {
    part('giving').close();
    return;
  }
  const letters = await unprintable(givenTyped());
  part('giving-why').textContent = letters ? t('lines_unprintable', { letters }) : '';
  if (!letters) part('giving').close();
}

const clearGiven = () => fillGiven({}, false);

function giveAsBefore() {
  fillGiven(clerk.ofPlate?.given ?? {}, true);
  show();
  focusPlate();
}

// Free lines of a weighing that is stored already.
/** @param {Entry} entry @param {Given} given */
async function giveLater(entry, given) {
  const answer = await askJson('PUT', `/entries/${entry.number}/given`, JSON.stringify(given));
  if (answer?.status === 200) tell('ok', 'lines_saved');
  return answer ?? {};
}

// What the clerk typed for one vehicle.
/** @returns {Form} */
const formNow = () => ({ plate: plate(), oneTare: clerk.oneTare, isFirstInstead: clerk.isFirstInstead, isOnce: clerk.isOnce, isGivenTyped: clerk.isGivenTyped, given: givenTyped() });

/** @param {Form} form */
function fillForm({ plate: of, given, isGivenTyped, ...choice }) {
  part('plate').value = of;
  fillGiven(given, isGivenTyped);
  Object.assign(clerk, choice);
  askPlate();
}

function emptyForm() {
  clerk.arming.end();
  part('plate').value = '';
  clearGiven();
  Object.assign(clerk, { oneTare: null, isFirstInstead: false, isOnce: false });
}

function clearPlate() {
  emptyForm();
  show();
  focusPlate();
}

// The load has left for which the plate was typed, or may have. A clerk whose vehicle is still there gets the plate back by one press.
/** @param {string} of @param {boolean} wasUnseen */
function plateLeft(of, wasUnseen) {
  clerk.formThatLeft = formNow();
  emptyForm();
  clerk.left = { word: wasUnseen ? 'plate_unseen' : 'plate_left', plate: of };
  tellLeft();
}

const tellLeft = () => tell('wait', clerk.left.word, undefined, { plate: clerk.left.plate }, ['plate_again']);

// What is typed in a window is for the plate that it was opened for. If that has left the form, the window takes nothing. It stays open until then, because letters
// that the clerk types for it would be a plate otherwise.
function isOver() {
  if (plate() === clerk.askedFor) return false;
  clearGiven();
  if (clerk.left.plate === clerk.askedFor) tellLeft();
  return true;
}

function plateAgain() {
  if (clerk.formThatLeft) fillForm(clerk.formThatLeft);
  clerk.answered = {};
  clerk.result = clerk.told = null;
  beDeaf();
  focusPlate();
}

// What the clerk typed for one vehicle leaves the form with its request, so that letters typed before the answer are the next vehicle's plate, whole. If
// nothing was stored, it comes back, unless the next plate has been begun or the load has left. If the same load moved, the press waits for it.
/** @param {string} subject @param {number} since @returns {GiveBack} */
function takeForm(subject, since) {
  const loads = clerk.plateOfLoad.loads, held = formNow();
  clearPlate();
  return hasMoved => {
    if (plate()) return 'back';
    if (clerk.plateOfLoad.loads !== loads) {
      clerk.formThatLeft = held;
      return 'left';
    }
    fillForm(held);
    clerk.plateOfLoad.isBack();
    if (hasMoved && performance.now() - since <= ARMED_FOR) clerk.arming.begin(subject, since);
    show();
    return clerk.arming.isArmed ? 'waits' : 'back';
  };
}

// Another vehicle: what was typed for the paper of the one before isn't for its paper. A part of a plate is no other vehicle.
/** @param {string} of */
function takeVehicle(of) {
  if (!bare(of).includes(bare(plate()))) clearGiven();
  take(of);
}

/** @param {string} of @param {string} [key] */
function take(of, key) {
  part('plate').value = of;
  typed();
  beDeaf(key);
  focusPlate();
}

/** @param {Pressed} it */
function answer(it) {
  if (it.plate !== undefined) {
    take(it.plate, it.key);
    return;
  }
  clerk.answered = { ...clerk.answered, [it.question ?? '']: it.subject };
  beDeaf(it.key);
  focusPlate();
}

/** @param {Event} [event] */
function typed(event) {
  const field = part('plate'), text = plateOf(event instanceof InputEvent && event.inputType === 'insertFromPaste' ? field.value.trimEnd() : field.value);
  if (text !== field.value) {
    const at = (field.selectionStart ?? 0) + text.length - field.value.length;
    field.value = text;
    field.setSelectionRange(at, at);
  }
  clerk.arming.end();
  if (event) clerk.deafness.typed();
  Object.assign(clerk, { oneTare: null, isFirstInstead: false, isOnce: false, answered: {} });
  if (text) clerk.result = clerk.told = null;
  if (!text || !clerk.isGivenTyped) clearGiven();
  askPlate();
  show();
}

Object.assign(acts, {
  set_zero: setZero, clear_tare: clearTare, journal_seen: closeJournalBar, print: printResult, print_number: printNumber, show_papers: openPapers, keep_tare: keepTareOf, tare_from_papers: askTare, given_lines: askGiven, given_as_before: giveAsBefore, give_later: giveLater, first_instead: weighFirstInstead, weigh_once: weighOnce,
  plate_left: plateLeft, plate_again: plateAgain, weigh, disarm, armed_over: armedOver, choice_changed: () => beDeaf(ALL_KEYS),
  withdraw: (/** @type {Entry} */ { plate: of, number: first }) => begin('/voids', { plate: of }, undefined, { first }), take: takeVehicle, answer, clear: clearPlate, focus: focusPlate,
});

/** @param {Event} event */
function press(event) {
  event.preventDefault();
  show();
  if (part('go').disabled) return;
  const now = nowKnown();
  if (part('go').dataset.look === 'weighs') weigh();
  else arm(now);
  show();
}

/** @param {Now} now */
function arm(now) {
  clerk.told = null;                 // that an earlier press is over
  clerk.arming.begin(subjectOf(now.plate, choiceOf(now)), performance.now());
}

// `since` is the moment of the clerk's press.
function weigh(since = performance.now()) {
  const choice = choiceOf(nowKnown()), subject = subjectOf(plate(), choice);
  const given = clerk.isGivenTyped ? givenTyped() : {};     // an empty line removes what the first weighing has
  begin('/weighings', { kind: choice.kind, plate: plate(), ...(choice.tare ? { tare: String(choice.tare) } : {}), ...(choice.isOnce ? { once: '1' } : {}), ...given }, () => takeForm(subject, since));
}

// An Enter at this very moment is meant for the press that is over.
function armedOver() {
  tell('wait', 'armed_over', undefined, { plate: plate() });
  beDeaf();
}

function disarm() {
  clerk.arming.end();
  show();
  focusPlate();
}

/** @param {Element} target */
function placeOf(target) {
  if (target === part('plate')) return 'plate';
  return target.closest?.('.answer') ? 'answer' : ['INPUT', 'SELECT'].includes(target.tagName) ? 'field' : 'other';
}

/** @param {KeyboardEvent} event */
function keyed(event) {
  if (clerk.arming.isArmed && !isAsking() && event.key === 'Escape') {
    event.preventDefault();
    disarm();                        // before anything else is shown, because that may fire
    return;
  }
  if (event.key.length === 1 && !isAsking()) clerk.arming.end();
  show();                            // what is asked now
  const at = performance.now();
  const deed = deedOf(event, placeOf(/** @type {Element} */ (event.target)), { answers: clerk.answers, isDialog: isAsking(), isDeaf: clerk.deafness.isDeaf(at), deafKey: clerk.deafness.keyAt(at) });
  if (!['left', 'typed', 'closing'].includes(deed.is)) event.preventDefault();
  if (deed.is === 'answered') answer(deed.answer);
  if (deed.is === 'clicked') part(deed.part).click();
  if (deed.is === 'deaf') clerk.deafness.pressed(at);
  if (deed.is === 'closing') beDeaf();          // at once, because the event of its end comes later
  if (deed.is === 'cleared') (clerk.arming.isArmed ? disarm : clearPlate)();
  if (deed.is === 'typed') part('plate').focus();
  if (deed.is === 'spoken') speakWeight();
}

// A screen reader reads what is new in this part. The blank makes the same weight new again.
function speakWeight() {
  const said = [part('state'), part('kind'), part('weight')].map(it => it.textContent).filter(Boolean).join(' ');
  part('spoken').textContent = part('spoken').textContent === said ? `${said}\u00a0` : said;
}

// A browser gives the focus back to the plate without its caret, so letters would go nowhere. So the page removes the focus first.
function closed() {
  part('plate').blur();
  beDeaf();
  focusPlate();
}

// The form has just changed, so the second of two quick clicks finds another button where the first one was.
/** @param {MouseEvent} event */
function clicked(event) {
  const isDeaf = clerk.deafness.isDeaf(performance.now()), isByHand = event.detail > 0;
  if (!isDeaf || !isByHand || !(event.detail > 1 || part('weigh').contains(/** @type {Node} */ (event.target)))) return;
  event.preventDefault();
  event.stopImmediatePropagation();
}

// The parts whose text, label or region is a word.
/** @param {'word' | 'region' | 'label'} what */
const having = what => /** @type {NodeListOf<HTMLElement>} */ (document.querySelectorAll(`[data-${what}]`));

/** @param {string} to */
async function change(to, isChosen = false) {
  if (!await speak(to, isChosen)) return false;
  part('language').value = to;
  for (const it of having('word')) it.textContent = t(it.dataset.word ?? '');
  for (const it of having('region')) it.setAttribute('aria-label', t(it.dataset.region ?? ''));
  for (const it of having('label')) { it.title = t(it.dataset.label ?? ''); it.setAttribute('aria-label', it.title); }
  showLists();
  show();
  return true;
}

function turnTheme() {
  const root = document.documentElement;
  const isDark = root.dataset.theme ? root.dataset.theme === 'dark' : matchMedia('(prefers-color-scheme: dark)').matches;
  root.dataset.theme = isDark ? 'light' : 'dark';
  try { localStorage.setItem(THEME, root.dataset.theme); } catch { /* it is the system's again next time */ }
  focusPlate();
}

function listenToHands() {
  part('plate').addEventListener('input', typed);
  part('clear').addEventListener('click', clearPlate);
  part('weigh').addEventListener('submit', press);
  part('tare-form').addEventListener('submit', useTare);
  part('giving-form').addEventListener('submit', useGiven);
  for (const it of GIVEN) part(it).addEventListener('input', () => { clerk.isGivenTyped = true; });
  part('zero').addEventListener('click', setZero);
  part('last').addEventListener('click', printLast);
  part('find').addEventListener('click', openSearch);
  part('query').addEventListener('input', search);
  part('print-today').addEventListener('click', printToday);
  part('tares').addEventListener('click', openKept);
  part('kept-query').addEventListener('input', showKept);
  part('language').addEventListener('change', () => change(part('language').value, true).then(focusPlate));
  part('theme').addEventListener('click', turnTheme);
  part('serial').addEventListener('click', showRuns);
  for (const it of document.querySelectorAll('.close')) it.addEventListener('click', () => it.closest('dialog')?.close());
  for (const it of document.querySelectorAll('dialog')) it.addEventListener('close', closed);
  document.addEventListener('keydown', keyed, { capture: true });
  document.addEventListener('click', clicked, { capture: true });
}

function showMoments() {
  show();
  const age = feed.age();
  part('age').textContent = linkNow() === 'up' ? t('remote', { seconds: number(Math.max(0.1, age / 1000), 1) }) : '';
  part('clock').textContent = clockOf(Date.now());
  part('serial').textContent = known.state?.serial || 'ⓘ';
}

async function main() {
  try { if (localStorage.getItem(THEME)) document.documentElement.dataset.theme = localStorage.getItem(THEME) ?? ''; } catch { /* the system's */ }
  listenToHands();
  while (!await change(wantedLanguage('en')) && !await change('en')) await new Promise(done => setTimeout(done, 1000));
  feed.begin();
  setInterval(showMoments, 250);
  resume();
}

main();
