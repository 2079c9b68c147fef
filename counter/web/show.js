// What is shown: the weight, the one sentence, the form and the bars at the top, each only where it changed.

import { subjectOf } from './arming.js';
import { choiceOf, demoOf, grossOf, isFalseDemo, isPast, isPlate, netOf, step, weighingOf } from './guide.js';
import { PAGE_KEYS } from './hands.js';
import { clerk, givenOf, known, linesOf, nowKnown } from './known.js';
import { button, make, onlyChanged, part } from './parts.js';
import { dateOf, has, kg, language, number, t, whenOf } from './words.js';

const RESULT_AFTER_LEAVING = 2500;   // milliseconds that a result stays once the vehicle has left
/** @type {{ [look: string]: string }} */
const SIGNS = { ok: '✔', wait: '◔', bad: '⚠', calm: '▷', do: '➜' };

// What may be pressed, by its word. Whoever does it puts it in here.
/** @type {any} */
export const acts = {};

export const isAsking = () => document.querySelector('dialog[open]') !== null;

export function show() {
  if (!has('plate')) return;
  const now = nowKnown();
  const hasLeft = clerk.plateOfLoad.hasLeft(now), { wasUnseen } = clerk.plateOfLoad;
  if (wasUnseen) forgetLoad(now);
  if (hasLeft) {
    acts.plate_left(now.plate, wasUnseen);
    return;
  }
  forgetResult(now);
  forgetAnswers(now);
  Object.assign(now, { result: clerk.result, answered: clerk.answered });
  const told = step(now);
  if (isOtherChoice(now, told)) {
    acts.choice_changed();
    return;
  }
  if (goesOn(now, told)) return;
  clerk.answers = told.answers ?? [];
  showScale(now);
  showGuide({ ...(clerk.arming.isArmed ? armed(now.plate) : told), language });
  showForm(formOf(now, told));
  showDemo({ demo: demoOf(known.hello, known.state?.serial), company: known.hello.company, language });
  showAlarms(alarmsOf(now));
  showNote(now.link !== 'off' && known.state && !known.state.lists_whole ? t('lists_lack') : '');
}

// While a press waits for the load to stand still, good news waits too. Returns true if the press is over, and what follows from that is shown.
/** @param {Now} now @param {Told} told */
function goesOn(now, told) {
  if (!clerk.arming.isArmed) return false;
  const asked = isAsking() ? { word: 'one_moment' } : told.look === 'ok' || isPast(told) ? step({ ...now, told: null }) : told;
  const outcome = clerk.arming.next(asked, subjectOf(now.plate, choiceOf(now)), performance.now());
  if (outcome === 'fires') acts.weigh(clerk.arming.since);
  if (outcome === 'over') acts.armed_over();
  return outcome === 'fires' || outcome === 'over';
}

/** @param {string} plate @returns {Told} */
const armed = plate => ({ look: 'wait', word: 'armed', values: { plate }, choices: ['disarm'] });

// What came of a press stays until the vehicle has left for a while, and goes when the next one comes.
/** @param {Now} now */
function forgetResult(now) {
  const result = clerk.result, gross = grossOf(now.weight);
  if (!result || gross === null) return;
  if (gross < now.min) result.leftAt ??= performance.now();
  if (result.leftAt !== undefined && (gross >= now.min || performance.now() - result.leftAt > RESULT_AFTER_LEAVING)) clerk.result = null;
}

// Another load may be on the bridge: neither answers nor what came of an older press are of it, unless the counter saw that it is the load that was weighed.
/** @param {Now} now */
function forgetLoad(now) {
  clerk.answered = {};
  const isItsLoad = now.state?.bridge === 'weighed' && now.newest?.number === clerk.result?.number;
  if (!now.isResultNew && !isItsLoad) clerk.result = null;
}

// Whether the plate in the form, or a key, now means another weighing or vehicle than the clerk saw last, by what a colleague did or by the time.
/** @param {Now} now @param {Told} told */
function isOtherChoice(now, told) {
  const shown = clerk.choice, plates = Object.fromEntries((told.answers ?? []).filter(it => it.plate).map(it => [it.key, it.plate]));
  const choice = clerk.choice = { plate: now.plate, weighing: weighingOf(choiceOf(now)), plates };
  if (choice.plate === '' || choice.plate !== shown.plate) return false;
  return choice.weighing !== shown.weighing || Object.keys(plates).some(it => it in shown.plates && shown.plates[it] !== plates[it]);
}

// An answer is for one vehicle. Once the bridge is empty, the page asks again for the next one.
/** @param {Now} now */
function forgetAnswers(now) {
  const gross = grossOf(now.weight);
  if (gross !== null && gross < now.min) clerk.answered = {};
}

/** @param {Now} now */
function showScale({ link, weight }) {
  const hasWeight = weight !== null && weight.net !== null, isNet = hasWeight && Boolean(weight.tare);
  const state = weight?.state ?? 'S', isStable = hasWeight && state === 'S';
  part('scale').dataset.look = isStable ? 'ok' : hasWeight ? 'wait' : 'bad';
  part('state').textContent = t(isStable ? 'stable' : hasWeight ? 'moves' : 'none');
  part('kind').textContent = hasWeight ? t(isNet ? 'net' : 'gross') : '';
  part('parts').textContent = isNet ? t('net_parts', { tare: kg(weight.tare ?? 0), gross: kg(grossOf(weight) ?? 0) }) : '';
  part('weight').classList.toggle('words', !hasWeight);
  if (hasWeight) part('weight').replaceChildren(number(weight.net ?? 0), make('small', { textContent: ' kg' }));
  else part('weight').textContent = t({ '+': 'overload_short', '-': 'below_short', I: 'no_weight_short', S: null, D: null }[state] ?? (link === 'off' || link === 'down' ? 'no_connection_short' : 'no_weight_short'));
}

const showGuide = onlyChanged((/** @type {Told & { language: string }} */ told) => {
  part('guide').dataset.look = told.look;
  part('sign').textContent = SIGNS[told.look ?? ''];
  const values = inWords(told.values ?? {});
  part('words').textContent = t(told.word, values);
  part('more').textContent = told.more ?? (has(`${told.word}_more`) ? t(`${told.word}_more`, values) : '');
  part('choices').replaceChildren(...(told.choices ?? []).map(choiceButton));
});

/** @param {HTMLElement} made @param {string | undefined} key */
function withKey(made, key) {
  if (key) made.append(' ', make('kbd', { textContent: key }));
  return made;
}

/** @type {{ [act: string]: string | undefined }} */
const KEY_OF = { set_zero: Object.keys(PAGE_KEYS).find(it => PAGE_KEYS[it] === 'zero'), disarm: 'Esc' };
/** @param {string} it */
const choiceButton = it => withKey(button(t(it), acts[it], { className: 'choice' }), KEY_OF[it]);
/** @param {Pressed} it */
const answerButton = it => withKey(button(it.plate ?? t(it.word ?? ''), () => acts.answer(it), { className: 'answer' }), it.key);

// Weights among values are written as such.
/** @param {Values} values @returns {Values} */
function inWords(values) {
  return Object.fromEntries(Object.entries(values).map(([name, it]) => [name, typeof it === 'number' && name !== 'number' ? kg(it) : it]));
}

/** @param {Now} now @param {Told} told @returns {Shown} */
function formOf(now, told) {
  const choice = choiceOf(now), isReady = Boolean(told.isReady) && !clerk.waiting, net = netOf(choice, grossOf(now.weight));
  const isArmable = Boolean(told.isArmable) && !clerk.waiting;
  return { plate: now.plate, choice, isReady, isArmable, isArmed: clerk.arming.isArmed, net: isReady && net !== null && net > 0 ? net : null, kept: now.tares[now.plate], answers: clerk.answers, tareOf: clerk.result?.tare, given: linesOf(givenOf(choice)), before: givenBefore(now.plate, choice), language };
}

/** @param {Choice} choice */
const weighs = ({ kind, tare, isOnce }) => isOnce ? t('weigh_once') : t(`weigh_${kind}`, { tare: tare ? kg(tare) : '' });

// What was given for the plate's last paper, if the clerk has given nothing for this one.
/** @param {string} plate @param {Choice} choice @returns {string} */
function givenBefore(plate, choice) {
  const { ofPlate } = clerk;
  return ofPlate?.plate === plate && !linesOf(givenOf(choice)) && !clerk.isGivenTyped ? linesOf(ofPlate.given) : '';
}

const showForm = onlyChanged((/** @type {Shown} */ form) => {
  const { choice } = form;
  part('go').disabled = !form.isReady && (!form.isArmable || form.isArmed);
  part('go').dataset.look = form.isReady ? 'weighs' : form.isArmable ? 'arms' : '';
  part('go-words').textContent = form.plate ? `${weighs(choice)} · ${form.plate}` : t('weigh');
  part('go-more').textContent = form.isArmable ? t('once_still') : form.net === null ? '' : t('net_to_come', { kg: kg(form.net) });
  part('hint').replaceChildren(...hintsOf(form));
  part('others').replaceChildren(...othersOf(form));
});

/** @param {Shown} form */
function hintsOf(form) {
  const about = form.answers.some(it => it.plate) ? [make('b', { textContent: t('one_of_these') })] : form.answers.length ? [] : aboutPlate(form);
  return [...about, ...form.answers.map(answerButton)];
}

/** @param {Shown} form */
function aboutPlate({ plate, choice, kept }) {
  if (choice.first) return [make('b', { textContent: t('on_site_since', { time: whenOf(choice.first.at), kg: kg(choice.first.gross) }) })];
  if (kept) return [make('b', { textContent: t(kept.is_over ? 'tare_is_over' : kept.by ? 'tare_is_kept_by' : 'tare_is_kept', { kg: kg(kept.kg), day: dateOf(kept.until), by: kept.by }) })];
  return plate ? [make('span', { textContent: t('not_on_site') })] : [];
}

/** @param {Shown} form */
function othersOf({ plate, choice, tareOf, given, before }) {
  const others = [];
  if (choice.kind === 'single') others.push(button(t('first_instead'), acts.first_instead));
  if (choice.kind === 'first' && !choice.isOnce && known.hello.once && isPlate(plate)) others.push(button(t('weigh_once'), acts.weigh_once));
  if (!choice.first && isPlate(plate)) others.push(button(t('tare_from_papers'), acts.tare_from_papers));
  if (isPlate(plate) && before) others.push(button(t('given_as_before', { given: before }), acts.given_as_before));
  if (isPlate(plate)) others.push(button(given ? `${t('given_lines')}: ${given}` : t('give_lines'), acts.given_lines));
  if (!plate && tareOf) others.push(button(t('keep_tare_of', { kg: kg(tareOf.kg), plate: tareOf.plate }), () => acts.keep_tare(tareOf)));
  return others;
}

/** @param {Now} now @returns {Alarm[]} */
function alarmsOf({ link, state, papers }) {
  if (state === null || link === 'off') return [];
  const alarms = [];
  if (isFalseDemo(known.hello, state.serial)) alarms.push({ look: 'bad', text: t('demo_false', { serial: state.serial }) });
  if (!state.zero.known && link === 'up') alarms.push({ look: 'wait', text: t(state.zero.at ? 'zero_lost' : 'zero_unknown', { time: state.zero.at ? whenOf(state.zero.at) : '' }), choice: 'set_zero' });
  if (state.tare_left) alarms.push({ look: 'bad', text: t('tare_left') });
  if (state.office === 'store') alarms.push({ look: 'bad', text: t('store_closed') });
  if (state.office === 'no_answer' && link === 'up') alarms.push({ look: 'bad', text: t('office_silent') });
  if (state.journal_changed) alarms.push({ look: 'bad', text: t(`journal_${state.journal_changed.why}`, state.journal_changed), choice: 'journal_seen' });
  if (state.files_written === false) alarms.push({ look: 'bad', text: t('files_unwritten') });
  if (state.room?.is_full) alarms.push({ look: 'bad', text: t('journal_full') });
  else if (state.room?.is_low) alarms.push({ look: 'wait', text: t('journal_room', { days: t('days', { number: state.room.days }), places: t('weighings_left', { number: state.room.places }) }) });
  if (papers.is_writable === false) alarms.push({ look: 'bad', text: t('papers_unwritable') });
  if (papers.refused !== null) alarms.push({ look: 'bad', text: t('paper_refused', { number: papers.refused }) });
  for (const it of papersInTrouble(papers)) alarms.push(it);
  return alarms;
}

// One bar for each printer at which papers wait with a reason, or failed.
/** @param {Papers} papers @returns {Alarm[]} */
function papersInTrouble({ jobs }) {
  const printers = [...new Set(jobs.filter(it => it.why || it.state === 'failed').map(it => it.printer))];
  return printers.map(printer => {
    const them = jobs.filter(it => it.printer === printer), why = them.find(it => it.why)?.why;
    return { look: 'bad', text: t('papers_wait', { printer, number: them.length, why: why ? t(`trouble_${why}`) : '' }), choice: 'show_papers' };
  });
}

const showAlarms = onlyChanged((/** @type {Alarm[]} */ alarms) => {
  part('alarms').replaceChildren(...alarms.map(it => make('div', { className: it.look }, make('span', { textContent: it.text }), ...(it.choice ? [button(t(it.choice), acts[it.choice])] : []))));
});

// The bar stays if the counter is gone, because what was weighed before is no weighing for all that.
const showDemo = onlyChanged((/** @type {{ demo: { page: string | null } | null, company: string | undefined, language: string }} */ { demo, company }) => {
  part('demo').hidden = demo === null;
  if (company) document.title = demo ? `DEMO · ${company}` : company;
  if (!demo) return;
  window.name = 'weighbridge-clerk';     // so that a link of the played bridge's page finds this tab again
  const link = demo.page ? [' ', make('a', { href: `${demo.page}?lang=${language}`, target: 'weighbridge-demo', textContent: t('demo_page') })] : [];
  part('demo').replaceChildren(make('strong', { textContent: 'DEMO' }), ` ${t('demo')}`, ...link);
});

const showNote = onlyChanged((/** @type {string} */ text) => { part('note').textContent = text; });
