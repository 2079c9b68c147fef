// The texts of entries: a slip or ticket again, and its paper, by a printer of the counter or by the browser. On paper the text stands letter for letter.

import { DEAF_FOR } from './hands.js';
import { clerk, GIVEN, linkNow, withdrawnBy } from './known.js';
import { fillPaper } from './paper.js';
import { button, make, part } from './parts.js';
import { ask, askJson } from './request.js';
import { dayOf, has, kg, paperOf, t, timeOf } from './words.js';

// Papers come in the order in which they were pressed: so the first one is the original.
/** @type {Promise<unknown>} */
let before = Promise.resolve();
/** @param {[number: number, printers: string[], byBrowser?: boolean]} paper @returns {Promise<boolean | null>} */
export function print(...paper) {
  const mine = before.then(() => printOne(...paper));
  before = mine.catch(() => null);
  return mine;
}

// By a printer that the counter has; without one the browser prints. Whether it is the original is the counter's to say. True: a printer has it; false: the browser.
/** @param {number} number @param {string[]} printers @returns {Promise<boolean | null>} */
async function printOne(number, printers, byBrowser = false) {
  if (printers.length && !byBrowser) return (await askJson('POST', `/papers/${number}`, ''))?.status === 202 ? true : null;
  const paper = await askJson('POST', `/papers/${number}/browser`, '');
  if (!paper?.blocks) return null;
  fillPaper(part('paper'), paper.blocks);
  window.print();
  return false;
}

/** @param {number} number @returns {Promise<{ text?: string, from?: string, why?: string }>} */
export async function textAgain(number) {
  const answer = await askJson('GET', `/entries/${number}`);
  if (answer?.text !== undefined) return { text: answer.text, from: answer.from };
  const refusal = /^refused (\d+)/.exec(answer?.why ?? '')?.[1];
  return { why: t(refusal && has(`refused_${refusal}`) ? `refused_${refusal}` : 'office_silent') };
}

let opened = 0;

// Opens the text of an entry; of two presses only the newer one's. `press` prints its paper, `isOpenFirst` says whether it is an open first weighing now, `withdraw` begins its void,
// `give` changes its free lines.
/** @param {Entry} entry @param {string[]} printers @param {(number: number, byBrowser: boolean) => void} press @param {() => boolean} isOpenFirst @param {(entry: Entry) => void} withdraw @param {Give} give */
export async function openEntry(entry, printers, press, isOpenFirst, withdraw, give) {
  const mine = ++opened, { text, from, why } = await textAgain(entry.number);
  if (mine !== opened) return;
  part('entry-title').textContent = `${paperOf(entry)} ${entry.number} · ${entry.plate}`;
  part('entry-sub').textContent = [t(`kind_${entry.kind}`), `${dayOf(entry.at)} ${timeOf(entry.at)}`, ...moreOf(entry)].join(' · ');
  part('entry-text').textContent = text ?? why ?? '';
  part('entry-from').textContent = text === undefined ? '' : `${t(`from_${from}`)} ${t('in_utc')}`;
  const tools = [];
  // the dialog is closed first: it would take the letters of the next plate
  const prints = (/** @type {boolean} */ byBrowser) => () => { part('entry').close(); press(entry.number, byBrowser); };
  if (text !== undefined) tools.push(button(t('print_again'), prints(false), { autofocus: true }));
  if (text !== undefined && printers.length) tools.push(button(t('print_by_browser'), prints(true)));
  if (text !== undefined && entry.kind !== 'void') tools.push(button(t('give_lines'), () => openGiven(entry, give)));
  if (isOpenFirst()) tools.push(voidButton(entry, isOpenFirst, withdraw));
  tools.push(button(t('close'), () => part('entry').close()));
  part('entry-tools').replaceChildren(...tools);
  part('entry').showModal();
}

// Free lines of a weighing that is stored. `give` returns the answer.
/** @param {Entry} entry @param {Give} give */
function openGiven(entry, give) {
  /** @type {[string, HTMLInputElement][]} */
  const fields = GIVEN.map(name => [name, make('input', { className: 'free', maxLength: 60, value: entry.given[name] ?? '' })]);
  const why = make('p', { role: 'alert' });
  const save = button(t('save_lines'), async () => {
    const given = Object.fromEntries(fields.map(([name, field]) => [name, field.value.trim()])), { status, letters } = await give(entry, given);
    if (status === 200) part('changing').close();
    else why.textContent = letters ? t('lines_unprintable', { letters }) : t(status === 409 ? 'lines_printed' : 'lines_not_saved');
  });
  part('changing-title').textContent = `${t('given_lines')}: ${paperOf(entry)} ${entry.number} · ${entry.plate}`;
  part('changing-lines').replaceChildren(...fields.map(([name, field]) => make('label', {}, t(name), ' ', field)), why, make('div', { className: 'row' }, save, button(t('close'), () => part('changing').close())));
  part('entry').close();
  part('changing').showModal();
}

/** @param {Entry} entry */
function moreOf(entry) {
  const by = withdrawnBy().get(entry.number);
  return [
    ...(entry.net === null ? [] : [t('net_of', { kg: kg(entry.net) })]), ...(entry.kind === 'void' && entry.first ? [t('of_first', { number: entry.first })] : []),
    ...(by ? [t('withdrawn_by', { number: by.number })] : []),
  ];
}

// The clerk must press it twice. A double click isn't enough. A void names the plate, not the entry. So if the plate has another open first weighing by now, or
// none, the button refuses. It does so too while the page can't know that, or has a request under way.
/** @param {Entry} entry @param {() => boolean} isOpenFirst @param {(entry: Entry) => void} withdraw */
function voidButton(entry, isOpenFirst, withdraw) {
  /** @type {number | null} */
  let askedAt = null;
  const made = button(t('withdraw'), () => {
    if (linkNow() === 'off' || clerk.waiting) {
      askedAt = null;
      made.textContent = t(linkNow() === 'off' ? 'link_off' : 'counter_busy');
      return;
    }
    if (!isOpenFirst()) {
      made.disabled = true;
      made.textContent = t('not_open_any_more', { number: entry.number });
      return;
    }
    if (askedAt === null) {
      askedAt = performance.now();
      made.textContent = t('withdraw_sure', { plate: entry.plate });
      return;
    }
    if (performance.now() - askedAt < DEAF_FOR) return;
    part('entry').close();
    withdraw(entry);
  }, { className: 'danger' });
  return made;
}

/** @param {string} plate @param {number} value */
export const keepTare = (plate, value) => ask('PUT', `/tares/${plate}`, JSON.stringify({ kg: value }));

// What waits for a printer and what failed, each with its reason.
/** @param {Papers} papers @param {(method: string, target: string) => void} again */
export function showJobs(papers, again) {
  part('jobs').replaceChildren(...papers.jobs.map(it => make('li', {}, make('b', { textContent: `${paperOf(it)} ${it.number} · ${it.plate}` }),
    make('p', { textContent: `${it.printer}: ${t(`job_${it.state}`)}${it.why ? ` ${t(`trouble_${it.why}`)}` : ''}` }),
    make('div', { className: 'row' }, ...(it.state === 'failed' ? [button(t('print_again'), () => again('POST', `/jobs/${it.job}/again`))] : []),
      ...(it.state === 'begun' ? [] : [button(t('drop'), () => again('DELETE', `/jobs/${it.job}`))])))));
  if (!papers.jobs.length) part('jobs').replaceChildren(make('li', { className: 'none', textContent: t('nothing_waits') }));
}
