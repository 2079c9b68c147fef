// The lists: vehicles on site, the papers of today, and what a search finds.

import { clerk, isWithdrawn, known, linesOf, withdrawnBy } from './known.js';
import { openEntry } from './papers.js';
import { button, make, part } from './parts.js';
import { askJson } from './request.js';
import { acts } from './show.js';
import { dateOf, dayOf, isToday, kg, language, number, paperOf, t, timeOf, whenOf } from './words.js';

const ROWS_AT_ONCE = 200;            // further rows are drawn as the clerk scrolls to their end
const KINDS = { first: '→', second: '⇄', single: '◆', void: '✕' };

/** @param {Event} event */
const rowAt = event => event.target instanceof Element ? event.target.closest('li') : null;
/** @param {Element} row @param {string} name */
const inRow = (row, name) => /** @type {HTMLElement} */ (row.querySelector(name));

// Shows entries as rows, keyed by their numbers. A row that stays keeps its buttons. So a press that lasts over a change is still a press, and no focus is lost.
class Rows {
  #list;
  #press;
  /** @type {Map<number, Row>} */
  #made = new Map();
  #most = ROWS_AT_ONCE;
  #end = make('li', { className: 'none' });
  /** @type {[Entry[], Look] | null} */
  #shown = null;
  /** @type {Element | null} */
  #reached = null;                   // the row that Tab reaches, after which arrow keys go to the others

  // `press` is called with the entry whose row is pressed.
  /** @param {'site' | 'today' | 'hits'} id @param {(entry: Entry) => void} press */
  constructor(id, press) {
    this.#list = part(id);
    this.#press = press;
    this.#list.addEventListener('keydown', event => this.#keyed(event));
    this.#list.addEventListener('focusin', event => this.#reach(rowAt(event)));
    new IntersectionObserver(seen => { if (seen.some(it => it.isIntersecting)) this.#grow(); }, { root: this.#list }).observe(this.#end);
  }

  // `lookOf` gives the class of an entry's row by what changes while it is there, `says` the second line and if it is late, `end` what stands below the last row.
  /** @param {Entry[]} entries @param {Look} look */
  show(entries, { lookOf, says, end }) {
    this.#shown = [entries, { lookOf, says, end }];
    const wanted = entries.slice(0, this.#most), day = dayOf(Date.now()), numbers = new Set(wanted.map(it => it.number));
    for (const [it, { row }] of this.#made) {
      if (numbers.has(it)) continue;
      row.remove();
      this.#made.delete(it);
    }
    let next = this.#list.firstChild;
    for (const entry of wanted) {
      const look = lookOf(entry), made = this.#made.get(entry.number) ?? this.#make(entry);
      const told = [language, day, look, entry.plate, entry.at, entry.gross, entry.net, entry.first, linesOf(entry.given)].join(' ');
      if (made.told !== told) this.#fill(Object.assign(made, { told, entry }), look, says(entry));
      if (made.row === next) next = next.nextSibling;
      else this.#list.insertBefore(made.row, next);
    }
    const left = entries.length - wanted.length;
    this.#end.textContent = left > 0 ? t('rows_more', { number: number(left) }) : end;
    this.#end.hidden = !this.#end.textContent;
    if (this.#list.lastChild !== this.#end) this.#list.append(this.#end);
    if (!this.#list.contains(document.activeElement)) this.#reach(this.#list.querySelector('li:not(.none)'));
  }

  /** @param {Element | null} row */
  #reach(row) {
    if (this.#reached) inRow(this.#reached, '.main').tabIndex = -1;
    this.#reached = row;
    if (row) inRow(row, '.main').tabIndex = 0;
  }

  /** @param {KeyboardEvent} event */
  #keyed(event) {
    const row = rowAt(event), isMenu = event.target instanceof Element && event.target.matches('.menu');
    const rows = [...this.#list.querySelectorAll('li:not(.none)')], at = row ? rows.indexOf(row) : -1;
    const to = { ArrowDown: rows[at + 1], ArrowUp: rows[at - 1], Home: rows[0], End: rows.at(-1), ArrowLeft: row, ArrowRight: row }[event.key];
    if (!to || event.ctrlKey || event.altKey || event.metaKey || event.shiftKey) return;
    event.preventDefault();
    const goesToMenu = event.key === 'ArrowRight' || (isMenu && event.key !== 'ArrowLeft');
    inRow(to, goesToMenu ? '.menu' : '.main').focus();
  }

  #grow() {
    if (this.#shown === null || this.#shown[0].length <= this.#most) return;
    this.#most += ROWS_AT_ONCE;
    this.show(...this.#shown);
  }

  /** @param {Entry} entry @returns {Row} */
  #make(entry) {
    const main = button('', () => this.#press(made.entry), { className: 'main', tabIndex: -1 });
    const menu = button('⋯', () => open(made.entry), { className: 'menu', tabIndex: -1 });
    const parts = ['plate', 'kg', 'more'].map(className => make('span', { className }));
    const made = { row: make('li'), entry, told: '', main, parts, menu };
    made.main.append(...made.parts);
    made.row.append(made.main, made.menu);
    this.#made.set(entry.number, made);
    return made;
  }

  /** @param {Row} row @param {string} look @param {Says} says */
  #fill({ row, entry, main, parts: [plate, weight, more], menu }, look, { text, isLate }) {
    row.className = `entry ${look} ${isLate ? 'late' : ''}`;
    plate.textContent = entry.plate;
    weight.textContent = entry.net !== null ? t('net_of', { kg: kg(entry.net) }) : entry.gross !== null ? kg(entry.gross) : '';
    more.textContent = text;
    main.setAttribute('aria-label', [entry.plate, weight.textContent, text.replace(/^\S (?=\d)/, ''), ...(look.includes('void') && entry.kind !== 'void' ? [t('row_withdrawn')] : [])].filter(Boolean).join(', '));
    menu.title = t('row_menu');
    menu.setAttribute('aria-label', `${entry.plate}, ${paperOf(entry)} ${entry.number}: ${t('row_menu')}`);
  }
}

/** @param {Entry} entry */
const givenIn = ({ given }) => linesOf(given) && ` · ${linesOf(given)}`;

/** @param {Entry} entry @returns {Says} */
function onSiteSays(entry) {
  const isLate = !isToday(entry.at);
  return { text: `${whenOf(entry.at)} · ${t('slip')} ${entry.number}${isLate ? ` · ${t('since_before')}` : ''}${givenIn(entry)}`, isLate };
}

/** @param {Entry} entry */
const kindOf = ({ kind, once }) => !once ? t(`kind_${kind}`) : t(kind === 'void' ? 'row_once_closed' : 'row_once');

/** @param {Entry} entry @returns {Says} */
function entrySays(entry) {
  const first = entry.kind === 'void' && entry.first ? ` · ${t('of_first', { number: entry.first })}` : '';
  return { text: `${KINDS[entry.kind]} ${whenOf(entry.at)} · ${kindOf(entry)} ${entry.number}${first}${givenIn(entry)}`, isLate: false };
}

/** @param {Entry} entry */
const isNew = entry => entry.number === clerk.newest ? 'new' : '';

/** @type {{ site: Rows, today: Rows, hits: Rows }} */
let rows;

export function showLists() {
  rows ??= { site: new Rows('site', entry => acts.take(entry.plate)), today: new Rows('today', open), hits: new Rows('hits', closeSearch) };
  const older = (known.sums?.entries ?? 0) - known.today.length;
  part('site-count').textContent = `${known.onSite.length || ''}`;
  part('today-count').textContent = `${known.sums?.entries || ''}`;
  part('today-sum').textContent = sumsOf(known.sums);
  rows.site.show(known.onSite, { lookOf: isNew, says: onSiteSays, end: known.onSite.length ? '' : t('nobody_on_site') });
  rows.today.show(known.today, { lookOf: entry => `${isNew(entry)} ${entry.kind === 'void' || isWithdrawn(entry) ? 'void' : ''}`, says: entrySays, end: older > 0 ? t('older_today', { number: number(older) }) : known.today.length ? '' : t('nothing_today') });
}

// What was weighed today, by the counter's sums over all entries of the day. A weighing with a tare has no direction.
/** @param {Sums | null} sums */
export function sumsOf(sums) {
  if (!sums?.tickets) return '';
  const parts = ['net_in', 'net_out', 'net_with_tare'].filter(it => sums[it]).map(it => t(`sum_${it}`, { kg: kg(sums[it]) }));
  return [t('tickets', { number: sums.tickets }), ...parts].join(' · ');
}

// The day's list on paper, by the browser.
/** @param {{ day: string, entries: Entry[], sums: Sums }} list @param {string | undefined} company */
export function printDay({ day, entries, sums }, company) {
  /** @param {Entry} it @returns {string[]} */
  const cells = it => [`${it.number}`, timeOf(it.at), it.plate, t(`kind_${it.kind}`), it.gross === null ? '' : number(it.gross), it.tare === null ? '' : number(it.tare), it.net === null ? '' : number(it.net), it.direction ? t(`way_${it.direction}`) : ''];
  const heads = [t('column_number'), t('column_time'), t('plate'), t('column_kind'), t('gross'), t('column_tare'), t('column_net'), t('column_way')].map(textContent => make('th', { textContent }));
  const rows = entries.map(it => make('tr', {}, ...cells(it).map(textContent => make('td', { textContent }))));
  part('paper').replaceChildren(make('p', { className: 'title', textContent: `${company} · ${dateOf(day)}` }), make('p', { textContent: sumsOf(sums) }), make('p', { className: 'small', textContent: t('list_only') }),
    make('table', {}, make('thead', {}, make('tr', {}, ...heads)), make('tbody', {}, ...rows)));
  window.print();
}

/** @param {Entry} entry */
function open(entry) {
  const isOpenFirst = () => entry.kind === 'first' && (entry.once ? !withdrawnBy().has(entry.number) : known.onSite.some(it => it.number === entry.number));
  openEntry(entry, known.papers.printers, acts.print_number, isOpenFirst, acts.withdraw, acts.give_later);
}

/** @param {Entry} entry */
function closeSearch(entry) {
  part('searching').close();
  open(entry);
}

// What stands below the hits: how many more there are, or why there may be.
/** @param {{ status: number, found: number, whole: boolean } | null} answer @param {Entry[]} hits */
function endOf(answer, hits) {
  if (answer?.status !== 200) return t('search_failed');
  const more = answer.found - hits.length;
  const says = more > 0 ? t('more_hits', { number: number(more) }) : hits.length ? '' : t('nothing_found');
  return [says, ...(answer.whole ? [] : [t('lists_lack')])].filter(Boolean).join(' ');
}

export async function search() {
  const query = part('query').value.trim();
  const answer = query ? await askJson('GET', `/search?q=${encodeURIComponent(query)}`) : null, hits = answer?.hits ?? [];
  if (part('query').value.trim() !== query) return;
  rows.hits.show(hits, { lookOf: entry => entry.kind === 'void' ? 'void' : '', says: entrySays, end: query ? endOf(answer, hits) : '' });
}
