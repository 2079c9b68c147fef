// The kept tares: which plate, how many kg, until when, by whom, last used when. Each can be dropped.

import { DEAF_FOR } from './hands.js';
import { known } from './known.js';
import { roundedTare } from './guide.js';
import { button, make, part } from './parts.js';
import { dateOf, kg, number, t } from './words.js';

const MOST_ROWS = 200;
const NOBODY = { plate: null, at: 0 };
/** @type {{ plate: string | null, at: number }} */
let asked = NOBODY;                  // which one the clerk was asked about, and when
/** @type {string | null} */
let failed = null;                   // the plate whose tare couldn't be dropped

export function forgetPress() {
  asked = NOBODY;
  failed = null;
}

// `drop` drops the tare of a plate, and returns whether that was done. The counter then tells the page, which shows the others.
/** @param {{ [plate: string]: Kept }} tares @param {Drop} drop */
export function showTares(tares, drop) {
  const query = part('kept-query').value.toUpperCase().replace(/[^A-Z0-9]/g, '');
  const plates = Object.keys(tares).filter(it => it.replaceAll('-', '').includes(query)).sort();
  const rows = plates.slice(0, MOST_ROWS).map(plate => rowOf(plate, tares[plate], () => press(plate, tares, drop)));
  const left = plates.length - rows.length;
  part('kept').replaceChildren(...rows, ...(left ? [make('li', { className: 'none', textContent: t('kept_more', { number: number(left) }) })] : []),
    ...(plates.length ? [] : [make('li', { className: 'none', textContent: t('none_kept') })]));
}

/** @param {string} plate @param {Kept} tare @param {() => void} act */
function rowOf(plate, { kg: value, until, by, used, is_over: isOver }, act) {
  const says = [t(isOver ? 'kept_over' : 'kept_until', { day: dateOf(until) }), ...(by ? [t('kept_by', { by })] : []), used ? t('kept_used', { day: dateOf(used) }) : t('kept_unused')];
  const row = make('div', {}, make('b', { textContent: `${plate} · ${kg(roundedTare(value, known.hello.interval))}` }), make('p', { textContent: says.join(' · ') }));
  if (failed === plate) row.append(make('p', { className: 'bad', role: 'alert', textContent: t('tare_not_dropped') }));
  const isAsked = asked.plate === plate;
  return make('li', { className: isOver ? 'late' : '' }, row, button(t(isAsked ? 'drop_sure' : 'drop_tare', { plate }), act, { className: 'danger', ariaLabel: t(isAsked ? 'drop_sure' : 'drop_tare', { plate }) }));
}

// The clerk must press it twice. A double click isn't enough.
/** @param {string} plate @param {{ [plate: string]: Kept }} tares @param {Drop} drop */
function press(plate, tares, drop) {
  const now = performance.now();
  if (asked.plate !== plate) asked = { plate, at: now };
  else if (now - asked.at >= DEAF_FOR) {
    forgetPress();
    drop(plate).then(isDropped => {
      failed = !isDropped && known.tares[plate] ? plate : null;
      showTares(known.tares, drop);
    });
  }
  showTares(tares, drop);
  const at = [...part('kept').querySelectorAll('button')].find(it => it.textContent === t('drop_sure', { plate }));
  at?.focus();
}
