// The page of the played bridge: it shows what stands there, and what the clerk has to type; and it pushes a load. The demo's program plays it.

import { NAMES, kg, language, number, speak, t, wanted } from './words.js';

const LOOK_EVERY = 200;      // milliseconds
const GONE_AFTER = 3;        // looks without an answer
const PUSH_EVERY = 100;      // milliseconds between two loads while the slider moves

/** @template {keyof DemoParts} Id @param {Id} id @returns {DemoParts[Id]} */
const part = id => /** @type {any} */ (document.getElementById(id));
/** @type {Day} */
let day = { visits: [], clerks_page: '', max: '', interval: '' };
/** @type {DemoState | null} */
let state = null;
let missed = 0;
let isSliding = false;

/** @template {keyof HTMLElementTagNameMap} Name @param {Name} name @param {Partial<HTMLElementTagNameMap[Name]>} properties @param {(Node | string)[]} inside @returns {HTMLElementTagNameMap[Name]} */
const make = (name, properties = {}, ...inside) => {
  const made = Object.assign(document.createElement(name), properties);
  made.append(...inside);
  return made;
};

// A plate as it stands on the vehicle: the last hyphen is a blank there.
/** @param {string} plate */
const onVehicle = plate => plate.replace(/-(?=[^-]*$)/, ' ');

// Writes only what changed, so that nothing flickers and a screen reader says it once.
/** @param {'plate' | 'happens' | 'play' | 'load-kg' | 'done'} id @param {string} text */
const write = (id, text) => { if (part(id).textContent !== text) part(id).textContent = text; };

// Writes a sentence with the plate that has to be typed, which stays on one line.
/** @param {'todo'} id @param {string} text @param {string | undefined} plate */
function writeWithPlate(id, text, plate) {
  if (part(id).textContent === text) return;
  const [before, ...after] = plate ? text.split(plate) : [text];
  part(id).replaceChildren(before, ...after.flatMap(it => [make('b', { textContent: plate }), it]));
}

// ---- what is shown

/** @param {DemoState} state */
function todoOf({ stay, phase, is_playing: isPlaying, is_over: isOver }) {
  if (phase === 'empty') return isPlaying ? t('next') : isOver ? `${t('over')} ${t('choose')}` : t('choose');
  if (phase === 'drives_off') return '';
  if (!stay) return t('load_todo');
  const { plate, kind, tare, weighed } = stay;
  if (weighed && weighed.plate !== plate) return t('was_mistyped', { typed: weighed.plate, plate });
  if (weighed) return `${t('was_weighed', { number: weighed.number })} ${t(stay.at ? 'leaves' : 'let_off')}`;
  return t(kind, { plate, tare: tare ? kg(tare) : '' });
}

/** @param {DemoState} state */
function happensOf({ phase, stay, kg: load }) {
  if (phase === 'empty') return t('empty');
  if (phase === 'stands') return t('stands', { tons: number(load / 1000, 1) });
  return phase === 'changes' && stay ? t('on_it', { kg: kg(load) }) : t(phase);
}

/** @param {DemoState} state */
function showNow(state) {
  const { phase, stay } = state, weighed = stay?.weighed;
  write('plate', phase === 'empty' ? '–' : stay ? onVehicle(stay.plate) : t('some_load'));
  write('happens', happensOf(state));
  writeWithPlate('todo', todoOf(state), stay?.plate);
  part('now').dataset.look = !weighed || phase === 'empty' ? '' : weighed.plate === stay?.plate ? 'ok' : 'bad';
}

/** @param {DemoState} state */
function showHands(state) {
  const { phase, is_playing: isPlaying, is_over: isOver } = state;
  part('on').disabled = phase !== 'empty';
  part('off').disabled = phase === 'empty' || phase === 'drives_off';
  write('play', t(isPlaying ? 'stop' : isOver ? 'again' : 'play'));
  if (!isSliding) part('load').value = `${state.kg}`;
  write('load-kg', kg(isSliding ? Number(part('load').value) : state.kg));
}

/** @param {Visit} visit @param {string} mark */
function moreOf(visit, mark) {
  const comes = visit.kind === 'first' ? t('comes_in') : visit.kind === 'second' ? t('comes_out') : t('comes_once', { tare: kg(visit.tare ?? 0) });
  return mark ? `${comes}: ${t(`mark_${mark}`)}` : comes;
}

/** @param {DemoState} state */
function showVisits(state) {
  const lines = /** @type {HTMLElement[]} */ ([...part('visits').children]);
  for (const [at, line] of lines.entries()) {
    const mark = state.marks[at], more = /** @type {HTMLElement} */ (line.querySelector('.more')), text = moreOf(day.visits[at], mark);
    if (more.textContent !== text) more.textContent = text;
    line.dataset.mark = mark;
    const isNow = state.now === at;
    if (isNow !== line.hasAttribute('aria-current')) {
      line.toggleAttribute('aria-current', isNow);
      if (isNow) keepInSight(line);
    }
  }
  write('done', t('done', { done: number(state.marks.filter(it => it).length), all: number(day.visits.length) }));
}

// Only the list moves, and only where it has a bar of its own.
/** @param {HTMLElement} line */
function keepInSight(line) {
  const list = part('visits');
  if (list.scrollHeight > list.clientHeight + 1) list.scrollTop = line.offsetTop - list.offsetTop - list.clientHeight / 3;
}

function listVisits() {
  part('visits').replaceChildren(...day.visits.map(it => make('li', {},
    make('time', { textContent: it.at }), make('b', { textContent: onVehicle(it.plate) }), make('span', { className: 'kg', textContent: kg(it.kg) }),
    make('span', { className: 'more' }))));
}

function show() {
  if (!state) return;
  showNow(state);
  showHands(state);
  showVisits(state);
}

/** @param {string} name */
function change(name) {
  speak(name);
  const worded = /** @type {NodeListOf<HTMLElement>} */ (document.querySelectorAll('[data-word]'));
  for (const it of worded) it.textContent = t(it.dataset.word ?? '');
  document.title = `DEMO · ${t('title')}`;
  part('language').value = language;
  part('clerk').href = `${day.clerks_page}?lang=${language}`;
  listVisits();
  show();
}

// ---- what is asked

/** @param {string} method @param {string} target @param {object} [what] @returns {Promise<any>} */
async function ask(method, target, what) {
  const answer = await fetch(target, { method, body: what && JSON.stringify(what), signal: /** @type {any} */ (AbortSignal).timeout(2000) }).catch(() => null);
  const told = answer && await answer.json().catch(() => null);
  missed = told ? 0 : missed + 1;
  part('gone').hidden = missed < GONE_AFTER;
  return told;
}

async function look() {
  const told = await ask('GET', '/state');
  if (told) state = told;
  show();
  setTimeout(look, LOOK_EVERY);
}

/** @param {string} target @param {object} [what] */
async function press(target, what) {
  const told = await ask('POST', target, what);
  if (told?.phase) state = told;
  show();
}

let pushed = 0;
/** @type {number | undefined} */
let later;

// While the slider moves, its load is pushed ten times a second, and at the end once more.
function slide() {
  clearTimeout(later);
  isSliding = true;
  write('load-kg', kg(Number(part('load').value)));
  const push = () => { pushed = performance.now(); press('/load', { kg: Number(part('load').value) }); };
  if (performance.now() - pushed >= PUSH_EVERY) push();
  later = setTimeout(() => { push(); later = setTimeout(() => { isSliding = false; }, 1000); }, PUSH_EVERY);
}

async function main() {
  window.name = 'weighbridge-demo';      // so that a link of the clerk's page finds this tab again
  part('language').replaceChildren(...Object.entries(NAMES).map(([value, textContent]) => make('option', { value, textContent })));
  while (!(day = await ask('GET', '/day'))) await new Promise(done => setTimeout(done, LOOK_EVERY));
  part('load').max = day.max;
  part('load').step = day.interval;
  change(wanted());
  part('language').addEventListener('change', () => change(part('language').value));
  part('on').addEventListener('click', () => press('/on'));
  part('off').addEventListener('click', () => press('/off'));
  part('play').addEventListener('click', () => press(state?.is_playing ? '/stop' : '/play'));
  part('load').addEventListener('input', slide);
  look();
}

main();
