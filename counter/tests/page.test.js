// What the page decides without a browser: which plates are asked for, what the sentence says, what a key does. `checks/counter -k test_unit.` runs it by node.

import assert from 'node:assert/strict';
import { readFileSync } from 'node:fs';
import { test } from 'node:test';
import { ARMED_FOR, Arming, READY_FOR, subjectOf } from '../web/arming.js';
import { alike, choiceOf, demoOf, doubtOf, isFalseDemo, plateOf, PlateOfLoad, roundedTare, step } from '../web/guide.js';
import { ALL_KEYS, ANSWER_KEYS, DEAF_FOR, Deafness, HAMMERED_WITHIN, PAGE_KEYS, deedOf } from '../web/hands.js';
import { send } from '../web/request.js';

const first = (plate, gross = 18340) => ({ plate, gross, at: '2026-03-10T08:00:00Z', number: 1 });
const plates = (typed, onSite, weighedNear = []) => alike(typed, onSite.map(it => first(it)), weighedNear).map(it => it.plate);

// ---- which plates are asked for

test('the page asks about a part of a plate on site', () => {
  for (const typed of ['1236', 'RA', 'KM1236', 'KM-1236', 'RA-KM-123', '6']) assert.deepEqual(plates(typed, ['RA-KM-1236']), ['RA-KM-1236'], typed);
});

test('the page asks about a plate on site without its hyphens', () => {
  for (const typed of ['RAKM1236', 'RA-KM1236', 'R-A-KM-1236']) assert.deepEqual(plates(typed, ['RA-KM-1236']), ['RA-KM-1236'], typed);
});

test('the page asks about one letter off if the plate was never weighed', () => {
  for (const typed of ['RA-KM-1237', 'RA-KM-1263', 'RA-KM-12366', 'RA-M-1236', 'RA-MK-1236']) assert.deepEqual(plates(typed, ['RA-KM-1236']), ['RA-KM-1236'], typed);
});

test('the page does not ask about a known plate of running numbers', () => {
  assert.deepEqual(plates('RA-KM-1237', ['RA-KM-1236'], ['RAKM1237']), []);
  assert.deepEqual(plates('RAKM1237', ['RA-KM-1236'], ['RAKM1237']), []);
  assert.deepEqual(plates('RA-KM-1238', ['RA-KM-1236'], ['RAKM1237']), ['RA-KM-1236'], 'another one is');
});

test('the page asks even about a known plate that is a part of one on site', () => {
  assert.deepEqual(plates('RA-KM-123', ['RA-KM-1236'], ['RAKM123']), ['RA-KM-1236']);
});

test('the page asks about a short plate too', () => {
  for (const typed of ['L13', 'L21', 'L1']) assert.deepEqual(plates(typed, ['L12']), ['L12'], typed);
});

test('blanks become hyphens, but not at the beginning', () => {
  for (const [typed, plate] of [['hb kw 12', 'HB-KW-12'], ['HB  KW  12345 A', 'HB-KW-12345-A'], ['\tHB KW 123', 'HB-KW-123'], ['hb ', 'HB-']]) assert.equal(plateOf(typed), plate, typed);
});

test('the page does not ask about two letters off, a plate on site, or no plate', () => {
  for (const typed of ['RA-KM-1247', 'RA-KM-6231', 'HB-X-1', 'RA-KM-1236', '', '-', 'XYZ']) assert.deepEqual(plates(typed, ['RA-KM-1236']), [], typed);
});

test('the likeliest comes first, each as newest first', () => {
  assert.deepEqual(plates('1236', ['BB-1236', 'AA-1236', '12-36', '1237', 'C-99']), ['12-36', '1237', 'BB-1236', 'AA-1236']);
});

// ---- what the sentence says

const CALM = { kg: null, is_refused: false, before: 0, is_doubtful: false };
const now = (more = {}, offZero = {}, weight = {}) => ({
  link: 'up', weight: { state: 'S', net: 9000, tare: 0, ...weight }, state: { bridge: 'empty', busy: false, tare: weight.tare ?? 0, off_zero: { ...CALM, ...offZero } }, plate: 'HB-X-1', onSite: [],
  weighedNear: [], tares: {}, interval: 20, empty: null, min: 400, oneTare: null, isFirstInstead: false, waiting: null, result: null, told: null, newest: null, isResultNew: false, answered: {}, isDeaf: false, ...more,
});
const keysOf = told => told.answers.map(it => it.key);

test('without a question it is ready, but not while Enter does not react', () => {
  assert.deepEqual([step(now()).word, step(now()).isReady], ['ready', true]);
  assert.deepEqual([step(now({ isDeaf: true })).word, step(now({ isDeaf: true })).isReady], ['one_moment', undefined]);
});

test('no question is ready to be weighed, and each answer has a key of its own', () => {
  const small = now({ plate: 'RA-KM-1236', onSite: [first('RA-KM-1236', 9020)] });
  const asked = [step(now({ plate: '1236', onSite: ['A-1236', 'B-1236', 'C-1236', 'D-1236'].map(it => first(it)) })), step(small), step(now({ oneTare: 5000 }, { before: 160, is_doubtful: true }))];
  assert.deepEqual(asked.map(it => it.word), ['is_it_one', 'small_net', 'off_zero_before']);
  for (const it of asked) assert.equal(it.isReady, undefined, it.word);
  const all = asked.flatMap(keysOf);
  assert.deepEqual([new Set(all).size, all.length], [6, 6], 'no key is twice');
  for (const it of all) assert.match(it, /^F([1267]|3|10)$/, 'Chromium and Firefox leave it to the page, also if it is held');
});

test('an answer holds for its plate and its vehicles, and another question follows', () => {
  const asking = now({ plate: 'RA-KM-1237', onSite: [first('RA-KM-1236')], oneTare: 5000 }, { before: 160, is_doubtful: true });
  const one = step(asking), other = one.answers.at(-1);
  assert.deepEqual([one.word, one.values, keysOf(one)], ['is_it', { plate: 'RA-KM-1236' }, ['F1', 'F6']]);
  asking.answered = { [other.question]: other.subject };
  const two = step(asking), allTheSame = two.answers[0];
  assert.equal(two.word, 'off_zero_before');
  asking.answered[allTheSame.question] = allTheSame.subject;
  assert.equal(step(asking).word, 'ready');
  asking.onSite.unshift(first('RA-KM-1238'));
  assert.equal(step(asking).word, 'is_it_one', 'a vehicle more on site is asked for again');
});

test('the page asks about a small net, even one of zero', () => {
  for (const gross of [9000, 9020, 8980, 9380]) {
    const told = step(now({ plate: 'RA-KM-1236', onSite: [first('RA-KM-1236', gross)] }));
    assert.deepEqual([told.word, keysOf(told), told.values.net], ['small_net', ['F7'], Math.abs(gross - 9000)]);
  }
  assert.equal(step(now({ plate: 'RA-KM-1236', onSite: [first('RA-KM-1236', 9400)] })).word, 'ready');
});

test('a vehicle that is weighed once is no other kind of weighing, and a press for one is none for the other', () => {
  const once = now({ isOnce: true });
  assert.deepEqual([choiceOf(once).kind, choiceOf(once).isOnce, choiceOf(now()).isOnce], ['first', true, undefined]);
  assert.ok(step(once).isReady);
  assert.notEqual(subjectOf('A', choiceOf(once)), subjectOf('A', choiceOf(now())));
  for (const more of [{ oneTare: 5000 }, { onSite: [first('HB-X-1')] }]) assert.equal(choiceOf(now({ isOnce: true, ...more })).isOnce, undefined);
});

test('an answer about a small net holds for this weighing alone', () => {
  const onSite = number => [{ ...first('HB-X-1', 9020), number }], one = step(now({ onSite: onSite(1) })).answers[0];
  assert.ok(step(now({ onSite: onSite(1), answered: { small_net: one.subject } })).isReady);
  for (const more of [{ onSite: onSite(2) }, { oneTare: 8900 }]) assert.equal(step(now({ ...more, answered: { small_net: one.subject, odd_tare: 'x' } })).word, 'small_net');
});

test('a tare is another one\'s only if the counter says so and has no weighing under way', () => {
  const at = state => step(now({ state: { ...now().state, ...state } }, {}, { tare: 20 })).word;
  assert.deepEqual([at({ tare: 20 }), at({ tare: 20, busy: true }), at({ tare: 0 })], ['foreign_tare', 'ready', 'ready']);
});

test('that a press is over keeps the next one from nothing', () => {
  const at = (word, more, weight) => step(now({ told: { look: 'wait', word }, ...more }, {}, weight));
  assert.deepEqual([at('armed_over').word, at('armed_over').isReady, at('armed_over', {}, { state: 'D' }).isArmable], ['armed_over', true, true]);
  for (const more of [{ isDeaf: true }, { onSite: [first('HB-X-12')] }, { plate: '' }]) assert.ok(!at('armed_over', more).isReady && !at('armed_over', more).answers);
  assert.ok(!at('refused_11').isReady);
});

test('a weighing that was withdrawn is not called weighed while its vehicle is on the bridge', () => {
  const newest = { plate: 'HB-X-1', number: 4, paper: 'Slip', isWithdrawn: false }, state = { ...now().state, bridge: 'weighed' };
  assert.equal(step(now({ newest, state })).word, 'drive_off');
  const told = step(now({ newest: { ...newest, isWithdrawn: true }, state }));
  assert.deepEqual([told.word, told.values.number], ['drive_off_withdrawn', 4]);
});

test('an empty bridge off zero asks for zero, and sends for the operator if that is refused', () => {
  const light = { net: 160 };
  assert.equal(step(now({}, {}, light)).word, 'empty');
  assert.deepEqual(step(now({}, { kg: 160 }, light)), { look: 'wait', word: 'off_zero', values: { kg: 160 }, choices: ['set_zero'] });
  assert.deepEqual(step(now({}, { kg: -160 }, { net: -160 })).values, { kg: -160 });
  assert.deepEqual(step(now({}, { kg: 160, is_refused: true }, light)), { look: 'bad', word: 'off_zero_refused', values: { kg: 160 } });
});

test('a Single asks if the bridge was off zero before it or if that is not known, but a First and a Second do not', () => {
  const off = { before: 160, is_doubtful: true };
  assert.deepEqual([step(now({ oneTare: 5000 }, off)).word, keysOf(step(now({ oneTare: 5000 }, off)))], ['off_zero_before', ['F10']]);
  assert.equal(step(now({ tares: { 'HB-X-1': { kg: 5000, is_over: false } } }, off)).word, 'off_zero_before');
  assert.equal(step(now({ oneTare: 5000 }, { before: null, is_doubtful: true })).word, 'unknown_before');
  assert.equal(step(now({ oneTare: 5000 }, { before: 80 })).word, 'ready');
  assert.equal(step(now({}, off)).word, 'ready');
  assert.equal(step(now({ onSite: [first('HB-X-1')] }, off)).word, 'ready');
  assert.equal(step(now({ oneTare: 5000, answered: { off_zero: '180' } }, off)).word, 'off_zero_before', 'an answer for another weight is none');
});

// ---- what a key does

const key = (code, more = {}) => ({ code, key: code, repeat: false, ctrlKey: false, altKey: false, metaKey: false, shiftKey: false, ...more });
const page = (more = {}) => ({ answers: [], isDialog: false, isDeaf: false, ...more });
const deed = (code, more, on = 'plate', key_ = {}) => deedOf(key(code, key_), on, page(more)).is;
const QUESTION = { answers: [{ key: 'F1', plate: 'RA-KM-1236' }, { key: 'F6', question: 'is_it' }] };

test('what is held does nothing, whatever it would do', () => {
  for (const code of ['Enter', 'Escape', ...Object.keys(PAGE_KEYS), ...Object.values(ANSWER_KEYS).flat()]) {
    for (const more of [{}, QUESTION, { isDeaf: true }]) assert.equal(deed(code, more, 'plate', { repeat: true }), 'stopped', code);
    if (code !== 'Escape') assert.equal(deed(code, { isDialog: true }, 'field', { repeat: true }), 'stopped', `${code} in a dialog`);
  }
  assert.equal(deed('KeyA', {}, 'plate', { key: 'a', repeat: true }), 'left', 'but letters come again');
});

test('Enter answers no question, at the plate or on an answer', () => {
  for (const on of ['plate', 'answer']) assert.equal(deed('Enter', QUESTION, on), 'stopped', on);
  assert.equal(deed('NumpadEnter', QUESTION, 'plate', { key: 'Enter' }), 'stopped');
  assert.equal(deed('Enter', {}), 'left', 'without a question the browser sends the form');
});

test('a key answers its own question, and nothing without one', () => {
  assert.deepEqual(deedOf(key('F6'), 'plate', page(QUESTION)), { is: 'answered', answer: QUESTION.answers[1] });
  for (const code of ['F2', 'F3', 'F7', 'F10']) assert.equal(deed(code, QUESTION), 'stopped', code);
  for (const code of Object.values(ANSWER_KEYS).flat()) assert.equal(deed(code, {}), 'stopped', `${code} opens nothing of the browser`);
  assert.equal(deed('F6', { ...QUESTION, isDialog: true }), 'stopped', 'nor behind a dialog');
});

test('with a key like Ctrl it is the browser\'s', () => {
  for (const held of ['ctrlKey', 'altKey', 'metaKey', 'shiftKey']) assert.equal(deed('F4', QUESTION, 'plate', { [held]: true }), 'left', held);
});

test('zero, print and search have their keys, Escape clears, letters go into the plate', () => {
  assert.deepEqual(deedOf(key('F9'), 'other', page()), { is: 'clicked', part: 'zero' });
  assert.deepEqual([deed('Escape', {}), deed('Escape', { isDialog: true })], ['cleared', 'closing']);
  assert.deepEqual([deed('KeyA', {}, 'other', { key: 'a' }), deed('KeyA', {}, 'field', { key: 'a' }), deed('Space', {}, 'other', { key: ' ' })], ['typed', 'left', 'left']);
});

test('Alt and W read the weight aloud, also in a dialog', () => {
  const at = (more, page = {}) => deedOf({ key: 'w', code: 'KeyW', altKey: true, ...more }, 'plate', { answers: [], isDialog: false, isDeaf: false, ...page }).is;
  assert.deepEqual([at({}), at({}, { isDialog: true }), at({ altKey: false }), at({ ctrlKey: true })], ['spoken', 'spoken', 'left', 'left']);
});

test('Enter does not react for 700 ms, and while the clerk hammers it', () => {
  assert.equal(DEAF_FOR, 700);
  const ears = new Deafness();
  assert.equal(ears.isDeaf(0), false);
  ears.begin(1000);
  assert.deepEqual([ears.isDeaf(1000), ears.isDeaf(1699), ears.isDeaf(1700)], [true, true, false]);
  for (let at = 1100; at <= 3000; at += 100) { assert.equal(ears.isDeaf(at), true, `hammered at ${at}`); ears.pressed(at); }
  assert.equal(ears.isDeaf(3000 + HAMMERED_WITHIN), false);
  ears.pressed(5000);
  assert.equal(ears.isDeaf(5001), false, 'a press that acts makes it not deaf');
  assert.deepEqual([deed('Enter', { isDeaf: true }), deed('Enter', { isDeaf: true }, 'other'), deed('Enter', { isDeaf: true, isDialog: true }, 'field')], ['deaf', 'deaf', 'left']);
});

// ---- the bar of a demo

test('the serial of the scale decides if the page says DEMO', () => {
  const demo = { demo: true, demo_page: 'http://127.0.0.1:8091/' }, none = { demo: false, demo_page: null };
  assert.deepEqual(demoOf(demo, 'DEMO'), { page: 'http://127.0.0.1:8091/' });
  assert.deepEqual(demoOf(none, 'DEMO'), { page: null }, 'also if the setup does not say so');
  assert.equal(demoOf(demo, 'WB01'), null, 'a true weighing never stands below DEMO');
  assert.equal(demoOf(none, 'WB01'), null);
  assert.deepEqual(demoOf(demo, ''), { page: 'http://127.0.0.1:8091/' }, 'before the scale has told its serial, the setup decides');
  assert.equal(demoOf(none, ''), null);
  assert.equal(demoOf(undefined, undefined), null);
});

test('a demo over a true scale is told', () => {
  assert.equal(isFalseDemo({ demo: true }, 'WB01'), true);
  assert.equal(isFalseDemo({ demo: true }, 'DEMO'), false);
  assert.equal(isFalseDemo({ demo: true }, ''), false);
  assert.equal(isFalseDemo({ demo: false }, 'WB01'), false);
});

// ---- the load of a plate

// Each row is what is known: the plate, the net weight, what the counter knows of the bridge, and if the plate leaves then.
const leavings = rows => {
  const load = new PlateOfLoad();
  return rows.map(([plate, net, bridge]) => load.hasLeft(now({ plate, state: { ...now().state, bridge } }, {}, { net })));
};

test('a plate leaves with the load that it was typed for', () => {
  assert.deepEqual(leavings([['', 9000, 'empty'], ['A', 9000, 'empty'], ['A', 380, 'empty'], ['A', 9000, 'empty']]), [false, false, true, false]);
  assert.deepEqual(leavings([['A', 9000, 'empty'], ['AB', 9020, 'empty'], ['AB', 0, 'empty']]), [false, false, true], 'with what was typed last');
});

test('a plate leaves with its load if a colleague weighed that', () => {
  assert.deepEqual(leavings([['A', 9000, 'empty'], ['A', 9000, 'weighed'], ['A', 0, 'weighed'], ['A', 0, 'empty']]), [false, false, true, false]);
});

test('a plate that was typed on an empty bridge stays until its load has been there', () => {
  assert.deepEqual(leavings([['A', 0, 'empty'], ['A', 20, 'empty'], ['A', 400, 'empty'], ['A', 399, 'empty']]), [false, false, false, true]);
});

test('a plate that was typed while a weighed vehicle drives off is the next one\'s', () => {
  for (const bridge of ['weighed', 'restarted']) {
    assert.deepEqual(leavings([['', 9000, bridge], ['A', 9000, bridge], ['A', 0, bridge], ['A', 0, 'empty'], ['A', 9000, 'empty'], ['A', 0, 'empty']]), [false, false, false, false, false, true], bridge);
  }
});

test('the plate of the weighed vehicle itself leaves with it', () => {
  const own = { plate: 'A', number: 7, paper: 'Slip', isWithdrawn: false };
  const at = (load, net, bridge, more = {}) => load.hasLeft(now({ plate: 'A', state: { ...now().state, bridge }, ...more }, {}, { net }));
  const known = new PlateOfLoad();
  known.weighed({ kind: 'first', plate: 'A', number: 7 });
  assert.deepEqual([at(known, 9000, 'weighed'), at(known, 0, 'weighed'), at(known, 9000, 'empty')], [false, true, false]);
  const loaded = new PlateOfLoad();       // the page was loaded since
  assert.deepEqual([at(loaded, 9000, 'weighed', { newest: own }), at(loaded, 0, 'weighed', { newest: own })], [false, true]);
  const other = new PlateOfLoad();
  assert.deepEqual([at(other, 9000, 'weighed', { newest: { ...own, plate: 'B' } }), at(other, 0, 'weighed')], [false, false], 'that of another one is the next one\'s');
});

test('letters that are typed before the answer are the next vehicle\'s plate', () => {
  const load = new PlateOfLoad(), at = (plate, net, waiting = null) => load.hasLeft(now({ plate, waiting }, {}, { net }));
  assert.deepEqual([at('A', 9000), at('', 9000, {}), at('B', 9000, {})], [false, false, false]);
  load.weighed({ kind: 'first', plate: 'A', number: 7 });     // the answer is there, and the counter's state isn't
  assert.deepEqual([at('B', 9000), at('BC', 0), at('BC', 9000), at('BC', 0)], [false, false, false, true]);
});

test('a plate that comes back after a refusal leaves with the load that a colleague weighed', () => {
  const load = new PlateOfLoad(), at = (plate, net, waiting = null) => load.hasLeft(now({ plate, waiting }, {}, { net }));
  assert.deepEqual([at('A', 9000), at('', 9000, {})], [false, false]);
  load.weighed({ kind: 'first', plate: 'B', number: 7 });
  load.isBack();
  assert.deepEqual([at('A', 9000), at('A', 0), at('A', 0)], [false, true, false]);
});

test('a plate that comes back after its load has left stays for the clerk to see', () => {
  const load = new PlateOfLoad(), at = (plate, net) => load.hasLeft(now({ plate }, {}, { net }));
  load.isBack();
  assert.deepEqual([at('A', 0), at('A', 0), at('A', 9000), at('A', 0)], [false, false, false, true]);
  load.isBack();
  assert.deepEqual([at('A', 0), at('', 9000)], [false, false]);
  load.weighed({ kind: 'first', plate: 'C', number: 8 });
  assert.deepEqual([at('B', 9000), at('B', 0)], [false, false], 'and that is forgotten at the next plate');
});

test('the entry of the load is known until it has left', () => {
  const load = new PlateOfLoad(), entry = { kind: 'second', plate: 'A', number: 7 };
  assert.equal(load.entry, null);
  load.weighed(entry);
  load.hasLeft(now({ plate: 'B' }));
  assert.equal(load.entry, entry);
  load.hasLeft({ ...now(), weight: null });
  assert.equal(load.entry, entry, 'no link');
  load.hasLeft(now({ plate: '' }, {}, { net: 380 }));
  assert.equal(load.entry, null, 'so a later refusal names no vehicle of before');
});

test('it is known how many loads have left, so that another load is told from the same one', () => {
  const load = new PlateOfLoad(), at = net => { load.hasLeft(now({ plate: '' }, {}, { net })); return load.loads; };
  assert.deepEqual([at(0), at(9000), at(9020), at(380), at(0), at(5000), at(0)], [0, 0, 0, 1, 1, 1, 2]);
  load.hasLeft({ ...now(), weight: null });
  assert.equal(load.loads, 2);
});

// Each row is a time in milliseconds, the plate and the net weight, or null without a weight.
const seen = (...rows) => {
  const load = new PlateOfLoad(), known = (at, plate, net) => ({ ...now({ at, plate }, {}, { net }), ...(net === null ? { weight: null } : {}) });
  return [load, rows.map(row => [load.hasLeft(known(...row)), load.wasUnseen, load.loads])];
};
const lastOf = (...rows) => seen(...rows)[1].at(-1);

test('a plate leaves if the page had no weight for more than eight seconds, because another load may be there', () => {
  assert.deepEqual(seen([0, 'A', 9000], [8000, 'A', 9000], [16001, 'A', 9000], [16101, 'A', 9000])[1], [[false, false, 0], [false, false, 0], [true, true, 1], [false, false, 1]]);
  assert.deepEqual(lastOf([0, 'A', 9000], [9000, 'A', 0]), [true, true, 1], 'the bridge is empty');
  assert.deepEqual(lastOf([0, 'A', 0], [9000, 'A', 9000]), [true, true, 0], 'it was typed on an empty bridge');
  assert.deepEqual(lastOf([12000, 'A', 9000], [3000, 'A', 9000]), [true, true, 1], 'the clock was set back');
});

test('a plate that was typed without a weight stays for eight seconds, and no longer', () => {
  assert.deepEqual(lastOf([0, '', 9000], [6000, 'B', null], [14000, 'B', 9000]), [false, true, 1]);
  assert.deepEqual(lastOf([0, 'A', 9000], [2000, 'AB', null], [60000, 'AB', 9000]), [true, true, 1], 'edited when the weight had just gone');
  assert.deepEqual(seen([0, '', 9000], [6000, 'B', null], [9000, 'B', 9000], [9100, 'B', 0])[1].map(([left]) => left), [false, false, false, true], 'and is for the load that is there then');
});

test('a plate that comes back while there is no weight leaves once there is one, if that takes a while', () => {
  const [load] = seen([0, 'A', 9000], [100, '', null], [2000, 'A', null]);
  load.isBack();
  assert.equal(load.hasLeft(now({ at: 60000, plate: 'A' })), true);
});

test('a load that was weighed isn\'t the one that the page finds after a while', () => {
  const [load] = seen([0, '', 9000]);
  load.weighed({ kind: 'first', plate: 'A', number: 7 });
  load.hasLeft(now({ at: 9000, plate: 'B' }));
  assert.equal(load.entry, null);
  assert.equal(load.hasLeft(now({ at: 9100, plate: 'B' }, {}, { net: 0 })), true, 'B was for the load that was there');
});

test('a load counts as unseen once the page has had no weight for a while', () => {
  const load = new PlateOfLoad();
  assert.equal(load.isUnseen(9000), false, 'it never had one');
  load.hasLeft(now({ at: 9000 }));
  load.hasLeft({ ...now({ at: 16000 }), weight: null });
  assert.deepEqual([17000, 17001, 0].map(it => load.isUnseen(it)), [false, true, true]);
});

test('a plate that was weighed or deleted leaves nothing behind', () => {
  assert.deepEqual(leavings([['A', 9000, 'empty'], ['', 9000, 'weighed'], ['B', 9000, 'weighed'], ['B', 0, 'empty']]), [false, false, false, false]);
});

test('without a weight nothing leaves', () => {
  const load = new PlateOfLoad();
  assert.equal(load.hasLeft(now({ plate: 'A' })), false);
  assert.equal(load.hasLeft({ ...now({ plate: 'A' }), weight: null }), false, 'no link');
  assert.equal(load.hasLeft(now({ plate: 'A' }, {}, { net: null, state: '-' })), false, 'below zero');
  assert.equal(load.hasLeft(now({ plate: 'A' }, {}, { net: -8820, tare: 9000 })), true, 'a tare is no load');
});

// ---- a press while the load moves

const READY = { isReady: true }, MOVES = { isArmable: true }, PRESSED = 1000;
const armed = (subject = 'A first') => { const it = new Arming(); it.begin(subject, PRESSED); return it; };
// What the arming does at each moment after the press, with what the page asks then.
const arm = (...rows) => { const it = armed(); return rows.map(([after, told, subject = 'A first']) => it.next(told, subject, PRESSED + after)); };

test('while the load moves, a plate without a question can be armed, and it is not ready', () => {
  const told = step(now({}, {}, { state: 'D' }));
  assert.deepEqual([told.word, told.isArmable, told.isReady], ['moving_typed', true, undefined]);
  assert.equal(step(now()).isArmable, undefined);
});

test('nothing can be armed without a plate, a load, or while the page asks or Enter does not react', () => {
  const kept = { 'HB-X-1': { kg: 5000, is_over: false } };
  for (const [more, offZero, weight] of [
    [{ plate: '' }], [{ plate: 'A.B' }], [{ isDeaf: true }], [{ onSite: [first('HB-X-12')] }], [{ link: 'held', weight: null }], [{ state: { ...now().state, bridge: 'weighed' } }],
    [{ waiting: { look: 'wait', word: 'sent' } }], [{ told: { look: 'bad', word: 'refused_7' } }], [{ tares: kept }, { before: 160, is_doubtful: true }], [{}, {}, { net: 380 }], [{}, {}, { tare: 20 }],
  ]) assert.ok(!step(now(more, offZero, { state: 'D', ...weight })).isArmable, JSON.stringify([more, offZero, weight]));
});

test('a question about the plate comes while the load moves, and one about the net once it stands', () => {
  const onSite = [first('HB-X-1', 9020)];
  assert.equal(step(now({ onSite: [first('HB-X-12')] }, {}, { state: 'D' })).word, 'is_it');
  assert.equal(step(now({ onSite }, {}, { state: 'D' })).word, 'moving_typed');
  assert.equal(step(now({ onSite })).word, 'small_net');
});

test('a press fires once the page has been ready for a second, and only once', () => {
  assert.deepEqual(arm([0, MOVES], [5000, MOVES], [5100, READY], [5100 + READY_FOR - 1, READY], [5100 + READY_FOR, READY]), ['waits', 'waits', 'waits', 'waits', 'fires']);
  const it = armed();
  it.next(READY, 'A first', PRESSED);
  assert.equal(it.next(READY, 'A first', PRESSED + READY_FOR), 'fires');
  assert.equal(it.isArmed, false);
});

test('a load that moves again before that second is over has to stand a second again', () => {
  assert.deepEqual(arm([0, READY], [900, READY], [950, MOVES], [1100, READY], [2000, READY], [2100, READY]), ['waits', 'waits', 'waits', 'waits', 'waits', 'fires']);
});

test('a press is over after 20 seconds, ready or not', () => {
  for (const told of [MOVES, READY]) assert.deepEqual(arm([ARMED_FOR, MOVES], [ARMED_FOR + 1, told]), ['waits', 'over']);
  assert.equal(ARMED_FOR, 20000);
});

test('a press is over if the weighing would be another one', () => {
  const of = more => subjectOf('A', choiceOf(now({ plate: 'A', ...more })));
  const subjects = [of(), of({ onSite: [first('A')] }), of({ onSite: [{ ...first('A'), number: 2 }] }), of({ tares: { A: { kg: 5000, is_over: false } } }), of({ oneTare: 4000 }), subjectOf('B', choiceOf(now({ plate: 'B' })))];
  assert.equal(new Set(subjects).size, subjects.length);
  for (const subject of subjects) {
    const it = armed(subject);
    assert.equal(it.next(READY, subject, PRESSED), 'waits');
    for (const other of subjects.filter(other => other !== subject)) assert.equal(armed(subject).next(MOVES, other, PRESSED), 'over');
  }
});

test('any question and any warning ends a press, and nothing fires after it', () => {
  for (const told of [{ word: 'is_it', answers: [] }, { word: 'small_net' }, { word: 'empty' }, { word: 'no_weight' }, { word: 'drive_off' }, { word: 'refused_11' }, { word: 'foreign_tare' }]) {
    const it = armed();
    assert.equal(it.next(told, 'A first', PRESSED), 'asked', told.word);
    assert.equal(it.isArmed, false, told.word);
  }
  for (const word of ['one_moment', 'link_held', 'link_off']) assert.equal(armed().next({ word }, 'A first', PRESSED), 'over', `${word} shows nothing of it, so it is told`);
});

test('a press that is armed once more counts from the clerk\'s press', () => {
  const it = armed();
  it.next(READY, 'A first', PRESSED);
  it.next(READY, 'A first', PRESSED + READY_FOR);
  it.begin('A first', PRESSED);
  assert.equal(it.next(READY, 'A first', PRESSED + 2000), 'waits', 'it has to stand a second again');
  assert.equal(it.next(MOVES, 'A first', PRESSED + ARMED_FOR + 1), 'over');
  assert.equal(it.since, PRESSED, 'also once it is over');
});

// ---- a request without an answer

// Sends a request of which each sending is cut. Returns how often it was sent, and what came of it. `act` is called while it waits to send again.
async function cut(act, isForAnother) {
  let count = 0;
  const real = Date.now;
  globalThis.location = { origin: '' };
  globalThis.localStorage = { getItem: () => null, setItem: () => {}, removeItem: () => {} };
  globalThis.fetch = async () => { count++; throw new TypeError('cut'); };
  try {
    return [await send({ target: '/weighings', form: { key: 'k', kind: 'first' }, made: Date.now(), isUnsure: false }, () => act(count), isForAnother), count];
  } finally {
    Date.now = real;
  }
}

test('a request isn\'t sent again once another vehicle may be there', async () => {
  let isOther = false;
  assert.deepEqual(await cut(count => { isOther = count === 2; }, () => isOther), [null, 2]);
});

test('a request isn\'t sent again after 30 seconds, even if the machine slept in between', async () => {
  const real = Date.now;
  assert.deepEqual(await cut(() => { Date.now = () => real() + 600000; }), [null, 1]);
});

// ---- kept tares

const kept = (kg, more = {}) => ({ kg, until: '2026-06-08', by: 'anna', used: null, is_over: false, empty: null, ...more });

test('a tare is shown and used as the scale rounds it', () => {
  for (const [kg, interval, wanted] of [[5000, 20, 5000], [5009, 20, 5000], [5010, 20, 5020], [9, 20, 0], [10, 20, 20], [7, 5, 5], [8, 5, 10], [3, 1, 3], [24, 50, 0], [25, 50, 50]]) assert.equal(roundedTare(kg, interval), wanted, `${kg} ${interval}`);
  assert.equal(choiceOf(now({ tares: { 'HB-X-1': kept(1451) } })).tare, 1460);
  assert.equal(choiceOf(now({ oneTare: 1451 })).tare, 1460);
  assert.equal(choiceOf(now({ tares: { 'HB-X-1': kept(5000, { is_over: true }) } })).kind, 'first', 'one that has expired');
});

test('a kept tare of a plate with other hyphens is offered, and never taken', () => {
  for (const [typed, other] of [['SUEWAB12E', 'SUEW-AB-12E'], ['A-BC-123', 'AB-C-123']]) {
    const know = { plate: typed, tares: { [other]: kept(5000) } }, told = step(now(know));
    assert.equal(choiceOf(now(know)).kind, 'first', typed);
    assert.deepEqual([told.word, told.values, keysOf(told)], ['is_it_spelled', { plate: other, kg: 5000 }, ['F2', 'F6']], typed);
    assert.equal(told.answers[0].plate, other);
    assert.ok(step(now({ ...know, answered: { spelling: other } })).isReady, 'another vehicle');
    assert.equal(step(now({ ...know, answered: { spelling: 'X' } })).word, 'is_it_spelled');
  }
});

test('two spellings have two keys, and what needs no tare asks nothing', () => {
  const tares = { 'A-BC-123': kept(5000), 'ABC-123': kept(6000) }, at = more => step(now({ plate: 'AB-C-123', tares, ...more }));
  assert.deepEqual(keysOf(at()), ['F2', 'F3', 'F6']);
  assert.ok(at({ oneTare: 4000 }).isReady);
  assert.ok(at({ onSite: [first('AB-C-123')] }).isReady, 'it is weighed out');
  assert.ok(step(now({ plate: 'A-BC-123', tares })).isReady, 'its own spelling');
  assert.ok(at({ tares: { 'A-BC-123': kept(5000, { is_over: true }) } }).isReady, 'one that has expired');
});

test('a tare below a fifth of the gross is doubted, and one that differs by a twentieth from the last empty weight', () => {
  for (const [tare, gross, empty, word] of [
    [1460, 9000, null, 'small_tare'], [1800, 9000, null, undefined], [1780, 9000, null, 'small_tare'], [5000, 9000, 5000, undefined], [5000, 9000, 5260, undefined], [5000, 9000, 5280, 'other_tare'],
    [5260, 9000, 5000, 'other_tare'], [5240, 9000, 5000, undefined], [1460, null, null, undefined], [1460, null, 14460, 'other_tare'], [1460, 9000, 14460, 'small_tare'],
  ]) assert.equal(doubtOf(tare, gross, empty)?.word, word, `${tare} ${gross} ${empty}`);
});

test('a tare of the gross or more is no tare', () => {
  for (const [oneTare, word] of [[9000, 'tare_too_great'], [9500, 'tare_too_great'], [8600, 'ready']]) assert.equal(step(now({ oneTare })).word, word, `${oneTare}`);
});

test('a doubted tare is weighed with only once its own key was pressed', () => {
  const know = { tares: { 'HB-X-1': kept(1451) } }, told = step(now(know));
  assert.deepEqual([told.word, told.values, keysOf(told)], ['small_tare', { kg: 1460 }, ['F3']]);
  assert.ok(step(now({ ...know, answered: { odd_tare: told.answers[0].subject } })).isReady);
  assert.equal(step(now({ ...know, answered: { odd_tare: 'small_tare 1440' } })).word, 'small_tare', 'another tare');
  assert.equal(step(now({ oneTare: 1451 })).word, 'small_tare', 'one that was typed');
  assert.equal(step(now({ ...know, empty: 14460 }, {}, { state: 'D' })).word, 'other_tare', 'while it moves');
  assert.ok(step(now({ ...know, empty: 14460 }, {}, { state: 'D' })).isArmable === undefined);
  assert.ok(step(now({ ...know, isFirstInstead: true })).isReady);
});

test('a key that answered answers nothing more for a while, and other keys do', () => {
  const deaf = new Deafness(), answers = [{ key: 'F2' }, { key: 'F6' }], at = time => deedOf({ key: 'F2', code: 'F2' }, 'plate', { answers, isDialog: false, isDeaf: deaf.isDeaf(time), deafKey: deaf.keyAt(time) }).is;
  assert.equal(at(0), 'answered');
  deaf.begin(0, 'F2');
  assert.equal(at(DEAF_FOR - 1), 'deaf');
  assert.equal(deedOf({ key: 'F6', code: 'F6' }, 'plate', { answers, isDialog: false, isDeaf: true, deafKey: deaf.keyAt(1) }).is, 'answered');
  deaf.pressed(DEAF_FOR - 1);
  assert.equal(at(DEAF_FOR + HAMMERED_WITHIN - 2), 'deaf', 'while it is hammered');
  assert.equal(at(DEAF_FOR + HAMMERED_WITHIN), 'answered');
  deaf.begin(4000, 'F2');
  deaf.typed();
  assert.equal(at(4001), 'answered', 'letters were typed since');
  deaf.begin(5000);
  assert.equal(at(5001), 'answered', 'a plate that was taken from a list was taken by no key');
  deaf.begin(6000, ALL_KEYS);
  assert.deepEqual([at(6001), at(6000 + DEAF_FOR)], ['deaf', 'answered'], 'a key means another plate than before');
});

// ---- the words

const ENGLISH = { name: 'English', place: 'en-GB', close: 'Close', drive_off: '{plate} is weighed, {paper} {number}.', sum: { one: '{number} ticket, {kg}', other: '{number} tickets, {kg}' } };

// The page's words with these catalogues, as a browser gets them from the counter.
async function wordsOf(catalogues, asks) {
  globalThis.location = { origin: '', search: '' };
  globalThis.document = { documentElement: {} };
  globalThis.fetch = async path => {
    const found = catalogues[/(\w+)\.json$/.exec(path)[1]];
    return { ok: found !== undefined, json: async () => typeof found === 'string' ? JSON.parse(found) : found };
  };
  return import(`../web/words.js?${asks}`);
}

test('a number chooses the form of its noun, as the language does', async () => {
  const french = { ...ENGLISH, place: 'fr-FR', sum: { one: '{number} bulletin, {kg}', other: '{number} bulletins, {kg}' } };
  const polish = { ...ENGLISH, place: 'pl-PL', sum: { one: '{number} kwit, {kg}', few: '{number} kwity, {kg}', many: '{number} kwitów, {kg}', other: '{number} kwitu, {kg}' } };
  const { speak, t } = await wordsOf({ en: ENGLISH, fr: french, pl: polish }, 'plural');
  for (const [language, count, says] of [
    ['en', 0, '0 tickets, x'], ['en', 1, '1 ticket, x'], ['en', 1000, '1,000 tickets, x'], ['fr', 0, '0 bulletin, x'], ['fr', 1, '1 bulletin, x'], ['fr', 2, '2 bulletins, x'],
    ['fr', 1e6, '1\u202f000\u202f000 bulletins, x'], ['pl', 1, '1 kwit, x'], ['pl', 3, '3 kwity, x'], ['pl', 5, '5 kwitów, x'],
  ]) {
    assert.ok(await speak(language));
    assert.equal(t('sum', { number: count, kg: 'x' }), says);
  }
  assert.equal(t('sum', { number: '1', kg: 'x' }), '1 kwitu, x', 'a text counts nothing');
});

test('the number of a slip is not grouped', async () => {
  const { speak, t } = await wordsOf({ en: ENGLISH }, 'number');
  assert.ok(await speak('en'));
  assert.equal(t('drive_off', { plate: 'HB-X-1', paper: 'Slip', number: 12345 }), 'HB-X-1 is weighed, Slip 12345.');
});

test('English fills in for a key that is missing, is empty or has other placeholders', async () => {
  const { has, speak, t } = await wordsOf({ en: ENGLISH, it: { name: 'Italiano', place: 'it-IT', close: ' ', drive_off: '{plate} pesato, {carta} {number}.' } }, 'fallback');
  assert.ok(await speak('it'));
  assert.equal(t('close'), 'Close');
  assert.equal(t('drive_off', { plate: 'A', paper: 'Slip', number: 7 }), 'A is weighed, Slip 7.');
  assert.equal(t('sum', { number: 1000, kg: 'x' }), '1.000 tickets, x');
  assert.deepEqual(['close', 'sum', 'other'].map(has), [true, true, false]);
});

test('English that fills in has its own plural', async () => {
  const { speak, t } = await wordsOf({ en: ENGLISH, fr: { name: 'Français', place: 'fr-FR' } }, 'its own');
  assert.ok(await speak('fr'));
  assert.equal(t('sum', { number: 0, kg: 'x' }), '0 tickets, x');
});

test('a language without a place, or with one that is none, writes numbers as the language does', async () => {
  const { kg, speak } = await wordsOf({ en: ENGLISH, it: { name: 'Italiano' }, de: { name: 'Deutsch', place: 'Germany!' } }, 'place');
  for (const language of ['it', 'de']) {
    assert.ok(await speak(language));
    assert.equal(kg(9000), '9.000 kg');
  }
});

test('a date alone is the same day in each zone', async () => {
  const { dateOf, speak, useZone } = await wordsOf({ en: ENGLISH }, 'date');
  assert.ok(await speak('en'));
  for (const zone of ['America/Los_Angeles', 'Pacific/Auckland', 'UTC']) {
    useZone(zone);
    assert.equal(dateOf('2026-06-08'), '08 Jun 2026', zone);
  }
});

test('a language that does not come leaves the page in the one it has', async () => {
  const { speak, t } = await wordsOf({ en: ENGLISH, fr: '{', it: { name: 'Italiano', close: 'Chiudi' } }, 'gone');
  assert.ok(await speak('it'));
  assert.deepEqual([await speak('xx'), await speak('fr'), t('close')], [false, false, 'Chiudi']);
});

test('without English the page waits', async () => {
  const { has, speak } = await wordsOf({ it: { name: 'Italiano', close: 'Chiudi' } }, 'alone');
  assert.deepEqual([await speak('it'), has('close')], [false, false]);
});

test('one of each thing that is counted has no plural in any language', async () => {
  const read = name => JSON.parse(readFileSync(new URL(`../web/lang/${name}.json`, import.meta.url)));
  const { speak, t } = await wordsOf(Object.fromEntries(['en', 'de', 'fr', 'es'].map(it => [it, read(it)])), 'shipped');
  for (const [language, one, many] of [
    ['en', '1 ticket', '2 tickets'], ['de', '1 Wiegeschein', '2 Wiegescheine'], ['fr', '1 ticket', '2 tickets'], ['es', '1 tique', '2 tiques'],
  ]) {
    assert.ok(await speak(language));
    assert.deepEqual([1, 2].map(it => t('tickets', { number: it })), [one, many]);
  }
});

const KIND_OF = { a: 'HTMLAnchorElement', input: 'HTMLInputElement', select: 'HTMLSelectElement', button: 'HTMLButtonElement', dialog: 'HTMLDialogElement', form: 'HTMLFormElement' };

test('the shapes of a page name each of its parts, and no other', () => {
  for (const [shapes, page, name] of [['page', 'web', 'Parts'], ['demo', 'weighbridge_demo/web', 'DemoParts']]) {
    const read = path => readFileSync(new URL(`../${path}`, import.meta.url), 'utf8');
    const has = [...read(`${page}/index.html`).matchAll(/<(\w+)\b[^>]*\bid="([^"]+)"/g)].map(([, tag, id]) => `${id}: ${KIND_OF[tag] ?? 'HTMLElement'}`);
    const named = read(`${shapes}.d.ts`).split(`interface ${name} {`)[1].split('}')[0].split('\n').map(it => it.trim().replaceAll(/[';]/g, '')).filter(Boolean);
    assert.deepEqual(named.sort(), has.sort());
  }
});
