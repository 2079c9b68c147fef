// A weighing from the press to its end: sent until it is answered, and then told.

import { isPast } from './guide.js';
import { clerk, feed, known, linkNow, MIN_INTERVALS, withdrawnBy } from './known.js';
import { counterWordOf, forget, isOld, isStored, keptRequest, newRequest, refusalOf, renewed, send } from './request.js';
import { acts, show } from './show.js';
import { has, paperOf, t } from './words.js';

const UNSTABLE = '7', NOT_CLEARED = '11';
/** @type {{ [look: string]: number }} */
const TOLD_FOR = { ok: 2500, wait: 6000, bad: 6000 };

// Until then nothing else can be weighed; `choices` is what may be pressed.
/** @param {string} look @param {string} word @param {Values} [values] @param {string[]} [choices] */
function wait(look, word, values, choices) {
  clerk.waiting = { look, word, values, choices };
  show();
}

/** @param {string} look @param {string} word @param {string} [more] @param {Values | null} [values] @param {string[]} [choices] */
export function tell(look, word, more, values, choices) {
  const told = clerk.told = { look, word, more, values, choices };
  show();
  setTimeout(() => endTold(told), isPast(told) ? TOLD_FOR.ok : TOLD_FOR[look]);
}

// A message of what the clerk has to do is there for a while without a fault before it.
/** @param {Told} told */
function endTold(told) {
  if (clerk.told !== told) return;
  if (told.look === 'wait' && linkNow() !== 'up') {
    setTimeout(() => endTold(told), TOLD_FOR.ok);
    return;
  }
  clerk.told = null;
  show();
}

/** @returns {GiveBack} */
const NOTHING_TAKEN = () => () => 'back';

// One request at a time in a browser: one that another window keeps is ended first. `takeForm` takes what was typed for it, once it is kept, and returns
// what gives that back if nothing is stored. That is told if the load moved, and returns 'waits' if the press waits for it, 'left' if the load isn't there any
// more, so that the clerk has to put it back, and 'back' otherwise.
/** @param {string} target @param {Asked} form @param {() => GiveBack} takeForm @param {{ first?: number }} about */
export function begin(target, form, takeForm = NOTHING_TAKEN, about = {}) {
  if (clerk.waiting) return;
  if (keptRequest()) { resume(); return; }
  const request = newRequest(target, form, about);
  if (request === null) tell('bad', 'keeps_nothing');
  else conclude({ ...request, loads: clerk.plateOfLoad.loads }, takeForm());
}

/** @param {KeyedRequest} request */
const whatOf = request => ({ what: `${t(request.form.kind ? `kind_${request.form.kind}` : 'kind_void')}, ${request.form.plate}` });

/** @param {KeyedRequest} request */
async function conclude(request, giveBack = NOTHING_TAKEN()) {
  clerk.result = clerk.told = null;
  wait('wait', 'sent', whatOf(request));
  const answer = await send(request, () => wait('wait', 'no_answer_yet', whatOf(request)), () => isForAnother(request), () => feed.moment());
  if (answer === null) { leave(request, giveBack); return; }
  clerk.waiting = null;
  if (answer.status === 201) finish(request, answer.text);
  else notStored(giveBack(refusalOf(answer) === UNSTABLE && !request.isUnsure), choices => refuse(answer, choices));
  acts.focus();
}

// A void is for no vehicle on the bridge. Of what an earlier page pressed, this one doesn't know the load.
/** @param {KeyedRequest} request */
function isForAnother({ form, loads }) {
  const { plateOfLoad } = clerk;
  return form.kind !== undefined && loads !== null && (plateOfLoad.loads !== loads || plateOfLoad.isUnseen(Date.now()));
}

/** @param {string} came @param {(choices: string[]) => void} says */
function notStored(came, says) {
  if (came !== 'waits') says(came === 'left' ? ['plate_again'] : []);
}

// There was no answer for so long that another vehicle may be there: the clerk decides.
/** @param {KeyedRequest} request */
function leave(request, giveBack = NOTHING_TAKEN()) {
  acts.send_again = () => conclude(renewed({ ...request, loads: clerk.plateOfLoad.loads }), giveBack);     // for the vehicle that is there now
  acts.look_up = async () => {
    wait('wait', 'looking');
    const stored = await isStored(request);
    if (stored === true) { conclude(renewed(request), giveBack); return; }
    if (stored === null) { leave(request, giveBack); return; }
    forget(request);
    clerk.waiting = null;
    notStored(giveBack(false), choices => tell('bad', 'was_not_stored', undefined, undefined, choices));
  };
  wait('bad', 'lost', whatOf(request), ['send_again', 'look_up']);
}

/** @param {Answered} answer @param {string[]} choices */
function refuse(answer, choices) {
  const refusal = refusalOf(answer), weighed = refusal === NOT_CLEARED ? clerk.plateOfLoad.entry : null;
  const entry = weighed && !withdrawnBy().has(weighed.number) ? weighed : null;
  const word = entry ? 'already_weighed' : refusal ? `refused_${refusal}` : `counter_${counterWordOf(answer)}`;
  const values = entry && { plate: entry.plate, paper: paperOf(entry), number: entry.number };
  tell('bad', has(word) ? word : 'refused', `${t('nothing_stored')} (${answer.text.trim().slice(0, 60)})`, values, choices);
}

/** @param {KeyedRequest} request @param {string} text */
function finish(request, text) {
  const at = Number(/ (\d+)\n/.exec(text)?.[1]), net = /^N +(\d+) kg$/m.exec(text)?.[1], grosses = [...text.matchAll(/^G +(\d+) kg$/mg)].map(it => Number(it[1]));
  const kind = request.form.kind ?? 'void', first = request.about?.first, values = { paper: paperOf({ kind }), number: at, plate: request.form.plate, first };
  const word = kind === 'void' ? first ? 'done_void' : 'done_void_any' : net !== undefined ? 'done_net' : request.form.once ? 'done_once' : 'done_first';
  const isOfThisLoad = clerk.plateOfLoad.loads === request.loads && !known.today.some(it => it.number === at);
  if (kind !== 'void' && isOfThisLoad) clerk.plateOfLoad.weighed({ kind, plate: request.form.plate, number: at });
  const isPair = grosses.length === 2 && Number(net) >= MIN_INTERVALS * known.hello.interval;
  clerk.result = {
    look: 'ok', word, values: { ...values, kg: Number(net ?? grosses[0] ?? 0) }, choices: ['print'], number: at, text, madeAt: performance.now(),
    tare: isPair ? { plate: request.form.plate, kg: Math.min(...grosses) } : null,
  };
  show();
}

// What this browser kept, of a page before this one or of another window, is sent again by itself, unless it is old.
export function resume() {
  const kept = keptRequest();
  if (kept && isOld(kept)) leave({ ...kept, loads: null });
  else if (kept) conclude({ ...kept, loads: null, isUnsure: true });
}
