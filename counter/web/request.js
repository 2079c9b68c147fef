// A request with its key: kept by the browser before it is sent, and sent again until it is answered. It is stored once, whatever is cut.

const KEPT = 'weighbridge.request';
const ANSWER_WITHIN = 15000;
const AGAIN_AFTER = 1000;
const AGAIN_FOR = 30000;             // after that another vehicle may stand on the bridge: the clerk decides

/** @param {number} time */
const pause = time => new Promise(done => setTimeout(done, time));

// The address is made whole, since a page whose own address has a password in it may ask for no relative one.
/** @param {string} method @param {string} target @param {BodyInit} [body] @param {number} [within] @returns {Promise<Answered | null>} */
export async function ask(method, target, body, within = ANSWER_WITHIN) {
  try {
    const answer = await fetch(location.origin + target, { method, body, cache: 'no-store', redirect: 'error', signal: /** @type {any} */ (AbortSignal).timeout(within) });
    return { status: answer.status, text: await answer.text(), isSent: answer.headers.get('X-Counter') !== 'not_sent' };
  } catch {
    return null;
  }
}

/** @param {string} method @param {string} target @param {BodyInit} [body] @param {number} [within] @returns {Promise<any>} */
export async function askJson(method, target, body, within) {
  const answer = await ask(method, target, body, within);
  try { return answer && { ...JSON.parse(answer.text), status: answer.status }; } catch { return null; }
}

/** @param {Answered} answer */
export const refusalOf = answer => /^(?:refused|fault) (\d+) \w+\n$/.exec(answer.text)?.[1];
/** @param {Answered} answer */
export const counterWordOf = answer => /^counter (\w+)/.exec(answer.text)?.[1];

// The office's own answers end a request. What the counter didn't send ends it too, but only if no earlier sending had no answer: that one may be stored.
/** @param {Answered} answer @param {KeyedRequest} request */
function isFinal(answer, request) {
  if (answer.status === 201) return true;
  if (!answer.isSent) return !request.isUnsure && counterWordOf(answer) !== undefined;
  return answer.status < 500 && refusalOf(answer) !== undefined;
}

function newKey() {
  return 'page-' + Array.from(crypto.getRandomValues(new Uint8Array(13)), it => it.toString(16).padStart(2, '0')).join('');
}

/** @returns {KeyedRequest | null} */
export function keptRequest() {
  try { return JSON.parse(localStorage.getItem(KEPT) ?? 'null'); } catch { return null; }
}

/** @param {KeyedRequest} request */
function keep(request) {
  try {
    const text = JSON.stringify(request);
    localStorage.setItem(KEPT, text);
    return localStorage.getItem(KEPT) === text;
  } catch {
    return false;
  }
}

/** @param {KeyedRequest} request */
export function forget(request) {
  if (keptRequest()?.form.key === request.form.key) localStorage.removeItem(KEPT);
}

// A request that is kept, or null if this browser keeps nothing: then nothing is sent. `about` is for the page, and isn't sent.
/** @param {string} target @param {Asked} form @param {{ first?: number }} about @returns {KeyedRequest | null} */
export function newRequest(target, form, about) {
  const request = { target, form: { key: newKey(), ...form }, about, made: Date.now(), isUnsure: false };
  return keep(request) ? request : null;
}

/** @param {KeyedRequest} request @returns {KeyedRequest} */
export function renewed(request) {
  const anew = { ...request, made: Date.now(), isUnsure: true };
  keep(anew);
  return anew;
}

/** @param {KeyedRequest} request */
export const isOld = request => Math.abs(Date.now() - request.made) > AGAIN_FOR;

// Sends until an answer is final. Null: it isn't sent by itself any more, because there was none for so long, or because `isForAnother` says that another vehicle
// may be there. Both are asked before each sending but the first. `moment` gives the time at which it is sent, so that the counter can refuse what was long on its way.
/** @param {KeyedRequest} request @param {() => void} unanswered @param {() => boolean} isForAnother @param {() => { at?: string }} moment @returns {Promise<Answered | null>} */
export async function send(request, unanswered, isForAnother = () => false, moment = () => ({})) {
  for (;;) {
    const answer = await ask('POST', request.target, new URLSearchParams(/** @type {Record<string, string>} */ ({ ...request.form, ...moment() })));
    if (answer !== null && isFinal(answer, request)) {
      forget(request);
      return answer;
    }
    request.isUnsure ||= answer === null || answer.isSent;
    keep(request);
    if (isOld(request)) return null;
    unanswered();
    await pause(AGAIN_AFTER);
    if (isOld(request) || isForAnother()) return null;
  }
}

// Whether the journal has the request's key; null if that can't be told now.
/** @param {KeyedRequest} request @returns {Promise<boolean | null>} */
export async function isStored(request) {
  return (await askJson('GET', `/keys/${request.form.key}`, undefined, 60000))?.found ?? null;
}
