// The promise of the key: an order and its key are kept in the browser before the first try, and until a whole
// response other than 503 came. Until then the same bytes go again under the same key, so the order takes effect at
// most once.

import { PATIENCE, pause } from './asking.js';
import { inWords, jsonOr } from './reading.js';
import { me, signIn, signOut } from './session.js';

const PREFIX = 'usbreg-order-';
// The milliseconds before each try.
const WAITS = [0, 500, 1000, 2000, 4000, 8000, 8000];
const UNSAFE = 'Sending … This browser cannot keep the order: leave the page open until there is an answer.';

// The orders without an answer, of all windows; and those that this browser could not keep, which last as long as the
// page. `doubts` counts the tries of an order that may have been acted on.
const inMemory = new Map();

function stored(name) {
  try {
    const it = jsonOr(localStorage.getItem(name), null);
    return it && { doubts: 1, ...it };
  } catch { return null; }
}

function storedNames() {
  try { return Object.keys(localStorage).filter(it => it.startsWith(PREFIX)); } catch { return []; }
}

export const kept = {
  put(order) {
    try {
      localStorage.setItem(PREFIX + order.key, JSON.stringify(order));
      inMemory.delete(order.key);
    } catch { inMemory.set(order.key, order); }
  },
  drop(key) {
    inMemory.delete(key);
    try { localStorage.removeItem(PREFIX + key); } catch { /* nothing was kept */ }
  },
  get: key => inMemory.get(key) ?? stored(PREFIX + key),
  all() {
    const orders = [...storedNames().map(stored), ...inMemory.values()].filter(it => typeof it?.body === 'string');
    return [...new Map(orders.map(it => [it.key, it])).values()];
  },
  // Whether it is still there after the page is closed.
  isSafe: key => !inMemory.has(key),
  // Counts one try more, or one less, that may have been acted on. What is kept may be from another window.
  doubt(key, more) {
    const it = kept.get(key);
    if (it) kept.put({ ...it, doubts: Math.max(0, it.doubts + more) });
  },
};

function newKey() {
  const random = crypto.getRandomValues(new Uint8Array(16));
  return Array.from(random, byte => byte.toString(16).padStart(2, '0')).join('');
}

// The order to send for this body: the one that has no answer yet, if its caller and bytes are the same, else a new
// one.
function orderWith(body, caller) {
  const text = JSON.stringify(body);
  return kept.all().find(it => it.caller === caller && it.body === text)
    ?? { key: newKey(), caller, body: text, doubts: 0 };
}

// One try. A response that is cut, or that is no JSON of one line, is none.
async function tryOnce(order, person) {
  let response, text;
  try {
    response = await fetch('/commands', {
      method: 'POST', credentials: 'omit', cache: 'no-store', body: order.body,
      headers: {
        authorization: person.authorization, 'registry-key': order.key, 'content-type': 'application/json',
      },
    });
    text = await response.text();
  } catch { return { status: 0, body: {} }; }
  const body = text.endsWith('\n') ? jsonOr(text, null) : null;
  if (!body) return { status: 0, body: {} };
  return { status: response.status, body, wait: Number(response.headers.get('retry-after')) };
}

const isDone = ({ status, body }) => status === 200 && typeof body.done === 'string';
const isRefused = ({ status, body }) => status !== 200 && status !== 503 && typeof body.refused === 'number';
// The proxy itself said no, and passed nothing on.
const isStopped = ({ status, body }) => [400, 401, 403, 413, 429, 503].includes(status) && body.proxy === status;
const isOver = ({ status }) => [400, 401, 403, 413].includes(status);

// One try of the order under a key. It is in doubt before the try, since the page may end during it; what the proxy
// refuses says nothing of the tries before.
async function trySafely(key, person) {
  kept.doubt(key, 1);
  const answer = await tryOnce(kept.get(key), person);
  if (isDone(answer) || isRefused(answer)) kept.drop(key);
  else if (isStopped(answer)) kept.doubt(key, -1);
  if (isOver(answer) && isStopped(answer) && kept.get(key)?.doubts === 0) kept.drop(key);
  return answer;
}

const isEnd = it => isDone(it) || isRefused(it) || isStopped(it) && (isOver(it) || it.wait > PATIENCE);

// Tries until there is an answer. If somebody else signs in meanwhile, the order waits for its own caller; if it was
// forgotten, it is over.
async function tryAgain(key, tell) {
  const person = me();
  let answer = null;
  for (const wait of WAITS) {
    await pause(wait);
    if (me() !== person || !kept.get(key)) break;
    if (wait === 0 && !kept.isSafe(key)) tell(UNSAFE);
    answer = await trySafely(key, person);
    if (isEnd(answer)) return answer;
    if (isStopped(answer)) await pause(1000 * (answer.wait || 0));
    tell(`${inWords(answer.status, answer.body)} Sending it again under the same key …`);
  }
  return answer;
}

// What came of an order: `done`, the words of the reply; or `words`, and the body of a refusal, or the key of the
// order if it is still kept.
function outcome(answer, key) {
  if (!answer) return { words: 'It was not sent.', key };
  const { status, body } = answer, said = inWords(status, body);
  if (isDone(answer)) return { done: body.done };
  if (isRefused(answer)) return { words: said, refusal: body };
  const wait = answer.wait > 0 ? ` Wait ${answer.wait} seconds.` : '';
  return kept.get(key) ? { words: `${said}${wait}`, key } : { words: `${said}${wait} Nothing was done.` };
}

let sending = 0;
export const isSending = () => sending > 0;

// One window sends an order at a time. Where there are no locks, two may: they get the same reply.
function alone(key, act) {
  return navigator.locks ? navigator.locks.request(PREFIX + key, { ifAvailable: true }, act) : act(true);
}

// Sends the order that is kept under a key, and returns what came of it.
export async function sendKept({ key, caller }, tell) {
  if (me()?.name !== caller && !await signIn(caller)) return { words: `Sign in as ${caller} to send it.`, key };
  sending += 1;
  try {
    return await alone(key, async isFree => {
      if (!isFree) return { words: 'Another window is sending this order.', key };
      // another window may have got its answer since this one looked
      if (!kept.get(key)) return { words: 'This order got its answer in another window.' };
      const answer = await tryAgain(key, tell);
      if (answer?.status === 401) signOut();
      return outcome(answer, key);
    });
  } finally { sending -= 1; }
}

// Sends an order of the person that is signed in, or signs in first.
export async function send(body, tell) {
  if (!me() && !await signIn()) return { words: 'Sign in first. Nothing was sent.' };
  const order = orderWith(body, me().name);
  kept.put(order);
  return sendKept(order, tell);
}
