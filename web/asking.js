// Questions to the registry, by GET. One that has to wait, or whose answer is lost, is asked again, as an order is.

import { inWords, jsonOr } from './reading.js';

// A response that is no answer to a question: a refusal by the registry, one by the proxy, or none (status 0).
export class Refused extends Error {
  constructor(status, body) {
    super(inWords(status, body));
    this.status = status;
    this.body = body;
  }
}

// The statuses of what nobody answered but the proxy.
const UNREACHED = [0, 502, 504];
export const isUnreached = why => why instanceof Refused && UNREACHED.includes(why.status);

// The milliseconds before each try, where the proxy says that one has to wait; and where nothing came. What says that
// the server is down has waited for it.
const BUSY = [0, 1000, 2000, 4000, 8000], LOST = [0, 500];
// A wait that the proxy names is waited for if it has at most so many seconds.
export const PATIENCE = 10;
// A report that is no file is kept by the proxy for ten seconds, and took some to write.
const KEPT = 15_000;

// The time by the clock of the proxy, as far as its answers tell.
let ahead = 0;
export const clock = () => Date.now() + ahead;

export const pause = time => new Promise(done => setTimeout(done, time));

let isDown = false;
const listeners = [];
// Calls the listener whenever the server went down or came back, as far as the answers tell.
export const onDown = listener => listeners.push(listener);

function tellDown(it) {
  if (it === isDown) return;
  isDown = it;
  for (const listener of listeners) listener(it);
}

// Whether the server answered: null where that is not known, as for a file, also one that is missing, and for what the
// proxy kept.
function isReached(status, headers) {
  if (UNREACHED.includes(status)) return false;
  const cache = headers.get('cache-status');
  if (cache === 'STALE') return false;
  return status === 204 || headers.has('etag') || cache === 'HIT' || cache === 'UPDATING' ? null : true;
}

// The text of a response, or nothing if `hear` is told it piece by piece, as it comes. The cache of a browser gives
// megabytes at once: they are told in parts of so many bytes.
const PART = 1 << 16;
async function textOf(response, hear) {
  if (!hear || response.status !== 200) return response.text();
  const pieces = response.body.getReader(), decoder = new TextDecoder();
  for (let it = await pieces.read(); !it.done; it = await pieces.read()) {
    for (let at = 0; at < it.value.length; at += PART) {
      await hear(decoder.decode(it.value.subarray(at, at + PART), { stream: true }));
    }
  }
  return '';
}

// Asks once. A body that is cut is no answer: fetch fails then, since its length is known.
async function askOnce(path, hear) {
  let status = 0, text = '', headers = new Headers();
  try {
    const response = await fetch(path, { credentials: 'omit', cache: 'no-cache' });
    text = await textOf(response, hear);
    ({ status, headers } = response);
  } catch { /* no answer */ }
  const reached = isReached(status, headers);
  if (reached !== null) tellDown(!reached);
  if (headers.has('date')) ahead = Date.parse(headers.get('date')) - Date.now();
  return { status, text, headers };
}

async function ask(path, hearing) {
  let waits = BUSY, got;
  for (let at = 0; at < waits.length; at += 1) {
    // even a wait of no time is one for all that the page has to do
    if (waits[at]) await pause(waits[at]);
    got = await askOnce(path, hearing?.());
    if (got.status === 200) return got;
    if (got.status === 0) waits = LOST;
    else if (![429, 503].includes(got.status)) break;
    const named = Number(got.headers.get('retry-after'));
    if (named > PATIENCE) break;
    await pause(Math.max(0, 1000 * named - (waits[at + 1] ?? 0)));
  }
  throw new Refused(got.status, jsonOr(got.text, {}));
}

// From when a response is at least: a file says it, and what the proxy keeps longer than it should is of any age.
function ageOf(headers, began) {
  if (['STALE', 'UPDATING'].includes(headers.get('cache-status'))) return 0;
  return Date.parse(headers.get('last-modified')) || began - KEPT;
}

// The text at a path; when it came, and from when it is at least, both by the clock of the proxy. With `hearing` the
// text is told piece by piece to what that returns: each try begins anew.
export async function readDated(path, hearing) {
  const began = clock(), { text, headers } = await ask(path, hearing);
  return { text, at: clock(), asOf: ageOf(headers, began) };
}

export const read = async path => (await ask(path)).text;

// Whether the proxy has a file at a path.
export async function isThere(path) {
  try {
    return (await fetch(path, { method: 'HEAD', credentials: 'omit', cache: 'no-cache' })).status === 200;
  } catch { return false; }
}
